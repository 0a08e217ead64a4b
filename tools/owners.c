/* What `hpfturn owners` prints for an array A(u,u) that is (BLOCK, CYCLIC(3)) on P(n,n), as a plain program over stdio.
 *
 * usage: owners u n > TEXT */
#include <stdio.h>
#include <stdlib.h>

int main(int argc, char **argv)
{
    int u = argc == 3 ? atoi(argv[1]) : 0;
    int n = argc == 3 ? atoi(argv[2]) : 0;

    if (u < 1 || n < 1) {
        fprintf(stderr, "usage: owners u n\n");
        return 1;
    }
    int block = (u + n - 1) / n;
    for (int j = 1; j <= u; j++)
        for (int i = 1; i <= u; i++)
            printf("(%d,%d) %d\n", i, j, (i - 1) / block + n * ((j - 1) / 3 % n));
    return fflush(stdout) == 0 ? 0 : 1;
}
