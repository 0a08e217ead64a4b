/* What `hpfturn local` prints of processor 0 for an array A(u,u) that is (BLOCK, BLOCK) on P(n,n), with a shadow of width
 * 1 on each side, as a plain program over stdio.
 *
 * usage: local u n > TEXT */
#include <stdio.h>
#include <stdlib.h>

int main(int argc, char **argv)
{
    int u = argc == 3 ? atoi(argv[1]) : 0;
    int n = argc == 3 ? atoi(argv[2]) : 0;
    long place = 0;

    if (u < 1 || n < 1) {
        fprintf(stderr, "usage: local u n\n");
        return 1;
    }
    int block = (u + n - 1) / n;
    int last = block < u ? block + 1 : u;
    for (int j = 1; j <= last; j++)
        for (int i = 1; i <= last; i++)
            printf("%ld (%d,%d) %s\n", place++, i, j, i <= block && j <= block ? "owned" : "shadow");
    return fflush(stdout) == 0 ? 0 : 1;
}
