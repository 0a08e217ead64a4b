/* What `hpfturn make` writes for an array A(n) and some frames, as a plain program over stdio.
 *
 * usage: make n frames seed > FRAMES */
#include <stdint.h>
#include <stdio.h>
#include <stdlib.h>

enum { PIECE = 2048 };

static void put(uint32_t value, unsigned char *at)
{
    at[0] = (unsigned char)(value >> 24);
    at[1] = (unsigned char)(value >> 16);
    at[2] = (unsigned char)(value >> 8);
    at[3] = (unsigned char)value;
}

/* The mark of a record or of the end, and the number behind it. */
static void front(unsigned char mark, uint32_t value)
{
    unsigned char bytes[5] = {mark};

    put(value, bytes + 1);
    fwrite(bytes, 1, sizeof bytes, stdout);
}

int main(int argc, char **argv)
{
    uint32_t n = argc == 4 ? (uint32_t)strtoul(argv[1], NULL, 10) : 0;
    uint32_t frames = argc == 4 ? (uint32_t)strtoul(argv[2], NULL, 10) : 0;
    uint32_t seed = argc == 4 ? (uint32_t)strtoul(argv[3], NULL, 10) : 0;
    unsigned char bytes[4 * PIECE];

    if (n < 1) {
        fprintf(stderr, "usage: make n frames seed\n");
        return 1;
    }
    fwrite("HPFF\1\1\4", 1, 8, stdout);
    put(n, bytes);
    fwrite(bytes, 1, 4, stdout);
    for (uint32_t f = 0; f < frames; f++) {
        front(1, f);
        for (uint32_t k = 0; k < n; k += PIECE) {
            uint32_t count = n - k < PIECE ? n - k : PIECE;
            for (uint32_t j = 0; j < count; j++)
                put((seed + 31 * f + 7 * (k + j)) % 65536 - 32768, bytes + 4 * j);
            fwrite(bytes, 4, count, stdout);
        }
    }
    front(0, frames);
    return fflush(stdout) == 0 ? 0 : 1;
}
