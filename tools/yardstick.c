/* What `hpfturn run` does for an array that is BLOCK in each of its dimensions, as a plain program over stdio:
 * reads a frame file from standard input, adds up the marks of the parts, writes the file to standard output,
 * and then the marks to standard error. A part is worked out from the definition of BLOCK: with n processors along
 * a dimension of d positions the blocks have d/n positions, rounded up, and are cut at the end.
 *
 * usage: yardstick n .. < FILE > FILE
 * with the number of processors along each dimension, of which there are one or two */
#include <stdint.h>
#include <stdio.h>
#include <stdlib.h>
#include <string.h>

static void stop(const char *why)
{
    fprintf(stderr, "yardstick: %s\n", why);
    exit(1);
}

static void get(void *into, size_t size)
{
    if (fread(into, 1, size, stdin) != size)
        stop("the file ends early");
}

static void put(const void *from, size_t size)
{
    if (fwrite(from, 1, size, stdout) != size)
        stop("a write failed");
}

static uint32_t swapped(uint32_t x)
{
    return x >> 24 | (x >> 8 & 0xff00) | (x << 8 & 0xff0000) | x << 24;
}

static uint32_t number(const uint8_t *at)
{
    return (uint32_t)at[0] << 24 | (uint32_t)at[1] << 16 | (uint32_t)at[2] << 8 | at[3];
}

/* A dimension: its extent, how many processors there are along it, and the length of a block. */
struct dimension {
    uint32_t extent, procs, block;
};

/* The first position of a block, and the one behind its last. */
static uint32_t first(const struct dimension *d, uint32_t c)
{
    uint64_t at = (uint64_t)c * d->block;
    return at < d->extent ? (uint32_t)at : d->extent;
}

static uint32_t behind(const struct dimension *d, uint32_t c)
{
    return first(d, c + 1);
}

static uint32_t held_by(const struct dimension *rows, const struct dimension *columns, uint32_t p)
{
    uint32_t r = p % rows->procs, c = p / rows->procs;
    return (behind(rows, r) - first(rows, r)) * (behind(columns, c) - first(columns, c));
}

static uint64_t mark_of(const struct dimension *rows, const struct dimension *columns, uint32_t p, const uint32_t *frame)
{
    uint32_t r = p % rows->procs, c = p / rows->procs;
    uint64_t place = 0, sum = 0;
    for (uint32_t j = first(columns, c); j < behind(columns, c); j++)
        for (uint32_t i = first(rows, r); i < behind(rows, r); i++)
            sum += ++place * (uint64_t)(int32_t)frame[(size_t)j * rows->extent + i];
    return sum;
}

int main(int argc, char **argv)
{
    static const uint8_t start[8] = {'H', 'P', 'F', 'F', 1, 1, 4, 0};
    uint8_t header[16], head[5];
    uint64_t mark[64] = {0};
    struct dimension dims[2] = {{1, 1, 1}, {1, 1, 1}};
    int rank = argc - 1;
    uint32_t procs = 1, count = 0;

    if (rank < 1 || rank > 2)
        stop("one or two dimensions");
    size_t length = 8 + 4 * (size_t)rank;
    get(header, length);
    if (memcmp(header, start, 5) != 0 || header[5] != rank || memcmp(header + 6, start + 6, 2) != 0)
        stop("not a frame file of so many dimensions");
    put(header, length);
    for (int d = 0; d < rank; d++) {
        dims[d].extent = number(header + 8 + 4 * d);
        dims[d].procs = (uint32_t)atoi(argv[1 + d]);
        if (dims[d].procs < 1 || dims[d].procs > 64)
            stop("the number of processors is from 1 to 64");
        dims[d].block = (dims[d].extent + dims[d].procs - 1) / dims[d].procs;
        procs *= dims[d].procs;
    }
    if (procs > 64)
        stop("the number of processors is from 1 to 64");

    size_t elements = (size_t)dims[0].extent * dims[1].extent;
    uint32_t *frame = malloc(elements * sizeof *frame);
    if (frame == NULL)
        stop("out of memory");

    for (;;) {
        get(head, sizeof head);
        if (head[0] > 1 || number(head + 1) != count)
            stop("neither the next frame nor the end");
        put(head, sizeof head);
        if (head[0] == 0)
            break;
        get(frame, elements * sizeof *frame);
        for (size_t i = 0; i < elements; i++)
            frame[i] = swapped(frame[i]);
        for (uint32_t p = 0; p < procs; p++)
            mark[p] += ((uint64_t)count + 1) * mark_of(&dims[0], &dims[1], p, frame);
        for (size_t i = 0; i < elements; i++)
            frame[i] = swapped(frame[i]);
        put(frame, elements * sizeof *frame);
        count++;
    }
    if (getchar() != EOF)
        stop("a byte follows the end");
    if (fflush(stdout) != 0)
        stop("a write failed");

    for (uint32_t p = 0; p < procs; p++)
        fprintf(stderr, "mark 0 %u held %u sum %llu\n", p, held_by(&dims[0], &dims[1], p), (unsigned long long)mark[p]);
    free(frame);
    return 0;
}
