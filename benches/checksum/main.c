/* Throughput of `ciu32_checksum` beside a plain table-driven loop in C.
 *
 * Both are timed in one program, in turns, and the best of many rounds counts. Before that, both are
 * compared on every input that is timed and on every length from 0 to 1024.
 */
#include <stddef.h>
#include <stdint.h>
#include <stdio.h>
#include <stdlib.h>
#include <time.h>

/* a slice is a pointer and then a length */
uint16_t ciu32_checksum(const uint8_t *bytes, size_t len);

enum { ROUNDS = 200, LONGEST = 64 * 1024, BYTES_A_ROUND = 4 * 1024 * 1024 };

static uint16_t table[256];

static void fill_table(void)
{
    for (unsigned i = 0; i < 256; i++) {
        uint16_t s = (uint16_t)i;
        for (int bit = 0; bit < 8; bit++)
            s = s & 1 ? (uint16_t)(s >> 1 ^ 0x8408) : (uint16_t)(s >> 1);
        table[i] = s;
    }
}

__attribute__((noinline)) uint16_t table_checksum(const uint8_t *bytes, size_t len)
{
    uint16_t s = 0xffff;
    for (size_t i = 0; i < len; i++)
        s = (uint16_t)(s >> 8 ^ table[(s ^ bytes[i]) & 0xff]);
    return (uint16_t)(s ^ 0xffff);
}

typedef uint16_t checksum_fn(const uint8_t *bytes, size_t len);

static volatile uint16_t sink;

static double seconds(void)
{
    struct timespec t;
    clock_gettime(CLOCK_MONOTONIC, &t);
    return (double)t.tv_sec + (double)t.tv_nsec * 1e-9;
}

/* MB/s over one round: the bytes again and again, until about BYTES_A_ROUND have been read */
static double rate(checksum_fn *f, const uint8_t *bytes, size_t len)
{
    size_t times = BYTES_A_ROUND / len;
    double start = seconds();
    for (size_t i = 0; i < times; i++)
        sink = f(bytes, len);
    return (double)(times * len) / (seconds() - start) / 1e6;
}

static void compare(const uint8_t *bytes, size_t len)
{
    uint16_t ours = ciu32_checksum(bytes, len), theirs = table_checksum(bytes, len);
    if (ours != theirs) {
        printf("they differ at %zu bytes: %04X and %04X\n", len, ours, theirs);
        exit(1);
    }
}

static void measure(const uint8_t *bytes, size_t len)
{
    double ours = 0, theirs = 0;
    for (int round = 0; round < ROUNDS; round++) {
        double o = rate(ciu32_checksum, bytes, len), t = rate(table_checksum, bytes, len);
        ours = o > ours ? o : ours;
        theirs = t > theirs ? t : theirs;
    }
    printf("%6zu bytes: ciu32_checksum %7.1f MB/s, C with a table %7.1f MB/s, ratio %.2f\n", len, ours, theirs, ours / theirs);
}

int main(void)
{
    static const size_t lengths[] = {512, LONGEST};
    static uint8_t bytes[LONGEST];
    uint32_t x = 1;

    for (size_t i = 0; i < LONGEST; i++) {
        x = x * 1664525u + 1013904223u;
        bytes[i] = (uint8_t)(x >> 24);
    }
    fill_table();
    for (size_t len = 0; len <= 1024; len++)
        compare(bytes, len);
    for (size_t i = 0; i < sizeof lengths / sizeof *lengths; i++)
        compare(bytes, lengths[i]);
    puts("both agree on every input");
    for (size_t i = 0; i < sizeof lengths / sizeof *lengths; i++)
        measure(bytes, lengths[i]);
    printf("size of the C table: %zu bytes\n", sizeof table);
    return 0;
}
