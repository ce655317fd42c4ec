/* Uses every function of include/ciu32.h and prints what it returned; tests/c/expected is what it must print. */
#include "../../include/ciu32.h"

#include <stdio.h>
#include <string.h>

static uint8_t buffer[CIU32_BUFFER + 8];

static void show(const char *what, size_t result)
{
    printf("%s:", what);
    if (CIU32_IS_LOCAL(result))
        printf(" local %zu", CIU32_VALUE(result));
    else if (CIU32_IS_CODE(result))
        printf(" code %02zX", CIU32_VALUE(result));
    else
        for (size_t i = 0; i < result; i++)
            printf(" %02X", buffer[i]);
    size_t untouched = sizeof buffer;
    while (untouched > 0 && buffer[untouched - 1] == 0xEE)
        untouched--;
    printf(" (%zu bytes touched)\n", untouched);
    memset(buffer, 0xEE, sizeof buffer);
}

static void judge(const char *what, const uint8_t *frame, size_t len, uint32_t level, uint32_t pages)
{
    size_t result = ciu32_verdict(frame, len, level, pages);
    printf("verdict %s: %s %02zX\n", what, CIU32_IS_LOCAL(result) ? "local" : "code", CIU32_VALUE(result));
}

int main(void)
{
    static const uint8_t word[4] = {0x11, 0x22, 0x33, 0x44};
    static const uint8_t eight[8] = {0};
    static const uint8_t page_8[] = {0x85, 0xF4, 0x00, 0x09, 0xAA, 0, 0, 0, 8, 0, 0, 0, 1, 0x2D, 0x90};
    static const uint8_t beyond[] = {0x85, 0xF4, 0x00, 0x09, 0xAA, 0xFF, 0xFF, 0xFF, 0xFF, 0, 0, 0, 1, 0x03, 0x4C};
    static const uint8_t protect[] = {0x85, 0xA0, 0x00, 0x00};
    static const uint8_t unprotect[] = {0x85, 0xA1, 0x00, 0x00};
    static const uint8_t too_long[] = {0x85, 0xF2, 0x02, 0x05};
    static const uint8_t answer[] = {0xB3, 0x90, 0x00, 0x00};
    static const uint8_t damaged[] = {0x85, 0x12, 0x00, 0x01, 0x00, 0x00, 0x00};

    memset(buffer, 0xEE, sizeof buffer);
    show("get 0", ciu32_get(0, buffer, sizeof buffer));
    show("get 2", ciu32_get(2, buffer, CIU32_BUFFER));
    show("get 5", ciu32_get(5, buffer, sizeof buffer));
    show("read", ciu32_read(0x08000000, 4, buffer, sizeof buffer));
    show("read, top", ciu32_read(0xFFFFFFFC, 512, buffer, sizeof buffer));
    show("read, odd address and count 0", ciu32_read(1, 0, buffer, sizeof buffer));
    show("write", ciu32_write(0x08000000, word, sizeof word, buffer, sizeof buffer));
    show("write, six bytes", ciu32_write(0x08000001, eight, 6, buffer, sizeof buffer));
    show("write, nothing", ciu32_write(0x08000000, eight, 0, buffer, sizeof buffer));
    show("write, two pages", ciu32_write(0x080001FC, eight, sizeof eight, buffer, sizeof buffer));
    show("memory crc", ciu32_memory_crc(0x08000000, 4, 0x0DAD, buffer, sizeof buffer));
    show("memory crc, nothing", ciu32_memory_crc(0x08000000, 0, 0, buffer, sizeof buffer));
    show("erase page 0", ciu32_erase(0xAA, 0, 1, buffer, sizeof buffer));
    show("erase block 1", ciu32_erase(0x55, 1, 1, buffer, sizeof buffer));
    show("erase all", ciu32_erase(0x3C, 0, 0, buffer, sizeof buffer));
    show("erase all from 1", ciu32_erase(0x3C, 1, 0, buffer, sizeof buffer));
    show("protect", ciu32_protect(buffer, sizeof buffer));
    show("unprotect", ciu32_unprotect(buffer, sizeof buffer));
    show("protect, small buffer", ciu32_protect(buffer, CIU32_BUFFER - 1));

    judge("erase page 8 of 16", page_8, sizeof page_8, 0, 16);
    judge("erase page 8 of 15", page_8, sizeof page_8, 0, 15);
    judge("erase page 4294967295", beyond, sizeof beyond, 0, 0xFFFFFFFF);
    judge("protect at level 0", protect, sizeof protect, 0, 16);
    judge("protect at level 7", protect, sizeof protect, 7, 16);
    judge("unprotect at level 0", unprotect, sizeof unprotect, 0, 16);
    judge("unprotect at level 1", unprotect, sizeof unprotect, 1, 16);
    judge("length 517", too_long, sizeof too_long, 0, 16);
    judge("three bytes", protect, 3, 0, 16);
    judge("an answer", answer, sizeof answer, 0, 16);
    judge("wrong checksum", damaged, sizeof damaged, 0, 16);

    printf("checksum of 123456789: %04X\n", ciu32_checksum((const uint8_t *)"123456789", 9));
    return 0;
}
