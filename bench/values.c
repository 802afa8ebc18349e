/* Reads sizes and CPU sets by strtoull, as many times as the second word says: the C side of values.sh. */
#include <ctype.h>
#include <errno.h>
#include <stdint.h>
#include <stdio.h>
#include <stdlib.h>
#include <string.h>

struct row { const char *suffix; uint64_t factor; };

static const struct row rows[] = {
    { "", 1 }, { "B", 1 },
    { "kB", 1000ull }, { "MB", 1000000ull }, { "GB", 1000000000ull },
    { "TB", 1000000000000ull }, { "PB", 1000000000000000ull }, { "EB", 1000000000000000000ull },
    { "KiB", 1ull << 10 }, { "MiB", 1ull << 20 }, { "GiB", 1ull << 30 },
    { "TiB", 1ull << 40 }, { "PiB", 1ull << 50 }, { "EiB", 1ull << 60 },
};

static const char *const sizes[8] = { "1GiB", "512MiB", "20GB", "4096", "9223372036854775807", "100kB", "7EiB", "12kb" };
static const char *const sets[8] = { "0-3", "0,2,4,6", "1-2,5-6,9", "0-63", "17,18", "100-200,300-400", "3-0", "1,2-" };

static int read_size(const char *text, uint64_t *size)
{
    if (!isdigit((unsigned char)*text)) return 0;
    char *end;
    errno = 0;
    unsigned long long value = strtoull(text, &end, 10);
    if (errno) return 0;
    for (size_t i = 0; i < sizeof rows / sizeof *rows; i++) {
        if (strcmp(end, rows[i].suffix) != 0) continue;
        unsigned long long product;
        if (__builtin_mul_overflow(value, rows[i].factor, &product) || product >> 63) return 0;
        *size = product;
        return 1;
    }
    return 0;
}

static int read_number(const char **text, unsigned long long *value)
{
    if (!isdigit((unsigned char)**text)) return 0;
    char *end;
    errno = 0;
    *value = strtoull(*text, &end, 10);
    *text = end;
    return !errno && *value <= 1000000;
}

static int read_set(const char *text)
{
    for (;;) {
        unsigned long long first, last;
        if (!read_number(&text, &first)) return 0;
        if (*text == '-') {
            text++;
            if (!read_number(&text, &last) || last < first) return 0;
        }
        if (*text == 0) return 1;
        if (*text++ != ',') return 0;
    }
}

int main(int count, char **words)
{
    if (count != 3) return 8;
    unsigned long turns = strtoul(words[2], 0, 10);
    uint64_t sum = 0;
    for (unsigned long turn = 0; turn < turns; turn++) {
        uint64_t size;
        if (words[1][1] == 'i') { if (read_size(sizes[turn % 8], &size)) sum ^= size + turn; }
        else if (read_set(sets[turn % 8])) sum ^= turn;
    }
    printf("%llu\n", (unsigned long long)sum);
    return 0;
}
