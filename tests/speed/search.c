/* Times the search for a key inside one interval, of two builds in turn: search BEFORE.so AFTER.so.
   The interval is one run of records of 60 bytes with keys of 8 digits; every key and every gap is sought, in an order that is shuffled once. A figure is
   the mean of one search in the best of many rounds; within a round the builds take turns. */
#include <dlfcn.h>
#include <stdint.h>
#include <stdio.h>
#include <stdlib.h>
#include <string.h>
#include <time.h>

typedef size_t (*find_t)(const uint8_t *, size_t, size_t, size_t, size_t, const uint8_t *, size_t, size_t *, size_t *);

enum { LONG = 60, KEY = 8, ROUNDS = 400 };

static double now(void)
{
    struct timespec t;
    clock_gettime(CLOCK_MONOTONIC, &t);
    return t.tv_sec * 1e9 + t.tv_nsec;
}

static find_t load(const char *path)
{
    void *lib = dlopen(path, RTLD_NOW | RTLD_LOCAL);
    find_t find = lib ? (find_t)dlsym(lib, "belquita_find") : 0;
    if (!find) {
        fprintf(stderr, "%s\n", dlerror());
        exit(1);
    }
    return find;
}

static void put_two(uint8_t *at, size_t number)
{
    at[0] = number >> 8;
    at[1] = number & 255;
}

/* Records under the odd numbers, the RDF pair and the CIDF. */
static uint8_t *interval(size_t size, size_t count)
{
    uint8_t *ci = calloc(size, 1);
    char digits[24];
    memset(ci, '.', count * LONG);
    for (size_t i = 0; i < count; i++) {
        snprintf(digits, sizeof digits, "%08zu", 2 * i + 1);
        memcpy(ci + i * LONG, digits, KEY);
    }
    size_t unused = size - 10 - count * LONG;
    ci[size - 10] = 0x08;
    put_two(ci + size - 9, count);
    ci[size - 7] = 0x40;
    put_two(ci + size - 6, LONG);
    put_two(ci + size - 4, count * LONG);
    put_two(ci + size - 2, unused);
    return ci;
}

/* Every number from 0 to twice the count, shuffled. */
static char *sought(size_t many)
{
    char *keys = malloc(many * 24);
    uint64_t seed = 1;
    for (size_t i = 0; i < many; i++)
        snprintf(keys + 24 * i, 24, "%08zu", i);
    for (size_t i = many; i > 1; i--) {
        char kept[24];
        seed = seed * 6364136223846793005u + 1442695040888963407u;
        size_t j = (seed >> 33) % i;
        memcpy(kept, keys + 24 * (i - 1), 24);
        memcpy(keys + 24 * (i - 1), keys + 24 * j, 24);
        memcpy(keys + 24 * j, kept, 24);
    }
    return keys;
}

/* The mean time of one search; what is told is added up, so that both builds can be held to the same. */
static double timed(find_t find, const uint8_t *ci, size_t size, const char *keys, size_t many, size_t *told)
{
    size_t times = 40000 / many + 1, x = 0, y = 0, sum = 0;
    double start = now();
    for (size_t t = 0; t < times; t++)
        for (size_t i = 0; i < many; i++) {
            sum += find(ci, size, 0, KEY, LONG, (const uint8_t *)keys + 24 * i, KEY, &x, &y) * 3;
            sum += x * 5 + y * 7;
        }
    *told = sum;
    return (now() - start) / times / many;
}

int main(int argc, char **argv)
{
    static const size_t sizes[3][2] = {{512, 8}, {2048, 33}, {32768, 545}};
    if (argc != 3)
        return fprintf(stderr, "search BEFORE.so AFTER.so\n"), 1;
    find_t find[2] = {load(argv[1]), load(argv[2])};
    for (size_t k = 0; k < 3; k++) {
        size_t size = sizes[k][0], count = sizes[k][1], told[2];
        uint8_t *ci = interval(size, count);
        char *keys = sought(2 * count + 1);
        double best[2] = {1e18, 1e18};
        for (size_t round = 0; round < ROUNDS; round++)
            for (size_t b = 0; b < 2; b++) {
                double t = timed(find[b], ci, size, keys, 2 * count + 1, &told[b]);
                best[b] = t < best[b] ? t : best[b];
            }
        if (told[0] != told[1])
            return fprintf(stderr, "the builds differ\n"), 1;
        printf("S %zu, %zu records: %.1f ns, %.1f ns, after / before %.2f\n", size, count, best[0], best[1], best[1] / best[0]);
    }
    return 0;
}
