/* Times the get by key that scanners call: get FOLDER SCANNER.so [BEFORE.so].
   FOLDER holds the areas that make_areas.py wrote. SCANNER.so is crate `scanner` as a shared object, BEFORE.so crate `exports` of another build, whose get takes its
   words in another order. The areas have 50, 100 and 200 intervals in use, all full, S 2,048: so a get reads the index record and one interval of equal size,
   and it is told by the plain sum of these 4,096 bytes, one loop, not inlined and not vectorised.
   First one key over and over, then a million keys from a fixed seed, four of five of them there. Areas, builds and the sum take turns within a round. A time is
   told by the best round, the median and the mean; a ratio by the two bests, and by the median of those within the rounds. Before anything is timed, every
   key is asked once of each build, and the answer, its value and the output are held to what they must be. */
#include <dlfcn.h>
#include <stdint.h>
#include <stdio.h>
#include <stdlib.h>
#include <string.h>
#include <time.h>

typedef uint64_t (*quick_t)(size_t, size_t, size_t, size_t, const uint8_t *, size_t, const uint8_t *, size_t, uint8_t *, size_t);
typedef size_t (*get_t)(const uint8_t *, size_t, size_t, size_t, size_t, size_t, const uint8_t *, size_t, uint8_t *, size_t, size_t *);

enum { LONG = 60, KEY = 8, FOUND = 0, ABSENT = 5 };
enum { AREAS = 3, ROUNDS = 400, TIMES = 200, MILLION = 1000000, PARTS = 200, MOST = 400 };
enum what { SUM, AFTER, BEFORE, WHATS };
static const char *names[WHATS] = {"plain sum", "get", "get before"};

struct area { size_t size, n, used, long_, records; uint8_t *bytes; char there[9]; uint8_t *keys; };

static quick_t quick;
static get_t before;

static enum what last(void)
{
    return before ? BEFORE : AFTER;
}

static double now(void)
{
    struct timespec t;
    clock_gettime(CLOCK_MONOTONIC, &t);
    return t.tv_sec * 1e9 + t.tv_nsec;
}

__attribute__((noinline, optimize("no-tree-vectorize"))) static uint64_t plain_sum(const uint8_t *b, size_t n)
{
    uint64_t s = 0;
    for (size_t i = 0; i < n; i++)
        s += b[i];
    return s;
}

static void *load(const char *path)
{
    void *lib = dlopen(path, RTLD_NOW | RTLD_LOCAL);
    void *get = lib ? dlsym(lib, "belquita_get") : 0;
    if (!get)
        exit((fprintf(stderr, "%s\n", dlerror()), 1));
    return get;
}

static struct area read_area(const char *folder, const char *name)
{
    struct area a;
    char path[4096];
    snprintf(path, sizeof path, "%s/%s.txt", folder, name);
    FILE *f = fopen(path, "r");
    if (!f || fscanf(f, "%zu %zu %zu %8s", &a.size, &a.n, &a.used, a.there) != 4)
        exit((perror(path), 1));
    fclose(f);
    a.long_ = (a.n + 1) * a.size;
    a.records = a.used * ((a.size - 10) / LONG);
    a.bytes = malloc(a.long_);
    snprintf(path, sizeof path, "%s/%s.ci", folder, name);
    f = fopen(path, "rb");
    if (!f || fread(a.bytes, 1, a.long_, f) != a.long_)
        exit((perror(path), 1));
    fclose(f);
    return a;
}

static uint64_t seed = 1;

static size_t chance(size_t below)
{
    seed = seed * 6364136223846793005u + 1442695040888963407u;
    return (seed >> 33) % below;
}

/* A million keys. The records have the multiples of ten, from 10 on; of five keys one is none of them. */
static void choose(struct area *a)
{
    char digits[24];
    a->keys = malloc((size_t)MILLION * KEY);
    for (size_t i = 0; i < MILLION; i++) {
        size_t key = 10 * (1 + chance(a->records));
        if (chance(5) == 0)
            key += 1 + chance(9);
        snprintf(digits, sizeof digits, "%08zu", key);
        memcpy(a->keys + i * KEY, digits, KEY);
    }
}

/* The get of one build. Its number is in the word's lowest byte, the length found in the bits from 24 on. */
static size_t get(enum what w, const struct area *a, const uint8_t *key, uint8_t *out, size_t *value)
{
    if (w == BEFORE)
        return before(a->bytes, a->long_, a->size, 0, KEY, LONG, key, KEY, out, LONG, value);
    uint64_t word = quick(a->size, 0, KEY, LONG, a->bytes, a->long_, key, KEY, out, LONG);
    *value = word >> 24;
    return word & 255;
}

static void hold(enum what w, const struct area *a)
{
    uint8_t out[LONG], should[LONG];
    size_t found = 0;
    for (size_t i = 0; i < MILLION; i++) {
        const uint8_t *key = a->keys + i * KEY;
        int there = key[KEY - 1] == '0';
        size_t value = 0;
        memset(out, 0xEE, LONG);
        memset(should, there ? 'x' : 0xEE, LONG);
        if (there)
            memcpy(should, key, KEY);
        size_t number = get(w, a, key, out, &value);
        if (number != (there ? FOUND : ABSENT) || value != (there ? LONG : 0) || memcmp(out, should, LONG))
            exit((fprintf(stderr, "n %zu, key %.8s: %zu, value %zu\n", a->n, (const char *)key, number, value), 1));
        found += there;
    }
    if (w == AFTER)
        printf("S %zu, n %zu, %zu in use, %zu records: of a million keys %zu are there\n", a->size, a->n, a->used, a->records, found);
}

/* The mean time of one sum, or of one get of each of some keys in turn. */
static double timed(enum what w, const struct area *a, const uint8_t *keys, size_t step, size_t times)
{
    static volatile uint64_t keep;
    static uint8_t out[LONG];
    size_t value = 0;
    uint64_t told = 0;
    double start = now();
    if (w == SUM)
        for (size_t i = 0; i < times; i++) {
            told += plain_sum(a->bytes, a->size) + plain_sum(a->bytes + (a->used / 3 + 1) * a->size, a->size);
            __asm__ volatile("" ::: "memory");  /* or the compiler does it once for all */
        }
    else
        for (size_t i = 0; i < times; i++)
            told += get(w, a, keys + i * step, out, &value);
    double taken = (now() - start) / times;
    keep = told;
    (void)keep;
    return taken;
}

static int order(const void *x, const void *y)
{
    double a = *(const double *)x, b = *(const double *)y;
    return (a > b) - (a < b);
}

struct figure { double best, median, mean; };

static struct figure figure(const double *times, size_t rounds)
{
    static double sorted[MOST];
    double sum = 0;
    memcpy(sorted, times, rounds * sizeof *times);
    qsort(sorted, rounds, sizeof *sorted, order);
    for (size_t i = 0; i < rounds; i++)
        sum += sorted[i];
    struct figure f = {sorted[0], (sorted[(rounds - 1) / 2] + sorted[rounds / 2]) / 2, sum / rounds};
    return f;
}

/* One time in parts of another: of the two bests, and the median within the rounds. */
static struct figure ratio(const double *x, const double *y, size_t rounds)
{
    static double parts[MOST];
    for (size_t i = 0; i < rounds; i++)
        parts[i] = x[i] / y[i];
    struct figure f = {figure(x, rounds).best / figure(y, rounds).best, figure(parts, rounds).median, 0};
    return f;
}

static double taken[AREAS][WHATS][MOST];

static void tell_time(const char *name, const double *times, size_t rounds)
{
    struct figure f = figure(times, rounds);
    printf("    %-16s %8.0f ns, median %.0f, mean %.0f", name, f.best, f.median, f.mean);
}

static void tell_ratio(const char *name, const double *x, const double *y, size_t rounds)
{
    struct figure f = ratio(x, y, rounds);
    printf("; %s %.3f, median %.3f", name, f.best, f.median);
}

static void tell(const struct area *areas, size_t rounds)
{
    for (size_t k = 0; k < AREAS; k++) {
        printf("  %zu in use\n", areas[k].used);
        for (enum what w = SUM; w <= last(); w++) {
            tell_time(names[w], taken[k][w], rounds);
            if (w != SUM)
                tell_ratio("of the sum", taken[k][w], taken[k][SUM], rounds);
            if (w != SUM && k > 0)
                tell_ratio("of that with 50", taken[k][w], taken[0][w], rounds);
            if (w == BEFORE)
                tell_ratio("after / before", taken[k][AFTER], taken[k][BEFORE], rounds);
            printf("\n");
        }
    }
}

int main(int argc, char **argv)
{
    static const char *files[AREAS] = {"g50", "g100", "g200"};
    struct area areas[AREAS];
    if (argc != 3 && argc != 4)
        return fprintf(stderr, "get FOLDER SCANNER.so [BEFORE.so]\n"), 1;
    quick = (quick_t)load(argv[2]);
    before = argc == 4 ? (get_t)load(argv[3]) : 0;
    for (size_t k = 0; k < AREAS; k++) {
        areas[k] = read_area(argv[1], files[k]);
        choose(&areas[k]);
        for (enum what w = AFTER; w <= last(); w++)
            hold(w, &areas[k]);
    }
    for (size_t round = 0; round < ROUNDS; round++)
        for (size_t k = 0; k < AREAS; k++)
            for (enum what w = SUM; w <= last(); w++)
                taken[k][w][round] = timed(w, &areas[k], (const uint8_t *)areas[k].there, 0, TIMES);
    printf("one key over and over, %d rounds of %d\n", ROUNDS, TIMES);
    tell(areas, ROUNDS);
    for (size_t part = 0; part < PARTS; part++)
        for (size_t k = 0; k < AREAS; k++)
            for (enum what w = SUM; w <= last(); w++)
                taken[k][w][part] = timed(w, &areas[k], areas[k].keys + (size_t)part * (MILLION / PARTS) * KEY, KEY, w == SUM ? TIMES : MILLION / PARTS);
    printf("a million keys, %d rounds of %d\n", PARTS, MILLION / PARTS);
    tell(areas, PARTS);
    return 0;
}
