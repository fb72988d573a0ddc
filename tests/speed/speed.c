/* Times the register's requests of two builds in turn: speed FOLDER BEFORE.so [AFTER.so [FOLDER_AFTER]].
   FOLDER holds the areas that make_areas.py wrote; where the two builds read other layouts, the second has its own in FOLDER_AFTER. Each figure is the best of many rounds; within a round the builds take turns, so that
   whatever else the machine does falls on both. The plain sum that ratios are told by is one loop over the area's bytes, not inlined and
   not vectorised. Prints, for each area and request, nanoseconds of each build, the part of the sum that it is, how many times the check
   of the same build, and after / before. A change is undone before the next by copying back the intervals that it wrote; what that takes
   is timed alone and taken off.
   speed FOLDER BUILD.so loop AREA REQUEST TIMES does one request so many times, for a profiler.
   A change is handed four places more than builds before document 02's L9 take; those leave them alone. */
#include <dlfcn.h>
#include <stdint.h>
#include <stdio.h>
#include <stdlib.h>
#include <string.h>
#include <time.h>

typedef size_t (*check_t)(const uint8_t *, size_t, size_t, size_t, size_t, size_t, size_t *, size_t *);
typedef size_t (*get_t)(const uint8_t *, size_t, size_t, size_t, size_t, size_t, const uint8_t *, size_t, uint8_t *, size_t, size_t *);
typedef size_t (*change_t)(uint8_t *, size_t, size_t, size_t, size_t, size_t, const uint8_t *, size_t, size_t *, size_t *, size_t *, size_t *, size_t *);
typedef size_t (*find_t)(const uint8_t *, size_t, size_t, size_t, size_t, const uint8_t *, size_t, size_t *, size_t *);
typedef size_t (*index_t)(const uint8_t *, size_t, size_t, size_t, size_t *, size_t *);
typedef size_t (*locate_t)(const uint8_t *, size_t, size_t, const uint8_t *, size_t, size_t *);

struct build { check_t check; get_t get; change_t insert, update, erase; find_t find; index_t index; locate_t locate; };

struct area { size_t size, n, used, long_; uint8_t *bytes, *work; char there[9], beside[9], middle[9]; };

enum what { CHECK, GET, UPDATE, INSERT, ERASE, DIVIDE, PATCH, PATCHES, INDEX, LOCATE, FIND, KINDS };
static const char *names[KINDS] = {"check", "get by key", "update in place", "insert", "erase", "dividing insert", "", "", "index walk", "search of an entry",
                                   "find, key that is there"};

static double now(void)
{
    struct timespec t;
    clock_gettime(CLOCK_MONOTONIC, &t);
    return t.tv_sec * 1e9 + t.tv_nsec;
}

__attribute__((noinline, optimize("no-tree-vectorize"))) static uint64_t plain_sum(const uint8_t *b, size_t n)
{
    uint64_t s = 0;
    for (size_t i = 0; i < n; i++)
        s += b[i];
    return s;
}

static void *need(void *lib, const char *name)
{
    void *p = dlsym(lib, name);
    if (!p) {
        fprintf(stderr, "%s is missing\n", name);
        exit(1);
    }
    return p;
}

static struct build load(const char *path)
{
    void *lib = dlopen(path, RTLD_NOW | RTLD_LOCAL);
    if (!lib) {
        fprintf(stderr, "%s\n", dlerror());
        exit(1);
    }
    struct build b = {need(lib, "belquita_check"), need(lib, "belquita_get"), need(lib, "belquita_insert"), need(lib, "belquita_update"),
                      need(lib, "belquita_erase"), need(lib, "belquita_find"), need(lib, "belquita_index"), need(lib, "belquita_locate")};
    return b;
}

static struct area read_area(const char *folder, const char *name)
{
    struct area a;
    char path[4096];
    snprintf(path, sizeof path, "%s/%s.txt", folder, name);
    FILE *f = fopen(path, "r");
    if (!f || fscanf(f, "%zu %zu %zu %8s %8s %8s", &a.size, &a.n, &a.used, a.there, a.beside, a.middle) != 6)
        exit((perror(path), 1));
    fclose(f);
    a.long_ = (a.n + 1) * a.size;
    a.bytes = malloc(a.long_);
    a.work = malloc(a.long_);
    snprintf(path, sizeof path, "%s/%s.ci", folder, name);
    f = fopen(path, "rb");
    if (!f || fread(a.bytes, 1, a.long_, f) != a.long_)
        exit((perror(path), 1));
    fclose(f);
    memcpy(a.work, a.bytes, a.long_);
    return a;
}

/* Interval `place` of the buffer as it was. */
static void patch(struct area *a, size_t place)
{
    memcpy(a->work + place * a->size, a->bytes + place * a->size, a->size);
}

static size_t once(const struct build *b, struct area *a, enum what w)
{
    static uint8_t out[64], record[60];
    size_t x, y, z[4];
    const uint8_t *key = (const uint8_t *)a->there;
    switch (w) {
    case CHECK: return b->check(a->bytes, a->long_, a->size, 0, 8, 60, &x, &y);
    case GET: return b->get(a->bytes, a->long_, a->size, 0, 8, 60, key, 8, out, sizeof out, &x);
    case UPDATE:
        memset(record, 'x', 60);
        memcpy(record, a->there, 8);
        return b->update(a->work, a->long_, a->size, 0, 8, 60, record, 60, &x, z, z + 1, z + 2, z + 3);
    case INSERT:
        patch(a, a->used / 3 + 1);
        memset(record, 'x', 60);
        memcpy(record, a->beside, 8);
        return b->insert(a->work, a->long_, a->size, 0, 8, 60, record, 60, &x, z, z + 1, z + 2, z + 3);
    case ERASE:
        patch(a, a->used / 3 + 1);
        return b->erase(a->work, a->long_, a->size, 0, 8, 60, key, 8, &x, z, z + 1, z + 2, z + 3);
    case DIVIDE:
        patch(a, 0);
        patch(a, a->used / 2 + 1);
        patch(a, a->used + 1);
        memset(record, 'x', 60);
        memcpy(record, a->middle, 8);
        return b->insert(a->work, a->long_, a->size, 0, 8, 60, record, 60, &x, z, z + 1, z + 2, z + 3);
    case PATCH: patch(a, a->used / 3 + 1); return 0;
    case PATCHES:
        patch(a, 0);
        patch(a, a->used / 2 + 1);
        patch(a, a->used + 1);
        return 0;
    case INDEX: return 1 - b->index(a->bytes, a->size, 8, a->n, &x, &y);
    case LOCATE: return 0 * b->locate(a->bytes, a->size, a->n, key, 8, &x);
    default: {
        size_t i = a->used / 3;
        return 1 - b->find(a->bytes + (i + 1) * a->size, a->size, 0, 8, 60, key, 8, &x, &y);
    }
    }
}

static double timed(const struct build *b, struct area *a, enum what w, int times)
{
    memcpy(a->work, a->bytes, a->long_);
    double t = now();
    for (int i = 0; i < times; i++)
        if (once(b, a, w)) {
            fprintf(stderr, "%s was refused\n", names[w]);
            exit(1);
        }
    return (now() - t) / times;
}

int main(int argc, char **argv)
{
    static const char *areas[] = {"a20", "a127", "a200", "e200", "b20"};
    static volatile uint64_t keep;
    (void)keep;
    if (argc == 7 && !strcmp(argv[3], "loop")) {
        struct build one = load(argv[2]);
        struct area a = read_area(argv[1], argv[4]);
        for (int w = 0; w < KINDS; w++)
            if (!strcmp(names[w], argv[5]))
                return printf("%.0f ns\n", timed(&one, &a, w, atoi(argv[6]))), 0;
        return fprintf(stderr, "no request is called %s\n", argv[5]), 1;
    }
    if (argc < 3)
        return fprintf(stderr, "speed FOLDER BEFORE.so [AFTER.so [FOLDER_AFTER]]\n"), 1;
    int builds = argc > 3 ? 2 : 1;
    struct build b[2] = {load(argv[2]), load(argv[argc > 3 ? 3 : 2])};
    for (int k = 0; k < 5; k++) {
        struct area each[2] = {read_area(argv[1], areas[k]), read_area(argv[argc > 4 ? 4 : 1], areas[k])}, a = each[0];
        double sum = 1e18, index_sum = 1e18;
        double best[2][KINDS];
        for (int i = 0; i < 2; i++)
            for (int w = 0; w < KINDS; w++)
                best[i][w] = 1e18;
        for (int round = 0; round < 120; round++) {
            double t = now();
            keep = plain_sum(a.bytes, a.long_);
            t = now() - t;
            sum = t < sum ? t : sum;
            t = now();
            for (int i = 0; i < 16; i++)
                keep = plain_sum(a.bytes, a.size);
            t = (now() - t) / 16;
            index_sum = t < index_sum ? t : index_sum;
            for (int w = 0; w < KINDS; w++)
                for (int i = 0; i < builds; i++) {
                    double d = timed(&b[i], &each[i], w, 1 + (int)(100000 / (sum / 4)));
                    best[i][w] = d < best[i][w] ? d : best[i][w];
                }
        }
        printf("S %zu, n %zu: plain sum %.0f ns (%.3f ns a byte), of the index record %.0f ns\n", a.size, a.n, sum, sum / a.long_, index_sum);
        for (int w = 0; w < KINDS; w++) {
            if (w == PATCH || w == PATCHES)
                continue;
            printf("  %-24s", names[w]);
            double d[2];
            for (int i = 0; i < builds; i++) {
                d[i] = best[i][w] - (w == DIVIDE ? best[i][PATCHES] : w == INSERT || w == ERASE ? best[i][PATCH] : 0);
                printf(" %9.0f ns %6.3f", d[i], d[i] / (w == INDEX || w == LOCATE ? index_sum : sum));
                if (w <= DIVIDE)
                    printf(" %5.2f checks", d[i] / best[i][CHECK]);
            }
            if (builds == 2)
                printf("   after / before %.2f", d[1] / d[0]);
            printf("\n");
        }
    }
    return 0;
}
