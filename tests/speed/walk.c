/* Times walks over a whole register: walk FOLDER BUILD.so [AREA ..]. FOLDER holds the areas that make_areas.py wrote; without names it is g200, whose 200 intervals
   are full, 33 records of 60 bytes in each. A walk begins with the check of the whole area, so that is timed alone and taken off. The plain sum that ratios are told by is one
   loop over the area's bytes, not inlined and not vectorised. `steps` are the same steps asked for one by one from here, after the walk has begun. Each
   figure is the best of many rounds, in which all take turns. */
#include <dlfcn.h>
#include <stdbool.h>
#include <stdint.h>
#include <stdio.h>
#include <stdlib.h>
#include <time.h>

typedef size_t (*check_t)(const uint8_t *, size_t, size_t, size_t, size_t, size_t, size_t *, size_t *);
typedef size_t (*walk_t)(const uint8_t *, size_t, size_t, size_t, size_t, size_t, bool);
typedef size_t (*end_t)(const uint8_t *, size_t, size_t, size_t, size_t, size_t, bool, size_t *, size_t *, size_t *, size_t *, size_t *, size_t *, size_t *);
typedef size_t (*next_t)(const uint8_t *, size_t, size_t, bool, size_t *, size_t *, size_t *, size_t *, size_t *, size_t *, size_t *);

enum { KEY = 8, LONG = 60, ROUNDS = 300 };
enum what { SUM, CHECK, FORWARD, BACKWARD, STEPS_FORWARD, STEPS_BACKWARD, KINDS };

static struct { check_t check; walk_t walk; end_t end; next_t next; } build;
static struct { size_t size, n, long_; uint8_t *bytes; } area;
static volatile uint64_t keep;

static double now(void)
{
    struct timespec t;
    clock_gettime(CLOCK_MONOTONIC, &t);
    return t.tv_sec * 1e9 + t.tv_nsec;
}

__attribute__((noinline, optimize("no-tree-vectorize"))) static uint64_t plain_sum(const uint8_t *b, size_t n)
{
    uint64_t s = 0;
    for (size_t i = 0; i < n; i++)
        s += b[i];
    return s;
}

static void *need(void *lib, const char *name)
{
    void *p = dlsym(lib, name);
    if (!p)
        exit((fprintf(stderr, "%s is missing\n", name), 1));
    return p;
}

static void load(const char *path)
{
    void *lib = dlopen(path, RTLD_NOW | RTLD_LOCAL);
    if (!lib)
        exit((fprintf(stderr, "%s\n", dlerror()), 1));
    build.check = (check_t)need(lib, "belquita_check");
    build.walk = (walk_t)need(lib, "belquita_walk");
    build.end = (end_t)need(lib, "belquita_walk_end");
    build.next = (next_t)need(lib, "belquita_walk_next");
}

static void read_area(const char *folder, const char *name)
{
    char path[4096];
    snprintf(path, sizeof path, "%s/%s.txt", folder, name);
    FILE *f = fopen(path, "r");
    if (!f || fscanf(f, "%zu %zu", &area.size, &area.n) != 2)
        exit((perror(path), 1));
    fclose(f);
    area.long_ = (area.n + 1) * area.size;
    area.bytes = malloc(area.long_);
    snprintf(path, sizeof path, "%s/%s.ci", folder, name);
    f = fopen(path, "rb");
    if (!f || fread(area.bytes, 1, area.long_, f) != area.long_)
        exit((perror(path), 1));
    fclose(f);
}

/* The time of a walk's steps alone, one call for each; the lengths added up go to `told`. */
static double stepped(bool forward, size_t *told)
{
    size_t p[7], sum = 0;
    if (build.end(area.bytes, area.long_, area.size, 0, KEY, LONG, forward, p, p + 1, p + 2, p + 3, p + 4, p + 5, p + 6))
        exit((fprintf(stderr, "the walk was refused\n"), 1));
    double t = now();
    for (size_t length = p[2]; length;) {
        sum += length;
        length = build.next(area.bytes, area.long_, area.size, forward, p, p + 1, p + 2, p + 3, p + 4, p + 5, p + 6);
    }
    t = now() - t;
    *told = sum;
    return t;
}

static double timed(enum what w, size_t *told)
{
    size_t x = 0, y = 0;
    if (w == STEPS_FORWARD || w == STEPS_BACKWARD)
        return stepped(w == STEPS_FORWARD, told);
    double t = now();
    if (w == SUM)
        keep = plain_sum(area.bytes, area.long_);
    else if (w == CHECK)
        *told = build.check(area.bytes, area.long_, area.size, 0, KEY, LONG, &x, &y) ? 0 : x;
    else
        *told = build.walk(area.bytes, area.long_, area.size, 0, KEY, LONG, w == FORWARD);
    return now() - t;
}

static int measured(const char *folder, const char *name)
{
    double best[KINDS];
    size_t told[KINDS] = {0};
    read_area(folder, name);
    for (int w = 0; w < KINDS; w++)
        best[w] = 1e18;
    for (int round = 0; round < ROUNDS; round++)
        for (int w = 0; w < KINDS; w++) {
            double t = timed(w, &told[w]);
            best[w] = t < best[w] ? t : best[w];
        }
    size_t records = told[CHECK];
    for (int w = FORWARD; w < KINDS; w++)
        if (told[w] != told[FORWARD] || records == 0)
            return fprintf(stderr, "%s: the walks are not of one length\n", name), 1;
    printf("%s: S %zu, n %zu, %zu records, %zu bytes of them: plain sum %.0f ns (%.3f ns a byte), check %.0f ns, %.2f of the sum\n", name, area.size, area.n, records,
           told[FORWARD], best[SUM], best[SUM] / area.long_, best[CHECK], best[CHECK] / best[SUM]);
    for (int w = FORWARD; w <= BACKWARD; w++) {
        double alone = best[w] - best[CHECK], steps = best[w + 2];
        printf("  %-8s with the check %.0f ns, without it %.0f ns: %.2f ns a record, %.3f of the sum; steps %.0f ns: %.2f ns a record, %.3f of the sum\n",
               w == FORWARD ? "forward" : "backward", best[w], alone, alone / records, alone / best[SUM], steps, steps / records, steps / best[SUM]);
    }
    free(area.bytes);
    return 0;
}

int main(int argc, char **argv)
{
    if (argc < 3)
        return fprintf(stderr, "walk FOLDER BUILD.so [AREA ..]\n"), 1;
    load(argv[2]);
    if (argc == 3)
        return measured(argv[1], "g200");
    for (int i = 3; i < argc; i++)
        if (measured(argv[1], argv[i]))
            return 1;
    return 0;
}
