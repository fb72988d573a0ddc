/* Measures the stack that each request takes: stack FOLDER BUILD.so. FOLDER holds the areas that make_areas.py wrote; BUILD.so is crate `exports` or crate `scanner`, which has
   no changes and takes its words in another order.
   A request runs on a stack of its own that was painted before; how far down the paint is gone is what it took. That is the compiler's
   doing, on this machine, and no proof covers it. */
#define _GNU_SOURCE
#include <dlfcn.h>
#include <stdint.h>
#include <stdio.h>
#include <stdlib.h>
#include <string.h>
#include <ucontext.h>

typedef size_t (*check_t)(const uint8_t *, size_t, size_t, size_t, size_t, size_t, size_t *, size_t *);
typedef size_t (*get_t)(const uint8_t *, size_t, size_t, size_t, size_t, size_t, const uint8_t *, size_t, uint8_t *, size_t, size_t *);
typedef size_t (*change_t)(uint8_t *, size_t, size_t, size_t, size_t, size_t, const uint8_t *, size_t, size_t *, size_t *, size_t *, size_t *, size_t *);

typedef uint64_t (*scan_check_t)(size_t, size_t, size_t, size_t, const uint8_t *, size_t);
typedef uint64_t (*scan_get_t)(size_t, size_t, size_t, size_t, const uint8_t *, size_t, const uint8_t *, size_t, uint8_t *, size_t);

enum { STACK = 1 << 20, PAINT = 0xA5 };
enum what { CHECK, GET, UPDATE, INSERT, ERASE, DIVIDE, KINDS };
static const char *names[KINDS] = {"check", "get", "update", "insert", "erase", "dividing insert"};

static struct { check_t check; get_t get; change_t insert, update, erase; } build;
static struct { scan_check_t check; scan_get_t get; } scanner;
static struct { size_t size, n, used, long_, key, record; uint8_t *bytes, *work; char there[9], beside[9], middle[9]; } area;
static ucontext_t here, there;
static enum what now;
static size_t answer;

static void request(void)
{
    static uint8_t out[64], record[64];
    size_t x, y, z[4], k = area.key, r = area.record;
    const char *key = now == INSERT ? area.beside : now == DIVIDE ? area.middle : area.there;
    memset(record, 'x', sizeof record);
    memcpy(record, key, k);
    if (scanner.check) {
        answer = (now == CHECK ? scanner.check(area.size, 0, k, r, area.work, area.long_)
                               : scanner.get(area.size, 0, k, r, area.work, area.long_, record, k, out, sizeof out)) & 0xFF;
        return;
    }
    switch (now) {
    case CHECK: answer = build.check(area.work, area.long_, area.size, 0, k, r, &x, &y); break;
    case GET: answer = build.get(area.work, area.long_, area.size, 0, k, r, record, k, out, sizeof out, &x); break;
    case UPDATE: answer = build.update(area.work, area.long_, area.size, 0, k, r, record, r, &x, z, z + 1, z + 2, z + 3); break;
    case ERASE: answer = build.erase(area.work, area.long_, area.size, 0, k, r, record, k, &x, z, z + 1, z + 2, z + 3); break;
    default: answer = build.insert(area.work, area.long_, area.size, 0, k, r, record, r, &x, z, z + 1, z + 2, z + 3);
    }
}

static void *need(void *lib, const char *name)
{
    void *p = dlsym(lib, name);
    if (!p)
        exit((fprintf(stderr, "%s is missing\n", name), 1));
    return p;
}

static void read_area(const char *folder, const char *name)
{
    char path[4096];
    snprintf(path, sizeof path, "%s/%s.txt", folder, name);
    FILE *f = fopen(path, "r");
    if (!f || fscanf(f, "%zu %zu %zu %8s %8s %8s", &area.size, &area.n, &area.used, area.there, area.beside, area.middle) != 6)
        exit((perror(path), 1));
    fclose(f);
    area.key = strlen(area.there);
    area.record = area.key == 8 ? 60 : area.key;
    area.long_ = (area.n + 1) * area.size;
    area.bytes = malloc(area.long_);
    area.work = malloc(area.long_);
    snprintf(path, sizeof path, "%s/%s.ci", folder, name);
    f = fopen(path, "rb");
    if (!f || fread(area.bytes, 1, area.long_, f) != area.long_)
        exit((perror(path), 1));
    fclose(f);
}

static size_t taken(uint8_t *stack)
{
    memset(stack, PAINT, STACK);
    memcpy(area.work, area.bytes, area.long_);
    getcontext(&there);
    there.uc_stack.ss_sp = stack;
    there.uc_stack.ss_size = STACK;
    there.uc_link = &here;
    makecontext(&there, request, 0);
    swapcontext(&here, &there);
    size_t i = 0;
    while (i < STACK && stack[i] == PAINT)
        i++;
    return STACK - i;
}

int main(int argc, char **argv)
{
    static const char *areas[] = {"a20", "a127", "a200", "s4096", "b20", "c6"};
    if (argc != 3)
        return fprintf(stderr, "stack FOLDER BUILD.so\n"), 1;
    void *lib = dlopen(argv[2], RTLD_NOW | RTLD_LOCAL);
    if (!lib)
        return fprintf(stderr, "%s\n", dlerror()), 1;
    if (dlsym(lib, "belquita_insert")) {
        build.check = need(lib, "belquita_check");
        build.get = need(lib, "belquita_get");
        build.insert = need(lib, "belquita_insert");
        build.update = need(lib, "belquita_update");
        build.erase = need(lib, "belquita_erase");
    } else {
        scanner.check = need(lib, "belquita_check");
        scanner.get = need(lib, "belquita_get");
    }
    uint8_t *stack = aligned_alloc(4096, STACK);
    for (int k = 0; k < 6; k++) {
        read_area(argv[1], areas[k]);
        printf("S %zu, records of %zu:", area.size, area.record);
        for (now = 0; now < (scanner.check ? GET + 1 : KINDS); now++) {
            size_t t = taken(stack);
            printf("  %s %zu%s", names[now], t, answer ? " (refused)" : "");
        }
        printf("\n");
    }
    return 0;
}
