/* scanner: looks certificates up in a control area, as a hand scanner does.

       scanner [OPTION..] AREA KEY..      a line for each key
       scanner [OPTION..] --check AREA    one line on the whole area

   AREA is a file, the control area as the bureau sent it. A KEY is text, or x: and hexadecimal digits, two for a byte; a text that begins with x: itself
   must be written so. Options, the measures of the area, as the depots have them where one is left out:

       --size N      bytes of an interval (512)
       --offset N    where the key stands in a record (0)
       --key N       bytes of a key (8)
       --most N      bytes of the longest record (60)
       --out N       bytes of the output that is lent to a look-up (32761, which is always enough)

   A line has the key, the number of the answer, and the record or what the number means. Key and record are printed as text where all their bytes are
   printable, else as x: and hexadecimal digits. A line of --check begins with the number.

   Exit status: 0 if every key was found, or the area is sound; 1 if not; 2 for bad usage, a file that cannot be read, or output that cannot be written.

   A look-up judges only the index record and the interval that the key leads to: check an area once when it arrives.

       ./build-c
       cc -std=c11 -O2 -I include -o scanner examples/scanner.c target/staticlib/libbelquita.a */
#include <errno.h>
#include <stdbool.h>
#include <stdint.h>
#include <stdio.h>
#include <stdlib.h>
#include <string.h>

#include "belquita.h"

enum { FOUND = 0, REFUSED = 1, TROUBLE = 2 };

struct measures {
    size_t size, offset, key, most;
};

struct bytes {
    uint8_t *start; /* never null */
    size_t length;
};

static _Noreturn void usage(const char *wrong, const char *word)
{
    fprintf(stderr, "scanner: %s%s\n", wrong, word);
    fprintf(stderr, "usage: scanner [--size N] [--offset N] [--key N] [--most N] [--out N] AREA KEY..\n");
    fprintf(stderr, "       scanner [--size N] [--offset N] [--key N] [--most N] --check AREA\n");
    exit(TROUBLE);
}

static _Noreturn void trouble(const char *what)
{
    fprintf(stderr, "scanner: %s: %s\n", what, strerror(errno));
    exit(TROUBLE);
}

/* ---- reading */

static void *room(void *old, size_t length)
{
    void *new = realloc(old, length ? length : 1); /* one byte more than none, so that there is something to point to */
    if (!new)
        trouble("memory");
    return new;
}

static struct bytes file_bytes(const char *path)
{
    struct bytes b = {room(NULL, 1 << 16), 0};
    size_t held = 1 << 16, came;
    FILE *file = fopen(path, "rb");
    if (!file)
        trouble(path);
    while ((came = fread(b.start + b.length, 1, held - b.length, file)) > 0) {
        b.length += came;
        if (b.length == held) {
            if (held > SIZE_MAX / 2) {
                errno = ENOMEM;
                trouble(path);
            }
            held *= 2;
            b.start = room(b.start, held);
        }
    }
    if (ferror(file))
        trouble(path);
    fclose(file);
    return b;
}

static size_t number_from(const char *text)
{
    unsigned long long n = 0;
    char *end = NULL;
    errno = 0;
    if (*text >= '0' && *text <= '9') /* strtoull would take a sign and blanks */
        n = strtoull(text, &end, 10);
    if (!end || *end || errno || n > SIZE_MAX)
        usage("not a number: ", text);
    return (size_t)n;
}

static int digit(char c)
{
    if (c >= '0' && c <= '9')
        return c - '0';
    if (c >= 'A' && c <= 'F')
        return c - 'A' + 10;
    if (c >= 'a' && c <= 'f')
        return c - 'a' + 10;
    return -1;
}

static struct bytes key_from(const char *text)
{
    size_t length = strlen(text), i;
    const char *digits = text + 2;
    struct bytes b;
    if (strncmp(text, "x:", 2) != 0) {
        b = (struct bytes){room(NULL, length), length};
        memcpy(b.start, text, length);
        return b;
    }
    if (length % 2)
        usage("two digits for a byte: ", text);
    b = (struct bytes){room(NULL, length / 2 - 1), length / 2 - 1};
    for (i = 0; i < b.length; i++) {
        int high = digit(digits[2 * i]), low = digit(digits[2 * i + 1]);
        if (high < 0 || low < 0)
            usage("not hexadecimal: ", text);
        b.start[i] = (uint8_t)(high * 16 + low);
    }
    return b;
}

/* ---- telling */

/* What cannot be mistaken when it is printed as text. */
static bool plain(struct bytes b)
{
    size_t i;
    if (b.length == 0 || (b.length >= 2 && b.start[0] == 'x' && b.start[1] == ':'))
        return false;
    for (i = 0; i < b.length; i++)
        if (b.start[i] < 0x20 || b.start[i] > 0x7E)
            return false;
    return true;
}

static void print_bytes(struct bytes b)
{
    size_t i;
    if (plain(b)) {
        fwrite(b.start, 1, b.length, stdout);
        return;
    }
    printf("x:");
    for (i = 0; i < b.length; i++)
        printf("%02X", (unsigned)b.start[i]);
}

/* A refusal in words; the number stands before it. */
static void print_refusal(uint64_t word, struct measures m)
{
    unsigned place = belquita_place(word);
    switch (belquita_number(word)) {
    case BELQUITA_OUTSIDE:
        printf("wrong measures, or the area has a wrong length");
        break;
    case BELQUITA_DAMAGED:
        if (place == 0)
            printf("damaged at place 0, the index record");
        else
            printf("damaged at place %u, data interval %u", place, place - 1);
        break;
    case BELQUITA_WRONG_LENGTH:
        printf("wrong length, a key has %zu bytes", m.key);
        break;
    case BELQUITA_ABSENT:
        printf("no certificate has this key");
        break;
    case BELQUITA_SHORT:
        printf("the output is too short, the record needs %zu bytes", belquita_needed(word));
        break;
    default:
        printf("unknown answer");
    }
}

static int look_up(struct measures m, struct bytes area, struct bytes key, struct bytes out)
{
    uint64_t word = belquita_get(m.size, m.offset, m.key, m.most, area.start, area.length, key.start, key.length, out.start, out.length);
    bool found = belquita_number(word) == BELQUITA_DONE;
    print_bytes(key);
    printf(" %u ", belquita_number(word));
    if (found)
        print_bytes((struct bytes){out.start, belquita_length(word)});
    else
        print_refusal(word, m);
    printf("\n");
    return found ? FOUND : REFUSED;
}

static int check(struct measures m, struct bytes area)
{
    uint64_t word = belquita_check(m.size, m.offset, m.key, m.most, area.start, area.length);
    bool sound = belquita_number(word) == BELQUITA_DONE;
    printf("%u ", belquita_number(word));
    if (sound)
        printf("sound, records %zu free %u", belquita_records(word), belquita_free(word));
    else
        print_refusal(word, m);
    printf("\n");
    return sound ? FOUND : REFUSED;
}

int main(int argc, char **argv)
{
    static uint8_t output[BELQUITA_LONGEST];
    struct measures m = {512, 0, 8, 60};
    struct bytes out = {output, sizeof output}, area, *keys;
    bool checks = false;
    int at, count, i, status = FOUND;

    for (at = 1; at < argc && strncmp(argv[at], "--", 2) == 0; at++) {
        const char *option = argv[at] + 2;
        size_t *value = strcmp(option, "size") == 0     ? &m.size
                        : strcmp(option, "offset") == 0 ? &m.offset
                        : strcmp(option, "key") == 0    ? &m.key
                        : strcmp(option, "most") == 0   ? &m.most
                        : strcmp(option, "out") == 0    ? &out.length
                                                        : NULL;
        if (strcmp(option, "check") == 0) {
            checks = true;
            continue;
        }
        if (!value)
            usage("there is no option ", argv[at]);
        if (++at == argc)
            usage("no number after ", argv[at - 1]);
        *value = number_from(argv[at]);
    }
    if (out.length > sizeof output)
        usage("--out has at most 32761, no record is longer", "");
    if (at == argc)
        usage("no area is named", "");
    count = argc - at - 1;
    if (checks && count > 0)
        usage("--check takes no key: ", argv[at + 1]);
    if (!checks && count == 0)
        usage("no key is given", "");

    keys = room(NULL, (size_t)count * sizeof *keys);
    for (i = 0; i < count; i++)
        keys[i] = key_from(argv[at + 1 + i]);
    area = file_bytes(argv[at]);

    if (checks)
        status = check(m, area);
    for (i = 0; i < count; i++) {
        if (look_up(m, area, keys[i], out) != FOUND)
            status = REFUSED;
        free(keys[i].start);
    }
    free(keys);
    free(area.start);
    if (fflush(stdout) || ferror(stdout)) {
        fprintf(stderr, "scanner: standard output cannot be written\n");
        return TROUBLE;
    }
    return status;
}
