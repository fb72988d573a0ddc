/* The functions of crate `exports` for a caller in another process, where that one cannot load them: this program is x86-64 and runs under the kit's emulator, the caller
   (tests/calls.py) need not be. Both map one file of memory, here at a fixed address; each request on standard input is a name and sixteen words, which may be addresses in
   that memory, and its answer on standard output is one word. */
#include <stdint.h>
#include <stdio.h>
#include <stdlib.h>
#include <string.h>
#include <fcntl.h>
#include <sys/mman.h>

typedef uint64_t word;
typedef word function(word, word, word, word, word, word, word, word, word, word, word, word, word, word, word, word);

#define NAMES(each) each(check) each(get) each(get_at) each(insert) each(update) each(erase) each(walk) each(walk_from) each(walk_end) each(walk_next)
#define DECLARED(name) extern function belquita_##name;
NAMES(DECLARED)

#define ENTRY(name) {"belquita_" #name, belquita_##name},
static const struct { const char *name; function *f; } table[] = {NAMES(ENTRY)};

int main(int count, char **given)
{
    struct { char name[32]; word w[16]; } asked;
    if (count != 4)
        return 2;
    int file = open(given[1], O_RDWR);
    void *at = (void *)(uintptr_t)strtoull(given[2], NULL, 10);
    if (file < 0 || mmap(at, strtoull(given[3], NULL, 10), PROT_READ | PROT_WRITE, MAP_SHARED | MAP_FIXED, file, 0) != at)
        return 2;
    while (fread(&asked, sizeof asked, 1, stdin) == 1) {
        word answer = 0;
        const word *w = asked.w;
        size_t i = 0;
        while (i < sizeof table / sizeof table[0] && strcmp(table[i].name, asked.name) != 0)
            i++;
        if (i == sizeof table / sizeof table[0])
            return 3;
        answer = table[i].f(w[0], w[1], w[2], w[3], w[4], w[5], w[6], w[7], w[8], w[9], w[10], w[11], w[12], w[13], w[14], w[15]);
        if (fwrite(&answer, sizeof answer, 1, stdout) != 1 || fflush(stdout) != 0)
            return 4;
    }
    return 0;
}
