/* What pmb asks of C on aarch64 Linux, in the place of the toolchain's own archives, which are for x86-64 alone:
 * memory, errno and the words of the command line. Trusted, as those are. */
#include <errno.h>
#include <stddef.h>
#include <stdint.h>
#include <stdlib.h>
#include <string.h>

/* Whether there is memory, and where; where there is none the address is of something all the same. */
typedef struct { uint64_t is_there; void *at; } memory;

static char nothing[16];

static memory memory_at(void *at) {
    memory found = {at != NULL, at ? at : nothing};
    return found;
}

memory rattle_alloc(uint64_t size, uint64_t least) {
    return memory_at(malloc(size ? size : least));
}

memory rattle_realloc(void *at, uint64_t old, uint64_t size, uint64_t least) {
    (void)old;
    return memory_at(realloc(at, size ? size : least));
}

void rattle_dealloc(void *at) {
    free(at);
}

int32_t rattle_errno(void) {
    return errno;
}

void rattle_set_errno(int32_t number) {
    errno = number;
}

static int count_of_words;
static char **words_of_program;

__attribute__((constructor)) static void keep_words(int count, char **words) {
    count_of_words = count;
    words_of_program = words;
}

/* Copies word number `place`, with no byte 0 behind it: its length, -1 where there is no such word, -2 where it has more
 * bytes than `room`. */
int64_t rattle_arg(uint64_t place, uint8_t *to, uint64_t room) {
    if (place >= (uint64_t)count_of_words || words_of_program[place] == NULL)
        return -1;
    size_t length = strlen(words_of_program[place]);
    if (length > room)
        return -2;
    memcpy(to, words_of_program[place], length);
    return (int64_t)length;
}
