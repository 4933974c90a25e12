/* What the kit's libraries libc and os call, for processors that the kit has no C code for. Each function
 * does what its declaration in the kit promises; nothing proves that it does. ./build links it there. */
#include <errno.h>
#include <stdbool.h>
#include <stddef.h>
#include <stdint.h>
#include <stdlib.h>
#include <string.h>
#include <sys/types.h>

struct tried {
    bool ok;
    void *p;
};

struct tried rattle_alloc(size_t n, size_t align);
struct tried rattle_realloc(void *block, size_t kept, size_t n, size_t align);
void rattle_dealloc(void *block);
size_t rattle_arg_count(void);
ssize_t rattle_arg(size_t i, uint8_t *room, size_t length);
int32_t rattle_errno(void);
void rattle_set_errno(int32_t error);

static max_align_t nothing;
static size_t count;
static char **words;

/* A failure leads to a place too, which is never read. */
static struct tried answer(void *p)
{
    return (struct tried){p != NULL, p != NULL ? p : &nothing};
}

/* No alignment is more than malloc's. Of 0 bytes there is a block too. */
struct tried rattle_alloc(size_t n, size_t align)
{
    return answer(malloc(n != 0 ? n : align));
}

struct tried rattle_realloc(void *block, size_t kept, size_t n, size_t align)
{
    (void)kept;
    return answer(realloc(block, n != 0 ? n : align));
}

void rattle_dealloc(void *block)
{
    free(block);
}

/* A Rattle program's main takes no arguments, so they are kept before it starts. */
__attribute__((constructor)) static void keep(int argc, char **argv)
{
    count = (size_t)argc;
    words = argv;
}

size_t rattle_arg_count(void)
{
    return count;
}

/* The length of argument i, which is put at the start of the room; -1 where there is none; -2 where
 * it does not fit, and then the room is full. */
ssize_t rattle_arg(size_t i, uint8_t *room, size_t length)
{
    if (i >= count)
        return -1;
    size_t word = strlen(words[i]);
    if (word > length) {
        memcpy(room, words[i], length);
        return -2;
    }
    memcpy(room, words[i], word);
    return (ssize_t)word;
}

int32_t rattle_errno(void)
{
    return errno;
}

void rattle_set_errno(int32_t error)
{
    errno = error;
}
