/* The program's exit status. hatchyarn writes to standard error exactly if something failed. So its writes
 * pass through here: if one was meant for standard error, whether it could be written or not, the status
 * is 1. At the end standard output is closed, since a disk across a network may tell of a failed write only
 * then. A Rattle program ignores SIGPIPE from its start on; this one takes it as it inherits it, so that a
 * signal ends it as usual. ./build links this beside the proved code, in place of the C library's write and
 * of the call that sets SIGPIPE. The kit's compiler has no headers, so what is used is declared here. */
typedef __SIZE_TYPE__ size_t;
typedef __PTRDIFF_TYPE__ ssize_t;
typedef void (*handler)(int);

struct iovec {
    const void *base;
    size_t length;
};

/* Hidden, so that they stand in for the proved code alone: what a library that is loaded with the program
 * writes is no word of the program's. */
__attribute__((visibility("hidden"))) ssize_t write(int fd, const void *bytes, size_t length);
__attribute__((visibility("hidden"))) ssize_t __write(int fd, const void *bytes, size_t length);
__attribute__((visibility("hidden"))) handler __sysv_signal(int signal, handler with);
ssize_t writev(int fd, const struct iovec *parts, int count);
int close(int fd);
int *__errno_location(void);
char *strerror(int error);
size_t strlen(const char *text);
_Noreturn void _exit(int status);

enum { NOT_OPEN = 9 };

static int failed;

ssize_t write(int fd, const void *bytes, size_t length)
{
    if (fd == 2)
        failed = 1;
    return writev(fd, &(struct iovec){bytes, length}, 1);
}

/* What main's own error is written by. */
ssize_t __write(int fd, const void *bytes, size_t length)
{
    return write(fd, bytes, length);
}

handler __sysv_signal(int signal, handler with)
{
    (void)signal;
    (void)with;
    return 0;
}

/* Whether it can be written or not. */
static void say(const char *text)
{
    ssize_t unread = write(2, text, strlen(text));
    (void)unread;
}

/* Runs when main has returned. If standard output is not open at all, a write has failed and said so, or there
 * was nothing to write. */
__attribute__((destructor)) static void end(void)
{
    if (close(1) != 0 && *__errno_location() != NOT_OPEN) {
        int error = *__errno_location();
        say("hatchyarn: standard output: ");
        say(strerror(error));
        say("\n");
    }
    if (failed)
        _exit(1);
}
