/* Loaded before the C library (LD_PRELOAD), so that what rarely happens does, as RARE says:
 *   short    a read gives no more than 7 bytes
 *   signal   every second read is cut off by a signal, and has given nothing
 *   read     the second read fails
 *   close    the closing of standard output fails, as on a full disk across a network
 *   told     a library that is loaded with the program writes to standard error */
#include <errno.h>
#include <stdlib.h>
#include <string.h>
#include <sys/syscall.h>
#include <unistd.h>

static int wanted(const char *what)
{
    const char *rare = getenv("RARE");
    return rare != NULL && strcmp(rare, what) == 0;
}

__attribute__((constructor)) static void tell(void)
{
    static const char words[] = "a library's words\n";
    if (wanted("told") && write(STDERR_FILENO, words, sizeof words - 1) < 0)
        abort();
}

ssize_t read(int fd, void *bytes, size_t length)
{
    static int reads;
    if (++reads == 2 && wanted("read")) {
        errno = EIO;
        return -1;
    }
    if (reads % 2 == 0 && wanted("signal")) {
        errno = EINTR;
        return -1;
    }
    return syscall(SYS_read, fd, bytes, length > 7 && wanted("short") ? 7 : length);
}

int close(int fd)
{
    if (fd == STDOUT_FILENO && wanted("close")) {
        errno = EIO;
        return -1;
    }
    return (int)syscall(SYS_close, fd);
}
