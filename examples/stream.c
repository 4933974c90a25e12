/*
 * stream: answers the request lines of standard input, as they come and in constant memory.
 * A line of any length gets one answer. The exit status is 0 if everything was read and written.
 */
#include <errno.h>
#include <hatchyarn.h>
#include <stdio.h>
#include <string.h>
#include <unistd.h>

/* As many bytes of a line make it too long for a request, whatever they are. */
enum { TOO_LONG = 21 };

int main(void)
{
    static uint8_t text[4096], answers[200 * HATCHYARN_ANSWER_BYTES];
    _Static_assert(sizeof text > TOO_LONG, "a line that is kept as too long leaves room to read on");
    size_t kept = 0, used, lines;
    ssize_t got;

    do {
        do
            got = read(STDIN_FILENO, text + kept, sizeof text - kept);
        while (got < 0 && errno == EINTR);
        if (got < 0) {
            perror("stream: standard input");
            return 1;
        }
        size_t start = 0, end = kept + (size_t)got;
        while ((lines = hatchyarn_run(text + start, end - start, answers, sizeof answers, got == 0, &used)) > 0) {
            fwrite(answers, HATCHYARN_ANSWER_BYTES, lines, stdout);
            start += used;
        }
        if (fflush(stdout) != 0 || ferror(stdout)) {
            perror("stream: standard output");
            return 1;
        }
        kept = end - start; /* the start of a line */
        memmove(text, text + start, kept);
        if (kept == sizeof text)
            kept = TOO_LONG;
    } while (got > 0);
    return 0;
}
