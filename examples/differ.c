/*
 * differ: the answers of two days held to each other, line by line.
 *
 *   differ YESTERDAY TODAY      two files of answer lines
 *
 * For each line that differs it writes the line's number and, behind < and >, what stands in the first file
 * and in the second: the answer in capitals, why the line cannot be read, or that there is none. Small
 * letters and a missing last line feed make no difference. A line that cannot be read is the same as no
 * other, so that it is always told.
 *
 * The exit status is 0 if no line differs, 1 if any does, and 2 if a file cannot be read or the output
 * cannot be written.
 */
#include <errno.h>
#include <hatchyarn.h>
#include <stdio.h>
#include <stdlib.h>
#include <string.h>

enum { SAME = 0, DIFFERENT = 1, TROUBLE = 2 };

/* The bytes of a file, and the line that was read last: how, from which byte on, and what it holds. */
struct answers {
    uint8_t *text;
    size_t length, place, start;
    struct hatchyarn_record record;
    uint8_t status;
};

/* Whether all of an open file could be read into memory. */
static bool fill(FILE *file, struct answers *answers)
{
    size_t got, room = 0;

    do {
        if (answers->length == room) {
            room = 2 * room + 65536;
            uint8_t *larger = realloc(answers->text, room);
            if (larger == NULL)
                return false;
            answers->text = larger;
        }
        got = fread(answers->text + answers->length, 1, room - answers->length, file);
        answers->length += got;
    } while (got > 0);
    return !ferror(file);
}

/* Whether a file could be read; says so where it could not. */
static bool load(const char *name, struct answers *answers)
{
    FILE *file = fopen(name, "rb");
    bool filled = file != NULL && fill(file, answers);

    if (!filled)
        fprintf(stderr, "differ: %s: %s\n", name, strerror(errno));
    if (file != NULL)
        fclose(file);
    return filled;
}

static void next(struct answers *a)
{
    a->status = hatchyarn_next_answer(a->text, a->length, &a->place, &a->record, &a->start);
}

static bool same(const struct answers *a, const struct answers *b)
{
    const struct hatchyarn_record *x = &a->record, *y = &b->record;
    return a->status == HATCHYARN_READ_DONE && b->status == HATCHYARN_READ_DONE && x->status == y->status
           && x->flags == y->flags && x->steps == y->steps && x->r == y->r && x->s == y->s;
}

static const char *reason(uint8_t status)
{
    switch (status) {
    case HATCHYARN_READ_BAD_LENGTH: return "the line is not 18 bytes long";
    case HATCHYARN_READ_BAD_DIGIT: return "a byte of the line is no hexadecimal digit";
    case HATCHYARN_READ_BAD_STATUS: return "the status is not 0 to 6, 8 or 9";
    case HATCHYARN_READ_BAD_FLAGS: return "a bit of the flags word is no flag";
    case HATCHYARN_READ_NOT_ZERO: return "a field that has to be 0 with this status is not";
    default: return "the line is refused";
    }
}

static void tell(char mark, const struct answers *a)
{
    const struct hatchyarn_record *x = &a->record;

    if (a->status == HATCHYARN_READ_DONE)
        printf("%c %02X%04X%04X%04X%04X\n", mark, x->status, x->flags, x->steps, x->r, x->s);
    else if (a->status == HATCHYARN_READ_END)
        printf("%c no line\n", mark);
    else
        printf("%c cannot be read, at byte %zu: %s\n", mark, a->start, reason(a->status));
}

int main(int argc, char **argv)
{
    struct answers before = {0}, after = {0};
    int found = SAME;

    if (argc != 3) {
        fprintf(stderr, "use: differ YESTERDAY TODAY, two files of answer lines\n");
        return TROUBLE;
    }
    if (!load(argv[1], &before) || !load(argv[2], &after))
        return TROUBLE;
    for (size_t number = 1;; number++) {
        next(&before);
        next(&after);
        if (before.status == HATCHYARN_READ_END && after.status == HATCHYARN_READ_END)
            break;
        if (same(&before, &after))
            continue;
        found = DIFFERENT;
        printf("line %zu\n", number);
        tell('<', &before);
        tell('>', &after);
    }
    if (fflush(stdout) != 0 || ferror(stdout)) {
        perror("differ: standard output");
        return TROUBLE;
    }
    return found;
}
