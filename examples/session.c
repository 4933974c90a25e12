/*
 * session: the log of a session, that is of operations one after another over the same registers.
 *
 *   session [TOTAL]             the total of the session before, of 1 to 10 decimal digits; else it begins at 0
 *
 * Reads what is to be done from standard input, a line for each operation, numbers in hexadecimal digits:
 *
 *   load AX DX                  stores both registers, of 4 digits each, and leaves the total
 *   mul8 Y, imul8 Y             AL times Y, of 2 digits; div8 Y and idiv8 Y divide AX
 *   mul16 Y, imul16 Y           AX times Y, of 4 digits; div16 Y and idiv16 Y divide DX with AX below it
 *   aad Y                       adjusts AX by Y, of 2 digits; aaa, aas, daa and das have no Y
 *
 * Writes a line for each: its name, what came of it, its steps, and the total so far. No register is shown,
 * since after a divide of shelf.c one of them holds the keeper. A divide that the chip refuses is told as refused,
 * with its steps; it leaves AX and DX, and its steps go into the total. Where the total is full it is told, to be noted, and begins at 0 again.
 *
 * A line that is none of these ends the session, since what follows would be done over other registers than
 * was meant; it is told by its number on standard error. The exit status is 0 if there is none and everything was
 * read and written, and else 1; it is 2, and nothing is read, if the program is not used so.
 */
#include <hatchyarn.h>
#include <inttypes.h>
#include <stdio.h>
#include <stdlib.h>
#include <string.h>

enum { LINE_BYTES = 16, WORDS = 3, SIGNED = HATCHYARN_MODE_SIGNED, WORD = HATCHYARN_MODE_WORD };

static const struct operation {
    const char *name;
    uint8_t op, mode;
    size_t digits; /* of Y */
} operations[] = {
    {"mul8", HATCHYARN_OP_MULTIPLY, 0, 2},
    {"mul16", HATCHYARN_OP_MULTIPLY, WORD, 4},
    {"imul8", HATCHYARN_OP_MULTIPLY, SIGNED, 2},
    {"imul16", HATCHYARN_OP_MULTIPLY, WORD | SIGNED, 4},
    {"div8", HATCHYARN_OP_DIVIDE, 0, 2},
    {"div16", HATCHYARN_OP_DIVIDE, WORD, 4},
    {"idiv8", HATCHYARN_OP_DIVIDE, SIGNED, 2},
    {"idiv16", HATCHYARN_OP_DIVIDE, WORD | SIGNED, 4},
    {"aaa", HATCHYARN_OP_AAA, 0, 0},
    {"aas", HATCHYARN_OP_AAS, 0, 0},
    {"aad", HATCHYARN_OP_AAD, 0, 2},
    {"daa", HATCHYARN_OP_DAA, 0, 0},
    {"das", HATCHYARN_OP_DAS, 0, 0},
};
enum { OPERATIONS = sizeof operations / sizeof *operations };

/* Whether text is so many hexadecimal digits and nothing else; *value is then their number. */
static bool number(const char *text, size_t digits, uint16_t *value)
{
    *value = (uint16_t)strtoul(text, NULL, 16);
    return strlen(text) == digits && strspn(text, "0123456789ABCDEFabcdef") == digits;
}

/* Whether text is a total and nothing else; *value is then that. */
static bool is_total(const char *text, uint32_t *value)
{
    size_t digits = strspn(text, "0123456789");
    unsigned long long total = strtoull(text, NULL, 10);
    *value = (uint32_t)total;
    return digits > 0 && digits <= 10 && text[digits] == '\0' && total <= UINT32_MAX;
}

/*
 * Reads a line of any length, and keeps as much of it as an operation has. Whether there was one: not where
 * the input is at its end, nor where it cannot be read on, since what came before is then no whole line.
 */
static bool next_line(char text[LINE_BYTES + 1], bool *fits)
{
    size_t length = 0;
    int byte;

    while ((byte = getchar()) != EOF && byte != '\n')
        if (length <= LINE_BYTES)
            text[length++] = (char)byte;
    text[length < LINE_BYTES ? length : LINE_BYTES] = '\0';
    *fits = strlen(text) == length;
    return byte == '\n' || (length > 0 && !ferror(stdin));
}

/* What came of an operation, by its status. */
static const char *outcome(uint8_t status)
{
    if (status == HATCHYARN_ZERO_DIVISOR)
        return "refused, the divisor is 0";
    if (status == HATCHYARN_TOO_WIDE)
        return "refused, the quotient is too wide";
    if (status == HATCHYARN_SIGN_RANGE)
        return "refused, the quotient does not fit with its sign";
    return "done";
}

/* Does an operation and logs it. Whether the session may go on. */
static bool operate(struct hatchyarn_register_record *record, const struct operation *operation, uint16_t y)
{
    uint16_t steps;
    uint8_t status = hatchyarn_operate(record, operation->op, operation->mode, y, &steps);

    if (status == HATCHYARN_TOTAL_FULL) {
        printf("the total is full: note %" PRIu32 ", it begins at 0 again\n", record->total);
        record->total = 0;
        status = hatchyarn_operate(record, operation->op, operation->mode, y, &steps);
    }
    if (status != HATCHYARN_DONE && !hatchyarn_divide_refused(status))
        return false;
    printf("%s: %s, %u steps, total %" PRIu32 "\n", operation->name, outcome(status), steps, record->total);
    return true;
}

/* Stores both registers and logs that. Whether the two words are their numbers. */
static bool load(struct hatchyarn_register_record *record, const char *ax, const char *dx)
{
    if (!number(ax, 4, &record->ax) || !number(dx, 4, &record->dx))
        return false;
    printf("load: total %" PRIu32 "\n", record->total);
    return true;
}

/* Cuts text at its spaces. How many words there are; no more than WORDS are kept. */
static size_t split(char *text, const char *words[WORDS])
{
    size_t count = 0;

    for (char *word = strtok(text, " "); word != NULL; word = strtok(NULL, " "), count++)
        if (count < WORDS)
            words[count] = word;
    return count;
}

/* Does what a line says. Whether it is one of a session. */
static bool follow(struct hatchyarn_register_record *record, char *text)
{
    const char *words[WORDS];
    size_t count = split(text, words);
    uint16_t y = 0;

    if (count == 3 && strcmp(words[0], "load") == 0)
        return load(record, words[1], words[2]);
    for (const struct operation *each = operations; count > 0 && each < operations + OPERATIONS; each++)
        if (strcmp(words[0], each->name) == 0)
            return count == (each->digits == 0 ? 1 : 2) && (count == 1 || number(words[1], each->digits, &y))
                   && operate(record, each, y);
    return false;
}

int main(int argc, char **argv)
{
    struct hatchyarn_register_record record = {0, 0, 0, 0};
    char text[LINE_BYTES + 1];
    bool fits, whole = true;

    if (argc > 2 || (argc == 2 && !is_total(argv[1], &record.total))) {
        fprintf(stderr, "use: session [TOTAL], of up to 4294967295, with an operation on each line of standard input\n");
        return 2;
    }
    for (size_t line = 1; whole && !ferror(stdout) && next_line(text, &fits); line++)
        if (!fits || !follow(&record, text)) {
            fprintf(stderr, "session: line %zu is no operation, and the session ends there: correct it\n", line);
            whole = false;
        }
    if (ferror(stdin)) {
        perror("session: standard input");
        whole = false;
    }
    if (fflush(stdout) != 0 || ferror(stdout)) {
        perror("session: standard output");
        return 1;
    }
    return whole ? 0 : 1;
}
