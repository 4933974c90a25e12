/*
 * list: which objects of a list are closed, by the rule of shelf.c.
 *
 *   list NUMBER                 a community's number, of 1 or 2 hexadecimal digits
 *
 * Reads keys from standard input, one a line, each of 4 hexadecimal digits. Writes a line for each, in
 * their order: the key in capitals and 'closed', where an 8088 that divides it by the number, signed, would
 * trap; else the key and 'open to a shelf'. Which shelf that is, is not worked out.
 *
 * A line that is no key is written as '---- closed', and told by its number on standard error. The exit
 * status is 0 if every line is a key and everything was read and written, and else 1; it is 2, and nothing
 * is read, if the program is not used so.
 */
#include <hatchyarn.h>
#include <stdio.h>
#include <stdlib.h>
#include <string.h>

enum { KEY_DIGITS = 4, NUMBER_DIGITS = 2 };

static const char hexadecimal[] = "0123456789ABCDEFabcdef";

/* Whether text is 1 or 2 hexadecimal digits and nothing else; *value is then their number. */
static bool number(const char *text, uint16_t *value)
{
    size_t digits = strspn(text, hexadecimal);
    *value = (uint16_t)strtoul(text, NULL, 16);
    return digits > 0 && digits <= NUMBER_DIGITS && text[digits] == '\0';
}

/*
 * Reads a line of any length, and keeps as much of it as a key has. Whether there was one: not where the
 * input is at its end, nor where it cannot be read on, since what came before is then no whole line.
 */
static bool next_line(char text[KEY_DIGITS + 1], bool *fits)
{
    size_t length = 0;
    int byte;

    while ((byte = getchar()) != EOF && byte != '\n')
        if (length <= KEY_DIGITS)
            text[length++] = (char)byte;
    *fits = length == KEY_DIGITS;
    text[length < KEY_DIGITS ? length : KEY_DIGITS] = '\0';
    return byte == '\n' || (length > 0 && !ferror(stdin));
}

/* Whether the object is closed. It is, too, where the divide could not be asked. */
static bool closed(uint16_t key, uint16_t divisor)
{
    uint8_t trap;
    uint8_t status = hatchyarn_would_trap(HATCHYARN_MODE_BYTE | HATCHYARN_MODE_SIGNED, key, divisor, &trap);
    return status != HATCHYARN_DONE || trap != 0;
}

int main(int argc, char **argv)
{
    char text[KEY_DIGITS + 1];
    uint16_t divisor;
    bool fits, all_keys = true;

    if (argc != 2 || !number(argv[1], &divisor)) {
        fprintf(stderr, "use: list NUMBER, of 1 or 2 hexadecimal digits, with a key of 4 on each line of standard input\n");
        return 2;
    }
    for (size_t line = 1; !ferror(stdout) && next_line(text, &fits); line++) {
        if (fits && strspn(text, hexadecimal) == KEY_DIGITS) {
            uint16_t key = (uint16_t)strtoul(text, NULL, 16);
            printf("%04X %s\n", key, closed(key, divisor) ? "closed" : "open to a shelf");
        } else {
            puts("---- closed");
            fprintf(stderr, "list: line %zu is no key of 4 hexadecimal digits, and counts as closed: correct it\n", line);
            all_keys = false;
        }
    }
    if (ferror(stdin)) {
        perror("list: standard input");
        all_keys = false;
    }
    if (fflush(stdout) != 0 || ferror(stdout)) {
        perror("list: standard output");
        return 1;
    }
    return all_keys ? 0 : 1;
}
