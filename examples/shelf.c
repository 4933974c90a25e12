/*
 * shelf: where an object stands, by the rule of a rights program of the 1980s.
 *
 *   shelf [--why] KEY NUMBER      both hexadecimal: a key of 16 bits, a community's number of 8
 *
 * The key is divided by the number, signed, as an 8088 divides. The quotient is the shelf and the
 * remainder names the keeper. Where the chip traps, the object is closed; --why also says why it is.
 */
#include <hatchyarn.h>
#include <stdio.h>
#include <stdlib.h>
#include <string.h>

/* Whether text is 1 to `most` hexadecimal digits and nothing else. */
static bool number(const char *text, size_t most, unsigned long *value)
{
    size_t digits = strspn(text, "0123456789ABCDEFabcdef");
    *value = strtoul(text, NULL, 16);
    return digits > 0 && digits <= most && text[digits] == '\0';
}

/* Why the object is closed, by the status of the refused divide. */
static const char *reason(uint8_t status)
{
    if (status == HATCHYARN_ZERO_DIVISOR)
        return "the number is 0";
    if (status == HATCHYARN_TOO_WIDE)
        return "the key is too large for the number";
    if (status == HATCHYARN_SIGN_RANGE)
        return "the key is too large for the number, since a shelf has a sign";
    return "the divide is refused";
}

int main(int argc, char **argv)
{
    unsigned long key, divisor;
    struct hatchyarn_answer answer;
    bool why = argc > 1 && strcmp(argv[1], "--why") == 0;
    char **words = argv + 1 + why;

    if (argc - why != 3 || !number(words[0], 4, &key) || !number(words[1], 2, &divisor)) {
        fprintf(stderr, "use: shelf [--why] KEY NUMBER, of 1 to 4 and of 1 or 2 hexadecimal digits\n");
        return 2;
    }
    uint8_t status = hatchyarn_ask(HATCHYARN_OP_DIVIDE, HATCHYARN_MODE_BYTE | HATCHYARN_MODE_SIGNED,
                                   0, (uint32_t)key, (uint16_t)divisor, &answer);
    if (hatchyarn_divide_refused(status) && why)
        printf("closed: %s\n", reason(status));
    else if (hatchyarn_divide_refused(status))
        puts("closed");
    else if (status == HATCHYARN_DONE)
        printf("shelf %02X, keeper %02X\n", answer.r, answer.s);
    else {
        fprintf(stderr, "shelf: the request was refused with status %d\n", status);
        return 1;
    }
    if (fflush(stdout) != 0 || ferror(stdout)) {
        perror("shelf: standard output");
        return 1;
    }
    return 0;
}
