/*
 * roads: why a divide takes as many steps as it does, for whoever tests programs on an 8088.
 *
 *   roads MODE DIVIDEND DIVISOR [MODE DIVIDEND DIVISOR]...
 *
 * All words are hexadecimal, of up to 2, 8 and 4 digits. The mode is the sum of 01 for sixteen bits, 02 for signed and
 * 04 for REP; 00 is an unsigned divide at 8 bits.
 *
 * Writes three lines for each divide: its quotient, remainder and steps; by which road the ones of its quotient
 * came; and what the steps are the sum of. One line says of a divide that the chip refuses after how many steps it
 * does, and why.
 *
 * A divide that cannot be asked is told on standard error. The exit status is 0 if there is none and everything
 * was written, and else 1; it is 2, and nothing is asked, if the program is not used so.
 */
#include <hatchyarn.h>
#include <stdio.h>
#include <stdlib.h>
#include <string.h>

struct divide {
    uint8_t mode;
    uint32_t dividend;
    uint16_t divisor;
};

/* Whether text is 1 to `most` hexadecimal digits and nothing else; *value is then their number. */
static bool number(const char *text, size_t most, unsigned long *value)
{
    size_t digits = strspn(text, "0123456789ABCDEFabcdef");
    *value = strtoul(text, NULL, 16);
    return digits > 0 && digits <= most && text[digits] == '\0';
}

/* Whether three words are a divide; *divide is then that. */
static bool is_divide(char **words, struct divide *divide)
{
    unsigned long mode, dividend, divisor;

    if (!number(words[0], 2, &mode) || !number(words[1], 8, &dividend) || !number(words[2], 4, &divisor))
        return false;
    *divide = (struct divide){(uint8_t)mode, (uint32_t)dividend, (uint16_t)divisor};
    return true;
}

static bool is_signed(const struct divide *divide)
{
    return (divide->mode & HATCHYARN_MODE_SIGNED) != 0;
}

/* 8 or 16. */
static unsigned bits(const struct divide *divide)
{
    return (divide->mode & HATCHYARN_MODE_WORD) != 0 ? 16 : 8;
}

/* What the chip divides and how. Its numbers have as many digits as their widths. */
static void say_divide(const struct divide *divide)
{
    printf("%0*lX / %0*X, %s, %u bits%s: ", (int)bits(divide) / 2, (unsigned long)divide->dividend, (int)bits(divide) / 4,
           divide->divisor, is_signed(divide) ? "signed" : "unsigned", bits(divide),
           (divide->mode & HATCHYARN_MODE_REP) != 0 ? ", under REP" : "");
}

/* What the steps of a divide that is done are the sum of. A quotient and its negative are odd together. */
static void say_sum(const struct divide *divide, const struct hatchyarn_answer *answer, uint16_t no_borrow)
{
    bool below = divide->dividend >> (2 * bits(divide) - 1) == 1, by_below = divide->divisor >> (bits(divide) - 1) == 1;
    bool odd = answer->r % 2 == 1;

    printf("  %u is %u for every such divide", answer->steps, (is_signed(divide) ? 25 : 13) + 8 * bits(divide));
    if (is_signed(divide))
        printf(", %d for a dividend %s 0, %d for a divisor %s 0", below ? 7 : 3, below ? "below" : "not below",
               by_below ? 5 : 6, by_below ? "below" : "not below");
    printf(", 0 for its ones by a bit shifted out, %u for its ones by no borrow and %d for an %s quotient\n", no_borrow,
           odd ? 2 : 0, odd ? "odd" : "even");
}

static void say_done(const struct divide *divide, const struct hatchyarn_answer *answer, const uint16_t roads[2])
{
    int digits = (int)bits(divide) / 4;

    say_divide(divide);
    printf("quotient %0*X, remainder %0*X, %u steps\n", digits, answer->r, digits, answer->s, answer->steps);
    printf("  %u %s by a bit shifted out, %u by no borrow\n", roads[0], roads[0] == 1 ? "one" : "ones", roads[1]);
    say_sum(divide, answer, roads[1]);
}

/* Why the chip refuses, by the status of the refused divide. */
static const char *reason(uint8_t status)
{
    if (status == HATCHYARN_ZERO_DIVISOR)
        return "the divisor is 0";
    if (status == HATCHYARN_TOO_WIDE)
        return "the quotient is too wide";
    return "the quotient does not fit with its sign";
}

/* Explains a divide. Whether it could be asked. */
static bool explain(const struct divide *divide)
{
    struct hatchyarn_answer answer;
    uint16_t roads[2];
    uint8_t status = hatchyarn_roads(divide->mode, divide->dividend, divide->divisor, roads);

    hatchyarn_ask(HATCHYARN_OP_DIVIDE, divide->mode, 0, divide->dividend, divide->divisor, &answer);
    if (status == HATCHYARN_DONE) {
        say_done(divide, &answer, roads);
        return true;
    }
    if (hatchyarn_divide_refused(status)) {
        say_divide(divide);
        printf("refused after %u steps, since %s\n", answer.steps, reason(status));
        return true;
    }
    if (status == HATCHYARN_BAD_MODE)
        fprintf(stderr, "roads: the mode %02X has a bit above 04\n", divide->mode);
    else
        fprintf(stderr, "roads: %lX / %X is too large for 8 bits; 16 bits are mode %02X\n", (unsigned long)divide->dividend,
                divide->divisor, divide->mode | HATCHYARN_MODE_WORD);
    return false;
}

int main(int argc, char **argv)
{
    struct divide divide;
    bool fits = argc > 1 && argc % 3 == 1, all_asked = true;

    for (int i = 1; fits && i < argc; i += 3)
        fits = is_divide(argv + i, &divide);
    if (!fits) {
        fprintf(stderr, "use: roads MODE DIVIDEND DIVISOR..., of up to 2, 8 and 4 hexadecimal digits\n");
        return 2;
    }
    for (int i = 1; i < argc; i += 3)
        if (is_divide(argv + i, &divide) && !explain(&divide))
            all_asked = false;
    if (fflush(stdout) != 0 || ferror(stdout)) {
        perror("roads: standard output");
        return 1;
    }
    return all_asked ? 0 : 1;
}
