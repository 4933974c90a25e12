/*
 * loan: days of a loan card, which holds them as packed decimal digits.
 *
 *   loan DAY DAYS               the day on which a loan from DAY ends, after so many days
 *   loan --between DAY DAY      how many days there are from the first to the second
 *
 * Each word is 1 to 6 decimal digits: a card has three bytes for a number. Where a day needs more digits,
 * or the second day is before the first, it says so and ends with 1.
 */
#include <hatchyarn.h>
#include <stdio.h>
#include <stdlib.h>
#include <string.h>

enum { BYTES = 3, DIGITS = 2 * BYTES };

/* Whether text is 1 to 6 decimal digits and nothing else. Read as hexadecimal they are the bytes of a card. */
static bool packed(const char *text, uint8_t bytes[BYTES])
{
    size_t digits = strspn(text, "0123456789");
    unsigned long number = strtoul(text, NULL, 16);
    for (int i = 0; i < BYTES; i++)
        bytes[i] = (uint8_t)(number >> 8 * i);
    return digits > 0 && digits <= DIGITS && text[digits] == '\0';
}

int main(int argc, char **argv)
{
    uint8_t first[BYTES], second[BYTES], made[BYTES], status, carry;
    bool between = argc > 1 && strcmp(argv[1], "--between") == 0;
    char **words = argv + 1 + between;

    if (argc - between != 3 || !packed(words[0], first) || !packed(words[1], second)) {
        fprintf(stderr, "use: loan DAY DAYS, or loan --between DAY DAY, each of 1 to 6 decimal digits\n");
        return 2;
    }
    if (between)
        status = hatchyarn_packed_subtract(second, BYTES, first, BYTES, false, made, BYTES, &carry);
    else
        status = hatchyarn_packed_add(first, BYTES, second, BYTES, false, made, BYTES, &carry);
    if (status != HATCHYARN_PACKED_DONE) {
        fprintf(stderr, "loan: the numbers were refused with status %d\n", status);
        return 1;
    }
    if (carry != 0) {
        fprintf(stderr, "loan: %s\n", between ? "the second day is before the first" : "the day has more than 6 digits");
        return 1;
    }
    printf("%lX\n", (unsigned long)made[2] << 16 | (unsigned long)made[1] << 8 | made[0]);
    if (fflush(stdout) != 0 || ferror(stdout)) {
        perror("loan: standard output");
        return 1;
    }
    return 0;
}
