/* Each function of hatchyarn.h, called as a C program calls it. Prints what failed, or 'calls: ok'. */
#include <hatchyarn.h>
#include <stdio.h>
#include <string.h>

_Static_assert(sizeof(struct hatchyarn_answer) == 8, "the library writes four 16-bit numbers");
_Static_assert(sizeof(struct hatchyarn_record) == 10, "the library writes five 16-bit numbers");

static int failed;

static void expect(bool held, const char *what)
{
    if (!held) {
        printf("calls: %s\n", what);
        failed = 1;
    }
}

static const char *const session = "11000000000000070002\n110200000000FF800001";
static const char *const answers = "000001005100030001\n090014005F00000000\n";

/* Refused divides of each width, signed and not, and under REP. All flags are handed in, and do not show. */
static const struct refused {
    const char *line, *answer;
    uint32_t dividend;
    uint16_t divisor, flags, steps;
    uint8_t mode, status;
} refused[] = {
    {"110008D5000000070000", "060044000900000000\n", 0x0007, 0, 0x0044, 9, 0x00, HATCHYARN_ZERO_DIVISOR},
    {"110208D5000000070000", "060044001300000000\n", 0x0007, 0, 0x0044, 19, 0x02, HATCHYARN_ZERO_DIVISOR},
    {"110708D5000000070000", "060044001300000000\n", 0x0007, 0, 0x0044, 19, 0x07, HATCHYARN_ZERO_DIVISOR},
    {"110008D5000001000001", "080044000900000000\n", 0x0100, 1, 0x0044, 9, 0x00, HATCHYARN_TOO_WIDE},
    {"110208D500007FFF0001", "080004001300000000\n", 0x7FFF, 1, 0x0004, 19, 0x02, HATCHYARN_TOO_WIDE},
    {"110508D5000200000002", "080044000900000000\n", 0x20000, 2, 0x0044, 9, 0x05, HATCHYARN_TOO_WIDE},
    {"110208D500008000007F", "080810001700000000\n", 0x8000, 0x7F, 0x0810, 23, 0x02, HATCHYARN_TOO_WIDE},
    {"110208D50000FF800001", "090014005F00000000\n", 0xFF80, 1, 0x0014, 95, 0x02, HATCHYARN_SIGN_RANGE},
    {"110708D5000080000001", "090094009B00000000\n", 0x8000, 1, 0x0094, 155, 0x07, HATCHYARN_SIGN_RANGE},
};
enum { REFUSED = sizeof refused / sizeof *refused };

static bool is(const struct hatchyarn_answer *a, unsigned flags, unsigned steps, unsigned r, unsigned s)
{
    return a->flags == flags && a->steps == steps && a->r == r && a->s == s;
}

static void asks(void)
{
    struct hatchyarn_answer a;
    const uint8_t signed8 = HATCHYARN_MODE_BYTE | HATCHYARN_MODE_SIGNED;

    expect(hatchyarn_ask(HATCHYARN_OP_ADC, 0, HATCHYARN_FLAG_C, 0xFF, 0, &a) == HATCHYARN_DONE
               && is(&a, HATCHYARN_FLAG_C | HATCHYARN_FLAG_A, 0, 0, 0), "FF + 00 with carry");
    expect(hatchyarn_ask(HATCHYARN_OP_DIVIDE, signed8, 0, 0xFF81, 1, &a) == HATCHYARN_DONE
               && a.steps == 111 && a.r == 0x81 && a.s == 0, "FF81 / 01, signed");
    expect(hatchyarn_ask(HATCHYARN_OP_DIVIDE, signed8, HATCHYARN_FLAG_Z, 0xFF80, 1, &a)
                   == HATCHYARN_SIGN_RANGE
               && is(&a, HATCHYARN_FLAG_A | HATCHYARN_FLAG_P, 95, 0, 0), "FF80 / 01, signed");
    expect(hatchyarn_ask(HATCHYARN_OP_MULTIPLY, HATCHYARN_MODE_WORD, 0, 0xFFFF, 0xFFFF, &a)
                   == HATCHYARN_DONE
               && a.r == 0xFFFE && a.s == 0x0001, "FFFF x FFFF");
    expect(hatchyarn_ask(0xFF, 0, 0, 0, 0, &a) == HATCHYARN_BAD_OP && is(&a, 0, 0, 0, 0), "op FF");
    expect(hatchyarn_ask(HATCHYARN_OP_AAA, HATCHYARN_MODE_WORD, 0, 0, 0, &a) == HATCHYARN_BAD_MODE,
           "AAA at 16 bits");
    expect(hatchyarn_ask(HATCHYARN_OP_ADD, 0, 0, 0x100, 0, &a) == HATCHYARN_TOO_LARGE, "100 + 00");
    expect(hatchyarn_ask(HATCHYARN_OP_ADD, 0, 2, 0, 0, &a) == HATCHYARN_TOO_LARGE, "flags 0002");
}

static void lines(void)
{
    uint8_t out[HATCHYARN_ANSWER_BYTES + 1];
    const uint8_t *line = (const uint8_t *)session;

    memset(out, '?', sizeof out);
    expect(hatchyarn_line(line, 20, out, sizeof out) == HATCHYARN_DONE
               && memcmp(out, answers, 19) == 0 && out[19] == '?', "a line");
    memset(out, '?', sizeof out);
    expect(hatchyarn_line(line, 20, out, 18) == HATCHYARN_NO_ROOM && out[0] == '?', "a line without room");
    expect(hatchyarn_line(line, 19, out, 19) == HATCHYARN_BAD_LENGTH, "a short line");
    expect(hatchyarn_line((const uint8_t *)"1100000000000007000G", 20, out, 19) == HATCHYARN_BAD_DIGIT,
           "a line with no digit");
    expect(hatchyarn_line(NULL, 0, out, 19) == HATCHYARN_BAD_LENGTH, "an empty line at no place");
    expect(hatchyarn_line(line, 20, NULL, 0) == HATCHYARN_NO_ROOM, "a line and room at no place");
}

static void runs(void)
{
    uint8_t out[3 * HATCHYARN_ANSWER_BYTES];
    const uint8_t *text = (const uint8_t *)session;
    size_t length = strlen(session), used = 99;

    memset(out, '?', sizeof out);
    expect(hatchyarn_run(text, length, out, sizeof out, false, &used) == 1 && used == 21
               && memcmp(out, answers, 19) == 0 && out[19] == '?', "a run whose last line waits");
    expect(hatchyarn_run(text, length, out, sizeof out, true, &used) == 2 && used == length
               && memcmp(out, answers, 38) == 0 && out[38] == '?', "a run to the end");
    expect(hatchyarn_run(text, length, out, 37, true, &used) == 1 && used == 21, "a run with room for one");
    memset(out, '?', sizeof out);
    used = 99;
    expect(hatchyarn_run(text, length, out, 18, true, &used) == 0 && used == 0 && out[0] == '?', "a run without room");
    used = 99;
    expect(hatchyarn_run(text, 20, out, sizeof out, false, &used) == 0 && used == 0 && out[0] == '?',
           "a run over the start of a line");
    used = 99;
    expect(hatchyarn_run(text, 0, out, sizeof out, true, &used) == 0 && used == 0 && out[0] == '?', "a run over nothing");
    used = 99;
    expect(hatchyarn_run(NULL, 0, out, sizeof out, true, &used) == 0 && used == 0 && out[0] == '?', "a run over no place");
    used = 99;
    expect(hatchyarn_run(text, length, NULL, 0, true, &used) == 0 && used == 0, "a run with room at no place");
}

/* Each refused divide by each function: as numbers, as a line, and all of them in one run. */
static void refusals(void)
{
    const uint16_t all = 0x08D5;
    char text[REFUSED * 21 + 1] = "", wanted[REFUSED * HATCHYARN_ANSWER_BYTES + 1] = "";
    uint8_t out[REFUSED * HATCHYARN_ANSWER_BYTES];
    size_t used;

    for (const struct refused *each = refused; each < refused + REFUSED; each++) {
        struct hatchyarn_answer a;
        expect(hatchyarn_ask(HATCHYARN_OP_DIVIDE, each->mode, all, each->dividend, each->divisor, &a) == each->status
                   && is(&a, each->flags, each->steps, 0, 0), each->line);
        expect(hatchyarn_line((const uint8_t *)each->line, 20, out, sizeof out) == each->status
                   && memcmp(out, each->answer, HATCHYARN_ANSWER_BYTES) == 0, each->line);
        strcat(strcat(text, each->line), "\n");
        strcat(wanted, each->answer);
    }
    expect(hatchyarn_run((const uint8_t *)text, strlen(text), out, sizeof out, true, &used) == REFUSED
               && used == strlen(text) && memcmp(out, wanted, sizeof out) == 0, "a run over refused divides");
}

/* The header's own test, of every number that a status can be. */
static void closed(void)
{
    for (unsigned status = 0; status <= UINT8_MAX; status++)
        expect(hatchyarn_divide_refused((uint8_t)status) == (status == 6 || status == 8 || status == 9),
               "hatchyarn_divide_refused is not true of exactly 6, 8 and 9");
}

/* Divides on both sides of their borders, and some that cannot be asked. Each is the same under REP. */
static const struct divide {
    const char *words;
    uint32_t dividend;
    uint16_t divisor;
    uint8_t mode, status, trap;
} divides[] = {
    {"signed FF81 / 01", 0xFF81, 0x01, 0x02, HATCHYARN_DONE, 0},
    {"signed FF80 / 01", 0xFF80, 0x01, 0x02, HATCHYARN_DONE, 1},
    {"signed 027F / 05", 0x027F, 0x05, 0x02, HATCHYARN_DONE, 0},
    {"signed 0280 / 05", 0x0280, 0x05, 0x02, HATCHYARN_DONE, 1},
    {"signed FD81 / FB", 0xFD81, 0xFB, 0x02, HATCHYARN_DONE, 0},
    {"signed FD80 / FB", 0xFD80, 0xFB, 0x02, HATCHYARN_DONE, 1},
    {"signed 3FFF / 80", 0x3FFF, 0x80, 0x02, HATCHYARN_DONE, 0},
    {"signed 4000 / 80", 0x4000, 0x80, 0x02, HATCHYARN_DONE, 1},
    {"04FF / 05", 0x04FF, 0x05, 0x00, HATCHYARN_DONE, 0},
    {"0500 / 05", 0x0500, 0x05, 0x00, HATCHYARN_DONE, 1},
    {"FEFF / FF", 0xFEFF, 0xFF, 0x00, HATCHYARN_DONE, 0},
    {"FF00 / FF", 0xFF00, 0xFF, 0x00, HATCHYARN_DONE, 1},
    {"signed 00027FFF / 0005", 0x27FFF, 5, 0x03, HATCHYARN_DONE, 0},
    {"signed 00028000 / 0005", 0x28000, 5, 0x03, HATCHYARN_DONE, 1},
    {"signed FFFD8001 / FFFB", 0xFFFD8001, 0xFFFB, 0x03, HATCHYARN_DONE, 0},
    {"signed FFFD8000 / FFFB", 0xFFFD8000, 0xFFFB, 0x03, HATCHYARN_DONE, 1},
    {"signed 3FFFFFFF / 8000", 0x3FFFFFFF, 0x8000, 0x03, HATCHYARN_DONE, 0},
    {"signed 40000000 / 8000", 0x40000000, 0x8000, 0x03, HATCHYARN_DONE, 1},
    {"0004FFFF / 0005", 0x4FFFF, 5, 0x01, HATCHYARN_DONE, 0},
    {"00050000 / 0005", 0x50000, 5, 0x01, HATCHYARN_DONE, 1},
    {"FFFEFFFF / FFFF", 0xFFFEFFFF, 0xFFFF, 0x01, HATCHYARN_DONE, 0},
    {"FFFF0000 / FFFF", 0xFFFF0000, 0xFFFF, 0x01, HATCHYARN_DONE, 1},

    {"0000 / 00", 0, 0, 0x00, HATCHYARN_DONE, 1},
    {"signed 0000 / 00", 0, 0, 0x02, HATCHYARN_DONE, 1},
    {"00000007 / 0000", 7, 0, 0x01, HATCHYARN_DONE, 1},
    {"signed 00000007 / 0000", 7, 0, 0x03, HATCHYARN_DONE, 1},
    {"the most negative dividend", 0x8000, 0x80, 0x02, HATCHYARN_DONE, 1},
    {"the same, by 7F", 0x8000, 0x7F, 0x02, HATCHYARN_DONE, 1},
    {"the most negative dividend of 32 bits", 0x80000000, 0x8000, 0x03, HATCHYARN_DONE, 1},
    {"the same, by 7FFF", 0x80000000, 0x7FFF, 0x03, HATCHYARN_DONE, 1},

    /* at 8 bits too large, though the bits that there is room for would not trap */
    {"00010007 / 02", 0x10007, 0x02, 0x00, HATCHYARN_TOO_LARGE, 1},
    {"signed 80000007 / 02", 0x80000007, 0x02, 0x02, HATCHYARN_TOO_LARGE, 1},
    {"0007 / 0102", 0x0007, 0x0102, 0x00, HATCHYARN_TOO_LARGE, 1},
    {"signed 0007 / 8002", 0x0007, 0x8002, 0x02, HATCHYARN_TOO_LARGE, 1},
    {"00010007 / 00", 0x10007, 0x00, 0x00, HATCHYARN_TOO_LARGE, 1},
    {"the same at 16 bits", 0x10007, 0x0102, 0x01, HATCHYARN_DONE, 0},

    {"mode 08", 0x0007, 0x02, 0x08, HATCHYARN_BAD_MODE, 1},
    {"mode 81", 0x0007, 0x02, 0x81, HATCHYARN_BAD_MODE, 1},
    {"mode 08, and too large", 0x10007, 0x0102, 0x08, HATCHYARN_BAD_MODE, 1},
    {"mode FA, and a divisor of 0", 0x0007, 0x00, 0xFA, HATCHYARN_BAD_MODE, 1},
};
enum { DIVIDES = sizeof divides / sizeof *divides };

/* Trap is written whatever stood there, and the bytes around it are as they were. */
static void would_trap(void)
{
    for (const struct divide *each = divides; each < divides + DIVIDES; each++)
        for (unsigned before = 0; before <= UINT8_MAX; before++) {
            const uint8_t rep = before % 2 == 0 ? 0 : HATCHYARN_MODE_REP;
            uint8_t lent[] = {'?', '?', (uint8_t)before, '?', '?'};
            struct hatchyarn_answer a;

            expect(hatchyarn_would_trap(each->mode ^ rep, each->dividend, each->divisor, &lent[2]) == each->status
                       && lent[2] == each->trap, each->words);
            expect(lent[0] == '?' && lent[1] == '?' && lent[3] == '?' && lent[4] == '?', each->words);
            uint8_t asked = hatchyarn_ask(HATCHYARN_OP_DIVIDE, each->mode ^ rep, before % 3 == 0 ? 0x08D5 : 0,
                                          each->dividend, each->divisor, &a);
            expect(each->trap == (asked != HATCHYARN_DONE), each->words);
            expect(each->status == (hatchyarn_divide_refused(asked) ? HATCHYARN_DONE : asked), each->words);
        }
}

/* Divides, each with the ones of its quotient by a bit shifted out and by no borrow, and each refusal. */
static const struct road {
    const char *words;
    uint32_t dividend;
    uint16_t divisor;
    uint8_t mode, status;
    uint16_t shifted_out, no_borrow;
} by_roads[] = {
    {"the roads of 00FF / FF", 0x00FF, 0xFF, 0x00, HATCHYARN_DONE, 0, 1},
    {"the roads of 0100 / C8", 0x0100, 0xC8, 0x00, HATCHYARN_DONE, 1, 0},
    {"the roads of C7FF / C8", 0xC7FF, 0xC8, 0x00, HATCHYARN_DONE, 8, 0},
    {"the roads of 7FFF / 80", 0x7FFF, 0x80, 0x00, HATCHYARN_DONE, 0, 8},
    {"the roads of 1234 / 9A", 0x1234, 0x9A, 0x00, HATCHYARN_DONE, 2, 2},
    {"the roads of 0000 / 01", 0x0000, 0x01, 0x00, HATCHYARN_DONE, 0, 0},
    {"the roads of 0000FFFF / FFFF", 0xFFFF, 0xFFFF, 0x01, HATCHYARN_DONE, 0, 1},
    {"the roads of 00010000 / C800", 0x10000, 0xC800, 0x01, HATCHYARN_DONE, 1, 0},
    {"the roads of 12345678 / ABCD", 0x12345678, 0xABCD, 0x01, HATCHYARN_DONE, 2, 3},
    {"the roads of FFFEFFFF / FFFF", 0xFFFEFFFF, 0xFFFF, 0x01, HATCHYARN_DONE, 16, 0},
    {"the roads of signed FF81 / 01", 0xFF81, 0x01, 0x02, HATCHYARN_DONE, 0, 7},
    {"the roads of signed FFF9 / 02", 0xFFF9, 0x02, 0x02, HATCHYARN_DONE, 0, 2},
    {"the roads of signed 3FFF / 80", 0x3FFF, 0x80, 0x02, HATCHYARN_DONE, 0, 7},
    {"the roads of signed FFFF8001 / 0001", 0xFFFF8001, 1, 0x03, HATCHYARN_DONE, 0, 15},

    {"the roads of 0007 / 00", 0x0007, 0, 0x00, HATCHYARN_ZERO_DIVISOR, 0, 0},
    {"the roads of signed 80000000 / 0000", 0x80000000, 0, 0x03, HATCHYARN_ZERO_DIVISOR, 0, 0},
    {"the roads of C800 / C8", 0xC800, 0xC8, 0x00, HATCHYARN_TOO_WIDE, 0, 0},
    {"the roads of signed 8000 / 7F", 0x8000, 0x7F, 0x02, HATCHYARN_TOO_WIDE, 0, 0},
    {"the roads of 00020000 / 0002", 0x20000, 2, 0x01, HATCHYARN_TOO_WIDE, 0, 0},
    {"the roads of signed FF80 / 01", 0xFF80, 0x01, 0x02, HATCHYARN_SIGN_RANGE, 0, 0},
    {"the roads of signed 00008000 / 0001", 0x8000, 1, 0x03, HATCHYARN_SIGN_RANGE, 0, 0},

    /* at 8 bits too large, though the bits that there is room for would be divided */
    {"the roads of 00010100 / C8", 0x10100, 0xC8, 0x00, HATCHYARN_TOO_LARGE, 0, 0},
    {"the roads of signed 00FF / 01FF", 0x00FF, 0x01FF, 0x02, HATCHYARN_TOO_LARGE, 0, 0},
    {"the roads of 00010100 / 00", 0x10100, 0, 0x00, HATCHYARN_TOO_LARGE, 0, 0},
    {"the same roads at 16 bits", 0x10100, 0x01FF, 0x01, HATCHYARN_DONE, 0, 1},

    {"the roads of mode 08", 0x00FF, 0xFF, 0x08, HATCHYARN_BAD_MODE, 0, 0},
    {"the roads of mode 81", 0x00FF, 0xFF, 0x81, HATCHYARN_BAD_MODE, 0, 0},
    {"the roads of mode 08, and too large", 0x10100, 0x01FF, 0x08, HATCHYARN_BAD_MODE, 0, 0},
    {"the roads of mode FA, and a divisor of 0", 0x0007, 0, 0xFA, HATCHYARN_BAD_MODE, 0, 0},
};
enum { ROADS = sizeof by_roads / sizeof *by_roads };

/* Both tallies are written whatever stood there, the words around them are as they were, and REP changes nothing. */
static void roads(void)
{
    static const uint16_t before[] = {0x0000, 0x0001, 0x0007, 0x00FF, 0x0100, 0x8000, 0xFFFF};

    for (const struct road *each = by_roads; each < by_roads + ROADS; each++)
        for (size_t i = 0; i < 2 * sizeof before / sizeof *before; i++) {
            const uint8_t rep = i % 2 == 0 ? 0 : HATCHYARN_MODE_REP;
            const uint16_t stood = before[i / 2];
            uint16_t lent[] = {0xA5A5, 0xA5A5, stood, (uint16_t)~stood, 0xA5A5, 0xA5A5};
            struct hatchyarn_answer a;

            expect(hatchyarn_roads(each->mode ^ rep, each->dividend, each->divisor, &lent[2]) == each->status
                       && lent[2] == each->shifted_out && lent[3] == each->no_borrow, each->words);
            expect(lent[0] == 0xA5A5 && lent[1] == 0xA5A5 && lent[4] == 0xA5A5 && lent[5] == 0xA5A5, each->words);
            expect(hatchyarn_ask(HATCHYARN_OP_DIVIDE, each->mode ^ rep, i % 3 == 0 ? 0x08D5 : 0, each->dividend,
                                 each->divisor, &a) == each->status, each->words);
        }
}

/* The two divides that take different steps, though both quotients are 1: what differs is the ones by no borrow. */
static void explained(void)
{
    static const uint16_t two[][3] = {{0x00FF, 0xFF, 80}, {0x0100, 0xC8, 79}};

    for (size_t i = 0; i < 2; i++) {
        struct hatchyarn_answer a;
        uint16_t lent[2];

        expect(hatchyarn_ask(HATCHYARN_OP_DIVIDE, HATCHYARN_MODE_BYTE, 0, two[i][0], two[i][1], &a) == HATCHYARN_DONE
                   && a.r == 1 && a.steps == two[i][2], "a divide whose quotient is 1");
        expect(hatchyarn_roads(HATCHYARN_MODE_BYTE, two[i][0], two[i][1], lent) == HATCHYARN_DONE
                   && lent[0] + lent[1] == 1 && a.steps == 77 + lent[1] + 2, "why it takes its steps");
    }
}

/* Operations over a register record: what is told of each, and the record before it and after. */
static const struct operation {
    const char *words;
    uint8_t op, mode;
    uint16_t y;
    uint8_t status;
    uint16_t steps;
    struct hatchyarn_register_record before, after;
} operations[] = {
    {"0007 / 02", 0x11, 0x00, 2, HATCHYARN_DONE, 81,
     {0x0007, 0xBEEF, 0x0000, 0}, {0x0103, 0xBEEF, 0x0001, 81}},
    {"signed FFF9 / 02", 0x11, 0x02, 2, HATCHYARN_DONE, 106,
     {0xFFF9, 0xBEEF, 0x08D5, 81}, {0xFFFD, 0xBEEF, 0x0000, 187}},
    {"06260060 / 5678", 0x11, 0x01, 0x5678, HATCHYARN_DONE, 146,
     {0x0060, 0x0626, 0x0801, 119}, {0x1234, 0x0000, 0x0095, 265}},
    {"signed FFFFFFF9 / 0002", 0x11, 0x03, 2, HATCHYARN_DONE, 170,
     {0xFFF9, 0xFFFF, 0x0000, 0}, {0xFFFD, 0xFFFF, 0x0000, 170}},
    {"signed 80 x 80 under REP", 0x10, 0x06, 0x80, HATCHYARN_DONE, 89,
     {0x1280, 0xBEEF, 0x0000, 5}, {0xC000, 0xBEEF, 0x0885, 94}},
    {"1234 x 5678", 0x10, 0x01, 0x5678, HATCHYARN_DONE, 119,
     {0x1234, 0xBEEF, 0x0000, 0}, {0x0060, 0x0626, 0x0801, 119}},
    {"AAA", 0x18, 0x00, 0, HATCHYARN_DONE, 6,
     {0x00FA, 0xBEEF, 0x0000, 7}, {0x0100, 0xBEEF, 0x0055, 13}},
    {"AAS", 0x19, 0x00, 0, HATCHYARN_DONE, 6,
     {0x0200, 0xBEEF, 0x0010, 7}, {0x010A, 0xBEEF, 0x0095, 13}},
    {"AAD", 0x1A, 0x00, 10, HATCHYARN_DONE, 58,
     {0x0305, 0xBEEF, 0x0000, 7}, {0x0023, 0xBEEF, 0x0000, 65}},
    {"DAA", 0x1B, 0x00, 0, HATCHYARN_DONE, 0,
     {0x129A, 0xBEEF, 0x0000, 7}, {0x1200, 0xBEEF, 0x0055, 7}},
    {"DAS", 0x1C, 0x00, 0, HATCHYARN_DONE, 0,
     {0x1200, 0xBEEF, 0x0011, 7}, {0x129A, 0xBEEF, 0x0095, 7}},

    /* refused divides: AX and DX stay, and the flags handed in do not show */
    {"0007 / 00", 0x11, 0x00, 0, HATCHYARN_ZERO_DIVISOR, 9,
     {0x0007, 0xBEEF, 0x08D5, 81}, {0x0007, 0xBEEF, 0x0044, 90}},
    {"00020000 / 0002", 0x11, 0x01, 2, HATCHYARN_TOO_WIDE, 9,
     {0x0000, 0x0002, 0x08D5, 0}, {0x0000, 0x0002, 0x0044, 9}},
    {"signed FF80 / 01", 0x11, 0x02, 1, HATCHYARN_SIGN_RANGE, 95,
     {0xFF80, 0xBEEF, 0x0040, 111}, {0xFF80, 0xBEEF, 0x0014, 206}},

    /* up to the end of the total */
    {"a total of 4294967295", 0x11, 0x00, 2, HATCHYARN_DONE, 81,
     {0x0007, 0xBEEF, 0x0000, UINT32_MAX - 81}, {0x0103, 0xBEEF, 0x0001, UINT32_MAX}},
    {"a refused divide up to that", 0x11, 0x00, 0, HATCHYARN_ZERO_DIVISOR, 9,
     {0x0007, 0xBEEF, 0x0000, UINT32_MAX - 9}, {0x0007, 0xBEEF, 0x0044, UINT32_MAX}},
    {"DAA with a full total", 0x1B, 0x00, 0, HATCHYARN_DONE, 0,
     {0x009A, 0xBEEF, 0x0010, UINT32_MAX}, {0x00A0, 0xBEEF, 0x0094, UINT32_MAX}},
};
enum { OPERATIONS = sizeof operations / sizeof *operations };

/* Those that leave the record as it was. */
static const struct operation left[] = {
    {"a total past 4294967295", 0x11, 0x00, 2, HATCHYARN_TOTAL_FULL, 0, {0x0007, 0xBEEF, 0x0040, UINT32_MAX - 80}, {0}},
    {"a refused divide past that", 0x11, 0x00, 0, HATCHYARN_TOTAL_FULL, 0, {0x0007, 0xBEEF, 0x0001, UINT32_MAX - 8}, {0}},
    {"AAA with a full total", 0x18, 0x00, 0, HATCHYARN_TOTAL_FULL, 0, {0x00FA, 0xBEEF, 0x0000, UINT32_MAX}, {0}},

    /* each of the others alone, and with all later ones beside it */
    {"ADD", 0x00, 0x00, 1, HATCHYARN_BAD_OP, 0, {0x0007, 0xBEEF, 0x0000, 5}, {0}},
    {"op 12, and all else", 0x12, 0x08, 0xFFFF, HATCHYARN_BAD_OP, 0, {0x0007, 0xBEEF, 0x0002, UINT32_MAX}, {0}},
    {"AAA at 16 bits", 0x18, 0x01, 0, HATCHYARN_BAD_MODE, 0, {0x00FA, 0xBEEF, 0x0000, 5}, {0}},
    {"mode 08, and all else", 0x11, 0x08, 0x0100, HATCHYARN_BAD_MODE, 0, {0x0007, 0xBEEF, 0x0002, UINT32_MAX}, {0}},
    {"flags 0002, and all else", 0x11, 0x00, 0, HATCHYARN_TOO_LARGE, 0, {0x0007, 0xBEEF, 0x0002, UINT32_MAX}, {0}},
    {"a divisor of 9 bits", 0x11, 0x02, 0x0102, HATCHYARN_TOO_LARGE, 0, {0x0007, 0xBEEF, 0x0000, 5}, {0}},
    {"a factor of 9 bits", 0x10, 0x04, 0x0102, HATCHYARN_TOO_LARGE, 0, {0x0007, 0xBEEF, 0x0000, 5}, {0}},
    {"AAD's byte of 9 bits", 0x1A, 0x00, 0x010A, HATCHYARN_TOO_LARGE, 0, {0x0305, 0xBEEF, 0x0000, 5}, {0}},
    {"Y of DAS", 0x1C, 0x00, 1, HATCHYARN_TOO_LARGE, 0, {0x1200, 0xBEEF, 0x0011, 5}, {0}},
};
enum { LEFT = sizeof left / sizeof *left };

static bool same(const struct hatchyarn_register_record *x, const struct hatchyarn_register_record *y)
{
    return x->ax == y->ax && x->dx == y->dx && x->flags == y->flags && x->total == y->total;
}

/* By five numbers that lie between guards. */
static void by_numbers(const struct operation *each, const struct hatchyarn_register_record *after)
{
    const struct hatchyarn_register_record *was = &each->before;
    uint16_t words[] = {0xA5A5, was->ax, 0xA5A5, was->dx, 0xA5A5, was->flags, 0xA5A5, 0xFFFF, 0xA5A5};
    uint32_t totals[] = {0xA5A5A5A5, was->total, 0xA5A5A5A5};
    uint8_t status = hatchyarn_registers(each->op, each->mode, each->y, &words[1], &words[3], &words[5], &totals[1],
                                         &words[7]);
    const struct hatchyarn_register_record is = {words[1], words[3], words[5], totals[1]};

    expect(status == each->status && words[7] == each->steps && same(&is, after), each->words);
    expect(totals[0] == 0xA5A5A5A5 && totals[2] == 0xA5A5A5A5, each->words);
    for (size_t i = 0; i < sizeof words / sizeof *words; i += 2)
        expect(words[i] == 0xA5A5, each->words);
}

/* Over a record that lies between two others. */
static void over_a_record(const struct operation *each, const struct hatchyarn_register_record *after)
{
    const struct hatchyarn_register_record guard = {0xA5A5, 0xA5A5, 0xA5A5, 0xA5A5A5A5};
    struct hatchyarn_register_record lent[] = {guard, each->before, guard};
    uint16_t steps[] = {0xA5A5, 0xFFFF, 0xA5A5};

    expect(hatchyarn_operate(&lent[1], each->op, each->mode, each->y, &steps[1]) == each->status
               && steps[1] == each->steps && same(&lent[1], after), each->words);
    expect(same(&lent[0], &guard) && same(&lent[2], &guard) && steps[0] == 0xA5A5 && steps[2] == 0xA5A5, each->words);
}

static void registers(void)
{
    for (const struct operation *each = operations; each < operations + OPERATIONS; each++) {
        by_numbers(each, &each->after);
        over_a_record(each, &each->after);
    }
    for (const struct operation *each = left; each < left + LEFT; each++) {
        by_numbers(each, &each->before);
        over_a_record(each, &each->before);
    }
}

/* What an operation does not change it does not write: these numbers stand in memory that cannot be written, so that a
   write ends this program by a signal. After a refused divide AX and DX are among them, and else all four. */
static const struct hatchyarn_register_record sealed = {0x0007, 0xBEEF, HATCHYARN_FLAG_C, UINT32_MAX};

static uint8_t over_sealed(uint8_t op, uint8_t mode, uint16_t y)
{
    uint16_t steps;

    return hatchyarn_operate((struct hatchyarn_register_record *)&sealed, op, mode, y, &steps);
}

static void not_written(void)
{
    uint16_t flags = 0, steps;
    uint32_t total = 0;

    expect(over_sealed(0x00, HATCHYARN_MODE_BYTE, 0) == HATCHYARN_BAD_OP, "a sealed record under a wrong op");
    expect(over_sealed(HATCHYARN_OP_DIVIDE, 8, 2) == HATCHYARN_BAD_MODE, "a sealed record under a wrong mode");
    expect(over_sealed(HATCHYARN_OP_DIVIDE, HATCHYARN_MODE_BYTE, 0x100) == HATCHYARN_TOO_LARGE,
           "a sealed record under a divisor too large");
    expect(over_sealed(HATCHYARN_OP_DIVIDE, HATCHYARN_MODE_BYTE, 2) == HATCHYARN_TOTAL_FULL,
           "a sealed record with a full total");
    expect(hatchyarn_registers(HATCHYARN_OP_DIVIDE, HATCHYARN_MODE_BYTE, 0, (uint16_t *)&sealed.ax,
                               (uint16_t *)&sealed.dx, &flags, &total, &steps) == HATCHYARN_ZERO_DIVISOR
               && flags == (HATCHYARN_FLAG_P | HATCHYARN_FLAG_Z) && total == 9,
           "sealed AX and DX under a refused divide");
}

/* A session from a fresh record: AX is stored anew between two operations, one divide is refused, and the total is the
   sum of the steps. When it is full it is noted and begun again. */
static void a_session(void)
{
    struct hatchyarn_register_record record = {0xFF81, 0xBEEF, 0, 0};
    const uint8_t signed8 = HATCHYARN_MODE_BYTE | HATCHYARN_MODE_SIGNED;
    uint16_t steps;

    expect(hatchyarn_operate(&record, HATCHYARN_OP_DIVIDE, signed8, 1, &steps) == HATCHYARN_DONE && steps == 111
               && record.ax == 0x0081 && record.total == 111, "the first divide of a session");
    record.ax = 0xFF80;
    expect(hatchyarn_divide_refused(hatchyarn_operate(&record, HATCHYARN_OP_DIVIDE, signed8, 1, &steps)) && steps == 95
               && record.ax == 0xFF80 && record.dx == 0xBEEF && record.total == 206, "the refused divide of a session");
    expect(hatchyarn_operate(&record, HATCHYARN_OP_MULTIPLY, HATCHYARN_MODE_WORD, 2, &steps) == HATCHYARN_DONE
               && record.dx == 1 && record.ax == 0xFF00 && record.total == 206U + steps, "the multiply of a session");
    record.total = UINT32_MAX;
    uint8_t full = hatchyarn_operate(&record, HATCHYARN_OP_DIVIDE, HATCHYARN_MODE_WORD, 2, &steps);
    expect(full == HATCHYARN_TOTAL_FULL && !hatchyarn_divide_refused(full) && steps == 0 && record.dx == 1
               && record.ax == 0xFF00 && record.total == UINT32_MAX, "the full total of a session");
    record.total = 0;
    expect(hatchyarn_operate(&record, HATCHYARN_OP_DIVIDE, HATCHYARN_MODE_WORD, 2, &steps) == HATCHYARN_DONE
               && record.ax == 0xFF80 && record.dx == 0 && steps > 0 && record.total == steps, "a session begun again");
}

/* A loan from day 738123, of 28 days, to day 738151. */
static const uint8_t day[] = {0x23, 0x81, 0x73}, days[] = {0x28, 0x00, 0x00}, due[] = {0x51, 0x81, 0x73};

static void packed_sums(void)
{
    uint8_t nines[HATCHYARN_PACKED_BYTES], zeros[HATCHYARN_PACKED_BYTES] = {0};
    uint8_t out[HATCHYARN_PACKED_BYTES + 1], carry = '?';

    memset(nines, 0x99, sizeof nines);
    memset(out, '?', sizeof out);
    expect(hatchyarn_packed_add(day, 3, days, 3, false, out, sizeof out, &carry) == HATCHYARN_PACKED_DONE
               && memcmp(out, due, 3) == 0 && out[3] == '?' && carry == 0, "738123 + 28");
    memset(out, '?', sizeof out);
    expect(hatchyarn_packed_subtract(due, 3, day, 3, false, out, 3, &carry) == HATCHYARN_PACKED_DONE
               && memcmp(out, days, 3) == 0 && out[3] == '?' && carry == 0, "738151 - 738123");
    expect(hatchyarn_packed_add(nines, 32, nines, 32, true, out, 32, &carry) == HATCHYARN_PACKED_DONE
               && memcmp(out, nines, 32) == 0 && out[32] == '?' && carry == 1,
           "a number and itself, with a carry in and out");
    expect(hatchyarn_packed_subtract(zeros, 32, zeros, 32, true, out, sizeof out, &carry) == HATCHYARN_PACKED_DONE
               && memcmp(out, nines, 32) == 0 && out[32] == '?' && carry == 1, "0 - 0, with a borrow in and out");
}

/* 1234 + 8766 and 10000 - 8766, at once and in pieces of a byte, with the carry or borrow of each given to the next. */
static void packed_pieces(void)
{
    const uint8_t x[] = {0x34, 0x12, 0x00}, y[] = {0x66, 0x87, 0x00}, sum[] = {0x00, 0x00, 0x01};
    uint8_t out[3], carry = '?';

    expect(hatchyarn_packed_add(x, 3, y, 3, false, out, 3, &carry) == HATCHYARN_PACKED_DONE
               && memcmp(out, sum, 3) == 0 && carry == 0, "1234 + 8766");
    expect(hatchyarn_packed_subtract(sum, 3, y, 3, false, out, 3, &carry) == HATCHYARN_PACKED_DONE
               && memcmp(out, x, 3) == 0 && carry == 0, "10000 - 8766");
    for (size_t i = 0; i < 3; i++)
        expect(hatchyarn_packed_add(x + i, 1, y + i, 1, carry, out + i, 1, &carry) == HATCHYARN_PACKED_DONE
                   && carry == (i < 2), "a piece of a sum");
    expect(memcmp(out, sum, 3) == 0, "a sum in pieces");
    for (size_t i = 0; i < 3; i++)
        expect(hatchyarn_packed_subtract(sum + i, 1, y + i, 1, carry, out + i, 1, &carry) == HATCHYARN_PACKED_DONE
                   && carry == (i < 2), "a piece of a difference");
    expect(memcmp(out, x, 3) == 0, "a difference in pieces");
}

/* Both functions refuse with this status, and write nothing. */
static void refuses(const uint8_t *x, size_t x_length, const uint8_t *y, size_t y_length, size_t room, uint8_t status,
                    const char *what)
{
    uint8_t out[HATCHYARN_PACKED_BYTES + 1], untouched[sizeof out], carry = '?', borrow = '?';

    memset(out, '?', sizeof out);
    memset(untouched, '?', sizeof untouched);
    expect(hatchyarn_packed_add(x, x_length, y, y_length, true, out, room, &carry) == status, what);
    expect(hatchyarn_packed_subtract(x, x_length, y, y_length, true, out, room, &borrow) == status, what);
    expect(memcmp(out, untouched, sizeof out) == 0 && carry == '?' && borrow == '?', what);
}

/* Each refusal alone, and then with all later ones beside it. */
static void packed_refusals(void)
{
    const uint8_t upper[] = {0x00, 0xA0}, lower[] = {0x00, 0x0A};
    uint8_t zeros[HATCHYARN_PACKED_BYTES + 1] = {0}, hexadecimal[HATCHYARN_PACKED_BYTES + 1] = {0xFF}, carry = '?';

    refuses(day, 3, days, 2, 3, HATCHYARN_PACKED_LENGTHS_DIFFER, "three bytes and two");
    refuses(NULL, 0, NULL, 0, 33, HATCHYARN_PACKED_BAD_LENGTH, "no byte at no place");
    refuses(zeros, 33, zeros, 33, 33, HATCHYARN_PACKED_BAD_LENGTH, "33 bytes");
    refuses(upper, 2, days, 2, 2, HATCHYARN_PACKED_BAD_DIGIT, "an upper digit over 9 in x");
    refuses(days, 2, lower, 2, 2, HATCHYARN_PACKED_BAD_DIGIT, "a lower digit over 9 in y");
    refuses(day, 3, days, 3, 2, HATCHYARN_PACKED_NO_ROOM, "three bytes and room for two");
    expect(hatchyarn_packed_add(day, 3, days, 3, false, NULL, 0, &carry) == HATCHYARN_PACKED_NO_ROOM
               && carry == '?', "a sum and room at no place");

    refuses(hexadecimal, 33, days, 0, 0, HATCHYARN_PACKED_LENGTHS_DIFFER, "33 bytes and none, a digit, no room");
    refuses(hexadecimal, 33, zeros, 33, 0, HATCHYARN_PACKED_BAD_LENGTH, "33 bytes, a digit, no room");
    refuses(hexadecimal, 32, zeros, 32, 31, HATCHYARN_PACKED_BAD_DIGIT, "a digit, no room");
}

/* Answer lines and how each is read: into these numbers, or refused. */
static const struct written {
    const char *line;
    uint8_t status;
    struct hatchyarn_record record;
} written[] = {
    {"000001005100030001", HATCHYARN_READ_DONE, {0, 0x0001, 81, 3, 1}},
    {"0008D5FFFFABCDEF98", HATCHYARN_READ_DONE, {0, 0x08D5, 0xFFFF, 0xABCD, 0xEF98}},
    {"0008d5ffffaBcDeF98", HATCHYARN_READ_DONE, {0, 0x08D5, 0xFFFF, 0xABCD, 0xEF98}},
    {"010000000000000000", HATCHYARN_READ_DONE, {HATCHYARN_BAD_LENGTH, 0, 0, 0, 0}},
    {"020000000000000000", HATCHYARN_READ_DONE, {HATCHYARN_BAD_DIGIT, 0, 0, 0, 0}},
    {"030000000000000000", HATCHYARN_READ_DONE, {HATCHYARN_BAD_OP, 0, 0, 0, 0}},
    {"040000000000000000", HATCHYARN_READ_DONE, {HATCHYARN_BAD_MODE, 0, 0, 0, 0}},
    {"050000000000000000", HATCHYARN_READ_DONE, {HATCHYARN_TOO_LARGE, 0, 0, 0, 0}},
    {"060044000900000000", HATCHYARN_READ_DONE, {HATCHYARN_ZERO_DIVISOR, 0x0044, 9, 0, 0}},
    {"080810001700000000", HATCHYARN_READ_DONE, {HATCHYARN_TOO_WIDE, 0x0810, 23, 0, 0}},
    {"0908D5FFFF00000000", HATCHYARN_READ_DONE, {HATCHYARN_SIGN_RANGE, 0x08D5, 0xFFFF, 0, 0}},

    {"0", HATCHYARN_READ_BAD_LENGTH, {0}},
    {"00000100510003000", HATCHYARN_READ_BAD_LENGTH, {0}},
    {"000001005100030001\r", HATCHYARN_READ_BAD_LENGTH, {0}},
    {"G00001005100030001", HATCHYARN_READ_BAD_DIGIT, {0}},
    {"00000100510003000g", HATCHYARN_READ_BAD_DIGIT, {0}},
    {"000001/05100030001", HATCHYARN_READ_BAD_DIGIT, {0}},
    {"000001:05100030001", HATCHYARN_READ_BAD_DIGIT, {0}},
    {"000001@05100030001", HATCHYARN_READ_BAD_DIGIT, {0}},
    {"000001`05100030001", HATCHYARN_READ_BAD_DIGIT, {0}},
    {"000001\37705100030001", HATCHYARN_READ_BAD_DIGIT, {0}},
    {"070000000000000000", HATCHYARN_READ_BAD_STATUS, {0}},
    {"0A0000000000000000", HATCHYARN_READ_BAD_STATUS, {0}},
    {"100000000000000000", HATCHYARN_READ_BAD_STATUS, {0}},
    {"FF0000000000000000", HATCHYARN_READ_BAD_STATUS, {0}},
    {"000002000000000000", HATCHYARN_READ_BAD_FLAGS, {0}},
    {"09F72A000000000000", HATCHYARN_READ_BAD_FLAGS, {0}},
    {"010001000000000000", HATCHYARN_READ_NOT_ZERO, {0}},
    {"020000000100000000", HATCHYARN_READ_NOT_ZERO, {0}},
    {"030000000010000000", HATCHYARN_READ_NOT_ZERO, {0}},
    {"050000000000000001", HATCHYARN_READ_NOT_ZERO, {0}},
    {"060044000900010000", HATCHYARN_READ_NOT_ZERO, {0}},
    {"080044000900001000", HATCHYARN_READ_NOT_ZERO, {0}},
    {"090044000980000001", HATCHYARN_READ_NOT_ZERO, {0}},

    /* each with all later ones beside it */
    {"07F72A00010001000G0", HATCHYARN_READ_BAD_LENGTH, {0}},
    {"07F72A00010001000G", HATCHYARN_READ_BAD_DIGIT, {0}},
    {"07F72A000100010001", HATCHYARN_READ_BAD_STATUS, {0}},
    {"05F72A000100010001", HATCHYARN_READ_BAD_FLAGS, {0}},
};
enum { WRITTEN = sizeof written / sizeof *written };

/* What is lent to a reader, with numbers around each that must stay. */
struct lent {
    size_t before, place, between, start, after;
    struct hatchyarn_record left, record, right;
};

static const struct hatchyarn_record nothing_read = {0xA5A5, 0xA5A5, 0xA5A5, 0xA5A5, 0xA5A5};

static struct lent lend(size_t place)
{
    return (struct lent){99, place, 99, 99, 99, nothing_read, nothing_read, nothing_read};
}

static bool alike(const struct hatchyarn_record *x, const struct hatchyarn_record *y)
{
    return x->status == y->status && x->flags == y->flags && x->steps == y->steps && x->r == y->r && x->s == y->s;
}

/* Whether the place, the start and the record are these, and all around them is as it was. */
static bool holds(const struct lent *lent, size_t place, size_t start, const struct hatchyarn_record *record)
{
    return lent->place == place && lent->start == start && alike(&lent->record, record) && lent->before == 99
           && lent->between == 99 && lent->after == 99 && alike(&lent->left, &nothing_read)
           && alike(&lent->right, &nothing_read);
}

static uint8_t read_next(const char *text, size_t length, struct lent *lent)
{
    return hatchyarn_next_answer((const uint8_t *)text, length, &lent->place, &lent->record, &lent->start);
}

/* Each line alone, and as a text with a line feed and without. */
static void lines_read(void)
{
    for (const struct written *each = written; each < written + WRITTEN; each++) {
        const struct hatchyarn_record *wanted = each->status == HATCHYARN_READ_DONE ? &each->record : &nothing_read;
        size_t length = strlen(each->line);
        char text[32];
        struct lent lent = lend(99);

        expect(hatchyarn_read_answer((const uint8_t *)each->line, length, &lent.record) == each->status
                   && holds(&lent, 99, 99, wanted), each->line);
        lent = lend(0);
        expect(read_next(each->line, length, &lent) == each->status && holds(&lent, length, 0, wanted), each->line);
        strcat(strcpy(text, each->line), "\n");
        lent = lend(0);
        expect(read_next(text, length + 1, &lent) == each->status && holds(&lent, length + 1, 0, wanted), each->line);
    }
    struct lent lent = lend(99);
    expect(hatchyarn_read_answer(NULL, 0, &lent.record) == HATCHYARN_READ_BAD_LENGTH
               && holds(&lent, 99, 99, &nothing_read), "an answer at no place");
    expect(hatchyarn_read_answer((const uint8_t *)answers, 19, &lent.record) == HATCHYARN_READ_BAD_LENGTH
               && holds(&lent, 99, 99, &nothing_read), "an answer with its line feed");
    expect(hatchyarn_read_answer((const uint8_t *)answers, 18, &lent.record) == HATCHYARN_READ_DONE
               && holds(&lent, 99, 99, &written[0].record), "an answer without its line feed");
}

/* Each bit of the flags word and each status, after which the rest is 0. */
static void fields_read(void)
{
    char line[19];

    for (unsigned bit = 0; bit < 16; bit++) {
        struct lent lent = lend(99);
        bool flag = 0x08D5 >> bit & 1;
        const struct hatchyarn_record wanted = {0, (uint16_t)(1U << bit), 0, 0, 0};

        snprintf(line, sizeof line, "00%04X000000000000", 1U << bit);
        expect(hatchyarn_read_answer((const uint8_t *)line, 18, &lent.record)
                       == (flag ? HATCHYARN_READ_DONE : HATCHYARN_READ_BAD_FLAGS)
                   && holds(&lent, 99, 99, flag ? &wanted : &nothing_read), line);
    }
    for (unsigned status = 0; status <= UINT8_MAX; status++) {
        struct lent lent = lend(99);
        bool known = status <= 9 && status != 7;
        const struct hatchyarn_record wanted = {(uint16_t)status, 0, 0, 0, 0};

        snprintf(line, sizeof line, "%02X0000000000000000", status);
        expect(hatchyarn_read_answer((const uint8_t *)line, 18, &lent.record)
                       == (known ? HATCHYARN_READ_DONE : HATCHYARN_READ_BAD_STATUS)
                   && holds(&lent, 99, 99, known ? &wanted : &nothing_read), line);
    }
}

/* A text is at its end from this place on: everything stays. */
static void ends(const char *text, size_t length, size_t place, const char *what)
{
    struct lent lent = lend(place);
    expect(read_next(text, length, &lent) == HATCHYARN_READ_END && holds(&lent, place, 99, &nothing_read), what);
    expect(read_next(text, length, &lent) == HATCHYARN_READ_END && holds(&lent, place, 99, &nothing_read), what);
}

/* All lines that can be read and cannot, in one text: as many calls as lines, and one more. */
static void texts_read(void)
{
    char text[WRITTEN * 20 + 1] = "";
    struct lent lent = lend(0);
    size_t start = 0, length;

    for (size_t i = 0; i < WRITTEN; i++)
        strcat(strcat(text, i == 0 ? "" : "\n"), written[i].line);
    length = strlen(text);
    for (const struct written *each = written; each < written + WRITTEN; each++) {
        size_t past = start + strlen(each->line) + (each + 1 < written + WRITTEN);
        lent.record = nothing_read;
        expect(read_next(text, length, &lent) == each->status
                   && holds(&lent, past, start, each->status == HATCHYARN_READ_DONE ? &each->record : &nothing_read),
               each->line);
        start = past;
    }
    expect(lent.place == length, "a text read to its end");
    ends(text, length, length, "the end of a text");
    ends(text, length, length + 1, "a place past a text");
    ends(text, length, SIZE_MAX, "the last place that there is");
    ends("", 0, 0, "an empty text");
    ends(NULL, 0, 0, "a text at no place");
    ends(NULL, 0, SIZE_MAX, "no text and the last place");

    lent = lend(0);
    for (size_t i = 0; i < 3; i++)
        expect(read_next("\n\n\n", 3, &lent) == HATCHYARN_READ_BAD_LENGTH && holds(&lent, i + 1, i, &nothing_read),
               "an empty line");
    ends("\n\n\n", 3, 3, "the end of empty lines");
    lent = lend(2);
    expect(read_next(text, length, &lent) == HATCHYARN_READ_BAD_LENGTH && holds(&lent, 19, 2, &nothing_read),
           "a place within a line");
    lent = lend(0);
    expect(read_next(answers, 18, &lent) == HATCHYARN_READ_DONE && holds(&lent, 18, 0, &written[0].record),
           "a text that is cut before a line feed");
    ends(answers, 18, 18, "the end of a text that is cut");
}

/* What a run writes is read back, the same divide refused. */
static void answers_read(void)
{
    const struct hatchyarn_record trap = {HATCHYARN_SIGN_RANGE, HATCHYARN_FLAG_A | HATCHYARN_FLAG_P, 95, 0, 0};
    uint8_t out[2 * HATCHYARN_ANSWER_BYTES];
    struct lent lent = lend(0);
    size_t used;

    expect(hatchyarn_run((const uint8_t *)session, strlen(session), out, sizeof out, true, &used) == 2, "a session");
    expect(read_next((const char *)out, sizeof out, &lent) == HATCHYARN_READ_DONE
               && holds(&lent, 19, 0, &written[0].record), "the first answer of a session");
    expect(read_next((const char *)out, sizeof out, &lent) == HATCHYARN_READ_DONE && holds(&lent, 38, 19, &trap)
               && hatchyarn_divide_refused((uint8_t)lent.record.status), "the second answer of a session");
    expect(read_next((const char *)out, sizeof out, &lent) == HATCHYARN_READ_END && holds(&lent, 38, 19, &trap),
           "the end of a session");
}

int main(void)
{
    asks();
    lines();
    runs();
    refusals();
    closed();
    would_trap();
    roads();
    explained();
    registers();
    not_written();
    a_session();
    packed_sums();
    packed_pieces();
    packed_refusals();
    lines_read();
    fields_read();
    texts_read();
    answers_read();
    if (!failed)
        puts("calls: ok");
    return failed;
}
