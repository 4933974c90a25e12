/*
 * hatchyarn.h - the arithmetic of Intel's 8088, proved.
 *
 * Link with -lhatchyarn. The functions keep no state, allocate nothing and may be called from any
 * number of threads at once. Every request gets an answer: nothing has to be checked before a call.
 *
 * What a pointer leads to must be there: a function reads or writes no more than is said below, and
 * what it writes must not overlap what it reads. A pointer may be null where its length or room is 0.
 */
#ifndef HATCHYARN_H
#define HATCHYARN_H

#include <stdbool.h>
#include <stddef.h>
#include <stdint.h>

#ifdef __cplusplus
extern "C" {
#endif

/*
 * How a request was answered. 7 is tested first, then 1 to 6, 8 and 9; the first that applies is given.
 *
 * 6, 8 and 9 tell why a divide is refused, as the chip traps. N is the divisor's width, 8 or 16; a
 * quotient's magnitude is the quotient without its sign. They exclude each other, and an
 * unsigned divide never gets 9.
 */
enum hatchyarn_status {
    HATCHYARN_DONE = 0,         /* answered as below */
    HATCHYARN_BAD_LENGTH = 1,   /* the line is not 20 bytes long */
    HATCHYARN_BAD_DIGIT = 2,    /* a byte of the line is no hexadecimal digit */
    HATCHYARN_BAD_OP = 3,       /* the op is not listed */
    HATCHYARN_BAD_MODE = 4,     /* the mode does not fit the op */
    HATCHYARN_TOO_LARGE = 5,    /* X or Y is too large, or a bit of the flags word is no flag */
    HATCHYARN_ZERO_DIVISOR = 6, /* the divisor is 0 */
    HATCHYARN_NO_ROOM = 7,      /* there is no room for an answer, and nothing was written */
    HATCHYARN_TOO_WIDE = 8,     /* the quotient's magnitude is 2^N or more, too wide for N bits */
    HATCHYARN_SIGN_RANGE = 9    /* signed, and the quotient's magnitude is from 2^(N-1) to 2^N - 1: it does
                                   not fit with its sign */
};

/*
 * Whether a status is that of a refused divide: true of exactly 6, 8 and 9. Where a refused divide means
 * closed, ask with it and never of one status alone; which of the three it is tells only why. (After
 * HATCHYARN_TOTAL_FULL, which hatchyarn_registers alone gives, nothing is known of a divide: closed too.)
 */
static inline bool hatchyarn_divide_refused(uint8_t status)
{
    return status == HATCHYARN_ZERO_DIVISOR || status == HATCHYARN_TOO_WIDE
           || status == HATCHYARN_SIGN_RANGE;
}

/* What to do. */
enum hatchyarn_op {
    HATCHYARN_OP_ADD = 0x00,
    HATCHYARN_OP_ADC = 0x01,
    HATCHYARN_OP_SUB = 0x02,
    HATCHYARN_OP_SBB = 0x03,
    HATCHYARN_OP_NEG = 0x04,
    HATCHYARN_OP_SHL = 0x05,
    HATCHYARN_OP_SHR = 0x06,
    HATCHYARN_OP_SAR = 0x07,
    HATCHYARN_OP_ROL = 0x08,
    HATCHYARN_OP_ROR = 0x09,
    HATCHYARN_OP_RCL = 0x0A,
    HATCHYARN_OP_RCR = 0x0B,
    HATCHYARN_OP_SHL_AF = 0x0C, /* SHL that also sets A */
    HATCHYARN_OP_MULTIPLY = 0x10,
    HATCHYARN_OP_DIVIDE = 0x11,
    HATCHYARN_OP_AAA = 0x18,
    HATCHYARN_OP_AAS = 0x19,
    HATCHYARN_OP_AAD = 0x1A,
    HATCHYARN_OP_DAA = 0x1B,
    HATCHYARN_OP_DAS = 0x1C
};

/* How to do it; these are added up. */
enum hatchyarn_mode {
    HATCHYARN_MODE_BYTE = 0x00,
    HATCHYARN_MODE_WORD = 0x01,   /* sixteen bits; not for AAA to DAS */
    HATCHYARN_MODE_SIGNED = 0x02, /* multiply and divide alone */
    HATCHYARN_MODE_REP = 0x04     /* a REP prefix: a product or signed quotient is negated; as above */
};

/* The bits of a flags word. */
enum hatchyarn_flag {
    HATCHYARN_FLAG_C = 0x0001,
    HATCHYARN_FLAG_P = 0x0004,
    HATCHYARN_FLAG_A = 0x0010,
    HATCHYARN_FLAG_Z = 0x0040,
    HATCHYARN_FLAG_S = 0x0080,
    HATCHYARN_FLAG_O = 0x0800
};

/* What the operation gives. It sets these flags, and the others are as handed in:
 *
 *   ADD, ADC, SUB, SBB, NEG, SHL_AF              C, O, A
 *   SHL, ROL, ROR, RCL, RCR                      C, O       (a count of 0 clears them, but RCL and
 *   SHR, SAR                                     C           RCR give C back)
 *   unsigned multiply                            C, O
 *   signed multiply, divide, AAA, AAS, DAA, DAS  all six    (a divide whether it is done or refused)
 *   AAD                                          P, Z, S
 *
 * So ADD to SHL_AF are what the chip's ALU does and not whole instructions: the flags P, Z and S of a
 * sum or a shift are left to the caller. They count no steps, and neither do DAA and DAS.
 *
 * After the statuses 3 to 5 all of it is 0. After a refused divide the steps are those up to the trap, r and
 * s are 0, and the flags are those that the handler of the trap finds in the word that the chip pushes; the
 * word's other bits are the caller's. (Over a register record, hatchyarn_registers, AX and DX stay as they
 * were, these flags are stored, and the steps go into the total.) C is clear. A, O, S, Z and P are those of a
 * compare, left side less right:
 *
 *   HATCHYARN_ZERO_DIVISOR, HATCHYARN_TOO_WIDE   the first: the dividend's upper half with the divisor
 *   HATCHYARN_SIGN_RANGE                         the last: X / 2 % Y * 2 + X % 2 with the divisor Y. The
 *                                                dividend X without its last bit is divided, the
 *                                                remainder doubled, and that bit added
 *
 * In a signed divide both operands are taken without their signs. S is bit 15 of the difference, so that it is
 * clear at 8 bits. */
struct hatchyarn_answer {
    uint16_t flags;
    uint16_t steps; /* of the microcode */
    uint16_t r;     /* result, quotient, AX or product; the upper half if that has 32 bits */
    uint16_t s;     /* remainder, or the lower half of such a product; else 0. This is not the flag S */
};

/* The bytes of an answer line, its line feed included. */
#define HATCHYARN_ANSWER_BYTES 19

/*
 * Answers a request given as numbers. X is the left operand, dividend or AX; Y is the right operand,
 * count, divisor or AAD's byte, and 0 where there is none. They are as wide as the work, but that a
 * dividend has twice the width, AX has 16 bits, and counts and AAD's byte have 8. Signed numbers are
 * two's complement.
 *
 * Returns HATCHYARN_DONE, or HATCHYARN_BAD_OP, HATCHYARN_BAD_MODE or HATCHYARN_TOO_LARGE, or of a divide
 * one that hatchyarn_divide_refused is true of; *answer is written whichever it is.
 */
uint8_t hatchyarn_ask(uint8_t op, uint8_t mode, uint16_t flags, uint32_t x, uint16_t y,
                      struct hatchyarn_answer *answer);

/*
 * Whether a divide would trap, for whoever needs that of many divides and nothing else: no quotient is
 * worked out. *trap becomes 0 or 1. It is 0 exactly where hatchyarn_ask, given HATCHYARN_OP_DIVIDE, the same
 * mode and operands and any sum of bits of hatchyarn_flag, returns HATCHYARN_DONE. N is the divisor's width,
 * 8 or 16, and a magnitude is a number without its sign; the divide traps exactly where the dividend's is at least
 *
 *   2^N times the divisor's         unsigned;
 *   2^(N-1) times the divisor's     signed. The most negative dividend has the magnitude 2^(2N-1).
 *
 * So a divisor of 0 always traps. The mode is the sum of bits of hatchyarn_mode. HATCHYARN_MODE_REP may be
 * among them, and changes nothing.
 *
 * Returns the first of these that applies, and *trap is written whichever it is:
 *
 *   HATCHYARN_BAD_MODE     the mode has a bit above 0x04. *trap is 1
 *   HATCHYARN_TOO_LARGE    at 8 bits, the dividend is over 0xFFFF or the divisor over 0xFF; at 16 bits neither
 *                          can be. *trap is 1
 *   HATCHYARN_DONE         else. *trap says whether the divide would trap
 *
 * So whoever looks at *trap alone takes a divide that cannot be asked for closed, and never for open. But a
 * number that is wider than its parameter is cut by C itself, before the call. `trap` must always lead to a
 * byte. examples/list.c, in the sources, tells of each key of a list whether it is closed.
 */
uint8_t hatchyarn_would_trap(uint8_t mode, uint32_t dividend, uint16_t divisor, uint8_t *trap);

/*
 * Which road each one of a quotient came by, for whoever has to explain why two divides take different steps. The
 * chip divides bit by bit, and takes both operands without their signs where the divide is signed. N is the
 * divisor's width, 8 or 16, and there are N rounds. Each shifts what is left so far to the left by one, takes in the
 * dividend's next bit, and goes one of three roads. What has been shifted
 *
 *   is 2^N or more                  a bit is shifted out: the quotient's bit is 1, and no compare is made
 *   else, is at least the divisor   no borrow: the quotient's bit is 1, and the round takes one step more
 *   else                            borrow: the quotient's bit is 0
 *
 * roads[0] becomes how many ones came by a bit shifted out, and roads[1] how many by no borrow. Together they are
 * the ones that the quotient, without its sign, has in binary. roads[0] is always 0 where the divisor, without
 * its sign if the divide is signed, is at most 2^(N-1), and so in every signed divide. The steps of a divide that is
 * done, those that hatchyarn_ask gives, are
 *
 *   13 + 8N + roads[1]           unsigned; 2 more if the quotient is odd;
 *   25 + 8N + roads[1] + signs   signed; 2 more if the quotient is odd. Signs are 7 for a dividend below 0, else
 *                                3, and 5 more for a divisor below 0, else 6.
 *
 * So at 8 bits, unsigned, 00FF / FF takes 77 + 1 + 2 = 80 steps, and 0100 / C8, whose one came by a bit shifted out,
 * 77 + 0 + 2 = 79.
 *
 * The mode is the sum of bits of hatchyarn_mode. HATCHYARN_MODE_REP may be among them, and changes nothing. Flags
 * are not asked for, since a divide does not see them.
 *
 * Returns the first of these that applies, which is what hatchyarn_ask, given HATCHYARN_OP_DIVIDE, the same mode
 * and operands and any sum of bits of hatchyarn_flag, returns:
 *
 *   HATCHYARN_BAD_MODE       the mode has a bit above 0x04. Both are 0
 *   HATCHYARN_TOO_LARGE      at 8 bits, the dividend is over 0xFFFF or the divisor over 0xFF; at 16 bits neither
 *                            can be. Both are 0
 *   HATCHYARN_ZERO_DIVISOR   the divide is refused, as with the next two. Both are 0
 *   HATCHYARN_TOO_WIDE       Both are 0
 *   HATCHYARN_SIGN_RANGE     Both are 0
 *   HATCHYARN_DONE           else. Both are counted
 *
 * roads[0] and roads[1] are always written. A quotient of 0 has no ones, so that 0 and 0 alone do not tell of a
 * refusal: look at what is returned. `roads` must always lead to two numbers. examples/roads.c, in the sources, adds
 * up the steps of divides in words.
 */
uint8_t hatchyarn_roads(uint8_t mode, uint32_t dividend, uint16_t divisor, uint16_t roads[2]);

/* A status that hatchyarn_registers alone gives. No request gets it. */
enum hatchyarn_registers_status {
    HATCHYARN_TOTAL_FULL = 10 /* the total would pass 4,294,967,295, and nothing was changed */
};

/*
 * An operation over registers that remember their steps: AX, DX, a flags word, and a running total. *total is
 * the sum of the steps of all operations since it was 0, refused divides among them. So a session log shows
 * *steps for each operation and *total for all, and adds nothing up. A fresh record has a total of 0, and any AX,
 * DX and flags. Between two operations a program may store any AX, DX and flags, which leaves the total.
 *
 *   op                    reads              Y             stores, beside the flags and the total
 *   MULTIPLY, 8 bits      AL                 the factor    the product in AX
 *   MULTIPLY, 16 bits     AX                 the factor    its upper half in DX, its lower half in AX
 *   DIVIDE, 8 bits        AX                 the divisor   the quotient in AL, the remainder in AH
 *   DIVIDE, 16 bits       DX * 65536 + AX    the divisor   the quotient in AX, the remainder in DX
 *   AAD                   AX                 its byte      AX
 *   AAA, AAS, DAA, DAS    AX                 0             AX
 *
 * AL is the lower byte of AX and AH the upper. DX stays where the table does not name it. Modes are as for
 * hatchyarn_ask. For an op of the table, results, flags, steps and status are those that hatchyarn_ask gives for
 * the same mode, flags and Y, and for X as it is read; but hatchyarn_ask never gives HATCHYARN_TOTAL_FULL.
 *
 * Returns the first of these that applies:
 *
 *   HATCHYARN_BAD_OP         the op is not in the table, as none from ADD to SHL_AF is. The record stays
 *   HATCHYARN_BAD_MODE       the mode has a bit above 0x04, or is not 0 for AAA to DAS. The record stays
 *   HATCHYARN_TOO_LARGE      a bit of *flags is no flag; or Y is over 0xFF at 8 bits and for AAD, or not 0 for
 *                            AAA, AAS, DAA and DAS. The record stays
 *   HATCHYARN_TOTAL_FULL     *total and the steps are over 4,294,967,295 together. The record stays
 *   HATCHYARN_ZERO_DIVISOR   the divide is refused, as with the next two. AX and DX stay
 *   HATCHYARN_TOO_WIDE       AX and DX stay
 *   HATCHYARN_SIGN_RANGE     AX and DX stay
 *   HATCHYARN_DONE           else. The record is stored
 *
 * Where the record stays, AX, DX, the flags and the total are as they were, and *steps is 0. A refused divide
 * leaves AX and DX as they were and stores the flags that hatchyarn_ask gives with the refusal; its steps, those
 * up to the trap, are in *steps and go into the total. *steps is always written.
 *
 * After HATCHYARN_TOTAL_FULL note *total, set it to 0, and do the operation again: nothing was changed. A
 * divide is then neither done nor refused; so where a refused divide means closed, take whatever is not
 * HATCHYARN_DONE for closed. DAA and DAS take 0 steps, and never get it.
 *
 * The five pointers must lead to five different numbers. All but *steps are read, and written in place.
 * examples/session.c, in the sources, keeps the log of a session.
 */
uint8_t hatchyarn_registers(uint8_t op, uint8_t mode, uint16_t y, uint16_t *ax, uint16_t *dx,
                            uint16_t *flags, uint32_t *total, uint16_t *steps);

/* The registers and their total in one place. A fresh one is {ax, dx, flags, 0}. */
struct hatchyarn_register_record {
    uint16_t ax;
    uint16_t dx;
    uint16_t flags; /* the sum of bits of hatchyarn_flag */
    uint32_t total; /* of the steps: 0 in a fresh one, in a saved one as it was saved, and else left alone */
};

/* hatchyarn_registers over such a record. `steps` must not lead into it. */
static inline uint8_t hatchyarn_operate(struct hatchyarn_register_record *record, uint8_t op, uint8_t mode,
                                        uint16_t y, uint16_t *steps)
{
    return hatchyarn_registers(op, mode, y, &record->ax, &record->dx, &record->flags, &record->total, steps);
}

/*
 * Answers one request line of `length` bytes, given without its line feed. Returns the line's status.
 * The first 19 bytes of `out` then hold the answer line and the rest of its `room` bytes are as they
 * were. Where `room` is under 19, returns HATCHYARN_NO_ROOM and writes nothing.
 */
uint8_t hatchyarn_line(const uint8_t *line, size_t length, uint8_t *out, size_t room);

/*
 * Answers the lines of a text of `length` bytes in their order, as many as there is room for at 19
 * bytes each. A last line without a line feed is answered where at_end is true; otherwise it waits
 * for the text that follows. Returns how many lines were answered, and writes to *used how many bytes
 * of the text they are, line feeds included: go on from there. Bytes of `out` after the last answer
 * are as they were.
 *
 * It returns 0, and *used is 0, in three cases, and only one of them is the end:
 *
 *   room is under 19           make room for an answer;
 *   else, length is not 0      the text is the start of a line, and at_end is false: read on behind it;
 *   else                       there is nothing left of this text.
 *
 * In the second case a buffer may be full. If it has at least 22 bytes, its line is then longer than any
 * request, and is answered with status 1 whatever follows: 21 of its bytes are enough to keep, so that
 * it stays too long, and the rest of the buffer, one byte or more, is free to read on.
 * examples/stream.c, in the sources, answers a text of any length in this way.
 */
size_t hatchyarn_run(const uint8_t *text, size_t length, uint8_t *out, size_t room, bool at_end,
                     size_t *used);

/*
 * How a packed addition or subtraction was answered. 20 to 23 are tested in this order; the first that
 * applies is given.
 */
enum hatchyarn_packed_status {
    HATCHYARN_PACKED_DONE = 0,            /* answered as below */
    HATCHYARN_PACKED_LENGTHS_DIFFER = 20, /* the operands' lengths differ */
    HATCHYARN_PACKED_BAD_LENGTH = 21,     /* the operands are not 1 to 32 bytes long */
    HATCHYARN_PACKED_BAD_DIGIT = 22,      /* a digit of an operand is over 9 */
    HATCHYARN_PACKED_NO_ROOM = 23         /* the buffer for the result is shorter than the operands */
};

/* The bytes of the longest operand, which has 64 digits. */
#define HATCHYARN_PACKED_BYTES 32

/*
 * Add and subtract numbers of packed decimal digits: two a byte, the upper digit in the byte's upper half,
 * and the lowest byte first. So 738123 is the bytes 0x23, 0x81, 0x73. Both operands have one length, L, of
 * 1 to 32 bytes; a number that is shorter gets bytes of 0 at its end.
 *
 *   hatchyarn_packed_add        the result is (x + y + carry) mod 10^(2L); *carry_out is 1 where the sum
 *                               is 10^(2L) or more, and else 0
 *   hatchyarn_packed_subtract   the result is (x - y - borrow) mod 10^(2L); *borrow_out is 1 where x is
 *                               less than y + borrow, and else 0
 *
 * Each returns its status. After HATCHYARN_PACKED_DONE the first L bytes of `out` hold the result, and the
 * rest of its `room` bytes are as they were. Every other status is a refusal: nothing is written,
 * *carry_out and *borrow_out included.
 *
 * carry_out and borrow_out must always lead to a byte. That byte, `out` and the operands must be apart, so
 * that no result goes into the place of an operand; but x and y are only read, and may overlap or be the same.
 *
 * Numbers of more than 32 bytes are added or subtracted in pieces, the lowest first: each piece is given
 * the carry or borrow out of the one before it, and that of the last is that of the whole. Where a piece
 * is refused, those before it have been written.
 */
uint8_t hatchyarn_packed_add(const uint8_t *x, size_t x_length, const uint8_t *y, size_t y_length,
                             bool carry, uint8_t *out, size_t room, uint8_t *carry_out);
uint8_t hatchyarn_packed_subtract(const uint8_t *x, size_t x_length, const uint8_t *y, size_t y_length,
                                  bool borrow, uint8_t *out, size_t room, uint8_t *borrow_out);

/*
 * How an answer line was read back. 30 to 34 are tested in this order; the first that applies is given.
 * These are what the two functions below return, and not the status that stands in the line.
 */
enum hatchyarn_read_status {
    HATCHYARN_READ_DONE = 0,        /* read as below */
    HATCHYARN_READ_BAD_LENGTH = 30, /* the line is not 18 bytes long */
    HATCHYARN_READ_BAD_DIGIT = 31,  /* a byte of the line is no hexadecimal digit */
    HATCHYARN_READ_BAD_STATUS = 32, /* the status is not 0 to 6, 8 or 9 */
    HATCHYARN_READ_BAD_FLAGS = 33,  /* a bit of the flags word is no flag */
    HATCHYARN_READ_NOT_ZERO = 34,   /* the status is 1 to 5, and the rest is not all 0; or it is 6, 8 or 9,
                                       and r or s is not 0 */
    HATCHYARN_READ_END = 255        /* there is no line left */
};

/* What an answer line holds: numbers for which none of 30 to 34 applies. */
struct hatchyarn_record {
    uint16_t status; /* one of hatchyarn_status but HATCHYARN_NO_ROOM; it fits in a uint8_t */
    uint16_t flags;  /* the sum of bits of hatchyarn_flag */
    uint16_t steps;  /* as they stand in the line: but for HATCHYARN_READ_NOT_ZERO they are not judged */
    uint16_t r;      /* as in hatchyarn_answer */
    uint16_t s;      /* as in hatchyarn_answer; this is not the flag S */
};

/*
 * Reads one answer line of `length` bytes, given without its line feed, in capitals or small letters.
 * Returns HATCHYARN_READ_DONE with the line's numbers in *record, or 30 to 34 with *record as it was.
 */
uint8_t hatchyarn_read_answer(const uint8_t *line, size_t length, struct hatchyarn_record *record);

/*
 * Reads the next answer line of a text of `length` bytes, the one that starts at *place. A line ends at a
 * line feed, and a last one may lack it. Returns
 *
 *   HATCHYARN_READ_DONE   with the line's numbers in *record;
 *   30 to 34              with *record as it was: the line cannot be read;
 *   HATCHYARN_READ_END    with everything as it was: *place is at the end of the text, or past it.
 *
 * After a line, read or not, *start is the byte where it starts and *place is past it, its line feed
 * included. So a caller starts with a place of 0 and calls until the end. A text takes as many calls as it
 * has lines, and one more:
 *
 *     struct hatchyarn_record record;
 *     size_t place = 0, start;
 *     uint8_t status;
 *
 *     while ((status = hatchyarn_next_answer(text, length, &place, &record, &start)) != HATCHYARN_READ_END)
 *         if (status == HATCHYARN_READ_DONE)
 *             use(&record);
 *         else
 *             refuse(start, status);
 *
 * `place`, `record` and `start` must always lead to something. The three must be apart, and must not
 * overlap the text. examples/differ.c, in the sources, holds the answers of two days to each other.
 */
uint8_t hatchyarn_next_answer(const uint8_t *text, size_t length, size_t *place,
                              struct hatchyarn_record *record, size_t *start);

#ifdef __cplusplus
}
#endif

#endif
