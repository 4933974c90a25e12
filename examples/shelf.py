#!/usr/bin/env python3
"""shelf: where an object stands, as shelf.c says it, from Python.

  python3 shelf.py [--why] KEY NUMBER      both hexadecimal: a key of 16 bits, a community's number of 8

Where the chip refuses the divide the object is closed; --why also says why it is.

Calls libhatchyarn.so, made as README.md says under 'Other languages', in the folder that
HATCHYARN_LIB_DIR names or else in the one that this is started from.
"""
import ctypes
import os
import re
import sys

# of hatchyarn.h: hatchyarn_op, hatchyarn_mode, hatchyarn_status
OP_DIVIDE = 0x11
MODE_SIGNED = 0x02
DONE, ZERO_DIVISOR, TOO_WIDE, SIGN_RANGE = 0, 6, 8, 9

# Why the object is closed, by the status of the refused divide. It is closed whichever of them it is, as
# hatchyarn_divide_refused says it in hatchyarn.h.
REASONS = {
    ZERO_DIVISOR: 'the number is 0',
    TOO_WIDE: 'the key is too large for the number',
    SIGN_RANGE: 'the key is too large for the number, since a shelf has a sign',
}


class Answer(ctypes.Structure):
    """struct hatchyarn_answer"""
    _fields_ = [(name, ctypes.c_uint16) for name in ('flags', 'steps', 'r', 's')]


def load():
    """The function hatchyarn_ask. ctypes cuts a number that is too wide for its parameter, and says nothing."""
    folder = os.environ.get('HATCHYARN_LIB_DIR', os.curdir)
    ask = ctypes.CDLL(os.path.join(folder, 'libhatchyarn.so')).hatchyarn_ask
    ask.restype = ctypes.c_uint8
    ask.argtypes = [ctypes.c_uint8, ctypes.c_uint8, ctypes.c_uint16, ctypes.c_uint32, ctypes.c_uint16,
                    ctypes.POINTER(Answer)]
    return ask


def number(text, most):
    """The number, or None where text is not 1 to `most` hexadecimal digits and nothing else."""
    return int(text, 16) if re.fullmatch(f'[0-9A-Fa-f]{{1,{most}}}', text) else None


def failed(words, status):
    print(words, file=sys.stderr)
    return status


def told(status, answer, why):
    """What the divide says of the object."""
    if status == DONE:
        return f'shelf {answer.r:02X}, keeper {answer.s:02X}'
    return f'closed: {REASONS[status]}' if why else 'closed'


def main(words):
    why = words[:1] == ['--why']
    numbers = words[1:] if why else words
    key, divisor = (number(numbers[0], 4), number(numbers[1], 2)) if len(numbers) == 2 else (None, None)
    if key is None or divisor is None:
        return failed('use: shelf [--why] KEY NUMBER, of 1 to 4 and of 1 or 2 hexadecimal digits', 2)
    try:
        ask = load()
    except OSError as error:
        return failed(f'shelf: the library cannot be loaded: {error}', 1)
    answer = Answer()
    status = ask(OP_DIVIDE, MODE_SIGNED, 0, key, divisor, ctypes.byref(answer))
    if status != DONE and status not in REASONS:
        return failed(f'shelf: the request was refused with status {status}', 1)
    try:
        with open(1, 'w', closefd=False) as out:
            print(told(status, answer, why), file=out)
    except OSError as error:
        return failed(f'shelf: standard output: {error.strerror}', 1)
    return 0


if __name__ == '__main__':
    sys.exit(main(sys.argv[1:]))
