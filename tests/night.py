#!/usr/bin/env python3
"""The night of the dusty window, as samples/night.tape: three hundred blanks, of which many barcodes fail their text check.

    python3 tests/night.py > samples/night.tape

Each blank has its own barcode, density and sound speed, so that a line of the ledger shows which blank it is of.
"""
import sys

sys.dont_write_bytecode = True

from blink_bytes import *

BLANK = Table([Group(1, [Field(STRING), Field(U32), Field(U32), Field(ENUMERATION), Field(STRING, optional=True)])], [[0, 1, 2, 3]])
BLANKS = 300
FIRST_DUSTY = 40


def is_dusty(n):
    """Two of three scans fail once the dust has settled."""
    return n >= FIRST_DUSTY and n % 3 != 0


def values(n):
    return ['QZ-2026-11-%04d' % (500 + n), 2500 + n, 5500 + n * 7 % 400, n % 4, 'knot near the edge' if n % 50 == 0 else None]


def message(n):
    """The scan of blank n. Where the window is dusty one byte of the barcode is ff, another one each time."""
    made = bytearray(message_bytes(BLANK, Dynamic(0, values(n))))
    if is_dusty(n):
        made[41 + n % 15] = 0xff
    return bytes(made)


def tape():
    return b''.join(message(n) for n in range(BLANKS))


if __name__ == '__main__':
    sys.stdout.buffer.write(tape())
