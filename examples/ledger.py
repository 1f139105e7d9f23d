"""Enters each good blank of tapes into a ledger, and writes its lines into a file: ledger.py LEDGER TABLE TAPE..  `make
examples` runs it on samples/."""
import ctypes, pathlib, sys

from tape import SLICE, library, refuse, steps

BLANK = 1  # the type id of the blanks' group
LINE = 64
LINES = 100_000  # room for a shift

class Written(ctypes.Structure):
    _fields_ = [("number", ctypes.c_uint32), ("place", ctypes.c_uint64), ("length", ctypes.c_uint64)]

add_line = library.blink_add_line
add_line.argtypes = [*SLICE, *SLICE, ctypes.c_uint16, *SLICE, *SLICE, ctypes.c_uint64, *SLICE, ctypes.c_uint64]
add_line.restype = Written

output, table = sys.argv[1], pathlib.Path(sys.argv[2]).read_bytes()
ledger, fill = ctypes.create_string_buffer(LINES * LINE), 0
scratch = ctypes.create_string_buffer(65536)
for name in sys.argv[3:]:
    tape = pathlib.Path(name).read_bytes()
    for at, step in steps(table, tape):
        answer = step
        if not step.number:
            message = tape[step.offset:step.offset + step.length]
            answer = add_line(table, len(table), None, 0, 0, message, len(message), scratch, len(scratch),
                              BLANK, ledger, len(ledger), fill)
        if answer.number:
            refuse(name, at, answer)
        else:
            fill = answer.length
for at in range(0, fill, LINE):
    print(ledger[at + 3:at + 3 + ord(ledger[at + 2])].decode())
pathlib.Path(output).write_bytes(ledger[:fill])
print(f"{output}: {fill // LINE} lines")
