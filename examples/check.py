"""Checks messages over the shared library: check.py TABLE MESSAGE..  `make examples` runs it on samples/."""
import ctypes, pathlib, sys

class Verdict(ctypes.Structure):
    _fields_ = [("number", ctypes.c_uint32), ("place", ctypes.c_uint64)]

SLICE = ctypes.c_char_p, ctypes.c_size_t
check = ctypes.CDLL("libblink_native.so.0").blink_check_message
check.argtypes, check.restype = [*SLICE, *SLICE, ctypes.c_uint16, *SLICE, *SLICE], Verdict
table, scratch = pathlib.Path(sys.argv[1]).read_bytes(), ctypes.create_string_buffer(65536)
for name in sys.argv[2:]:
    message = pathlib.Path(name).read_bytes()
    verdict = check(table, len(table), None, 0, 0, message, len(message), scratch, len(scratch))
    print(f"{name}: refused, fault {verdict.number} at byte {verdict.place}" if verdict.number else f"{name}: accepted")
