"""Reads tapes, messages end to end, over the shared library: tape.py TABLE TAPE..  `make examples` runs it on samples/."""
import ctypes, pathlib, sys

class Step(ctypes.Structure):
    _fields_ = [("number", ctypes.c_uint32), ("place", ctypes.c_uint64), ("ended", ctypes.c_uint32),
                ("offset", ctypes.c_uint64), ("length", ctypes.c_uint64), ("next", ctypes.c_uint64)]

library = ctypes.CDLL("libblink_native.so.0")
SLICE = ctypes.c_char_p, ctypes.c_size_t
next_message, fault_words = library.blink_next_message, library.blink_fault_words
next_message.argtypes = [*SLICE, *SLICE, ctypes.c_uint16, *SLICE, ctypes.c_uint64, *SLICE]
next_message.restype = Step
fault_words.argtypes, fault_words.restype = [ctypes.c_uint32, *SLICE], ctypes.c_size_t

def words(number):
    room = ctypes.create_string_buffer(256)
    length = fault_words(number, room, len(room))
    return room[:length].decode()

def steps(table, tape):
    """Each message's place on the tape, and the answer; of an accepted one the bytes are tape[offset:offset + length]."""
    at, scratch = 0, ctypes.create_string_buffer(65536)
    while not (step := next_message(table, len(table), None, 0, 0, tape, len(tape), at, scratch, len(scratch))).ended:
        yield at, step
        at = step.next

def refuse(name, at, answer):
    print(f"{name}: refused at {at}, fault {answer.number} at byte {answer.place}: {words(answer.number)}")

def main():
    table = pathlib.Path(sys.argv[1]).read_bytes()
    for name in sys.argv[2:]:
        accepted = 0
        for at, step in steps(table, pathlib.Path(name).read_bytes()):
            accepted += step.number == 0
            if step.number:
                refuse(name, at, step)
        print(f"{name}: {accepted} accepted")

if __name__ == "__main__":
    main()
