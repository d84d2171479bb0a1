"""Writes the drill file of a drill that is drawn and told in a text, through the C interface.

draw_drill.py PICTURE [LIBRARY] >DRILL, where LIBRARY is a shared object linked from librongdhesi.a.
PICTURE has two fenced blocks, `plan` and `actions`; examples/README.md says how they read."""
import ctypes
import os
import sys
from ctypes import Structure, c_char_p, c_size_t, c_uint64

EXAMPLES = os.path.dirname(os.path.dirname(os.path.abspath(__file__)))
sys.path.insert(0, EXAMPLES)

from drawn import drill_in
from library import LIBRARY, function_in, refused

GREATEST_FILE = 65536


class Written(Structure):
    _fields_ = [("refusal", c_uint64), ("bytes", c_uint64)]


def writer_in(path):
    """The function that writes a drill: four numbers, then plan, actions and room, each with its length."""
    return function_in(path, "rongdhesi_write_drill", [c_uint64] * 4 + [c_char_p, c_size_t] * 3, Written)


def file_of(drill, write_drill):
    """The drill's file, or the end of the program with the number by which it is refused."""
    room = ctypes.create_string_buffer(GREATEST_FILE)
    numbers = drill.width, drill.height, drill.hunter, drill.target
    written = write_drill(*numbers, drill.plan, len(drill.plan), drill.actions, len(drill.actions), room, len(room))
    if written.refusal != 0:
        refused(written.refusal)
    return room.raw[: written.bytes]


def main():
    if len(sys.argv) not in (2, 3):
        sys.exit("usage: draw_drill.py PICTURE [LIBRARY] >DRILL")
    drill = drill_in(sys.argv[1])
    path = sys.argv[2] if len(sys.argv) == 3 else LIBRARY
    sys.stdout.buffer.write(file_of(drill, writer_in(path)))


if __name__ == "__main__":
    main()
