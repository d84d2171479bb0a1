"""Plays document 01's whole drill through the C interface and prints its six lines.

whole_drill.py LIBRARY, where LIBRARY is a shared object linked from librongdhesi.a (examples/other_languages does this)."""
import ctypes
import sys
from ctypes import POINTER, Structure, c_size_t, c_uint8, c_uint16, c_uint32, c_uint64

WIDTH, HEIGHT, CELLS = 3, 1, 3
WAY, NONE, CAUGHT, REFUSED = 1, 2, 3, 4
EAST, SHUT = 1, 255


class Session(Structure):
    _fields_ = [
        ("width", c_uint64),
        ("height", c_uint64),
        ("hunter", c_uint64),
        ("target", c_uint64),
        ("origin", c_uint64),
        ("goal", c_uint64),
        ("km", c_uint32),
        ("count", c_uint64),
        ("searches", c_uint32),
    ]


class Reply(Structure):
    _fields_ = [
        ("session", Session),
        ("kind", c_uint64),
        ("refusal", c_uint64),
        ("cost", c_uint64),
        ("steps", c_uint64),
        ("cells", c_uint64),
    ]


def slices(*entries):
    """The argument types of lent tables: a pointer and a length for each."""
    return [word for entry in entries for word in (POINTER(entry), c_size_t)]


def lent(*tables):
    """The arguments of lent tables."""
    return [word for table in tables for word in (table, len(table))]


TABLES = slices(c_uint8, c_uint32, c_uint32, c_uint8, c_uint32, c_uint32, c_uint16, c_uint16)


def loaded(path):
    """The library, with the types of its functions."""
    library = ctypes.CDLL(path)
    calls = {
        "open": [c_uint64] * 4 + TABLES,
        "place_hunter": [Session, c_uint64],
        "place_target": [Session, c_uint64],
        "change_move": [Session] + TABLES + [c_uint64] * 3,
        "search": [Session] + TABLES + slices(c_uint16),
    }
    for name, types in calls.items():
        call = getattr(library, "rongdhesi_" + name)
        call.argtypes, call.restype = types, Reply
    return library


class Drill:
    """A session with its tables."""

    def __init__(self, library, plan, hunter, target):
        self.library = library
        words = [(c_uint32 * CELLS)() for _ in range(4)]
        g, rhs, k1, k2 = words
        parent = (c_uint8 * CELLS)()
        place, order, self.way = [(c_uint16 * CELLS)() for _ in range(3)]
        self.tables = lent((c_uint8 * len(plan))(*plan), g, rhs, parent, k1, k2, place, order)
        self.keep(library.rongdhesi_open(WIDTH, HEIGHT, hunter, target, *self.tables))

    def keep(self, reply):
        """Keeps the record that a call returned, and says if the call was refused."""
        self.session = reply.session
        if reply.kind == REFUSED:
            print("refused", reply.refusal)

    def hunter(self, cell):
        self.keep(self.library.rongdhesi_place_hunter(self.session, cell))

    def target(self, cell):
        self.keep(self.library.rongdhesi_place_target(self.session, cell))

    def change(self, cell, direction, cost):
        self.keep(self.library.rongdhesi_change_move(self.session, *self.tables, cell, direction, cost))

    def search(self):
        reply = self.library.rongdhesi_search(self.session, *self.tables, *lent(self.way))
        self.keep(reply)
        cells = self.way[: reply.cells]
        if reply.kind == WAY:
            print(f"way {reply.cost} steps {reply.steps}:", *cells)
        elif reply.kind == NONE:
            print("none steps", reply.steps)
        elif reply.kind == CAUGHT:
            print("caught at", cells[0])


def main():
    if len(sys.argv) != 2:
        sys.exit(__doc__)
    drill = Drill(loaded(sys.argv[1]), [255, 1, 255, 255, 255, 1, 255, 1, 255, 255, 255, 1], 0, 2)
    drill.search()
    drill.change(1, EAST, SHUT)
    drill.search()
    drill.change(1, EAST, 5)
    drill.search()
    drill.hunter(1)
    drill.search()
    drill.target(0)
    drill.search()
    drill.target(1)
    drill.search()


if __name__ == "__main__":
    main()
