"""Draws the cells that the hunter of a drill can reach and names the shut moves that lead out of them, through the C interface.

explain.py DRILL [LIBRARY], where LIBRARY is a shared object linked from librongdhesi.a.
Plan, hunter and target are those that the drill file opens with."""
import collections
import sys
from ctypes import POINTER, Structure, c_char_p, c_size_t, c_uint16, c_uint64

from library import LIBRARY, fail, function_in, refused

TRAILER = 12
SHUT = 255
DIRECTIONS = "north", "east", "south", "west"
NORTH, EAST, SOUTH, WEST = range(4)

# What a drill file opens with.
Opening = collections.namedtuple("Opening", "width height hunter target plan")


class Reached(Structure):
    _fields_ = [("refusal", c_uint64), ("cells", c_uint64), ("moves", c_uint64)]


def opening_in(path):
    """Plan, hunter and target of a drill file, as its last twelve bytes tell. Whether they are a plan's, the library says."""
    try:
        with open(path, "rb") as file:
            content = file.read()
    except OSError as error:
        fail(f"{path}: {error.strerror}")
    if len(content) < TRAILER:
        fail(f"{path}: this is no drill file")
    end = content[-TRAILER:]
    hunter, target, offset = (int.from_bytes(end[at:to], "little") for at, to in ((2, 4), (4, 6), (8, 12)))
    return Opening(end[0], end[1], hunter, target, content[:-TRAILER][:offset])


def reached_from(opening, path):
    """The cells that the hunter can reach, and the shut moves that lead out of them as pairs of cell and direction."""
    arguments = [c_uint64] * 3 + [c_char_p, c_size_t, POINTER(c_uint64), c_size_t, POINTER(c_uint16), c_size_t]
    explain_reached = function_in(path, "rongdhesi_explain_reached", arguments, Reached)
    width, height, hunter, target, plan = opening
    cells = width * height
    rows, moves = (c_uint64 * height)(), (c_uint16 * (2 * cells))()
    told = explain_reached(width, height, hunter, plan, len(plan), rows, len(rows), moves, len(moves))
    if told.refusal != 0:
        refused(told.refusal)
    if target >= cells:
        refused(3)
    reached = {cell for cell in range(cells) if rows[cell // width] >> cell % width & 1}
    return reached, [divmod(move, 4) for move in moves[: told.moves]]


def sign_of(opening, reached, cell):
    """What stands in a cell's place."""
    if cell in (opening.hunter, opening.target):
        return "H" if cell == opening.hunter else "T"
    return "*" if cell in reached else "."


def sign_between(opening, out, cell, direction):
    """What stands between a cell and its neighbour in the east or in the south."""
    other = cell + (1 if direction == EAST else opening.width)
    back = (direction + 2) % 4
    onward_open = opening.plan[4 * cell + direction] != SHUT
    back_open = opening.plan[4 * other + back] != SHUT
    if onward_open or back_open:
        return " " if onward_open and back_open else {EAST: "><", SOUTH: "v^"}[direction][back_open]
    if (cell, direction) in out or (other, back) in out:
        return "#"
    return "|" if direction == EAST else "-"


def picture_of(opening, reached, out):
    """The lines of the picture: a cell takes two columns and two rows, and walls and doors stand between the cells."""
    width, height = opening.width, opening.height
    wall = "+-" * width + "+"
    lines = [wall]
    for row in range(height):
        cells = range(row * width, (row + 1) * width)
        signs = [sign_of(opening, reached, cell) for cell in cells]
        doors = [sign_between(opening, out, cell, EAST) for cell in cells[:-1]] + ["|"]
        lines.append("|" + "".join(sign + door for sign, door in zip(signs, doors)))
        if row + 1 < height:
            lines.append("".join("+" + sign_between(opening, out, cell, SOUTH) for cell in cells) + "+")
    return lines + [wall]


def explanation_of(opening, reached, out):
    """The picture, and in words what it shows."""
    yield from picture_of(opening, reached, out)
    within = opening.target in reached
    yield f"From {opening.hunter} the hunter H can reach {len(reached)} of {opening.width * opening.height} cells, marked *."
    yield f"The target T in {opening.target} is {'' if within else 'not '}among them: there is {'a' if within else 'no'} way."
    yield "These moves lead out of them, and all are shut:" if out else "They are the whole plan."
    for cell, direction in out:
        yield f"{cell} {DIRECTIONS[direction]}"


def main():
    if len(sys.argv) not in (2, 3):
        sys.exit("usage: explain.py DRILL [LIBRARY]")
    opening = opening_in(sys.argv[1])
    reached, out = reached_from(opening, sys.argv[2] if len(sys.argv) == 3 else LIBRARY)
    for line in explanation_of(opening, reached, out):
        print(line)


if __name__ == "__main__":
    main()
