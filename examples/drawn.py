"""Drills that are drawn and told in a text: what its two fenced blocks, `plan` and `actions`, say.

examples/README.md says how the blocks read. examples/make and examples/python/draw_drill.py read them by this module.
"""

import collections
import re
import sys

SHUT = 255
KINDS = {"change": 1, "hunter": 2, "target": 3, "search": 4}
NORTH, EAST, SOUTH, WEST = range(4)
DIRECTIONS = {"north": NORTH, "east": EAST, "south": SOUTH, "west": WEST}

# What stands between two cells: the cost from the western or northern one to the other, and the cost back.
BETWEEN = {" ": (1, 1), "|": (SHUT, SHUT), "-": (SHUT, SHUT)}
BETWEEN.update({">": (1, SHUT), "<": (SHUT, 1), "v": (1, SHUT), "^": (SHUT, 1)})
BETWEEN.update({str(cost): (cost, cost) for cost in range(2, 10)})

# A drill in its parts. Plan and actions are the drill file's bytes: four for each cell, five for each action.
Drill = collections.namedtuple("Drill", "width height hunter target plan actions")


class Unreadable(Exception):
    """A text that cannot be read, and why."""


def block(text, name):
    """The lines of the fenced block of this name."""
    found = re.search(rf"^```{name}\n(.*?)^```$", text, re.MULTILINE | re.DOTALL)
    if not found:
        raise Unreadable(f"there is no block `{name}`")
    return found.group(1).splitlines()


# The picture of the plan.


def size_of(picture):
    """Width and height. A cell takes two columns and two rows, and the plan's edge one more of each."""
    if len({len(line) for line in picture}) > 1:
        raise Unreadable("the lines of the plan differ in length")
    columns = len(picture[0]) if picture else 0
    if min(columns, len(picture)) < 3 or columns % 2 == 0 or len(picture) % 2 == 0:
        raise Unreadable(f"a plan takes 3, 5, 7 .. columns and rows; this one has {columns} and {len(picture)}")
    return columns // 2, len(picture) // 2


def cells_of(picture):
    """Each cell's number, and its row and column in the picture."""
    width, height = size_of(picture)
    for cell in range(width * height):
        yield cell, 2 * (cell // width) + 1, 2 * (cell % width) + 1


def costs_between(picture, row, column):
    """The costs of the two moves between two cells, onward and back."""
    sign = picture[row][column]
    if sign not in BETWEEN:
        raise Unreadable(f"in line {row + 1} of the plan, column {column + 1}, '{sign}' is no wall, door or gap")
    return BETWEEN[sign]


def plan_of(picture):
    """Four cost bytes for each cell. What leaves the plan stays shut, whatever the edge is drawn with."""
    width, height = size_of(picture)
    plan = [[SHUT] * 4 for _ in range(width * height)]
    for cell, row, column in cells_of(picture):
        if (cell + 1) % width != 0:
            plan[cell][EAST], plan[cell + 1][WEST] = costs_between(picture, row, column + 1)
        if cell + width < width * height:
            plan[cell][SOUTH], plan[cell + width][NORTH] = costs_between(picture, row + 1, column)
    return bytes(sum(plan, []))


def names_of(picture):
    """The cells that are named by a letter."""
    names = {}
    for cell, row, column in cells_of(picture):
        sign = picture[row][column]
        if sign in names:
            raise Unreadable(f"two cells are named {sign}")
        if sign.isalpha():
            names[sign] = cell
        elif sign not in ". ":
            raise Unreadable(f"in line {row + 1} of the plan, column {column + 1}, '{sign}' is no cell")
    return names


def cell_named(letter, names):
    if letter not in names:
        raise Unreadable(f"no cell of the plan is named {letter}")
    return names[letter]


# The actions.


def number_of(word, most):
    """A number from 0 to the greatest that its bytes hold."""
    if not re.fullmatch("[0-9]{1,9}", word) or int(word) > most:
        raise Unreadable(f"'{word}' is no number from 0 to {most}")
    return int(word)


def cell_of(word, names):
    """A cell is given by its letter in the picture or by its number."""
    return cell_named(word, names) if word.isalpha() else number_of(word, 65535)


def direction_of(word):
    if word not in DIRECTIONS:
        raise Unreadable(f"'{word}' is no direction")
    return DIRECTIONS[word]


def cost_of(word):
    return SHUT if word == "shut" else number_of(word, 255)


def action_of(words, names):
    """The five bytes of an action: kind, cell with its low byte first, direction, cost."""
    cell = direction = cost = 0
    match words:
        case ["change", at, towards, price]:
            cell, direction, cost = cell_of(at, names), direction_of(towards), cost_of(price)
        case ["hunter" | "target", at]:
            cell = cell_of(at, names)
        case ["search"]:
            pass
        case _:
            raise Unreadable("this is no action")
    return bytes([KINDS[words[0]], cell % 256, cell // 256, direction, cost])


def actions_of(lines, names):
    """The bytes of all actions. What follows # is a remark, and a line may have nothing else."""
    actions = b""
    for line in lines:
        words = line.split("#")[0].split()
        try:
            actions += action_of(words, names) if words else b""
        except Unreadable as fault:
            raise Unreadable(f"in the action '{' '.join(words)}': {fault}") from None
    return actions


# The whole text.


def drill_of(text):
    picture = block(text, "plan")
    names = names_of(picture)
    hunter, target = cell_named("H", names), cell_named("T", names)
    return Drill(*size_of(picture), hunter, target, plan_of(picture), actions_of(block(text, "actions"), names))


def drill_in(path):
    """The drill of the text in a file. Where that cannot be read, the program ends with one line that says why."""
    try:
        with open(path, encoding="utf-8") as file:
            return drill_of(file.read())
    except OSError as error:
        sys.exit(f"{path}: {error.strerror}")
    except UnicodeDecodeError:
        sys.exit(f"{path}: this is no text")
    except Unreadable as fault:
        sys.exit(f"{path}: {fault}")
