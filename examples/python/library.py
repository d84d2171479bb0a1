"""The shared object of the C interface, for the programs beside this file."""
import ctypes
import os
import sys

ROOT = os.path.dirname(os.path.dirname(os.path.dirname(os.path.abspath(__file__))))
LIBRARY = os.path.join(ROOT, "target", "archive", "librongdhesi.so")
HOW_TO_BUILD = (
    "include/build_archive target/archive && gcc -shared -o target/archive/librongdhesi.so"
    " -Wl,--whole-archive target/archive/librongdhesi.a -Wl,--no-whole-archive"
)
# What the refusal numbers mean to one who has drawn a drill.
REFUSALS = {
    1: "width or height is not 1 to 64",
    2: "the plan is not of its length",
    3: "hunter or target is not in the plan",
    4: "a move that leaves the plan is not shut",
    5: "a cost is not 1 to 250",
    7: "the room for what is written is too short",
    8: "an action is badly formed, or there are more actions than a drill file has room for",
}


def fail(fault):
    """Ends the program with one line."""
    sys.exit(f"{os.path.basename(sys.argv[0])}: {fault}")


def refused(number):
    """Ends the program with the number by which a call is refused."""
    fail(f"refused {number}: {REFUSALS[number]}")


def function_in(path, name, arguments, answer):
    """The function of this name in the library, with its types."""
    if not os.path.exists(path):
        fail(f"there is no library {path}; in the project's folder, build it by: {HOW_TO_BUILD}")
    try:
        function = getattr(ctypes.CDLL(os.path.abspath(path)), name)
    except (OSError, AttributeError) as error:
        fail(error)
    function.argtypes, function.restype = arguments, answer
    return function
