"""The cases, by name."""

CASES = {}

# The file of cases that each one stands in.
FILES = {}

# The words that the program takes for each kind of index that cases are made of.
KINDS = {
    "unordered": ("unordered",),
    "unordered_by_hash": ("unordered_by_hash",),
    "ordered": ("ordered",),
    "ordered_by_eight": ("ordered_by_eight",),
    "ordered_by_arrays": ("ordered_by_arrays",),
    "plain": ("plain",),
    "punordered": ("punordered",),
    "punordered_by_two": ("punordered_by_two",),
    "pordered": ("pordered",),
    "pordered_at_one": ("pordered", 1),
    "pordered_at_two": ("pordered", 2),
    "pordered_by_two": ("pordered_by_two",),
    "pordered_wide": ("pordered_wide", 2),
}

# Those that have an order.
IN_ORDER = [kind for kind in KINDS if "unordered" not in kind]

# Those in partitions by one byte, with one more byte in an index key.
BY_ONE = ["punordered", "pordered", "pordered_at_one", "pordered_at_two"]


def register(name, function, of=None):
    """Makes a function a case with a name. If the function only calls another one, that one tells the file."""
    if name in CASES:
        raise ValueError(f"two cases are named {name}")
    CASES[name] = function
    FILES[name] = (of or getattr(function, "func", function)).__code__.co_filename


def case(function):
    """A function that takes nothing is a case, with the function's name."""
    register(function.__name__, function)
    return function


def case_of(*kinds):
    """A function that takes the program's words for an index is a case of each of these kinds, named by the kind and
    the function."""

    def register_each(function):
        for kind in kinds:
            register(f"{kind}_{function.__name__}", lambda words=KINDS[kind]: function(*words), function)
        return function

    return register_each
