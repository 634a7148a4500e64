"""Event patterns by their rules, plain and slow: which texts are patterns, the first fault of any other text, and whether a
pattern holds of an event.

A JSON value is None, True, False, a Number, a str, a list or a dict. A pattern stays the JSON value that it was read from.
A view of an event has one member in place of each list. A pattern holds of an event if some view has what it asks for, so
`holds` makes the views one after the other.
"""
import itertools
import json
import re

LEVELS = 100
LONGEST = 4_096  # bytes of a pattern
MOST = 1_000  # alternatives of a pattern
NAMES = ["prefix", "suffix", "equals-ignore-case", "wildcard", "anything-but", "numeric", "cidr", "exists"]
BUT_NAMES = ["prefix", "suffix", "equals-ignore-case", "wildcard"]
COMPARISONS = {
    "=": lambda a, b: a == b,
    "<": lambda a, b: a < b,
    "<=": lambda a, b: a <= b,
    ">": lambda a, b: a > b,
    ">=": lambda a, b: a >= b,
}
ABSENT = object()


class Number:
    """A JSON number, which is its spelling."""

    def __init__(self, spelling):
        self.spelling = spelling


class Fault(Exception):
    """Why a text is refused, and the keys to the place."""

    def __init__(self, why, path=()):
        super().__init__(why)
        self.why, self.path = why, ".".join(path)


# ---- JSON texts

WHITE = re.compile(r"[ \t\n\r]*")
NUMBER = re.compile(r"-?(?:0|[1-9][0-9]*)(?:\.[0-9]+)?(?:[eE][+-]?[0-9]+)?")
PLAIN = re.compile(r'[^"\\\x00-\x1f]*')
UNIT = re.compile(r"[0-9A-Fa-f]{4}")
ESCAPES = {'"': '"', "\\": "\\", "/": "/", "b": "\b", "f": "\f", "n": "\n", "r": "\r", "t": "\t"}
WORDS = {"null": None, "true": True, "false": False}


class Reader:
    def __init__(self, text, levels):
        self.text, self.levels = text, levels
        self.at = 0
        self.twice = False  # an object has a key twice

    def next(self):
        self.at = WHITE.match(self.text, self.at).end()
        return self.text[self.at : self.at + 1]

    def take(self, wanted):
        if self.next() != wanted:
            raise Fault("NotJson")
        self.at += 1

    def match(self, expression):
        found = expression.match(self.text, self.at)
        if found is None:
            raise Fault("NotJson")
        self.at = found.end()
        return found.group()

    def value(self, level=0):
        first = self.next()
        if first in ("[", "{") and level == self.levels:
            raise Fault("TooDeep")
        if first == "[":
            return self.items(level + 1)
        if first == "{":
            return self.members(level + 1)
        if first == '"':
            return self.string()
        for word, value in WORDS.items():
            if self.text.startswith(word, self.at):
                self.at += len(word)
                return value
        return Number(self.match(NUMBER))

    def items(self, level):
        self.take("[")
        items = []
        if self.next() != "]":
            items.append(self.value(level))
            while self.next() == ",":
                self.at += 1
                items.append(self.value(level))
        self.take("]")
        return items

    def members(self, level):
        self.take("{")
        members = {}
        if self.next() != "}":
            self.member(members, level)
            while self.next() == ",":
                self.at += 1
                self.member(members, level)
        self.take("}")
        return members

    def member(self, members, level):
        if self.next() != '"':
            raise Fault("NotJson")
        key = self.string()
        self.take(":")
        self.twice = self.twice or key in members
        members[key] = self.value(level)

    def string(self):
        self.take('"')
        pieces = []
        while True:
            pieces.append(self.match(PLAIN))
            mark = self.text[self.at : self.at + 1]
            self.at += 1
            if mark == '"':
                return "".join(pieces)
            if mark != "\\":
                raise Fault("NotJson")
            pieces.append(self.escape())

    def escape(self):
        letter = self.text[self.at : self.at + 1]
        self.at += 1
        if letter in ESCAPES:
            return ESCAPES[letter]
        if letter != "u":
            raise Fault("NotJson")
        unit = int(self.match(UNIT), 16)
        if 0xDC00 <= unit < 0xE000:
            raise Fault("NotJson")
        if not 0xD800 <= unit < 0xDC00:
            return chr(unit)
        if self.text[self.at : self.at + 2] != "\\u":
            raise Fault("NotJson")
        self.at += 2
        low = int(self.match(UNIT), 16)
        if not 0xDC00 <= low < 0xE000:
            raise Fault("NotJson")
        return chr(0x10000 + (unit - 0xD800) * 0x400 + low - 0xDC00)


def read_json(text, levels=LEVELS):
    """The value that the text spells, and whether an object has a key twice; the last value counts then. Raises a Fault."""
    reader = Reader(text, levels)
    value = reader.value()
    if reader.next():
        raise Fault("NotJson")
    return value, reader.twice


def spelled(value):
    """The compact text of a value, which may have ints too."""
    if isinstance(value, Number):
        return value.spelling
    if isinstance(value, list):
        return "[" + ",".join(map(spelled, value)) + "]"
    if isinstance(value, dict):
        return "{" + ",".join(f"{spelled(key)}:{spelled(it)}" for key, it in value.items()) + "}"
    return json.dumps(value, ensure_ascii=False)


# ---- Which texts are patterns


def read_pattern(text):
    """The pattern that the text spells. Raises its first fault."""
    if len(text.encode()) > LONGEST:
        raise Fault("TooLong")
    pattern, twice = read_json(text)
    if twice:
        raise Fault("KeyTwice")
    check_pattern(pattern, (), is_root=True)
    if count(pattern) > MOST:
        raise Fault("TooMany")
    return pattern


def check_pattern(pattern, path, is_root=False):
    if not isinstance(pattern, dict):
        raise Fault("NotObject", path)
    if not pattern:
        raise Fault("EmptyObject", path)
    for key, value in pattern.items():
        if key == "$or":
            check_branches(value, (*path, key), is_root)
        elif key == "id" and is_root:
            raise Fault("BadId", (*path, key))
        elif isinstance(value, list):
            check_tests(value, (*path, key))
        else:
            check_pattern(value, (*path, key))


def check_branches(value, path, is_root):
    if not isinstance(value, list) or len(value) < 2 or not all(isinstance(it, dict) for it in value):
        raise Fault("BadOr", path)
    for branch in value:
        check_pattern(branch, path, is_root)


def check_tests(tests, path):
    if not tests:
        raise Fault("EmptyArray", path)
    for test in tests:
        if isinstance(test, list) or isinstance(test, dict) and (len(test) != 1 or next(iter(test)) not in NAMES):
            raise Fault("UnknownTest", path)
        if isinstance(test, dict):
            why = operand_fault(*next(iter(test.items())))
            if why:
                raise Fault(why, path)


def operand_fault(name, operand):
    is_text = isinstance(operand, str)
    if name == "numeric":
        return None if is_numeric(operand) else "BadNumeric"
    if name == "cidr":
        return None if is_text and network_of(operand) else "BadCidr"
    if name == "exists":
        return None if isinstance(operand, bool) else "BadOperand"
    if name == "anything-but":
        return excluded_fault(operand)
    if name == "wildcard":
        return wildcard_fault([operand]) if is_text else "BadOperand"
    if name in ("prefix", "suffix") and isinstance(operand, dict) and list(operand) == ["equals-ignore-case"]:
        is_text = isinstance(operand["equals-ignore-case"], str)
    return None if is_text else "BadOperand"


def excluded_fault(operand):
    if isinstance(operand, (str, Number)):
        return None
    if isinstance(operand, list):
        is_alike = operand and any(all(isinstance(it, kind) for it in operand) for kind in (str, Number))
        return None if is_alike else "BadOperand"
    if not isinstance(operand, dict) or len(operand) != 1 or next(iter(operand)) not in BUT_NAMES:
        return "BadOperand"
    ((name, inner),) = operand.items()
    texts = inner if isinstance(inner, list) else [inner]
    if not texts or not all(isinstance(it, str) for it in texts):
        return "BadOperand"
    return wildcard_fault(texts) if name == "wildcard" else None


def wildcard_fault(texts):
    return None if all(wildcard_pieces(it) is not None for it in texts) else "BadWildcard"


def wildcard_pieces(text):
    """The characters of a wildcard, and None for each `*` that stands for any run. None if the text is no wildcard."""
    if not re.fullmatch(r"(?:[^\\]|\\[*\\])*", text, re.DOTALL):
        return None
    marks = re.findall(r"\\.|[^\\]", text, re.DOTALL)
    pieces = [None if it == "*" else it[-1] for it in marks]
    return None if any(a is b is None for a, b in zip(pieces, pieces[1:])) else pieces


def is_numeric(operand):
    if not isinstance(operand, list) or len(operand) not in (2, 4):
        return False
    names, bounds = operand[::2], operand[1::2]
    return all(isinstance(it, str) and it in COMPARISONS for it in names) and all(
        isinstance(it, Number) and millionths(it.spelling) is not None for it in bounds
    )


def millionths(spelling):
    """The number times 1,000,000 if that is whole and at most 5 * 10^15 on both sides of 0, else None."""
    mantissa, _, exponent = spelling.lower().partition("e")
    whole, _, fraction = mantissa.lstrip("-").partition(".")
    digits = (whole + fraction).lstrip("0")
    significant = digits.rstrip("0")
    if not digits:
        return 0
    power = int(exponent or "0") - len(fraction) + len(digits) - len(significant) + 6
    if power < 0 or power + len(significant) > 16:
        return None
    value = int(significant) * 10**power
    return None if value > 5 * 10**15 else -value if spelling.startswith("-") else value


def network_of(text):
    """The bits of an address prefix, of which the first `length` count, that length, and the width. None if it is none."""
    address, slash, length = text.partition("/")
    bits = bits_of(address)
    if bits is None or not re.fullmatch(r"0|[1-9][0-9]{0,2}", length) or int(length) > bits[1]:
        return None
    return bits[0] >> bits[1] - int(length), int(length), bits[1]


def bits_of(text):
    """The bits of an address, and how many there are. None if the text is no address."""
    parts = text.split(".")
    if len(parts) == 4:
        if not all(re.fullmatch(r"0|[1-9][0-9]{0,2}", it) and int(it) < 256 for it in parts):
            return None
        return sum(int(it) << 8 * (3 - place) for place, it in enumerate(parts)), 32
    halves = [half.split(":") if half else [] for half in text.split("::")]
    groups = sum(halves, [])
    if not all(re.fullmatch(r"[0-9A-Fa-f]{1,4}", it) for it in groups) or len(halves) > 2:
        return None
    if len(halves) == 2 and len(groups) < 8:
        groups = halves[0] + ["0"] * (8 - len(groups)) + halves[1]
    elif len(halves) == 2:
        return None
    if len(groups) != 8:
        return None
    return sum(int(it, 16) << 16 * (7 - place) for place, it in enumerate(groups)), 128


def count(pattern):
    """The number of alternatives."""
    product = 1
    for key, value in pattern.items():
        if key == "$or":
            product *= sum(map(count, value))
        elif isinstance(value, dict):
            product *= count(value)
    return product


# ---- Whether a pattern holds


def holds(pattern, event):
    return any(is_met(pattern, view, event, ()) for view in views(event, keys_of(pattern)))


def keys_of(pattern):
    """The keys that the pattern names, and below each those that it names there."""
    keys = {}
    add_keys(pattern, keys)
    return keys


def add_keys(pattern, keys):
    for key, value in pattern.items():
        if key == "$or":
            for branch in value:
                add_keys(branch, keys)
        else:
            below = keys.setdefault(key, {})
            if isinstance(value, dict):
                add_keys(value, below)


def views(value, keys):
    """Each view of the value, without the members that the keys do not name."""
    if isinstance(value, list):
        for it in value:
            yield from views(it, keys)
    elif isinstance(value, dict):
        named = [key for key in keys if key in value]
        # A member that has no view is left out.
        chosen = [list(views(value[key], keys[key])) or [ABSENT] for key in named]
        for choice in itertools.product(*chosen):
            yield {key: it for key, it in zip(named, choice) if it is not ABSENT}
    else:
        yield value


def view_count(value):
    """The number of views of the value, with all its members."""
    if isinstance(value, list):
        return sum(map(view_count, value))
    if isinstance(value, dict):
        product = 1
        for it in value.values():
            product *= max(1, view_count(it))
        return product
    return 1


def is_met(pattern, view, event, path):
    """Whether the view has what the pattern asks for below this path."""
    for key, value in pattern.items():
        if key == "$or":
            if not any(is_met(it, view, event, path) for it in value):
                return False
            continue
        inside = view.get(key, ABSENT) if isinstance(view, dict) else ABSENT
        if isinstance(value, dict):
            if not is_met(value, inside, event, (*path, key)):
                return False
        elif not any(meets(it, inside, event, (*path, key)) for it in value):
            return False
    return True


def has_leaf(value, path):
    """Whether some view of the value has a leaf at the path."""
    if isinstance(value, list):
        return any(has_leaf(it, path) for it in value)
    if isinstance(value, dict):
        return bool(path) and path[0] in value and has_leaf(value[path[0]], path[1:])
    return not path


def meets(test, leaf, event, path):
    if isinstance(test, dict) and test.get("exists") is False:
        return not has_leaf(event, path)
    return leaf is not ABSENT and not isinstance(leaf, dict) and is_met_by(test, leaf)


def is_met_by(test, leaf):
    """Whether the scalar meets the test."""
    if not isinstance(test, dict):
        return kind_of(test) == kind_of(leaf)
    ((name, operand),) = test.items()
    if name == "exists":
        return True
    if name == "anything-but":
        if isinstance(operand, dict):
            ((name, inner),) = operand.items()
            return not any(is_met_by({name: it}, leaf) for it in (inner if isinstance(inner, list) else [inner]))
        return not any(is_met_by(it, leaf) for it in (operand if isinstance(operand, list) else [operand]))
    if name == "numeric":
        kind, spelling = kind_of(leaf)
        value = millionths(spelling) if kind == "number" else None
        pairs = zip(operand[::2], operand[1::2])
        return value is not None and all(COMPARISONS[it](value, millionths(bound.spelling)) for it, bound in pairs)
    return isinstance(leaf, str) and is_met_by_text(name, operand, leaf)


def is_met_by_text(name, operand, leaf):
    if isinstance(operand, dict):
        operand, leaf = folded(operand["equals-ignore-case"]), folded(leaf)
    if name == "prefix":
        return leaf.startswith(operand)
    if name == "suffix":
        return leaf.endswith(operand)
    if name == "equals-ignore-case":
        return folded(leaf) == folded(operand)
    if name == "wildcard":
        expression = "".join(".*" if it is None else re.escape(it) for it in wildcard_pieces(operand))
        return re.fullmatch(expression, leaf, re.DOTALL) is not None
    bits, length, width = network_of(operand)
    address = bits_of(leaf)
    return address is not None and address[1] == width and address[0] >> width - length == bits


def folded(text):
    return "".join(chr(ord(it) + 32) if "A" <= it <= "Z" else it for it in text)


def kind_of(scalar):
    """The kind of a scalar, and what makes it the same as another of its kind. Numbers are the same by their spelling."""
    if scalar is None or isinstance(scalar, bool):
        return "word", scalar
    if isinstance(scalar, str):
        return "text", scalar
    return "number", scalar.spelling if isinstance(scalar, Number) else str(scalar)
