"""Events and texts of patterns by chance, for the mixed runs: most patterns have a part of their event, and a part of the texts
is no pattern."""
import copy

from patterns import Number, spelled, view_count

EVENT_MEMBERS = ["id", "account", "source", "time", "region", "resources", "detail-type"]
KEYS = ["a", "b", "c", "source", "é", "i d", "id"]
TEXTS = ["", "a", "shop.orders", "SHOP.Orders", "a*b", "a\\b", "Ünï", "😀", "\n"]
TEXTS += ["10.0.0.1", "010.0.0.1", "10.255.0.0", "2001:DB8::1", "::", "1::2:3:4:5:6:7"]
NUMBERS = ["0", "-0", "1", "1.0", "1e0", "10E-1", "12.50", "-3", "100", "1e400", "0.0000001", "5000000000", "5000000000.000001", "0.000001"]
PREFIXES = ["10.0.0.0/8", "0.0.0.0/0", "10.0.0.1/32", "10.255.255.255/9", "::/0", "2001:db8::/32", "2001:db8:0:0:0:0:0:1/128", "::/127"]
BAD_TESTS = [[], [1], {}, {"prefix": "a", "suffix": "b"}, {"Prefix": "a"}, {"equals": 1}, {"prefix": 1}, {"suffix": {}}, {"suffix": None}]
BAD_TESTS += [{"prefix": {"equals-ignore-case": 1}}, {"prefix": {"prefix": "a"}}, {"equals-ignore-case": ["a"]}, {"wildcard": ["a"]}]
BAD_TESTS += [{"wildcard": it} for it in ("a**b", "a\\b", "\\", "**", "a\\\\\\*\\")]
BAD_TESTS += [{"anything-but": it} for it in ([], ["a", 1], [None], True, None, {}, {"prefix": []}, {"exists": True})]
BAD_TESTS += [{"anything-but": {"wildcard": it}} for it in (["**", 1], ["a", "**"], "**", {"wildcard": "a"})]
BAD_TESTS += [{"numeric": it} for it in ([], ["<"], [1, "<"], ["<", 1, ">"], ["!=", 1], ["<", "1"], "<", ["=", 1, "=", 1, "=", 1], ["<", Number("1e400")])]
BAD_TESTS += [{"cidr": it} for it in ("10.0.0.0", "10.0.0.0/33", "10.0.0.0/08", "10.0.0/8", "::/129", "1::2::3/8", ":::/8", "g::/8", "", 1, "010.0.0.1/8")]
BAD_TESTS += [{"exists": it} for it in (1, "true", None, [])]
BAD_FIELDS = ["a", 1, None, True, [], {}]
BAD_BRANCHES = [None, 1, {}, [], [{"a": [1]}], [{"a": [1]}, 1], [{"a": [1]}, [{"b": [1]}]], [{"a": [1]}, {}], [{"a": [1]}, {"id": [1]}], [{"a": [1]}, {"b": 1}]]


def a_scalar(chance):
    kind = chance.randrange(8)
    if kind < 5:
        return chance.choice(TEXTS)
    return Number(chance.choice(NUMBERS)) if kind < 7 else chance.choice([None, True, False])


def a_value(chance, levels):
    kind = chance.random()
    if kind < 0.5 or levels == 0:
        return a_scalar(chance)
    if kind < 0.75:
        return [a_value(chance, levels - 1) for _ in range(chance.randint(0, 3))]
    return {chance.choice(KEYS): a_value(chance, levels - 1) for _ in range(chance.randint(0, 3))}


def an_event(chance):
    while True:
        event = {it: a_scalar(chance) for it in EVENT_MEMBERS}
        event["resources"] = [a_scalar(chance) for _ in range(chance.randint(0, 3))]
        for key in chance.sample(KEYS, 3):
            event[key] = a_value(chance, 3)
        event["detail"] = {it: a_value(chance, 3) for it in chance.sample(KEYS, chance.randint(0, 3))}
        if view_count(event) <= 500:
            return event


def no_event(chance, event):
    """A text that is no event, or one that only looks so."""
    event = dict(event)
    del event[chance.choice([*EVENT_MEMBERS, "detail"])]
    deep = spelled({**{it: None for it in EVENT_MEMBERS}, "deep": 0})[:-2] + "[" * chance.choice([99, 100])
    deep += "]" * deep.count("[") + "}"
    return chance.choice([spell(chance, event), spelled(event)[:-1], "[1]", '""', "", "{}", spelled([event]), deep])


def a_pattern_text(chance, event):
    """The text of a pattern that may hold of the event, or a text that is no pattern."""
    pattern = fields_of(chance, event, 3)
    kind = chance.random()
    if kind < 0.25:
        spoil(chance, pattern)
    if kind < 0.05:
        spoil(chance, pattern)
    text = spell(chance, pattern, 0.2 if 0.25 < kind < 0.3 else 0)
    if 0.3 < kind < 0.36:
        at = chance.randint(0, len(text))
        letters = chance.choice(["", ",", "}", "]", '"', "\\", "\x01", "[" * 101, "01", "-", "nul", "\ufeff", "x"])
        text = text[:at] + letters + text[at + chance.randint(0, 2) :]
    if 0.36 < kind < 0.37:
        text = text + " " * (chance.choice([4_096, 4_097]) - len(text.encode()))
    if 0.37 < kind < 0.38:
        branches = [[{"a": [it]} for it in range(count)] for count in chance.choice([(10, 10, 10), (7, 11, 13), (2,) * 12])]
        text = spelled({f"k{place}": {"$or": it} for place, it in enumerate(branches)})
    if 0.38 < kind < 0.39:
        deep = chance.choice([99, 100])
        text = '{"a":' * deep + "[1]" + "}" * deep
    return text


def fields_of(chance, value, levels):
    """The fields of a pattern for this object."""
    pattern = {}
    for _ in range(chance.choice([1, 1, 2, 3])):
        key = chance.choice(list(value)) if value and chance.random() < 0.9 else chance.choice(KEYS)
        if key == "id" and chance.random() < 0.9:
            continue
        inside = value.get(key)
        while isinstance(inside, list):
            inside = chance.choice(inside) if inside else None
        if isinstance(inside, dict) and levels > 0 and chance.random() < 0.9 or levels > 0 and chance.random() < 0.05:
            pattern[key] = fields_of(chance, inside if isinstance(inside, dict) else {}, levels - 1)
        else:
            pattern[key] = [a_test(chance, inside) for _ in range(chance.choice([1, 1, 2, 3]))]
    if levels > 0 and chance.random() < 0.25:
        pattern["$or"] = [fields_of(chance, value, levels - 1) for _ in range(chance.choice([2, 2, 3]))]
    return pattern or {"a": [a_test(chance, None)]}


def a_test(chance, leaf):
    """A test that the leaf may meet."""
    if isinstance(leaf, dict) or chance.random() < 0.3:
        leaf = a_scalar(chance)
    kind = chance.randrange(12)
    text = leaf if isinstance(leaf, str) else chance.choice(TEXTS)
    start = chance.randint(0, len(text))
    if kind == 0:
        part = text[:start]
        return {"prefix": chance.choice([part, {"equals-ignore-case": part.swapcase()}])}
    if kind == 1:
        part = text[start:]
        return {"suffix": chance.choice([part, {"equals-ignore-case": part.swapcase()}])}
    if kind == 2:
        return {"equals-ignore-case": text.swapcase()}
    if kind == 3:
        return {"wildcard": a_wildcard(chance, text)}
    if kind in (4, 5):
        return {"anything-but": an_exclusion(chance, text, leaf)}
    if kind == 6:
        bounds = [chance.choice(["=", "<", "<=", ">", ">="]), Number(chance.choice(["0", "1", "1.00", "12.5", "-3", "5e9", "0.000001"]))]
        return {"numeric": bounds * chance.choice([1, 1, 2])}
    if kind == 7:
        return {"cidr": chance.choice(PREFIXES)}
    if kind == 8:
        return {"exists": chance.choice([True, False])}
    return leaf


def a_wildcard(chance, text):
    start = chance.randint(0, len(text))
    pieces = [text[:start], text[chance.randint(start, len(text)) :]]
    return "*".join(it.replace("\\", "\\\\").replace("*", "\\*") for it in pieces)


def an_exclusion(chance, text, leaf):
    kind = chance.randrange(5)
    if kind == 0:
        return leaf if isinstance(leaf, (str, Number)) else text
    if kind == 1:
        return [text, chance.choice(TEXTS)]
    if kind == 2:
        return [Number(chance.choice(NUMBERS)) for _ in range(chance.randint(1, 3))]
    name = chance.choice(["prefix", "suffix", "equals-ignore-case", "wildcard"])
    part = {"prefix": text[:2], "suffix": text[-2:], "wildcard": a_wildcard(chance, text)}.get(name, text.swapcase())
    return {name: chance.choice([part, [part], ["x", part]])}


def spoil(chance, pattern):
    """Makes a fault somewhere in the pattern."""
    key = chance.choice(list(pattern))
    value = pattern[key]
    if isinstance(value, dict) and value and chance.random() < 0.7:
        return spoil(chance, value)
    branches = [it for it in value if isinstance(it, dict) and it] if key == "$or" and isinstance(value, list) else []
    if branches and chance.random() < 0.5:
        return spoil(chance, chance.choice(branches))
    kind = chance.randrange(6)
    if kind == 0:
        pattern["id"] = chance.choice([["x"], 1, []])
    elif kind == 1:
        pattern["$or"] = copy.deepcopy(chance.choice(BAD_BRANCHES))
    elif kind == 2:
        pattern[key] = chance.choice(BAD_FIELDS)
    elif isinstance(value, list) and key != "$or":
        pattern[key] = [*value, chance.choice(BAD_TESTS)]
    else:
        pattern[key] = [chance.choice(BAD_TESTS)]
    return None


def spell(chance, value, again=0.0):
    """A text of the value, with white space and escapes. A key comes twice in so many of the objects, first with another value, at its own place:
    it keeps the first one."""
    if isinstance(value, list):
        return a_space(chance) + "[" + ",".join(spell(chance, it, again) for it in value) + a_space(chance) + "]"
    if isinstance(value, dict):
        members = [spell_text(chance, key) + a_space(chance) + ":" + spell(chance, it, again) for key, it in value.items()]
        if value and chance.random() < again:
            at = chance.randrange(len(value))
            members.insert(at, spell_text(chance, list(value)[at]) + ":0")
        return a_space(chance) + "{" + ",".join(members) + "}" + a_space(chance)
    return a_space(chance) + (spell_text(chance, value) if isinstance(value, str) else spelled(value)) + a_space(chance)


def a_space(chance):
    return chance.choice(["", "", "", "", "", "", "", " ", "\n\t", "\r"])


def spell_text(chance, text):
    if chance.random() < 0.8 or not text:
        return spelled(text)
    at = chance.randrange(len(text))
    units = text[at].encode("utf-16-be").hex()
    escape = "".join("\\u" + chance.choice([units[it : it + 4], units[it : it + 4].upper()]) for it in range(0, len(units), 4))
    return spelled(text[:at])[:-1] + escape + spelled(text[at + 1 :])[1:]
