"""What a target gets in place of its event, by the rules and slowly: texts, paths and templates.

A path is the list of its steps: a str is a key of an object, an int a place of a list. A template is a JSON value in which some values are
a `Name` and some texts are a `Mixed`. A JSON value is as in `patterns.py`.
"""
import re

from patterns import ABSENT, LEVELS, Fault, Reader, read_json, spelled

LONGEST_INPUT = 8_192  # characters of an Input, and of a template
LONGEST_PATH = 256  # characters of an InputPath
MOST_PATHS = 100  # of an InputPathsMap
KEY = re.compile("(?!AWS)[A-Za-z0-9_-]{1,256}")
PATH = re.compile(r"\$((?:\.[A-Za-z0-9_-]+|\[(?:0|[1-9][0-9]{0,9})\])*)")
STEP = re.compile(r"\.([A-Za-z0-9_-]+)|\[([0-9]+)\]")
LAST_PLACE = 2**31 - 1
OWN_NAMES = [f"aws.events.{it}" for it in ("rule-arn", "rule-name", "event.ingestion-time", "event", "event.json")]


def need(truth):
    if not truth:
        raise Fault("NotValid")


# ---- Paths


def read_path(text):
    """The steps of the path that the text spells. Raises a Fault if it is no path."""
    found = PATH.fullmatch(text)
    need(found)
    steps = [key or int(place) for key, place in STEP.findall(found[1])]
    need(all(isinstance(it, str) or it <= LAST_PLACE for it in steps))
    return steps


def at_path(steps, value):
    """What the path finds in the value, or ABSENT."""
    for step in steps:
        if isinstance(value, dict) and isinstance(step, str) and step in value:
            value = value[step]
        elif isinstance(value, list) and isinstance(step, int) and step < len(value):
            value = value[step]
        else:
            return ABSENT
    return value


# ---- Templates


class Name:
    """A name in the place of a value."""

    def __init__(self, name):
        self.name = name


class Mixed:
    """A text with names: its parts in turn, of which the second, the fourth and so on are names."""

    def __init__(self, parts):
        self.parts = parts


class TemplateReader(Reader):
    """Reads JSON in which a value may be a name. Keys are read by `string`, so that there are no names in them."""

    def __init__(self, text, names):
        super().__init__(text, LEVELS)
        self.names = re.compile("<(" + "|".join(map(re.escape, names)) + ")>")

    def value(self, level=0):
        if self.next() == "<":
            return Name(self.match(self.names)[1:-1])
        value = super().value(level)
        parts = self.names.split(value) if isinstance(value, str) else []
        return Mixed(parts) if len(parts) > 1 else value


def read_template(text, keys):
    """The template that the text spells, with these keys as names. Raises a Fault if it is none."""
    reader = TemplateReader(text, [*keys, *OWN_NAMES])
    template = reader.value()
    need(not reader.next())
    return template


def filled(template, values):
    """The template's value, with a value, or ABSENT, for each name."""
    if isinstance(template, Name):
        value = values[template.name]
        return "" if value is ABSENT else value
    if isinstance(template, Mixed):
        return "".join(in_a_text(values[it]) if at % 2 else it for at, it in enumerate(template.parts))
    if isinstance(template, list):
        return [filled(it, values) for it in template]
    if isinstance(template, dict):
        return {key: filled(it, values) for key, it in template.items()}
    return template


def in_a_text(value):
    if value is ABSENT:
        return ""
    return value if isinstance(value, str) else spelled(value)


# ---- What a target has. Each function raises a Fault, or returns what makes the text: from the event, the ARN of the rule and the time.


def of_input(text):
    need(1 <= len(text) <= LONGEST_INPUT)
    value, _ = read_json(text)
    return lambda _event, _rule_arn, _time: spelled(value)


def of_path(text):
    need(1 <= len(text) <= LONGEST_PATH)
    steps = read_path(text)

    def make(event, _rule_arn, _time):
        value = at_path(steps, event)
        return spelled(None if value is ABSENT else value)

    return make


def of_transformer(transformer):
    """The same for an object of InputTemplate and, unless it is absent or null, InputPathsMap."""
    paths, text = transformer.get("InputPathsMap") or {}, transformer["InputTemplate"]
    need(len(paths) <= MOST_PATHS and all(map(KEY.fullmatch, paths)))
    paths = {key: read_path(path) for key, path in paths.items()}
    need(1 <= len(text) <= LONGEST_INPUT)
    template = read_template(text, paths)

    def make(event, rule_arn, time):
        return spelled(filled(template, {**{key: at_path(steps, event) for key, steps in paths.items()}, **own_values(event, rule_arn, time)}))

    return make


def own_values(event, rule_arn, time):
    """The values of OWN_NAMES."""
    without_detail = {key: it for key, it in event.items() if key != "detail"} if isinstance(event, dict) else event
    return dict(zip(OWN_NAMES, (rule_arn, rule_arn.rpartition("/")[2], time, without_detail, event)))


def as_given(target):
    """The inputs among a target's members, as lists show them."""
    shown = {key: target[key] for key in ("Input", "InputPath") if key in target}
    if "InputTransformer" in target:
        transformer = target["InputTransformer"]
        paths = {"InputPathsMap": transformer["InputPathsMap"]} if transformer.get("InputPathsMap") else {}
        shown["InputTransformer"] = {**paths, "InputTemplate": transformer["InputTemplate"]}
    return shown
