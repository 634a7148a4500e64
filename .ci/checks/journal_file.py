"""The file of a journal by its rules, plain and slow: its bytes, the batches that they spell, and what these lead to.

An operation is a tuple: its kind, then its fields as OPERATION has them. A batch is a moment and a list of operations. `checked` is what
`ebusd check` has to write of a file. Patterns, policies, inputs of targets and delays of retries are those of the other models.
"""
import re

import inputs
from deliveries import LONGEST_DELAY, LONGEST_TEXT, QUEUE_ARN, RETRIED, queue_name
from endpoint_texts import ENDPOINTS, STORED_ENDPOINTS
from patterns import Fault, read_json, read_pattern, spelled
from policies import PolicyFault, read_policy, stored
from router import ARCHIVE, ARCHIVES_LIMIT, BUS, BUSES_LIMIT, DAYS_LIMIT, LAST_NUMBER, MOMENT_LIMIT, NAME, QUEUE, QUEUES_LIMIT, RULES_LIMIT, TARGETS_LIMIT, shown

HEADER = b"EBJRNL1\n"
FIRST_GATE = len(HEADER)
CLOSED, OPEN = b"\0", b"\1"  # gates
ITEMS_LIMIT = 100  # targets or ids of one operation
EVENTS_LIMIT = 10  # of one batch
DELIVERIES_LIMIT = 1_500  # of one event or of one step
RUNNING_LIMIT = 10  # replays at once
DETAIL_LEVELS = 99
CONTROL = range(1, 14)  # kinds that change the configuration


class NoBatch(Exception):
    """A payload that is no batch."""


class NotAdmitted(Exception):
    """A batch that cannot come after those before it."""


def need(truth, kind=NoBatch):
    if not truth:
        raise kind


# ---- Fields. Each has `put`, which writes a value, and `take`, which reads one or raises NoBatch.


class Rest:
    """The bytes of a payload that are not read yet."""

    def __init__(self, payload):
        self.payload, self.at = payload, 0

    def take(self, count):
        need(self.at + count <= len(self.payload))
        self.at += count
        return self.payload[self.at - count : self.at]


class Number:
    def __init__(self, size, most=None):
        self.size, self.most = size, most

    def put(self, value):
        return value.to_bytes(self.size, "big")

    def take(self, rest):
        value = int.from_bytes(rest.take(self.size), "big")
        need(self.most is None or value <= self.most)
        return value


class Text:
    """A text of which a function says whether it may be there."""

    def __init__(self, is_one=lambda _text: True):
        self.is_one = is_one

    def put(self, value):
        return LENGTH.put(len(value.encode())) + value.encode()

    def take(self, rest):
        try:
            text = rest.take(LENGTH.take(rest)).decode()
        except UnicodeDecodeError:
            raise NoBatch from None
        need(self.is_one(text))
        return text


class Maybe:
    """Nothing, or a value."""

    def __init__(self, field):
        self.field = field

    def put(self, value):
        return b"\0" if value is None else b"\1" + self.field.put(value)

    def take(self, rest):
        return self.field.take(rest) if TRUTH.take(rest) else None


class Many:
    def __init__(self, field):
        self.field = field

    def put(self, values):
        return LENGTH.put(len(values)) + b"".join(map(self.field.put, values))

    def take(self, rest):
        return [self.field.take(rest) for _ in range(LENGTH.take(rest))]


class All:
    """Fields one after the other, as a tuple."""

    def __init__(self, *fields):
        self.fields = fields

    def put(self, values):
        return b"".join(field.put(it) for field, it in zip(self.fields, values, strict=True))

    def take(self, rest):
        return tuple(it.take(rest) for it in self.fields)


class OneOf:
    """A byte, and fields that follow it. The value is a tuple with the byte first."""

    def __init__(self, cases, is_one=lambda _value: True):
        self.cases, self.is_one = cases, is_one

    def put(self, value):
        return BYTE.put(value[0]) + self.cases[value[0]].put(value[1:])

    def take(self, rest):
        case = BYTE.take(rest)
        need(case in self.cases)
        value = (case, *self.cases[case].take(rest))
        need(self.is_one(value))
        return value


def spells(read, *faults):
    """Whether a function reads a text without one of these faults."""

    def is_one(value):
        try:
            return read(value) is not False
        except faults:
            return False

    return is_one


def is_transformer(value):
    """Whether an input of kind 3 has paths and a template, and no key twice."""
    if value[0] != 3:
        return True
    _, paths, template = value
    members = {"InputPathsMap": dict(paths), "InputTemplate": template}
    return len(dict(paths)) == len(paths) and spells(inputs.of_transformer, Fault)(members)


BYTE, SHORT, LENGTH, LONG = Number(1), Number(2), Number(4), Number(8)
TRUTH = Number(1, 1)
TEXT = Text()
PATTERN = Text(spells(read_pattern, Fault))
POLICY = Text(spells(lambda text: stored(read_policy(text)) == text, PolicyFault))
INPUT = OneOf(
    {
        0: All(),
        1: All(Text(spells(inputs.of_input, Fault))),
        2: All(Text(spells(inputs.of_path, Fault))),
        3: All(Many(All(TEXT, TEXT)), TEXT),
    },
    is_transformer,
)
TARGET = All(TEXT, TEXT, INPUT, Maybe(All(SHORT, LENGTH)), Maybe(TEXT))  # id, ARN, input, retries and age, dead-letter queue
# The ARN of the rule, the target's id, its ARN, text, retries, age, dead-letter queue, whether the text was too long.
DELIVERY = All(TEXT, TEXT, TEXT, TEXT, SHORT, LENGTH, Maybe(TEXT), TRUTH)
ACCEPTED, CODE, NO_ANSWER, NO_QUEUE, TOO_OLD = range(5)
OUTCOME = All(Number(1, TOO_OLD), SHORT)
OPERATION = OneOf(
    {
        1: All(TEXT),  # bus made
        2: All(TEXT),  # bus deleted
        3: All(TEXT, TEXT, PATTERN, TRUTH),  # rule put: bus, name, pattern, enabled
        4: All(TEXT, TEXT),  # rule deleted
        5: All(TEXT, TEXT, TRUTH),  # rule enabled or disabled
        6: All(TEXT, TEXT, Many(TARGET)),  # targets put: bus, rule
        7: All(TEXT, TEXT, Many(TEXT)),  # targets removed
        8: All(TEXT, Maybe(POLICY)),  # policy of a bus
        9: All(TEXT),  # queue made
        10: All(TEXT),  # queue deleted
        11: All(TEXT, TEXT, Maybe(PATTERN), LENGTH),  # archive made: name, bus, days
        12: All(TEXT, Maybe(PATTERN), LENGTH),  # archive changed: both as they are after it
        13: All(TEXT),  # archive deleted
        14: All(LONG, TEXT, LONG, LONG, TEXT, Many(TEXT), Many(DELIVERY)),  # event: number, bus, changes so far, time, text, archives
        15: All(LONG, OUTCOME),  # attempt: delivery
        16: All(TEXT, TEXT, LONG, LONG, Maybe(Many(TEXT))),  # replay started: name, archive, first and last time, rules of its filter
        17: All(TEXT, LONG, Many(DELIVERY)),  # replay stepped: name, number of the event
        18: All(TEXT),  # replay cancelled
        19: All(TEXT, LONG),  # messages deleted: queue, through
    },
)


# ---- Batches and records


def batch_bytes(moment, operations):
    """The payload of a batch's record."""
    return LONG.put(moment) + SHORT.put(len(operations)) + b"".join(map(OPERATION.put, operations))


def read_batch(payload):
    """The moment and the operations that the bytes spell. Raises NoBatch."""
    rest = Rest(payload)
    moment, count = LONG.take(rest), SHORT.take(rest)
    need(count > 0)
    operations = [OPERATION.take(rest) for _ in range(count)]
    need(rest.at == len(payload))
    return moment, operations


def record(payload):
    """An open gate and the payload with its length."""
    return OPEN + LONG.put(len(payload)) + payload


def journal(payloads):
    """The file of these payloads, which ends with its closed gate."""
    return HEADER + b"".join(map(record, payloads)) + CLOSED


def records(file):
    """The gate's place and the payload of each record, and last the place of a gate that has none: it is closed, or the file is damaged
    there."""
    place = FIRST_GATE
    while file[place : place + 1] == OPEN and len(file) >= place + 9:
        after = place + 9 + int.from_bytes(file[place + 1 : place + 9], "big")
        if after >= len(file):
            break
        yield place, file[place + 9 : after]
        place = after
    yield place, None


# ---- What batches lead to


class Delivery:
    def __init__(self, row, accepted):
        _, _, self.arn, self.text, self.retries, self.age, self.dead_letter, self.is_too_long = row
        self.last_moment = accepted + self.age
        self.due, self.failures = accepted, 0


class Archive:
    def __init__(self, bus, pattern, days):
        self.bus, self.has_pattern, self.days = bus, pattern is not None, days
        self.events = []  # of each event that is kept, the moment at which it was accepted, its time and its number

    def drop(self, moment):
        """Drops what is not retained."""
        self.events = self.retained(moment)

    def retained(self, moment):
        return [it for it in self.events if self.days == 0 or it[0] + 86_400 * self.days > moment]


class Replay:
    def __init__(self, bus, left):
        self.bus, self.left = bus, left  # the numbers of the events that are left; none once it has ended


class Tables:
    """The configuration, the deliveries, the queues, the archives and the replays after batches."""

    def __init__(self):
        self.moment = self.records = self.operations = self.control = self.events = self.created = 0
        self.buses = {"default": {}}  # by name the rules, each with its targets, of which the two ARNs are kept
        self.archives = {}  # by name
        self.replays = {}  # by name
        self.queues = {}  # by name how many messages there ever were, and the numbers of those that are there
        self.pending = {}  # by number
        self.ended = {"delivered": 0, "dead-lettered": 0, "dropped": 0}

    def add(self, moment, operations):
        """Makes the changes of a batch. Raises NotAdmitted if it cannot come next; the tables are of no use then."""
        self.must(self.moment <= moment <= MOMENT_LIMIT)
        self.must(max(self.operations, self.created) <= LAST_NUMBER)
        self.must(len(operations) <= EVENTS_LIMIT and all(it[0] == 14 for it in operations) or len(operations) == 1)
        self.moment = moment
        for kind, *fields in operations:
            OPERATIONS[kind](self, *fields)
            self.control += kind in CONTROL
        for it in self.archives.values():
            it.drop(moment)
        self.records += 1
        self.operations += len(operations)

    def must(self, *truths):
        need(all(truths), NotAdmitted)

    def rules(self, bus):
        self.must(bus in self.buses)
        return self.buses[bus]

    def targets(self, bus, rule):
        self.must(rule in self.rules(bus))
        return self.buses[bus][rule]

    def is_queue(self, arn):
        return (name := queue_name(arn)) is not None and name in self.queues

    def put(self, arn):
        """Adds a message to the queue of an ARN."""
        queue = self.queues[queue_name(arn)]
        queue[0] += 1
        queue[1].append(queue[0])

    # -- Configuration

    def make_bus(self, name):
        self.must(re.fullmatch(BUS, name), name not in self.buses, len(self.buses) < BUSES_LIMIT)
        self.buses[name] = {}

    def delete_bus(self, name):
        self.must(name != "default", not self.rules(name), all(it.bus != name for it in self.archives.values()))
        self.must(all(it.bus != name or not it.left for it in self.replays.values()))
        del self.buses[name]

    def put_rule(self, bus, name, _pattern, _is_enabled):
        rules = self.rules(bus)
        self.must(re.fullmatch(NAME, name), name in rules or len(rules) < RULES_LIMIT)
        rules.setdefault(name, {})

    def delete_rule(self, bus, name):
        self.must(not self.targets(bus, name))
        del self.buses[bus][name]

    def set_rule(self, bus, name, _is_enabled):
        self.targets(bus, name)

    def put_targets(self, bus, rule, targets):
        before = self.targets(bus, rule)
        self.must(1 <= len(targets) <= ITEMS_LIMIT)
        for name, arn, _, retry, dead_letter in targets:
            self.must(re.fullmatch(NAME, name), self.is_queue(arn) or is_endpoint(arn), dead_letter is None or self.is_queue(dead_letter))
            self.must(retry is None or retry[0] <= 185 and 60 <= retry[1] <= 86_400)
            self.must(name in before or len(before) < TARGETS_LIMIT)
            before[name] = arn, dead_letter

    def remove_targets(self, bus, rule, names):
        before = self.targets(bus, rule)
        self.must(1 <= len(names) <= ITEMS_LIMIT)
        for it in names:
            self.must(it in before)
            del before[it]

    def set_policy(self, bus, _policy):
        self.rules(bus)

    def make_queue(self, name):
        self.must(re.fullmatch(QUEUE, name), name not in self.queues, len(self.queues) < QUEUES_LIMIT)
        self.queues[name] = [0, []]

    def delete_queue(self, name):
        self.must(name in self.queues and not self.queues[name][1])
        arns = [arn for rules in self.buses.values() for targets in rules.values() for pair in targets.values() for arn in pair]
        arns += [arn for it in self.pending.values() for arn in (it.arn, it.dead_letter)]
        self.must(QUEUE_ARN + name not in arns)
        del self.queues[name]

    def archive(self, name):
        self.must(name in self.archives)
        return self.archives[name]

    def make_archive(self, name, bus, pattern, days):
        self.must(re.fullmatch(ARCHIVE, name), bus in self.buses, name not in self.archives, len(self.archives) < ARCHIVES_LIMIT, days <= DAYS_LIMIT)
        self.archives[name] = Archive(bus, pattern, days)

    def change_archive(self, name, pattern, days):
        archive = self.archive(name)
        self.must(days <= DAYS_LIMIT, pattern is not None or not archive.has_pattern)
        archive.drop(self.moment)
        archive.has_pattern, archive.days = pattern is not None, days

    def delete_archive(self, name):
        self.archive(name)
        del self.archives[name]

    # -- Events and deliveries

    def accept(self, number, bus, control, time, text, archives, deliveries):
        self.must(archives == sorted(set(archives)))
        for it in archives:
            self.archive(it).events.append((self.moment, time, number))
        self.must(number == self.events + 1, re.fullmatch(BUS, bus), control <= self.control, time <= MOMENT_LIMIT, is_event(text))
        self.events += 1
        self.owe(deliveries)

    def owe(self, deliveries):
        """Makes deliveries of one event."""
        self.must(len(deliveries) <= DELIVERIES_LIMIT, all(len(row[3].encode()) <= LONGEST_TEXT for row in deliveries))
        for row in deliveries:
            self.created += 1
            made = Delivery(row, self.moment)
            if made.is_too_long:
                self.end(made)
            else:
                self.pending[self.created] = made

    def attempt(self, number, outcome):
        made, code = self.pending.get(number), outcome[1]
        self.must(made and made.due <= self.moment, outcome[0] == CODE or code == 0)
        if outcome[0] == ACCEPTED:
            if queue_name(made.arn) is not None:
                self.must(self.is_queue(made.arn))
                self.put(made.arn)
            self.ended["delivered"] += 1
        elif outcome[0] == NO_ANSWER or outcome[0] == CODE and code in RETRIED:
            due = self.moment + min(2**made.failures, LONGEST_DELAY)
            made.failures += 1
            if made.failures <= made.retries and due <= made.last_moment:
                made.due = due
                return
            self.end(made)
        else:
            self.end(made)
        del self.pending[number]

    def end(self, made):
        """Ends a delivery that did not succeed."""
        is_kept = self.is_queue(made.dead_letter)
        if is_kept:
            self.put(made.dead_letter)
        self.ended["dead-lettered" if is_kept else "dropped"] += 1

    # -- Replays

    def start_replay(self, name, archive, first, last, rules):
        self.must(re.fullmatch(NAME, name), name not in self.replays, first <= last <= MOMENT_LIMIT)
        self.must(all(re.fullmatch(NAME, it) for it in rules or []), sum(bool(it.left) for it in self.replays.values()) < RUNNING_LIMIT)
        source = self.archive(archive)
        chosen = sorted((time, number) for _, time, number in source.retained(self.moment) if first <= time <= last)
        self.replays[name] = Replay(source.bus, [number for _, number in chosen])

    def step_replay(self, name, number, deliveries):
        self.must(name in self.replays and self.replays[name].left[:1] == [number])
        self.replays[name].left.pop(0)
        self.owe(deliveries)

    def cancel_replay(self, name):
        self.must(name in self.replays and self.replays[name].left)
        self.replays[name].left = []

    def delete_messages(self, name, through):
        self.must(name in self.queues and through <= LAST_NUMBER)
        queue = self.queues[name]
        left = [it for it in queue[1] if it > through]
        self.must(len(left) < len(queue[1]))
        queue[1] = left

    # -- What `check` writes

    def summary(self):
        ended = " ".join(f"{fate} {count}" for fate, count in self.ended.items())
        return (
            f"records {self.records} entries {self.operations} control {self.control}\n"
            f"events {self.events} archived {sum(len(it.events) for it in self.archives.values())} replays {len(self.replays)}\n"
            f"duties {self.created} pending {len(self.pending)} {ended}\n"
            f"messages {sum(len(it) for _, it in self.queues.values())}\n"
        )


OPERATIONS = {
    1: Tables.make_bus,
    2: Tables.delete_bus,
    3: Tables.put_rule,
    4: Tables.delete_rule,
    5: Tables.set_rule,
    6: Tables.put_targets,
    7: Tables.remove_targets,
    8: Tables.set_policy,
    9: Tables.make_queue,
    10: Tables.delete_queue,
    11: Tables.make_archive,
    12: Tables.change_archive,
    13: Tables.delete_archive,
    14: Tables.accept,
    15: Tables.attempt,
    16: Tables.start_replay,
    17: Tables.step_replay,
    18: Tables.cancel_replay,
    19: Tables.delete_messages,
}


def is_endpoint(arn):
    """Whether a text is an endpoint: one of those that were decided by hand, or one of a plain form."""
    plain = r"http://(127\.0\.0\.1|localhost)(:(?!0[0-9])[0-9]{1,4})?(/[\x21\x23-\x7e]*)?"
    return arn in ENDPOINTS or arn in STORED_ENDPOINTS or len(arn) <= 1_600 and "#" not in arn and bool(re.fullmatch(plain, arn))


def is_event(text):
    """Whether a text is the compact text of an event."""
    try:
        event, _ = read_json(text)
    except Fault:
        return False
    members = ["version", "id", "detail-type", "source", "account", "time", "region", "resources", "detail"]
    if not isinstance(event, dict) or list(event) != members or spelled(event) != text:
        return False
    version, name, kind, source, account, time, region, resources, detail = event.values()
    texts = [version, name, kind, source, account, time, region]
    if not all(isinstance(it, str) for it in texts) or not isinstance(resources, list) or not isinstance(detail, dict):
        return False
    return (
        (version, region) == ("0", "us-east-1")
        and is_id(name)
        and kind != ""
        and source != ""
        and not source.startswith("aws.")
        and bool(re.fullmatch("[0-9]{12}", account))
        and is_time(time)
        and all(isinstance(it, str) for it in resources)
        and levels(detail) <= DETAIL_LEVELS
    )


def is_id(text):
    """Whether a text is the id of an event with a number of 64 bits that is not 0."""
    if not re.fullmatch("[0-9a-f]{8}(-[0-9a-f]{4}){3}-[0-9a-f]{12}", text):
        return False
    return 1 <= int(text.replace("-", ""), 16) - 0x8000_8000_0000_0000_0000 < 2**64


def is_time(text):
    found = re.fullmatch("([0-9]{4})-([0-9]{2})-([0-9]{2})T([0-9]{2}):([0-9]{2}):([0-9]{2})Z", text)
    return bool(found) and "1970" <= text <= shown(MOMENT_LIMIT) and is_date(*map(int, found.groups()))


def is_date(year, month, day, hour, minute, second):
    is_leap = year % 4 == 0 and (year % 100 != 0 or year % 400 == 0)
    lengths = [31, 29 if is_leap else 28, 31, 30, 31, 30, 31, 31, 30, 31, 30, 31]
    return 1 <= month <= 12 and 1 <= day <= lengths[month - 1] and hour < 24 and minute < 60 and second < 60


def levels(value):
    inner = value.values() if isinstance(value, dict) else value if isinstance(value, list) else None
    return 0 if inner is None else 1 + max(map(levels, inner), default=0)


# ---- What a file is


def found_in(file):
    """The tables after a file's records; or, if it is no journal, None and why not."""
    if len(file) <= FIRST_GATE + 1:
        return Tables(), None
    if not file.startswith(HEADER):
        return None, "not a journal"
    tables = Tables()
    for place, payload in records(file):
        try:
            need(payload is not None or file[place : place + 1] != OPEN)
            if payload is not None:
                tables.add(*read_batch(payload))
        except (NoBatch, NotAdmitted):
            return None, f"journal damaged at record {tables.records + 1}, byte {place}"
    return tables, None


def checked(file):
    """The status, the output and the faults of `ebusd check` on a file."""
    tables, why = found_in(file)
    if why:
        return 6, b"", f"ebusd: {why}\n".encode()
    return 0, tables.summary().encode(), b""
