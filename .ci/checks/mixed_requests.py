"""Requests by chance, for the mixed runs. Each function of ACTIONS makes members for one action, most of them for what the router
has just now; then a part of the requests is spoiled: a member, the caller, the body, the action or the method. What a request
is answered is the matter of the model, `router.py`, alone.
"""
import re

from endpoint_texts import ENDPOINTS, NO_ENDPOINTS
from input_texts import BAD_INPUTS, BAD_PATHS, BAD_TRANSFORMERS, DETAIL, INPUTS, MOST, TWO_INPUTS, an_input
from pattern_texts import a_pattern_text, an_event, no_event, spell
from patterns import Number, spelled
from policy_texts import BAD_MEMBERS, a_policy_text
from router import ARCHIVE_STATES, CALLS, DAYS_LIMIT, ENTRIES_SIZE, EVENTS_ARN, LAST_NUMBER, NO_OBJECT, OWNER, PEEKED_MOST, QUEUE_ARN
from router import REPLAY_STATES, RUNNING_LIMIT, Spelled, moment_of

BUS_ARN, ARCHIVE_ARN, RULE_ARN = EVENTS_ARN + "event-bus/", EVENTS_ARN + "archive/", EVENTS_ARN + "rule/"
BUSES = ["default", "orders", "shop.bus", "b-1", "b_2", "B" * 256, "aws", "0", "-", "zz"]  # that a run makes before it fills all
STRANGERS = ["444455556666", "777788889999", "000000000000"]
BAD_CALLERS = ["", "1", "11112222333", "1111222233334", "1111 2222 3333", "11112222333x", "-11112222333"]
BAD_CALLERS += ["arn:aws:iam::444455556666:root", "१११１２２２２３３３３"]
RULES = 9  # rules of a bus that a run makes before it fills one
QUEUES = 200  # queues that a run makes before it fills all
ARCHIVES = 9  # archives that a run makes before it fills all
REPLAYS = 90  # names of replays, which are never free again

SOURCES = [f"shop.{it}" for it in ("orders", "returns", "stock", "prices", "users", "carts")] + ["Ünï.код", "a"]
TYPES = ["Order", "Return", "Item sold", "Price \\ \"new\"", "x", "two\nlines"]
STATES = ["open", "paid", "sent", ""]
CITIES = ["Oslo", "Bern", "Åbo"]
FILLING = "The quick brown fox jumps over the lazy dog 0123456789 " * 20_000


class World:
    """What policies are about."""

    def __init__(self, router):
        self.accounts, self.sources, self.types = [OWNER, *STRANGERS[:2]], SOURCES, TYPES
        self.bus_arns = [it.arn for it in router.buses.values()][:4]


class Request:
    """A request's method, action, caller's field, body and the body's value."""

    def __init__(self, action, value, body, caller=None, method="POST"):
        self.method, self.action, self.caller, self.value, self.body = method, action, caller, value, body.encode()


# ---- Bodies of a wanted length


def padded(chance, body, length):
    """A JSON object's text with white space around it, or a member that no action reads, up to the length in bytes."""
    missing = length - len(body.encode())
    if missing < 0:
        return None
    if missing >= 9 and len(body) > 2 and chance.random() < 0.5:
        return f'{body[:-1]},"Pad":"{FILLING[: missing - 9]}"}}'
    front = chance.randint(0, min(missing, 20))
    return " " * front + body + chance.choice(" \n\t") * (missing - front)


def body_of(chance, value, length):
    """A text of the value, with that length, or None. Some have white space and escapes, or a key twice."""
    kind = chance.random()
    body = spelled(value)
    if kind < 0.1 and length < 5_000:
        body = spell(chance, value, 0.1).strip()
    if kind > 0.97 and value:
        body = f"{{{spelled(chance.choice(list(value)))}:0," + body[1:]
    return padded(chance, body, length) or padded(chance, spelled(value), length)


# ---- Members of each action


def some_bus(router, chance, missing=0.06):
    """The name of a bus, most of which exist."""
    kind = chance.random()
    if kind < missing:
        return chance.choice(["none", *BUSES])
    return "default" if kind < 0.4 else chance.choice(list(router.buses))


def named(chance, bus):
    """Members that name a bus."""
    if bus == "default" and chance.random() < 0.7:
        return chance.choice([{}, {"EventBusName": None}])
    return {"EventBusName": chance.choice(["", "", BUS_ARN]) + bus}


def some_rule(router, chance, bus, missing=0.1):
    """The name of a rule, most of which exist on the bus."""
    rules = list(router.buses[bus].rules) if bus in router.buses else []
    if not rules or chance.random() < missing:
        return f"rule.{chance.randint(1, RULES)}"
    return chance.choice(rules)


def some_queue(router, chance):
    return chance.choice(list(router.queues)[:20]) if router.queues else "none"


def create_queue(router, chance):
    name = chance.choice("qQ-_") * chance.randint(1, 4) + str(chance.randint(0, 2 * QUEUES))
    if len(router.queues) >= QUEUES and name not in router.queues:
        name = chance.choice(list(router.queues))
    return {"QueueName": name}


def any_queue(router, chance):
    return chance.choice([some_queue(router, chance), *router.queues, "none"])


def delete_queue(router, chance):
    return {"QueueName": any_queue(router, chance)}


def delete_messages(router, chance):
    name = some_queue(router, chance) if chance.random() < 0.8 else any_queue(router, chance)
    last = router.queues[name].count if name in router.queues else 0
    return {"QueueName": name, "Through": chance.choice([0, 1, last // 2, last // 2, last, LAST_NUMBER])}


def duty_counts(_router, chance):
    return chance.choice([{}, {}, {"Budget": 0}, {"QueueName": None}])


def create_event_bus(_router, chance):
    return {"Name": chance.choice(BUSES)}


def delete_event_bus(router, chance):
    used = {it.bus.name for it in router.archives.values()} | {it.bus for it in router.running}
    empty = [name for name, it in router.buses.items() if not it.rules and name not in used]
    return {"Name": chance.choice(empty if empty and chance.random() < 0.6 else BUSES)}


def describe_event_bus(router, chance):
    name = some_bus(router, chance)
    return {"Name": chance.choice(["", BUS_ARN]) + name} if name != "default" or chance.random() < 0.5 else {}


def a_prefix(chance, names):
    name = chance.choice([*names, "none"])
    return chance.choice([{}, {"NamePrefix": None}, {"NamePrefix": ""}, {"NamePrefix": name[: chance.randint(0, len(name))]}, {"NamePrefix": "é"}])


def list_event_buses(router, chance):
    return a_prefix(chance, router.buses)


def a_pattern(chance):
    pattern = {"source": chance.sample(SOURCES, 1)}
    if chance.random() < 0.8:
        pattern["detail-type"] = chance.sample(TYPES, chance.randint(1, 2))
    if chance.random() < 0.3:
        pattern["detail"] = {"state": chance.sample(STATES, 2)}
    if chance.random() < 0.3:
        pattern.setdefault("detail", {})["place"] = {"city": chance.sample(CITIES, chance.randint(1, 2))}
    return pattern if chance.random() < 0.98 else {"account": [chance.choice([OWNER, *STRANGERS])]}


def put_rule(router, chance):
    bus = some_bus(router, chance)
    if chance.random() < 0.6:
        text = spelled(a_pattern(chance))
    else:
        entry = an_entry(router, chance)
        event = {"source": entry["Source"], "detail-type": entry["DetailType"], "detail": entry["Detail"].tree}
        text = a_pattern_text(chance, event)
    state = chance.choices([None, "ENABLED", "DISABLED"], [8, 1, 1])[0]
    return {"Name": f"rule.{chance.randint(1, RULES)}", "EventPattern": text, "State": state, **named(chance, bus)}


def of_rule(router, chance):
    bus = some_bus(router, chance)
    return {"Name": some_rule(router, chance, bus), **named(chance, bus)}


def delete_rule(router, chance):
    bus = some_bus(router, chance)
    rules = router.buses[bus].rules if bus in router.buses else {}
    bare = [it for it in rules if not rules[it].targets]
    name = chance.choice(bare) if bare and chance.random() < 0.3 else some_rule(router, chance, bus)
    return {"Name": name, **named(chance, bus)}


def list_rules(router, chance):
    bus = some_bus(router, chance)
    return {**a_prefix(chance, ["rule.1"]), **named(chance, bus)}


BAD_ARNS = ["q", QUEUE_ARN, QUEUE_ARN + "a.b", "arn:aws:sqs:eu-west-1:111122223333:q", *NO_ENDPOINTS]
BAD_RETRIES = [186, 65_536, -1, 2**64, Number("-0"), Number("5.0"), Number("1e1")]
BAD_AGES = [0, 59, 86_401, 65_596, 2**32 + 60, 2**64 + 60, Number("60.0"), Number("6e1"), -60]
# Each fault of a target's members, by the member.
TARGET_FAULTS = {
    "Id": ["", "a b", "t" * 65, "t/1"],
    "Arn": [*BAD_ARNS, QUEUE_ARN + "none"],
    "Input": BAD_INPUTS,
    "InputPath": ["", "$." + "a" * 255, *BAD_PATHS],
    "InputTransformer": BAD_TRANSFORMERS,
    "RetryPolicy": [{"MaximumRetryAttempts": it} for it in BAD_RETRIES] + [{"MaximumEventAgeInSeconds": it} for it in BAD_AGES],
    "DeadLetterConfig": [{"Arn": it} for it in [*BAD_ARNS, *ENDPOINTS[:3], QUEUE_ARN + "none"]],
}

# The same without long values, for targets that have others beside them.
SHORT_FAULTS = {member: [it for it in values if len(spelled(it)) < 2_000] for member, values in TARGET_FAULTS.items()}


def a_retry_policy(chance):
    numbers = {"MaximumRetryAttempts": chance.choice([0] * 6 + [1, 185, None]), "MaximumEventAgeInSeconds": chance.choice([60, 61, 86_400, None])}
    return chance.choice([{}, {"Pad": 1}, dict(chance.sample(list(numbers.items()), 1)), *[numbers] * 7])


def a_target(router, chance):
    """A target, with no fault or some."""
    is_endpoint = chance.random() < 0.25
    target = {"Id": f"t{chance.randint(1, 7)}", "Arn": chance.choice(ENDPOINTS) if is_endpoint else QUEUE_ARN + some_queue(router, chance)}
    if chance.random() < (0.9 if is_endpoint else 0.3):
        target["RetryPolicy"] = chance.choice([a_retry_policy(chance)] * 9 + [None])
    if chance.random() < (0.8 if is_endpoint else 0.3):
        target["DeadLetterConfig"] = chance.choice([{"Arn": QUEUE_ARN + some_queue(router, chance)}] * 8 + [{}, {"Arn": None}, None])
    if chance.random() < 0.35:
        target.update(an_input(chance))
    for _ in range(chance.choice([0, 0, 0, 0, 0, 0, 0, 0, 1, 2])):
        member = chance.choice(list(SHORT_FAULTS))
        target[member] = chance.choice(SHORT_FAULTS[member])
        if member not in ("Id", "Arn") and chance.random() < 0.3:
            target[member] = None
    return dict(chance.sample(list(target.items()), len(target))) if chance.random() < 0.3 else target


def put_targets(router, chance):
    bus = some_bus(router, chance)
    targets = [a_target(router, chance) for _ in range(chance.choice([1, 1, 2, 3, 6]))]
    return {"Rule": some_rule(router, chance, bus, 0.05), **named(chance, bus), "Targets": targets}


def remove_targets(router, chance):
    bus = some_bus(router, chance)
    rule = some_rule(router, chance, bus, 0.05)
    ids = [f"t{chance.randint(1, 7)}" for _ in range(chance.choice([1, 1, 2, 3]))]
    if chance.random() < 0.15:
        ids = [f"t{it}" for it in range(1, 8)]
    return {"Rule": rule, **named(chance, bus), "Ids": ids}


def list_targets_by_rule(router, chance):
    bus = some_bus(router, chance)
    return {"Rule": some_rule(router, chance, bus), **named(chance, bus)}


def list_rule_names_by_target(router, chance):
    arn = chance.choice([QUEUE_ARN + some_queue(router, chance), chance.choice(ENDPOINTS)])
    return {"TargetArn": arn, **named(chance, some_bus(router, chance))}


def a_sid(router, chance, bus, missing):
    policy = router.buses[bus].policy if bus in router.buses else None
    sids = [it["Sid"] for it in policy["Statement"] if re.fullmatch("[A-Za-z0-9_-]{1,64}", it.get("Sid", ""))] if policy else []
    if not sids or chance.random() < missing:
        return chance.choice(["ok", "no", "s-1", "S_2", "0", "-"]) + str(chance.randint(0, 9))
    return chance.choice(sids)


def put_permission(router, chance):
    bus = some_bus(router, chance)
    principal = chance.choice([OWNER, *STRANGERS, "*"])
    members = {"StatementId": a_sid(router, chance, bus, 0.9), "Action": "events:PutEvents", "Principal": principal}
    if chance.random() < 0.6:
        policy = a_policy_text(chance, World(router))
        ignored = chance.choice([{}, {}, members, {"StatementId": 1, "Action": ""}])
        members = {**ignored, "Policy": policy}
    if chance.random() < 0.04:
        members["Condition"] = chance.choice([None, {}, {"Type": "StringEquals", "Key": "aws:PrincipalOrgID", "Value": "o-1"}, "x", 0])
    return {**named(chance, bus), **members}


def remove_permission(router, chance):
    bus = some_bus(router, chance)
    members = {"StatementId": a_sid(router, chance, bus, 0.2)}
    kind = chance.random()
    if kind < 0.1:
        members = {"RemoveAllPermissions": True, **chance.choice([{}, members])}
    elif kind < 0.2:
        members = {"RemoveAllPermissions": chance.choice([False, None]), **chance.choice([{}, members])}
    return {**named(chance, bus), **members}


def some_archive(router, chance):
    """The name of an archive, most of which exist."""
    names = list(router.archives)
    return chance.choice(names) if names and chance.random() < 0.9 else f"archive.{chance.randint(1, ARCHIVES)}"


def kept_by(chance):
    """The pattern and the days of an archive, as far as they are given."""
    settings = {
        "EventPattern": chance.choice([None, spelled(a_pattern(chance)), a_pattern_text(chance, an_event(chance))]),
        "RetentionDays": chance.choice([None, 0, 1, 30, DAYS_LIMIT]),
    }
    return {key: it for key, it in settings.items() if it is not None or chance.random() < 0.3}


def create_archive(router, chance):
    name = f"archive.{chance.randint(1, ARCHIVES)}"
    return {"ArchiveName": name, "EventSourceArn": BUS_ARN + some_bus(router, chance), **kept_by(chance)}


def update_archive(router, chance):
    return {"ArchiveName": some_archive(router, chance), **kept_by(chance)}


def of_archive(router, chance):
    return {"ArchiveName": some_archive(router, chance)}


def list_archives(router, chance):
    source = chance.choice([{}, {}, {"EventSourceArn": BUS_ARN + some_bus(router, chance)}, {"EventSourceArn": chance.choice(["", "default"])}])
    state = chance.choice([{}, {}, {"State": "ENABLED"}, {"State": chance.choice(ARCHIVE_STATES)}])
    return {**a_prefix(chance, ["archive.1", *router.archives]), **source, **state}


def some_replay(router, chance):
    """The name of a replay, most of which exist."""
    names = list(router.replays)
    return chance.choice(names) if names and chance.random() < 0.9 else f"replay.{chance.randint(1, REPLAYS)}"


def a_destination(router, chance, archive):
    """The bus of the archive, or now and then another one, and perhaps some rules."""
    bus = router.archives[archive].bus.name if archive in router.archives and chance.random() < 0.9 else some_bus(router, chance)
    rules = [f"{RULE_ARN}{'' if bus == 'default' else bus + '/'}{it}" for it in [*router.buses.get(bus, router.buses["default"]).rules, "none"]]
    some = {"FilterArns": chance.choice([None, [], chance.sample(rules, chance.randint(1, len(rules)))])}
    return {"Arn": BUS_ARN + bus, **(some if chance.random() < 0.4 else {})}


def start_replay(router, chance):
    name, archive = f"replay.{chance.randint(1, REPLAYS)}", some_archive(router, chance)
    times = chance.sample([*TIMES, router.reading, router.reading, 1, 1_700_000_001], 2)
    first, last = times if chance.random() < 0.1 else sorted(times, key=moment_of)
    members = {"ReplayName": name, "EventSourceArn": ARCHIVE_ARN + archive, "EventStartTime": first, "EventEndTime": last}
    return {**members, "Destination": a_destination(router, chance, archive)}


def cancel_replay(router, chance):
    running = router.running
    return {"ReplayName": chance.choice(running).name if running and chance.random() < 0.6 else some_replay(router, chance)}


def of_replay(router, chance):
    return {"ReplayName": some_replay(router, chance)}


def list_replays(router, chance):
    source = chance.choice([{}, {}, {"EventSourceArn": ARCHIVE_ARN + some_archive(router, chance)}, {"EventSourceArn": chance.choice(["", "a"])}])
    state = chance.choice([{}, {"State": "COMPLETED"}, {"State": chance.choice(REPLAY_STATES)}])
    return {**a_prefix(chance, ["replay.1", *router.replays]), **source, **state}


def step_replays(_router, chance):
    most = chance.choice([1, 1, 2, 5, 20, None])
    return {} if most is None else {"Budget": most}


def test_event_pattern(_router, chance):
    event = an_event(chance)
    text = no_event(chance, event) if chance.random() < 0.08 else spell(chance, event, 0.05)
    return {"EventPattern": a_pattern_text(chance, event), "Event": text}


def deliver_due(_router, chance):
    most = chance.choice([None, None, None, 1, 7, 1_000])
    return {} if most is None else {"Budget": most}


def peek_messages(router, chance):
    most = chance.choices([None, 1, 3, 100, PEEKED_MOST], [50, 20, 20, 9, 1])[0]
    name = some_queue(router, chance) if chance.random() < 0.6 else any_queue(router, chance)
    return {"QueueName": name} if most is None else {"QueueName": name, "Limit": most}


# ---- Entries

ODD_DETAILS = ['{"a":1, "b":2,"a":3}', ' {"\\u0061\\/":"\\u00e9\\u001F\\ud83d\\ude00"}\n', '{"n":[1E+2,-0,1.50]}', '{"a":%s}' % ("[" * 98 + "]" * 98)]
NO_DETAILS = ["", "[]", "{", "1", "null", '{"a":1}x', "{'a':1}", '{"a":"\\ud800"}', '{"a":%s}' % ("[" * 99 + "]" * 99)]
TIMES = [Number("0"), Number("-0.5"), Number("1700000000.9"), "2023-11-14T22:13:20Z", "2000-02-29T23:59:59.75Z", Number("250000000000")]
NO_TIMES = ["", "0", Number("-1"), Number("1.7e9"), Number("250000000001"), "2023-11-14T22:13:60Z", "2023-02-29T00:00:00Z", "2023-11-14t22:13:20Z"]
NO_TIMES += ["2023-11-14T22:13:20.Z", "2023-11-14T22:13:20+00:00", "1969-12-31T23:59:59Z", "2023-11-14T24:00:00Z"]


def a_change(chance):
    """Members of an entry that are valid, but for those that the next changes."""
    return chance.choice(
        [
            {"Time": chance.choice(TIMES)},
            {"Resources": chance.sample(SOURCES, chance.randint(0, 3))},
            {"EventBusName": chance.choice(["default", BUS_ARN + "default", None])},
            {"Detail": chance.choice(ODD_DETAILS)},
            {"Source": "aws", "Time": None, "Resources": None, "TraceHeader": {}},
        ]
    )


def a_fault(chance):
    return chance.choice(
        [
            {"Source": chance.choice([None, "", "aws.s3", "aws."])},
            {"DetailType": chance.choice([None, ""])},
            {"Detail": chance.choice([None, *NO_DETAILS])},
            {"Time": chance.choice(NO_TIMES)},
            {"EventBusName": chance.choice(["", "a/b", "other", BUS_ARN, BUS_ARN + "other", "b" * 257])},
        ]
    )


def an_entry(router, chance):
    detail = {"total": chance.randint(0, 999), "state": chance.choice([*STATES, STATES[:2], None, True])}
    if chance.random() < 0.5:
        detail["place"] = {"city": chance.choice(CITIES), "at": [chance.randint(0, 9)] * chance.randint(0, 3)}
    bus = named(chance, some_bus(router, chance, 0.03))
    return {"Source": chance.choice(SOURCES), "DetailType": chance.choice(TYPES), "Detail": Spelled(detail), **bus}


def put_events(router, chance, length):
    entries = [an_entry(router, chance) for _ in range(chance.choice([1, 1, 2, 3, 5, 10]))]
    if chance.random() < 0.3:
        for it in entries:
            for _ in range(chance.choice([0, 1, 1, 2])):
                it.update(a_fault(chance) if chance.random() < 0.4 else a_change(chance))
    missing = length - len(spelled({"Entries": entries}).encode())
    if missing < 0 and len(entries) > 1:
        entries = entries[:1]
        missing = length - len(spelled({"Entries": entries}).encode())
    entry = chance.choice(entries)
    if missing > 60 and chance.random() < 0.4 and isinstance(entry["Detail"], Spelled):
        count = min(missing - 20, 200_000)
        note = FILLING[:count] if chance.random() < 0.5 else [[]] * (count // 3)
        entry["Detail"] = Spelled({**entry["Detail"].tree, "note": note})
    return {"Entries": entries}


def most_bytes(over):
    """Entries that have as many bytes together as one request may have, or so many more."""
    half = Spelled({"note": FILLING[: ENTRIES_SIZE // 2 - 13]})
    good = {"Source": "a", "DetailType": "b", "Detail": half}
    bad = {"Source": "", "DetailType": "b" * (2 + over), "Detail": half}
    assert sum(len(it) for entry in (good, bad) for it in entry.values()) == ENTRIES_SIZE + over
    return {"Entries": [good, bad]}


# ---- What is spoiled

BAD_QUEUES = ["", "a.b", "q" * 81, "é", 1, ["q"]]
BAD_NAMES = ["", "r r", "r" * 65, "r/1", True, {}]
BAD_BUSES = ["", "a/b", "b" * 257, BUS_ARN, BUS_ARN + "a b", "arn:aws:events:eu-west-1:111122223333:event-bus/default", 1, []]
BAD_COUNTS = [0, 1_001, -1, Number("1.0"), Number("1e1"), Number("-0"), Number("99999999999999999999"), "1", True, [1], {}]
A_TARGET = {"Id": "t", "Arn": QUEUE_ARN + "q"}
BAD_TARGETS = [[], [A_TARGET] * 101, {}, "t", [1], [[]], [A_TARGET, {}]]
BAD_TARGETS += [[A_TARGET, {**A_TARGET, key: it}] for key in ("Id", "Arn") for it in (None, 1, [], {})]
BAD_TARGETS += [[{**A_TARGET, "Id": "", key: it}] for key in ("Input", "InputPath") for it in (1, {}, ["$"])]
BAD_TARGETS += [[{**A_TARGET, "InputTransformer": it}] for it in ("", [], {}, {"InputTemplate": None}, {"InputTemplate": 1})]
BAD_TARGETS += [[{**A_TARGET, "InputTransformer": {"InputTemplate": "", "InputPathsMap": it}}] for it in ("", [], {"a": 1}, {"a": "", "b": None})]
BAD_TARGETS += [[{**A_TARGET, "RetryPolicy": it}] for it in (1, [], "", {"MaximumRetryAttempts": "1"}, {"MaximumEventAgeInSeconds": []})]
BAD_TARGETS += [[{**A_TARGET, "DeadLetterConfig": it}] for it in ("", [], {"Arn": 1}, {"Arn": {}})]
BAD_IDS = [[], ["t"] * 101, {}, "t", [1], [None], ["t", "a b"], [""], ["t" * 65], [["t"]]]
AN_ENTRY = {"Source": "a", "DetailType": "b", "Detail": "{}"}
BAD_ENTRIES = [[], [AN_ENTRY] * 11, AN_ENTRY, "{}", [AN_ENTRY, []], ["{}"], [None]]
BAD_ENTRIES += [[AN_ENTRY, {**AN_ENTRY, key: it}] for key in ("Source", "DetailType", "Detail", "EventBusName") for it in (1, {}, ["a"], True)]
BAD_ENTRIES += [[{**AN_ENTRY, "Resources": it}] for it in ("a", {}, [None], ["a", 1], [["a"]])]
BAD_ENTRIES += [[{**AN_ENTRY, "Source": "", "Time": it}] for it in (True, [], {}, [0])]
BAD_EVENTS = ["", "[1]", "1", "null", "{}", '{"source":"a"}', 1, {}, [], '{"id":1,"account":1,"source":1,"time":1,"region":1,"resources":1}']
BAD_TEXTS = [1, {}, [], True, ["a"]]
BAD_SOURCES = ["", "default", BUS_ARN, BUS_ARN + "a/b", BUS_ARN + "b" * 257, EVENTS_ARN + "archive/a", EVENTS_ARN + "rule/default", 1, {}]
BAD_SOURCES += ["arn:aws:events:eu-west-1:111122223333:event-bus/default", " " + BUS_ARN + "default"]
BAD_ARCHIVES = ["", "a", ARCHIVE_ARN, ARCHIVE_ARN + "a/b", ARCHIVE_ARN + "a" * 49, BUS_ARN + "default", EVENTS_ARN + "replay/a", 1, {}]
BAD_ARCHIVES += ["arn:aws:events:eu-west-1:111122223333:archive/a", " " + ARCHIVE_ARN + "a"]
A_DESTINATION = {"Arn": BUS_ARN + "default"}
BAD_DESTINATIONS = ["", [], 1, {}, A_DESTINATION["Arn"], {"Arn": None}, {"Arn": "default"}, {"Arn": 1}, {"Arn": BUS_ARN}, {"Arn": BUS_ARN + "a/b"}]
BAD_DESTINATIONS += [{**A_DESTINATION, "FilterArns": it} for it in ("", {}, 1, ["r"], [None], [1], [RULE_ARN], [RULE_ARN + "b/r"], [RULE_ARN + "r", ""])]
BAD_DESTINATIONS += [{"Arn": BUS_ARN + "b", "FilterArns": [it]} for it in (RULE_ARN + "r", RULE_ARN + "c/r", RULE_ARN + "b/", RULE_ARN + "b/r r")]
BAD_BUS_NAMES = ["", "a/b", "b" * 257, "é", BUS_ARN + "orders", 1, []]
# By the member, or by the action and the member.
BAD_VALUES = {
    "Name": BAD_NAMES,
    ("AWSEvents.CreateEventBus", "Name"): BAD_BUS_NAMES,
    ("AWSEvents.DeleteEventBus", "Name"): BAD_BUS_NAMES,
    ("AWSEvents.DescribeEventBus", "Name"): BAD_BUSES,
    "Rule": BAD_NAMES,
    "QueueName": BAD_QUEUES,
    "NamePrefix": BAD_TEXTS,
    "EventPattern": [1, {"source": ["a"]}, [], True],
    "ScheduleExpression": ["", "rate(1 day)", 1, {}],
    "State": ["", "enabled", "DISABLED ", 1, ["ENABLED"], True],
    "EventBusName": BAD_BUSES,
    "Targets": BAD_TARGETS,
    "Ids": BAD_IDS,
    "TargetArn": [*BAD_ARNS, 1, [], {}],
    "Policy": BAD_TEXTS,
    "StatementId": ["", "a.b", "s" * 65, "é", "a b", 1, []],
    "Action": ["", "events:*", "*", "events:putEvents", 1, ["events:PutEvents"]],
    "Principal": ["", "44445555666", "4444555566667", "arn:aws:iam::444455556666:root", "**", 1, ["*"], {"AWS": "*"}],
    "Condition": ["", {}, [], 1, {"Type": "StringEquals", "Key": "aws:PrincipalOrgID", "Value": "o-1"}],
    "RemoveAllPermissions": ["true", 1, 0, [], {}, ""],
    "Event": BAD_EVENTS,
    "Entries": BAD_ENTRIES,
    "Limit": BAD_COUNTS,
    "Budget": BAD_COUNTS,
    "ArchiveName": ["", "a a", "a" * 49, "a/1", "é", 1, ["a"]],
    "EventSourceArn": BAD_SOURCES,
    ("AWSEvents.ListArchives", "EventSourceArn"): BAD_TEXTS,
    ("AWSEvents.ListArchives", "State"): ["", "enabled", "RUNNING", "ENABLED ", 1, ["ENABLED"], True],
    "ReplayName": BAD_NAMES,
    ("AWSEvents.StartReplay", "EventSourceArn"): BAD_ARCHIVES,
    "EventStartTime": [*NO_TIMES, True, [], {}],
    "EventEndTime": [*NO_TIMES, False, [0], {}],
    "Destination": BAD_DESTINATIONS,
    ("AWSEvents.ListReplays", "EventSourceArn"): BAD_TEXTS,
    ("AWSEvents.ListReplays", "State"): ["", "running", "ENABLED", "RUNNING ", 1, ["RUNNING"], True],
    "RetentionDays": [-1, DAYS_LIMIT + 1, 2**32, 2**64, Number("-0"), Number("1.0"), Number("1e1"), "1", True, [1], {}],
    "Through": [-1, LAST_NUMBER + 1, 2**64, Number("-0"), Number("1.0"), Number("1e1"), "1", True, [1], {}],
}
IGNORED = [{"NextToken": "x"}, {"Force": True}, {"Limit": 1}, {"Limit": "x", "Force": [], "NextToken": None}]
IGNORED += [{"Description": "x", "RoleArn": 1}, {"Tags": [{}]}]
UNKNOWN = ["RouterLocal.EmptyQueue", "AWSEvents.DutyCounts", "AWSEvents.putEvents", "PutEvents", "", "RouterLocal.DescribeRule"]
UNKNOWN += ["RouterLocal.StartReplay", "AWSEvents.StepReplays", "RouterLocal.CreateArchive", "AWSEvents.CreateQueue", None]


def spoil_members(action, members, chance):
    """Takes a member away, makes it null, or gives it a value that it cannot have."""
    asked = [name for name, _, _ in CALLS[action][1]]
    if action == "AWSEvents.PutPermission":
        asked.append("Policy")
    for _ in range(chance.choice([1, 1, 2]) if asked else 0):
        member = chance.choice(asked)
        kind = chance.random()
        if kind < 0.25:
            members.pop(member, None)
        elif kind < 0.4:
            members[member] = None
        else:
            members[member] = chance.choice(BAD_VALUES.get((action, member)) or BAD_VALUES[member])


def no_object(chance, length):
    """A body that is no JSON, or JSON but no object, or one with too many levels."""
    texts = ["[" + " " * (length - 2) + "]", "1" * length, '"' + FILLING[: length - 2] + '"', '{"a"' + " " * (length - 4), "\x00" * length, "[" * length]
    if length > 220:
        texts.append('{"a":' + "[" * 100 + "]" * 100 + " " * (length - 206) + "}")
    return chance.choice([it for it in texts if len(it) == length])


def a_caller(chance, action):
    kind = chance.random()
    if kind < 0.02:
        return chance.choice(BAD_CALLERS)
    if kind < (0.35 if action == "AWSEvents.PutEvents" else 0.05):
        return chance.choice(STRANGERS)
    return chance.choice([None, None, OWNER])


ACTIONS = {
    "AWSEvents.CreateEventBus": (create_event_bus, 3),
    "AWSEvents.DeleteEventBus": (delete_event_bus, 3),
    "AWSEvents.DescribeEventBus": (describe_event_bus, 3),
    "AWSEvents.ListEventBuses": (list_event_buses, 1),
    "AWSEvents.PutRule": (put_rule, 7),
    "AWSEvents.DeleteRule": (delete_rule, 4),
    "AWSEvents.EnableRule": (of_rule, 2),
    "AWSEvents.DisableRule": (of_rule, 1),
    "AWSEvents.DescribeRule": (of_rule, 2),
    "AWSEvents.ListRules": (list_rules, 1),
    "AWSEvents.PutTargets": (put_targets, 8),
    "AWSEvents.RemoveTargets": (remove_targets, 4),
    "AWSEvents.ListTargetsByRule": (list_targets_by_rule, 2),
    "AWSEvents.ListRuleNamesByTarget": (list_rule_names_by_target, 2),
    "AWSEvents.PutPermission": (put_permission, 9),
    "AWSEvents.RemovePermission": (remove_permission, 4),
    "AWSEvents.TestEventPattern": (test_event_pattern, 20),
    "AWSEvents.PutEvents": (put_events, 45),
    "AWSEvents.CreateArchive": (create_archive, 4),
    "AWSEvents.UpdateArchive": (update_archive, 3),
    "AWSEvents.DeleteArchive": (of_archive, 2),
    "AWSEvents.DescribeArchive": (of_archive, 4),
    "AWSEvents.ListArchives": (list_archives, 3),
    "AWSEvents.StartReplay": (start_replay, 4),
    "AWSEvents.CancelReplay": (cancel_replay, 2),
    "AWSEvents.DescribeReplay": (of_replay, 3),
    "AWSEvents.ListReplays": (list_replays, 2),
    "RouterLocal.CreateQueue": (create_queue, 4),
    "RouterLocal.DeleteQueue": (delete_queue, 2),
    "RouterLocal.PeekMessages": (peek_messages, 4),
    "RouterLocal.DeleteMessages": (delete_messages, 3),
    "RouterLocal.DeliverDue": (deliver_due, 9),
    "RouterLocal.StepReplays": (step_replays, 5),
    "RouterLocal.DutyCounts": (duty_counts, 1),
}
NAMES, WEIGHTS = list(ACTIONS), [weight for _, weight in ACTIONS.values()]


def request_of(action, members, chance, length, caller=None):
    """A request of these members whose body has the length, or None if they do not fit."""
    body = body_of(chance, members, length)
    return None if body is None else Request(action, members, body, caller)


def a_request(router, chance, length):
    """A request of any kind whose body has the length."""
    if chance.random() < 0.02:
        return Request(None, None, chance.choice("{ x") * length, None, chance.choice(["GET", "HEAD", "PUT", "DELETE", "post"]))
    while True:
        action = chance.choices(NAMES, WEIGHTS)[0]
        asked, caller = action, a_caller(chance, action)
        if chance.random() < 0.05:
            action = chance.choice(UNKNOWN)
        if chance.random() < 0.04:
            return Request(action, NO_OBJECT, no_object(chance, length), caller)
        make, _ = ACTIONS[asked]
        members = make(router, chance, length) if make is put_events else make(router, chance)
        if chance.random() < 0.12:
            spoil_members(asked, members, chance)
        if asked not in ("RouterLocal.PeekMessages", "RouterLocal.DeliverDue") and chance.random() < 0.1:
            members = {**members, **chance.choice(IGNORED)}
        if chance.random() < 0.3:
            members = dict(chance.sample(list(members.items()), len(members)))
        made = request_of(action, members, chance, length, caller)
        if made is not None:
            return made


# ---- Each fault alone

A_DEEP = '{"a":' * 100 + "[1]" + "}" * 100
NO_PATTERNS = [" " * 4_097, "{", A_DEEP, '{"a":[1],"a":[1]}', "[]", "{}", '{"a":[]}', '{"id":["x"]}', '{"$or":[{"a":[1]}]}', '{"a":[{"b":1}]}']
NO_PATTERNS += ['{"a":[{"prefix":1}]}', '{"a":[{"numeric":["<"]}]}', '{"a":[{"cidr":"10.0.0.0/33"}]}', '{"a":[{"wildcard":"**"}]}']
NO_PATTERNS += [spelled({key: {"$or": [{"a": [it]} for it in range(count)]} for key, count in (("x", 7), ("y", 11), ("z", 13))})]
A_STATEMENT = {"Effect": "Allow", "Principal": "*", "Action": "*", "Resource": "*"}


def one_by_one(router, chance):
    """For each action a caller that is none, another account, a body that is no object, and each value that a member cannot have;
    then each fault of a pattern and of a statement."""
    for action, (_, asked) in CALLS.items():
        for caller in (chance.choice(BAD_CALLERS), STRANGERS[0]):
            yield request_of(action, {}, chance, 100, caller)
        yield Request(action, NO_OBJECT, no_object(chance, 300), chance.choice([None, *STRANGERS]))
        for member in [name for name, _, _ in asked] + ["Policy"] * (action == "AWSEvents.PutPermission"):
            for value in [None, "none", *(BAD_VALUES.get((action, member)) or BAD_VALUES[member])]:
                make, _ = ACTIONS[action]
                members = make(router, chance, 400) if make is put_events else make(router, chance)
                if action == "AWSEvents.PutPermission":
                    members = {"StatementId": "s", "Action": "events:PutEvents", "Principal": "*"}
                yield request_of(action, {**members, member: value}, chance, 20_000)
    for text in NO_PATTERNS:
        yield request_of("AWSEvents.PutRule", {"Name": "r", "EventPattern": text}, chance, 20_000)
        yield request_of("AWSEvents.TestEventPattern", {"EventPattern": text, "Event": "{}"}, chance, 20_000)
        an_archive = {"ArchiveName": "a", "EventPattern": text}
        yield request_of("AWSEvents.CreateArchive", {**an_archive, "EventSourceArn": BUS_ARN + "default"}, chance, 20_000)
        yield request_of("AWSEvents.UpdateArchive", an_archive, chance, 20_000)
    for member, values in BAD_MEMBERS.items():
        for value in values:
            policy = {"Statement": [A_STATEMENT, {**A_STATEMENT, member: value}]}
            yield request_of("AWSEvents.PutPermission", {"Policy": spelled(policy)}, chance, 1_000)


SPELLINGS = ["a", "ab", "aab", "abab", "a*b", "é", "aé", "a\nb", "\\a", "A"]
WANTED = ["*", "?", "", "a", "a?", "?a", "a*", "*b", "a*b", "a?b", "**", "???", "a\\*", "é?", "?*?", ["a", "é"], [], ["*b", "?"]]


def conditions(router, chance):
    """Conditions, each alone in a policy, with events that some of them fit."""
    bus = {"EventBusName": "conditions"}
    yield request_of("AWSEvents.CreateEventBus", {"Name": "conditions"}, chance, 100)
    for key, member in (("events:source", "Source"), ("events:detail-type", "DetailType")):
        entries = [{**AN_ENTRY, member: it, **bus} for it in SPELLINGS]
        for effect in ("Allow", "Deny"):
            for operator in ("StringEquals", "StringLike"):
                for wanted in WANTED:
                    condition = {"Condition": {operator: {key: wanted}}, "Sid": f"{effect} {operator}"}
                    statements = [{**A_STATEMENT, "Effect": effect, **condition}] + [A_STATEMENT] * (effect == "Deny")
                    yield request_of("AWSEvents.PutPermission", {"Policy": spelled({"Statement": statements}), **bus}, chance, 1_000)
                    yield request_of("AWSEvents.PutEvents", {"Entries": entries}, chance, 2_000, chance.choice(STRANGERS))


def all_that_is_due(router, chance):
    while router.is_due:
        yield request_of("RouterLocal.DeliverDue", {}, chance, 20)


def faults_of_targets(router, chance):
    """Each fault of a target's member alone, then each endpoint: as it is put, listed and looked up."""
    bus, queue = {"EventBusName": "targets"}, QUEUE_ARN + "targets"
    yield request_of("RouterLocal.CreateQueue", {"QueueName": "targets"}, chance, 100)
    yield request_of("AWSEvents.CreateEventBus", {"Name": "targets"}, chance, 100)
    rules = [f"rule.{it}" for it in range(0, len(ENDPOINTS), 5)]
    for rule in rules:
        yield request_of("AWSEvents.PutRule", {"Name": rule, "EventPattern": '{"source":["a"]}', **bus}, chance, 1_000)
    for member, values in TARGET_FAULTS.items():
        targets = [{"Id": f"t{at}", "Arn": queue, member: it} for at, it in enumerate(values)]
        yield request_of("AWSEvents.PutTargets", {"Rule": "rule.0", "Targets": targets, **bus}, chance, 100_000)
    for at, arn in enumerate(ENDPOINTS):
        target = {"Id": f"t{at}", "Arn": arn, "RetryPolicy": a_retry_policy(chance), "DeadLetterConfig": {"Arn": queue}}
        yield request_of("AWSEvents.PutTargets", {"Rule": f"rule.{at // 5 * 5}", "Targets": [target], **bus}, chance, 5_000)
    for rule in rules:
        yield request_of("AWSEvents.ListTargetsByRule", {"Rule": rule, **bus}, chance, 1_000)
    for arn in ENDPOINTS:
        yield request_of("AWSEvents.ListRuleNamesByTarget", {"TargetArn": arn, **bus}, chance, 5_000)
    yield request_of("AWSEvents.PutEvents", {"Entries": [{**AN_ENTRY, **bus}]}, chance, 1_000)
    yield from all_that_is_due(router, chance)
    yield request_of("RouterLocal.PeekMessages", {"QueueName": "targets", "Limit": 100}, chance, 1_000)


def inputs_of_targets(router, chance):
    """Each input alone, as it is listed and as it is sent; two inputs; and texts at the limit, and past it."""
    bus, of = {"EventBusName": "inputs"}, {"Rule": "r.1", "EventBusName": "inputs"}

    def made(action, members, length=60_000):
        return request_of(action, members, chance, length)

    def sent(detail, inputs, length=60_000):
        """Makes the inputs those of the rule's targets, puts an event, and shows what they get."""
        targets = [{"Id": f"t{at}", "Arn": QUEUE_ARN + "inputs", "DeadLetterConfig": {"Arn": QUEUE_ARN + "late"}, **it} for at, it in enumerate(inputs)]
        yield made("AWSEvents.PutTargets", {**of, "Targets": targets})
        yield made("AWSEvents.ListTargetsByRule", of)
        yield made("AWSEvents.PutEvents", {"Entries": [{**AN_ENTRY, "Detail": detail, **bus}]}, length)
        yield made("AWSEvents.RemoveTargets", {**of, "Ids": [it["Id"] for it in targets]})
        yield from all_that_is_due(router, chance)
        for name in ("inputs", "late"):
            yield made("RouterLocal.PeekMessages", {"QueueName": name})
            yield made("RouterLocal.DeleteMessages", {"QueueName": name, "Through": LAST_NUMBER})

    yield from all_that_is_due(router, chance)
    for name in ("inputs", "late"):
        yield made("RouterLocal.CreateQueue", {"QueueName": name})
    yield made("AWSEvents.CreateEventBus", {"Name": "inputs"})
    yield made("AWSEvents.PutRule", {"Name": of["Rule"], "EventPattern": '{"source":["a"]}', **bus})
    for at in range(0, len(INPUTS), 4):
        yield from sent(DETAIL, [{}, *INPUTS[at : at + 4]])
    yield from sent(DETAIL, [{}, *TWO_INPUTS])
    detail, inputs = MOST
    yield from sent(detail, inputs, 200_000)


def uses_of_queues(router, chance):
    """A queue of its own and one for dead letters, which cannot be deleted while a target, a delivery or a message uses them."""
    bus, both = {"EventBusName": "uses"}, ["own", "dead"]

    def made(action, members):
        return request_of(action, members, chance, 1_000)

    def deleted():
        yield from (made("RouterLocal.DeleteQueue", {"QueueName": it}) for it in both)
        yield made("RouterLocal.DutyCounts", {})

    own = {"Id": "t1", "Arn": QUEUE_ARN + "own"}
    lost = {"Id": "t2", "Arn": ENDPOINTS[0], "RetryPolicy": {"MaximumRetryAttempts": 0}, "DeadLetterConfig": {"Arn": QUEUE_ARN + "dead"}}
    yield made("AWSEvents.CreateEventBus", {"Name": "uses"})
    yield made("AWSEvents.PutRule", {"Name": "r", "EventPattern": '{"source":["a"]}', **bus})
    for _ in range(2):
        yield from all_that_is_due(router, chance)
        for name in both:
            yield made("RouterLocal.CreateQueue", {"QueueName": name})
        yield made("AWSEvents.PutTargets", {"Rule": "r", "Targets": [own, lost], **bus})
        yield from deleted()
        yield made("AWSEvents.PutEvents", {"Entries": [{**AN_ENTRY, **bus}] * 3})
        yield made("AWSEvents.RemoveTargets", {"Rule": "r", "Ids": ["t1", "t2"], **bus})
        yield from deleted()
        yield from all_that_is_due(router, chance)
        yield from deleted()
        for through in (0, 2, 2, LAST_NUMBER):
            for name in both:
                yield made("RouterLocal.DeleteMessages", {"QueueName": name, "Through": through})
                yield made("RouterLocal.PeekMessages", {"QueueName": name})
        yield from deleted()
        yield from deleted()


def in_order_of_names(router, chance):
    """Deliveries of one event, one after the other: by rule, then by target, whatever the order in which they were put."""
    yield from all_that_is_due(router, chance)
    queues = ["first", "second", "third"]
    for name in queues:
        yield request_of("RouterLocal.CreateQueue", {"QueueName": name}, chance, 100)
    yield request_of("AWSEvents.CreateEventBus", {"Name": "in-order"}, chance, 100)
    for rule, targets in (("B", [("z", "third"), ("Z", "second")]), ("A", [("z", "first")])):
        pattern = {"Name": rule, "EventPattern": '{"source":["a"]}', "EventBusName": "in-order"}
        yield request_of("AWSEvents.PutRule", pattern, chance, 1_000)
        put = [{"Id": name, "Arn": QUEUE_ARN + queue} for name, queue in targets]
        yield request_of("AWSEvents.PutTargets", {"Rule": rule, "EventBusName": "in-order", "Targets": put}, chance, 1_000)
    yield request_of("AWSEvents.PutEvents", {"Entries": [{**AN_ENTRY, "EventBusName": "in-order"}]}, chance, 1_000)
    for _ in queues:
        yield request_of("RouterLocal.DeliverDue", {"Budget": 1}, chance, 20)
        for name in queues:
            yield request_of("RouterLocal.PeekMessages", {"QueueName": name}, chance, 100)


def events_in_archives(router, chance):
    """Archives of one bus with and without a pattern, and the events that they keep: before an update, after it, and after a deletion."""
    bus = {"EventBusName": "archived"}

    def made(action, members):
        return request_of(f"AWSEvents.{action}", members, chance, 2_000)

    def put():
        details = ['{"state":"open"}', '{"state":"paid"}', "{}"]
        yield made("PutEvents", {"Entries": [{**AN_ENTRY, "Detail": it, **bus} for it in details]})
        yield made("PutEvents", {"Entries": [AN_ENTRY]})
        yield made("ListArchives", {"EventSourceArn": BUS_ARN + "archived"})

    for name in list(router.archives):
        yield made("DeleteArchive", {"ArchiveName": name})
    yield made("CreateEventBus", {"Name": "archived"})
    for name, pattern in (("all", None), ("none", '{"source":["none"]}'), ("open", '{"detail":{"state":["open"]}}')):
        created = {"ArchiveName": name, "EventSourceArn": BUS_ARN + "archived", "EventPattern": pattern}
        yield made("CreateArchive", created)
        yield made("CreateArchive", created)
    yield from put()
    yield made("UpdateArchive", {"ArchiveName": "open"})
    yield made("UpdateArchive", {"ArchiveName": "none", "EventPattern": '{"detail":{"state":[{"exists":false}]}}'})
    yield made("UpdateArchive", {"ArchiveName": "all", "RetentionDays": DAYS_LIMIT})
    yield from put()
    yield made("DeleteEventBus", {"Name": "archived"})
    yield made("DeleteArchive", {"ArchiveName": "open"})
    yield made("DescribeArchive", {"ArchiveName": "open"})
    yield made("CreateArchive", {"ArchiveName": "open", "EventSourceArn": BUS_ARN + "default", "RetentionDays": 1})
    yield from put()
    for name in ("all", "none", "open"):
        yield made("DescribeArchive", {"ArchiveName": name})
        yield made("DeleteArchive", {"ArchiveName": name})
    yield made("DeleteEventBus", {"Name": "archived"})


def replays_of_archives(router, chance):
    """Replays of one archive: which events they repeat, in which order and for which rules; their states, and how many may run."""
    own = ["CreateQueue", "DeliverDue", "PeekMessages", "StepReplays"]

    def made(action, members):
        return request_of(f"{'RouterLocal' if action in own else 'AWSEvents'}.{action}", members, chance, 3_000)

    def started(name, first, last, bus="replayed", **rules):
        members = {"ReplayName": name, "EventSourceArn": ARCHIVE_ARN + "replayed", "EventStartTime": first, "EventEndTime": last}
        return made("StartReplay", {**members, "Destination": {"Arn": BUS_ARN + bus, **rules}})

    def stepped(name, most):
        yield made("StepReplays", {} if most is None else {"Budget": most})
        yield made("DescribeReplay", {"ReplayName": name})
        yield from all_that_is_due(router, chance)
        yield made("PeekMessages", {"QueueName": "replayed", "Limit": 1_000})

    for it in router.running:
        yield made("CancelReplay", {"ReplayName": it.name})
    yield made("CreateQueue", {"QueueName": "replayed"})
    yield made("CreateEventBus", {"Name": "replayed"})
    for name, pattern in (("all", '{"source":["a"]}'), ("new", '{"replay-name":[{"exists":false}]}'), ("old", '{"replay-name":[{"prefix":"p"}]}')):
        yield made("PutRule", {"Name": name, "EventPattern": pattern, "EventBusName": "replayed"})
        targets = [{"Id": it, "Arn": QUEUE_ARN + "replayed", **more} for it, more in (("1", {}), ("2", {"InputPath": "$.source"}))]
        yield made("PutTargets", {"Rule": name, "EventBusName": "replayed", "Targets": targets})
    yield made("CreateArchive", {"ArchiveName": "replayed", "EventSourceArn": BUS_ARN + "replayed"})
    times = [6_000, 5_000, 6_000, 5_000, 6_001, "1970-01-01T01:23:20Z"]
    yield made("PutEvents", {"Entries": [{**AN_ENTRY, "Time": it, "EventBusName": "replayed"} for it in times]})
    yield from all_that_is_due(router, chance)
    yield started("f", 6_000, 5_000)
    yield started("f", 5_000, 6_000, "default")
    yield started("p", 5_000, 6_000)
    yield started("p", 5_000, 6_000)
    for most in (1, 2, None, 1):
        yield from stepped("p", most)
    yield made("CancelReplay", {"ReplayName": "p"})
    yield made("CancelReplay", {"ReplayName": "none"})
    for name, rules in (("q", ["all"]), ("p.none", []), ("p.old", ["old", "none"])):
        yield started(name, 6_001, 6_001, FilterArns=[f"{RULE_ARN}replayed/{it}" for it in rules])
        yield from stepped(name, None)
    for at in range(RUNNING_LIMIT):
        yield started(f"run.{at}", 0, 9_000)
    yield started("one-more", 1, 2)
    yield from stepped("run.0", 7)
    yield made("ListReplays", {"NamePrefix": "run."})
    yield started("one-more", 1, 2)
    yield made("DeleteArchive", {"ArchiveName": "replayed"})
    for name in ("all", "new", "old"):
        yield made("RemoveTargets", {"Rule": name, "EventBusName": "replayed", "Ids": ["1", "2"]})
        yield made("DeleteRule", {"Name": name, "EventBusName": "replayed"})
    yield from stepped("run.1", None)
    yield made("DeleteEventBus", {"Name": "replayed"})
    for it in router.running:
        yield made("CancelReplay", {"ReplayName": it.name})
    yield made("DeleteEventBus", {"Name": "replayed"})
    yield made("ListReplays", {"EventSourceArn": ARCHIVE_ARN + "replayed"})


# ---- Requests that reach the limits


def to_the_limits(router, chance):
    """Requests that make all buses, archives, queues and rules of a bus that there may be, and one more of each; then a long policy."""
    policies = iter(range(10**6))

    def made(action, members):
        return request_of(f"AWSEvents.{action}" if action != "CreateQueue" else f"RouterLocal.{action}", members, chance, 2_000)

    for _ in range(2):
        while len(router.buses) < 100:
            yield made("CreateEventBus", {"Name": f"more.{next(policies)}"})
        yield made("CreateEventBus", {"Name": "one-more"})
        yield made("CreateEventBus", {"Name": "default"})
        yield made("ListEventBuses", {})
        yield made("DeleteEventBus", {"Name": next(it for it in router.buses if it.startswith("more."))})
    bus = next(it for it in router.buses if it.startswith("more."))
    for number in range(300):
        yield made("PutRule", {"Name": f"r{number}", "EventPattern": '{"source":["a"]}', "EventBusName": bus})
    yield made("PutRule", {"Name": "r300", "EventPattern": '{"source":["a"]}', "EventBusName": BUS_ARN + bus})
    yield made("PutRule", {"Name": "r7", "EventPattern": '{"source":["b"]}', "EventBusName": bus})
    yield made("PutRule", {"Name": "r300", "EventPattern": '{"source":["a"]}', "EventBusName": "orders" if "orders" in router.buses else "default"})
    yield made("PutTargets", {"Rule": "r299", "EventBusName": bus, "Targets": [{"Id": "t", "Arn": QUEUE_ARN + some_queue(router, chance)}]})
    yield made("PutEvents", {"Entries": [{**AN_ENTRY, "EventBusName": bus}]})
    yield made("ListRules", {"EventBusName": bus, "NamePrefix": "r29"})
    yield made("DeleteRule", {"Name": "r0", "EventBusName": bus})
    yield made("PutRule", {"Name": "r300", "EventPattern": '{"source":["a"]}', "EventBusName": bus})
    while len(router.archives) < 100:
        yield made("CreateArchive", {"ArchiveName": f"more.{len(router.archives)}", "EventSourceArn": BUS_ARN + "default", "EventPattern": '{"source":["none"]}'})
    yield made("CreateArchive", {"ArchiveName": "one-more", "EventSourceArn": BUS_ARN + "default"})
    yield made("CreateArchive", {"ArchiveName": next(iter(router.archives)), "EventSourceArn": BUS_ARN + "default"})
    yield made("ListArchives", {"NamePrefix": "more.9"})
    while len(router.queues) < 1_000:
        yield made("CreateQueue", {"QueueName": f"more-{len(router.queues)}"})
    yield made("CreateQueue", {"QueueName": "one-more"})
    yield made("CreateQueue", {"QueueName": next(iter(router.queues))})
    for number in range(45):
        yield made("PutPermission", {"StatementId": f"s{number}", "Action": "events:PutEvents", "Principal": "*", "EventBusName": bus})
    yield made("DescribeEventBus", {"Name": bus})
    for number in range(0, 45, 2):
        yield made("RemovePermission", {"StatementId": f"s{number}", "EventBusName": bus})
    yield made("PutPermission", {"StatementId": "s0", "Action": "events:PutEvents", "Principal": "777788889999", "EventBusName": bus})
    yield made("DescribeEventBus", {"Name": bus})
