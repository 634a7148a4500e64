"""The router by its rules: the reply to each request, from the requests before it.

A request is an action, its caller's header field and the value of its body. `Router.answer` finds the first refusal in the order
of the rules, or makes the change. Patterns, policies, the texts of targets and deliveries have models of their own: `patterns.py`,
`policies.py`, `inputs.py` and `deliveries.py`. Each refusal is counted in `causes`, so that a run can show which ones it had.

To add an action: a method of Router, and its line in CALLS with the members that it reads, in their order.
"""
import datetime
import json
import re

import inputs
import policies
from deliveries import AGE, QUEUE_ARN, RETRIES, Deliveries, Delivery, Queue, Target, queue_name
from endpoint_texts import ENDPOINTS, STORED_ENDPOINTS
from patterns import Fault, Number, holds, read_json, read_pattern, spelled

OWNER = "111122223333"
EVENTS_ARN = f"arn:aws:events:us-east-1:{OWNER}:"
BUSES_LIMIT, RULES_LIMIT, TARGETS_LIMIT, QUEUES_LIMIT, ARCHIVES_LIMIT, RUNNING_LIMIT = 100, 300, 5, 1_000, 100, 10
DAYS_LIMIT = 2**31 - 1
DAY = 86_400
ARCHIVE_STATES = ["ENABLED", "DISABLED", "CREATING", "UPDATING", "CREATE_FAILED", "UPDATE_FAILED"]
REPLAY_STATES = ["STARTING", "RUNNING", "CANCELLING", "COMPLETED", "CANCELLED", "FAILED"]
A_CALL = 100  # attempts of one DeliverDue and steps of one StepReplays, if it has no Budget
A_CALL_MOST = 1_000
PEEKED = 10  # messages that one PeekMessages shows, if it has no Limit
PEEKED_MOST = 1_000
LAST_NUMBER = 2**48 - 1
MOMENT_LIMIT = 250_000_000_000
ENTRIES_SIZE = 262_144
EVENT_MEMBERS = ["id", "account", "source", "time", "region", "resources", "detail-type"]
NO_OBJECT = object()  # the value of a body that is no JSON object

VALIDATION = "ValidationException"
NOT_FOUND = "ResourceNotFoundException"
EXISTS = "ResourceAlreadyExistsException"
LIMIT = "LimitExceededException"


def compact(value):
    return json.dumps(value, separators=(",", ":"), ensure_ascii=False)


class Spelled(str):
    """A compact JSON text with its value, which need not be read again."""

    def __new__(cls, tree):
        made = super().__new__(cls, spelled(tree))
        made.tree = tree
        return made


class Refusal(Exception):
    """Why a request, an entry or a target is refused: the type, the message, and the cause, which has no names."""

    def __init__(self, kind, message, *names, cause=None):
        super().__init__(message)
        self.kind, self.message, self.cause = kind, message.format(*names), cause or message


def missing(kind, name, cause=None):
    return Refusal(NOT_FOUND, kind + " {} does not exist.", name, cause=cause)


class NotValid(Exception):
    """A value that a member cannot have."""


# ---- What members may be. Each function returns what is read, or raises NotValid.


def is_number(value):
    return isinstance(value, (int, Number)) and not isinstance(value, bool)


def need(truth):
    if not truth:
        raise NotValid


def a_text(expression=None):
    def read(value):
        need(isinstance(value, str) and (expression is None or re.fullmatch(expression, value)))
        return value

    return read


NAME = r"[A-Za-z0-9._-]{1,64}"
BUS = r"[A-Za-z0-9._-]{1,256}"
QUEUE = r"[A-Za-z0-9_-]{1,80}"
ARCHIVE = r"[A-Za-z0-9._-]{1,48}"
a_name = a_text(NAME)
an_archive_name = a_text(ARCHIVE)
a_bus_name = a_text(BUS)
a_queue_name = a_text(QUEUE)


def a_bus(value):
    """The name of a bus that is named by its name or its ARN."""
    return a_bus_name(a_text()(value).removeprefix(EVENTS_ARN + "event-bus/"))


def a_bus_arn(value):
    """The name of a bus that is named by its ARN."""
    need(isinstance(value, str) and value.startswith(EVENTS_ARN + "event-bus/"))
    return a_bus(value)


def an_archive_arn(value):
    """The name of an archive that is named by its ARN."""
    need(isinstance(value, str) and value.startswith(EVENTS_ARN + "archive/"))
    return an_archive_name(value.removeprefix(EVENTS_ARN + "archive/"))


def a_time(value):
    """The moment of a Time."""
    moment = moment_of(value) if is_number(value) or isinstance(value, str) else None
    need(moment is not None)
    return moment


def a_destination(value):
    """The name of the bus, and the names of the rules of the filter, or None without one."""
    given = without_null(value)
    bus = a_bus_arn(given.get("Arn"))
    rules = given.get("FilterArns")
    if rules is None:
        return bus, None
    prefix = EVENTS_ARN + "rule/" + ("" if bus == "default" else bus + "/")
    need(isinstance(rules, list) and all(isinstance(it, str) and it.startswith(prefix) for it in rules))
    return bus, [a_name(it.removeprefix(prefix)) for it in rules]


def a_pattern(value):
    try:
        return a_text()(value), read_pattern(value)
    except Fault as fault:
        message = f"Event pattern is not valid. Reason: {fault.why} at "
        raise Refusal("InvalidEventPatternException", message + "{}", fault.path, cause=message) from None


def nothing(_value):
    raise NotValid


def one_of(*values):
    def read(value):
        need(value in values and isinstance(value, type(values[0])))
        return value

    return read


def a_count(least, most):
    def read(value):
        spelling = value.spelling if isinstance(value, Number) else str(value)
        need(is_number(value) and re.fullmatch("0|[1-9][0-9]{0,18}", spelling) and least <= int(spelling) <= most)
        return int(spelling)

    return read


def without_null(value):
    need(isinstance(value, dict))
    return {key: it for key, it in value.items() if it is not None}


def need_texts(members, *keys):
    need(all(isinstance(members[it], str) for it in keys if it in members))


def some_targets(value):
    need(isinstance(value, list) and 1 <= len(value) <= 100)
    return [a_target(it) for it in value]


def a_target(value):
    target = without_null(value)
    need("Id" in target and "Arn" in target)
    need_texts(target, "Id", "Arn", "Input", "InputPath")
    if "InputTransformer" in target:
        transformer = without_null(target["InputTransformer"])
        need("InputTemplate" in transformer)
        need_texts(transformer, "InputTemplate")
        paths = transformer.get("InputPathsMap", {})
        need(isinstance(paths, dict) and all(isinstance(it, str) for it in paths.values()))
    if "RetryPolicy" in target:
        retry = without_null(target["RetryPolicy"])
        need(all(is_number(retry[it]) for it in ("MaximumRetryAttempts", "MaximumEventAgeInSeconds") if it in retry))
    if "DeadLetterConfig" in target:
        need_texts(without_null(target["DeadLetterConfig"]), "Arn")
    return target


def a_target_arn(value):
    """The ARN of a queue, or the URL of an endpoint."""
    need(isinstance(value, str) and (re.fullmatch(QUEUE_ARN + QUEUE, value) or value in ENDPOINTS or value in STORED_ENDPOINTS))
    return value


def a_retry(value):
    """The two numbers of a target's RetryPolicy, or None without one."""
    if value is None:
        return None
    attempts, age = (value.get(it) for it in ("MaximumRetryAttempts", "MaximumEventAgeInSeconds"))
    return (
        RETRIES if attempts is None else a_count(0, RETRIES)(attempts),
        AGE if age is None else a_count(60, AGE)(age),
    )


def a_dead_letter(value):
    """The ARN of a target's DeadLetterConfig, or None without one."""
    arn = (value or {}).get("Arn")
    return None if arn is None else a_text(QUEUE_ARN + QUEUE)(arn)


def an_input(make):
    """What makes the text of a target that has this member, or None without it."""

    def read(value):
        try:
            return None if value is None else make(value)
        except Fault:
            raise NotValid from None

    return read


TARGET_MEMBERS = {
    "Id": a_name,
    "Arn": a_target_arn,
    "Input": an_input(inputs.of_input),
    "InputPath": an_input(inputs.of_path),
    "InputTransformer": an_input(inputs.of_transformer),
    "RetryPolicy": a_retry,
    "DeadLetterConfig": a_dead_letter,
}


def target_of(given):
    """The target of these members. Raises the first fault of one of them, or that two of them say what its text is."""
    found = []
    for member, read in TARGET_MEMBERS.items():
        try:
            found.append(read(given.get(member)))
        except NotValid:
            raise Refusal(VALIDATION, f"Member {member} is not valid.", cause=f"A target's {member} is not valid.") from None
    name, arn, *ways, retry, dead_letter = found
    ways = [it for it in ways if it is not None]
    if len(ways) > 1:
        raise Refusal(VALIDATION, "More than one input.")
    return Target(name, arn, ways[0] if ways else None, inputs.as_given(given), retry, dead_letter)


def some_ids(value):
    need(isinstance(value, list) and 1 <= len(value) <= 100)
    return [a_name(it) for it in value]


def some_entries(value):
    need(isinstance(value, list) and 1 <= len(value) <= 10)
    return [an_entry(it) for it in value]


def an_entry(value):
    entry = without_null(value)
    need_texts(entry, "Source", "DetailType", "Detail", "EventBusName")
    resources = entry.get("Resources", [])
    need(isinstance(resources, list) and all(isinstance(it, str) for it in resources))
    need("Time" not in entry or is_number(entry["Time"]) or isinstance(entry["Time"], str))
    return entry


def an_event(value):
    try:
        event, _ = read_json(a_text()(value))
    except Fault:
        raise NotValid from None
    need(isinstance(event, dict) and all(it in event for it in EVENT_MEMBERS))
    return event


# ---- The router


class Bus:
    def __init__(self, name):
        self.name, self.rules, self.policy = name, {}, None

    @property
    def arn(self):
        return f"{EVENTS_ARN}event-bus/{self.name}"

    def shown(self):
        policy = {} if self.policy is None else {"Policy": policies.stored(self.policy)}
        return {"Name": self.name, "Arn": self.arn, **policy}


class Rule:
    def __init__(self, name, bus):
        self.name, self.bus = name, bus
        self.text = self.pattern = None
        self.is_enabled = True
        self.targets = {}

    @property
    def arn(self):
        bus = "" if self.bus.name == "default" else self.bus.name + "/"
        return f"{EVENTS_ARN}rule/{bus}{self.name}"

    def shown(self):
        state = "ENABLED" if self.is_enabled else "DISABLED"
        return {"Name": self.name, "Arn": self.arn, "EventPattern": self.text, "State": state, "EventBusName": self.bus.name}


class Archive:
    def __init__(self, name, bus, days, created):
        self.name, self.bus, self.days, self.created = name, bus, days, created
        self.text = self.pattern = None
        self.kept = []  # of each event: the moment at which it was accepted, its time, its number and its text

    def made(self):
        """What a reply shows of an archive that is created or updated."""
        return {"ArchiveArn": f"{EVENTS_ARN}archive/{self.name}", "CreationTime": self.created, "State": "ENABLED"}

    def retained(self, moment):
        """What it retains at a moment."""
        return [it for it in self.kept if self.days == 0 or it[0] + DAY * self.days > moment]

    def shown(self, moment, more):
        """What a list shows at a moment, with some members more after the name and the source."""
        sizes = [len(text.encode()) for *_, text in self.retained(moment)]
        counts = {"RetentionDays": self.days, "SizeBytes": sum(sizes), "EventCount": len(sizes)}
        source = {"ArchiveName": self.name, "EventSourceArn": self.bus.arn}
        return {**source, **more, "State": "ENABLED", **counts, "CreationTime": self.created}


class Replay:
    def __init__(self, given, archive, started):
        self.name, self.archive, self.started = given["ReplayName"], archive.name, started
        self.bus, self.rules = given["Destination"]
        self.range = given["EventStartTime"], given["EventEndTime"]
        # Sorting keeps the order of those that have one time.
        self.left = sorted((it for it in archive.retained(started) if self.range[0] <= it[1] <= self.range[1]), key=lambda it: it[1])
        self.last = None
        self.state, self.ended = "RUNNING", None
        self.note_end(started)

    def note_end(self, moment):
        if not self.left and self.state == "RUNNING":
            self.state, self.ended = "COMPLETED", moment

    def cancel(self, moment):
        self.left, self.state, self.ended = [], "CANCELLED", moment

    @property
    def arn(self):
        return f"{EVENTS_ARN}replay/{self.name}"

    @property
    def source(self):
        return f"{EVENTS_ARN}archive/{self.archive}"

    @property
    def times(self):
        times = {"EventStartTime": self.range[0], "EventEndTime": self.range[1], "EventLastReplayedTime": self.last}
        times = {**times, "ReplayStartTime": self.started, "ReplayEndTime": self.ended}
        return {key: it for key, it in times.items() if it is not None}

    @property
    def destination(self):
        bus = "" if self.bus == "default" else self.bus + "/"
        rules = {} if self.rules is None else {"FilterArns": [f"{EVENTS_ARN}rule/{bus}{it}" for it in self.rules]}
        return {"Arn": f"{EVENTS_ARN}event-bus/{self.bus}", **rules}


def no_answer(_endpoint, _text):
    """The link if nobody listens."""
    return None


class Router:
    def __init__(self, reading, link=no_answer):
        self.reading = reading
        self.latest = 0  # the greatest moment of a batch; a run of one reading needs none
        self.caller = OWNER  # of the request that is being answered
        self.buses = {"default": Bus("default")}
        self.archives = {}
        self.replays = {}  # in the order of their starts; none is ever gone
        self.deliveries = Deliveries(link)
        self.events = 0
        self.causes = set()  # the action and the cause of each refusal so far

    @property
    def moment(self):
        """The moment of a turn. It does not fall if the clock does."""
        return max(self.reading, self.latest)

    # -- One request

    def answer(self, method, action, caller, value):
        """The status and the body of the reply. The reply to a HEAD has no body."""
        if method != "POST":
            return 405, "" if method == "HEAD" else compact({"__type": "NotPost", "message": "Only POST is served."})
        try:
            return 200, compact(self.served(action, caller, value))
        except Refusal as refusal:
            self.causes.add((action if action in CALLS else None, refusal.cause))
            return 400, compact({"__type": refusal.kind, "message": refusal.message})

    def served(self, action, caller, value):
        if action not in CALLS:
            raise Refusal("UnknownOperationException", "Unknown operation.")
        if caller is not None and not re.fullmatch("[0-9]{12}", caller):
            raise Refusal(VALIDATION, "Member x-caller-account is not valid.")
        if value is NO_OBJECT:
            raise Refusal("SerializationException", "The body is not a JSON object.")
        self.caller = caller or OWNER
        if self.caller != OWNER and action != "AWSEvents.PutEvents":
            raise Refusal("AccessDeniedException", "Only the owner may call this.")
        call, _ = CALLS[action]
        return call(self, members_of(action, value))

    def failed(self, action, refusal):
        self.causes.add((action, refusal.cause))
        return {"ErrorCode": refusal.kind, "ErrorMessage": refusal.message}

    def bus(self, name):
        """The bus of this name, or of a request that names none."""
        name = name or "default"
        if name not in self.buses:
            raise missing("Event bus", name)
        return self.buses[name]

    def rule(self, bus, name):
        rules = self.bus(bus).rules
        if name not in rules:
            raise missing("Rule", name)
        return rules[name]

    def archive(self, name):
        if name not in self.archives:
            raise missing("Archive", name)
        return self.archives[name]

    def replay(self, name):
        if name not in self.replays:
            raise missing("Replay", name)
        return self.replays[name]

    @property
    def running(self):
        return [it for it in self.replays.values() if it.state == "RUNNING"]

    @property
    def queues(self):
        return self.deliveries.queues

    def queue(self, name):
        if name not in self.queues:
            raise missing("Queue", name)
        return self.queues[name]

    @property
    def is_due(self):
        """Whether a delivery is due."""
        return self.deliveries.is_due(self.moment)

    # -- Buses

    def create_event_bus(self, given):
        name = given["Name"]
        if name in self.buses:
            raise Refusal(EXISTS, "Event bus {} already exists.", name)
        if len(self.buses) >= BUSES_LIMIT:
            raise Refusal(LIMIT, "Event bus limit 100 reached.")
        self.buses[name] = Bus(name)
        return {"EventBusArn": self.buses[name].arn}

    def delete_event_bus(self, given):
        name = given["Name"]
        if name == "default":
            raise Refusal(VALIDATION, "The default bus stays.")
        users = [it.bus.name for it in self.archives.values()] + [it.bus for it in self.running]
        if self.bus(name).rules or name in users:
            raise Refusal(VALIDATION, "Event bus {} is in use.", name)
        del self.buses[name]
        return {}

    def describe_event_bus(self, given):
        return self.bus(given["Name"]).shown()

    def list_event_buses(self, given):
        return {"EventBuses": [it.shown() for it in in_order(self.buses, given["NamePrefix"])]}

    # -- Rules

    def put_rule(self, given):
        bus, name = self.bus(given["EventBusName"]), given["Name"]
        if name not in bus.rules and len(bus.rules) >= RULES_LIMIT:
            raise Refusal(LIMIT, "Rule limit 300 reached.")
        rule = bus.rules.setdefault(name, Rule(name, bus))
        rule.text, rule.pattern = given["EventPattern"]
        rule.is_enabled = given["State"] != "DISABLED"
        return {"RuleArn": rule.arn}

    def delete_rule(self, given):
        rules, name = self.bus(given["EventBusName"]).rules, given["Name"]
        if name in rules and rules[name].targets:
            raise Refusal(VALIDATION, "Rule {} has targets.", name)
        rules.pop(name, None)
        return {}

    def enable_rule(self, given):
        self.rule(given["EventBusName"], given["Name"]).is_enabled = True
        return {}

    def disable_rule(self, given):
        self.rule(given["EventBusName"], given["Name"]).is_enabled = False
        return {}

    def describe_rule(self, given):
        return self.rule(given["EventBusName"], given["Name"]).shown()

    def list_rules(self, given):
        rules = self.bus(given["EventBusName"]).rules
        return {"Rules": [it.shown() for it in in_order(rules, given["NamePrefix"])]}

    # -- Targets

    def put_targets(self, given):
        rule = self.rule(given["EventBusName"], given["Rule"])
        failed = []
        for target in given["Targets"]:
            try:
                self.put_target(rule, target)
            except Refusal as refusal:
                failed.append({"TargetId": target["Id"], **self.failed("AWSEvents.PutTargets", refusal)})
        return {"FailedEntryCount": len(failed), "FailedEntries": failed}

    def put_target(self, rule, target):
        made = target_of(target)
        for arn, cause in ((made.arn, None), (made.dead_letter, "A dead-letter queue does not exist.")):
            name = queue_name(arn)
            if name is not None and name not in self.queues:
                raise missing("Queue", name, cause)
        if made.name not in rule.targets and len(rule.targets) >= TARGETS_LIMIT:
            raise Refusal(LIMIT, "Target limit 5 reached.")
        rule.targets[made.name] = made

    def remove_targets(self, given):
        rule = self.rule(given["EventBusName"], given["Rule"])
        failed = []
        for name in given["Ids"]:
            if rule.targets.pop(name, None) is None:
                refusal = missing("Target", name)
                failed.append({"TargetId": name, **self.failed("AWSEvents.RemoveTargets", refusal)})
        return {"FailedEntryCount": len(failed), "FailedEntries": failed}

    def list_targets_by_rule(self, given):
        targets = self.rule(given["EventBusName"], given["Rule"]).targets
        return {"Targets": [it.shown() for it in in_order(targets)]}

    def list_rule_names_by_target(self, given):
        rules = in_order(self.bus(given["EventBusName"]).rules)
        return {"RuleNames": [rule.name for rule in rules if any(it.arn == given["TargetArn"] for it in rule.targets.values())]}

    # -- Permissions

    def put_permission(self, given):
        policy = None
        if given.get("Policy") is not None:
            policy = checked_policy(policies.read_policy, given["Policy"])
        bus = self.bus(given["EventBusName"])
        if policy is None:
            if policies.has_statement(bus.policy, given["StatementId"]):
                raise Refusal(EXISTS, "Statement {} already exists.", given["StatementId"])
            policy = policies.with_statement(bus.policy, given["StatementId"], given["Principal"], bus.arn)
        checked_policy(policies.stored, policy)
        bus.policy = policy
        return {}

    def remove_permission(self, given):
        bus = self.bus(given["EventBusName"])
        if given["RemoveAllPermissions"]:
            bus.policy = None
            return {}
        if given["StatementId"] is None:
            raise Refusal(VALIDATION, "Member StatementId is required.")
        if not policies.has_statement(bus.policy, given["StatementId"]):
            raise missing("Statement", given["StatementId"])
        bus.policy = policies.without_statement(bus.policy, given["StatementId"])
        return {}

    # -- Archives

    def create_archive(self, given):
        bus, name = self.bus(given["EventSourceArn"]), given["ArchiveName"]
        if name in self.archives:
            raise Refusal(EXISTS, "Archive {} already exists.", name)
        if len(self.archives) >= ARCHIVES_LIMIT:
            raise Refusal(LIMIT, "Archive limit 100 reached.")
        self.archives[name] = made = Archive(name, bus, given["RetentionDays"] or 0, self.moment)
        made.text, made.pattern = given["EventPattern"] or (None, None)
        return made.made()

    def update_archive(self, given):
        archive = self.archive(given["ArchiveName"])
        archive.kept = archive.retained(self.moment)
        if given["EventPattern"] is not None:
            archive.text, archive.pattern = given["EventPattern"]
        if given["RetentionDays"] is not None:
            archive.days = given["RetentionDays"]
        return archive.made()

    def delete_archive(self, given):
        self.archive(given["ArchiveName"])
        del self.archives[given["ArchiveName"]]
        return {}

    def describe_archive(self, given):
        archive = self.archive(given["ArchiveName"])
        pattern = {} if archive.text is None else {"EventPattern": archive.text}
        return {"ArchiveArn": archive.made()["ArchiveArn"], **archive.shown(self.moment, pattern)}

    def list_archives(self, given):
        found = in_order(self.archives, given["NamePrefix"])
        if given["EventSourceArn"] is not None:
            found = [it for it in found if it.bus.arn == given["EventSourceArn"]]
        if given["State"] is not None:
            found = [it for it in found if given["State"] == "ENABLED"]
        return {"Archives": [it.shown(self.moment, {}) for it in found]}

    # -- Replays

    def start_replay(self, given):
        name = given["ReplayName"]
        if name in self.replays:
            raise Refusal(EXISTS, "Replay {} already exists.", name)
        archive = self.archive(given["EventSourceArn"])
        if given["Destination"][0] != archive.bus.name:
            raise Refusal(VALIDATION, "Destination is not the archive's bus.")
        if given["EventEndTime"] < given["EventStartTime"]:
            raise Refusal(VALIDATION, "The range is empty.")
        if len(self.running) >= RUNNING_LIMIT:
            raise Refusal(LIMIT, "Replay limit 10 reached.")
        self.replays[name] = made = Replay(given, archive, self.moment)
        return {"ReplayArn": made.arn, "State": made.state, "ReplayStartTime": made.started}

    def cancel_replay(self, given):
        replay = self.replay(given["ReplayName"])
        if replay.state != "RUNNING":
            raise Refusal("IllegalStatusException", "Replay {} is not running.", replay.name)
        replay.cancel(self.moment)
        return {"ReplayArn": replay.arn, "State": replay.state}

    def describe_replay(self, given):
        it = self.replay(given["ReplayName"])
        state = {"ReplayName": it.name, "ReplayArn": it.arn, "State": it.state}
        return {**state, "EventSourceArn": it.source, "Destination": it.destination, **it.times}

    def list_replays(self, given):
        found = in_order(self.replays, given["NamePrefix"])
        if given["EventSourceArn"] is not None:
            found = [it for it in found if it.source == given["EventSourceArn"]]
        if given["State"] is not None:
            found = [it for it in found if it.state == given["State"]]
        return {"Replays": [{"ReplayName": it.name, "EventSourceArn": it.source, "State": it.state, **it.times} for it in found]}

    def step_replays(self, given):
        steps = 0
        while steps < (given["Budget"] or A_CALL) and self.running:
            self.step_replay(self.running[0])
            steps += 1
        return {"Steps": steps}

    def step_replay(self, replay):
        """Publishes the replay's next event again, to the rules of its bus and of its filter."""
        _, replay.last, _, text = replay.left.pop(0)
        replay.note_end(self.moment)
        text = f'{text[:-1]},"replay-name":{compact(replay.name)}}}'
        made, _ = read_json(text)
        rules = in_order(self.bus(replay.bus).rules)
        self.owe([it for it in rules if replay.rules is None or it.name in replay.rules], made, text)

    # -- Events

    def test_event_pattern(self, given):
        return {"Result": holds(given["EventPattern"][1], given["Event"])}

    def put_events(self, given):
        entries = given["Entries"]
        if sum(map(size_of, entries)) > ENTRIES_SIZE:
            raise Refusal(VALIDATION, "The request is over 262144 bytes.")
        items = []
        for entry in entries:
            try:
                items.append({"EventId": self.put_entry(entry)})
            except Refusal as refusal:
                items.append(self.failed("AWSEvents.PutEvents", refusal))
        failed = sum("ErrorCode" in it for it in items)
        return {"FailedEntryCount": failed, "Entries": items}

    def put_entry(self, entry):
        """Makes an event of the entry, and returns its id. Raises the entry's first refusal."""
        for member, is_good in (
            ("Source", entry.get("Source")),
            ("DetailType", entry.get("DetailType")),
            ("Detail", "Detail" in entry),
            ("Time", "Time" not in entry or moment_of(entry["Time"]) is not None),
        ):
            if not is_good:
                raise Refusal("InvalidArgument", f"Parameter {member} is not valid.")
        try:
            name = a_bus(entry.get("EventBusName", "default"))
        except NotValid:
            raise Refusal("InvalidArgument", "Parameter EventBusName is not valid.") from None
        detail = detail_of(entry["Detail"])
        if entry["Source"].startswith("aws."):
            raise Refusal("NotAuthorizedForSourceException", "Not authorized for the source.")
        if name not in self.buses:
            raise Refusal("InvalidArgument", "Parameter EventBusName is not valid.", cause="The entry's bus does not exist.")
        bus = self.buses[name]
        verdict = policies.verdict(bus.policy, self.caller, bus.arn, entry["Source"], entry["DetailType"], self.caller == OWNER)
        if isinstance(verdict, list):
            raise Refusal("AccessDeniedException", "Denied by statement {}.", *verdict)
        if verdict == "NoAllow":
            raise Refusal("AccessDeniedException", "No statement allows it.")
        return self.put_event(bus, entry, detail)

    def put_event(self, bus, entry, detail):
        """Numbers an event, and makes one delivery for each target of each rule that matches."""
        self.events += 1
        made = {
            "version": "0",
            "id": f"00000000-0000-8000-8000-{self.events:012x}",
            "detail-type": entry["DetailType"],
            "source": entry["Source"],
            "account": self.caller,
            "time": shown(self.time_of(entry)),
            "region": "us-east-1",
            "resources": entry.get("Resources", []),
        }
        text = f'{compact(made)[:-1]},"detail":{detail}}}'
        made["detail"] = detail.tree
        archives = [it for it in in_order(self.archives) if it.bus is bus and (it.pattern is None or holds(it.pattern, made))]
        for it in archives:
            it.kept.append((self.moment, self.time_of(entry), self.events, text))
        self.accept(bus, entry, text, [it.name for it in archives])
        self.owe(in_order(bus.rules), made, text)
        return made["id"]

    def owe(self, rules, made, text):
        """Makes a delivery for each target of those of the rules that match."""
        for rule in rules:
            if rule.is_enabled and rule.targets and holds(rule.pattern, made):
                for target in in_order(rule.targets):
                    sent = target.make_text(made, rule.arn, shown(self.moment)) if target.make_text else text
                    self.deliveries.add(Delivery(rule.arn, target, sent, self.moment))

    def time_of(self, entry):
        return moment_of(entry["Time"]) if "Time" in entry else self.reading

    def accept(self, bus, entry, text, archives):
        """An event has this text, and archives of these names keep it. Here for a router that keeps a journal."""

    # -- Queues

    def create_queue(self, given):
        name = given["QueueName"]
        if name in self.queues:
            raise Refusal(EXISTS, "Queue {} already exists.", name)
        if len(self.queues) >= QUEUES_LIMIT:
            raise Refusal(LIMIT, "Queue limit 1000 reached.")
        self.queues[name] = Queue()
        return {"QueueArn": QUEUE_ARN + name}

    def delete_queue(self, given):
        name, arn = given["QueueName"], QUEUE_ARN + given["QueueName"]
        messages = self.queue(name).messages
        targets = [target for bus in self.buses.values() for rule in bus.rules.values() for target in rule.targets.values()]
        delivered = [it.target for it in self.deliveries.pending.values()]
        for user, is_user in (
            ("a target", any(it.arn == arn for it in targets)),
            ("a target's dead letters", any(it.dead_letter == arn for it in targets)),
            ("a delivery", any(it.arn == arn for it in delivered)),
            ("a delivery's dead letters", any(it.dead_letter == arn for it in delivered)),
            ("a message", messages),
        ):
            if is_user:
                raise Refusal(VALIDATION, "Queue {} is in use.", name, cause=f"{user} uses the queue.")
        del self.queues[name]
        return {}

    def peek_messages(self, given):
        return {"Messages": self.queue(given["QueueName"]).messages[: given["Limit"] or PEEKED]}

    def delete_messages(self, given):
        return {"Deleted": self.queue(given["QueueName"]).delete_through(given["Through"])}

    # -- Deliveries

    def deliver_due(self, given):
        fates = []
        while len(fates) < (given["Budget"] or A_CALL) and self.is_due:
            fates.append(self.deliveries.step(self.moment))
        return {"Attempts": len(fates), **{it: fates.count(it) for it in self.deliveries.ended}}

    def duty_counts(self, _given):
        it = self.deliveries
        return {"Created": it.created, "Pending": len(it.pending), **it.ended}


def in_order(rows, prefix=None):
    return [row for name, row in sorted(rows.items()) if name.startswith(prefix or "")]


def checked_policy(call, value):
    """What the call returns. A fault of a policy is the request's refusal."""
    try:
        return call(value)
    except policies.PolicyFault as fault:
        kind = "PolicyLengthExceededException" if fault.why == "TooLong" else VALIDATION
        cause = f"Policy is not valid. Reason: {fault.why}"
        if call is policies.stored:
            cause += ", as it would be stored"
        raise Refusal(kind, "Policy is not valid. Reason: {} at {}", fault.why, fault.place, cause=cause) from None


def size_of(entry):
    texts = [entry.get(it, "") for it in ("Source", "DetailType", "Detail")] + entry.get("Resources", [])
    return sum(len(it.encode()) for it in texts) + (14 if "Time" in entry else 0)


def detail_of(text):
    """The detail's compact text with its value."""
    if isinstance(text, Spelled):
        return text
    try:
        detail, _ = read_json(text, 99)
    except Fault:
        detail = None
    if not isinstance(detail, dict):
        raise Refusal("MalformedDetail", "Detail is malformed.")
    return Spelled(detail)


def shown(moment):
    """The moment as an event shows it."""
    date = datetime.datetime(1970, 1, 1) + datetime.timedelta(seconds=moment)
    return date.strftime("%Y-%m-%dT%H:%M:%SZ").rjust(20, "0")


def moment_of(value):
    """The moment that a Time gives, or None."""
    if not isinstance(value, str):
        found = re.fullmatch(r"(-?)([0-9]+)(\.[0-9]+)?", spelled(value))
        moment = int(found[2]) if found else -1
        return None if moment < 0 or moment > MOMENT_LIMIT or found[1] and moment > 0 else moment
    found = re.fullmatch(r"([0-9]{4}-[0-9]{2}-[0-9]{2}T[0-9]{2}:[0-9]{2}:[0-9]{2})(\.[0-9]+)?Z", value)
    try:
        date = datetime.datetime.strptime(found[1], "%Y-%m-%dT%H:%M:%S") if found and found[1][17:19] < "60" else None
    except ValueError:
        date = None
    moment = -1 if date is None else (date - datetime.datetime(1970, 1, 1)) // datetime.timedelta(seconds=1)
    return moment if 0 <= moment <= MOMENT_LIMIT else None


# ---- The calls, and the members that each reads, in their order: the name, whether it is required, and what it may be

ON_BUS = ("EventBusName", False, a_bus)
AN_ARCHIVE = ("ArchiveName", True, an_archive_name)
A_REPLAY = ("ReplayName", True, a_name)
A_PATTERN = ("EventPattern", False, a_pattern)
DAYS = ("RetentionDays", False, a_count(0, DAYS_LIMIT))
CALLS = {
    "AWSEvents.CreateEventBus": (Router.create_event_bus, [("Name", True, a_bus_name)]),
    "AWSEvents.DeleteEventBus": (Router.delete_event_bus, [("Name", True, a_bus_name)]),
    "AWSEvents.DescribeEventBus": (Router.describe_event_bus, [("Name", False, a_bus)]),
    "AWSEvents.ListEventBuses": (Router.list_event_buses, [("NamePrefix", False, a_text())]),
    "AWSEvents.PutRule": (
        Router.put_rule,
        [
            ("Name", True, a_name),
            ("EventPattern", True, a_pattern),
            ("ScheduleExpression", False, nothing),
            ("State", False, one_of("ENABLED", "DISABLED")),
            ON_BUS,
        ],
    ),
    "AWSEvents.DeleteRule": (Router.delete_rule, [("Name", True, a_name), ON_BUS]),
    "AWSEvents.EnableRule": (Router.enable_rule, [("Name", True, a_name), ON_BUS]),
    "AWSEvents.DisableRule": (Router.disable_rule, [("Name", True, a_name), ON_BUS]),
    "AWSEvents.DescribeRule": (Router.describe_rule, [("Name", True, a_name), ON_BUS]),
    "AWSEvents.ListRules": (Router.list_rules, [("NamePrefix", False, a_text()), ON_BUS]),
    "AWSEvents.PutTargets": (Router.put_targets, [("Rule", True, a_name), ON_BUS, ("Targets", True, some_targets)]),
    "AWSEvents.RemoveTargets": (Router.remove_targets, [("Rule", True, a_name), ON_BUS, ("Ids", True, some_ids)]),
    "AWSEvents.ListTargetsByRule": (Router.list_targets_by_rule, [("Rule", True, a_name), ON_BUS]),
    "AWSEvents.ListRuleNamesByTarget": (Router.list_rule_names_by_target, [("TargetArn", True, a_target_arn), ON_BUS]),
    "AWSEvents.PutPermission": (
        Router.put_permission,
        [
            ON_BUS,
            ("StatementId", True, a_text("[A-Za-z0-9_-]{1,64}")),
            ("Action", True, one_of("events:PutEvents")),
            ("Principal", True, a_text(r"[0-9]{12}|\*")),
            ("Condition", False, nothing),
        ],
    ),
    "AWSEvents.RemovePermission": (
        Router.remove_permission,
        [ON_BUS, ("RemoveAllPermissions", False, one_of(True, False)), ("StatementId", False, a_text("[A-Za-z0-9_-]{1,64}"))],
    ),
    "AWSEvents.TestEventPattern": (Router.test_event_pattern, [("EventPattern", True, a_pattern), ("Event", True, an_event)]),
    "AWSEvents.CreateArchive": (Router.create_archive, [AN_ARCHIVE, ("EventSourceArn", True, a_bus_arn), A_PATTERN, DAYS]),
    "AWSEvents.UpdateArchive": (Router.update_archive, [AN_ARCHIVE, A_PATTERN, DAYS]),
    "AWSEvents.DeleteArchive": (Router.delete_archive, [AN_ARCHIVE]),
    "AWSEvents.DescribeArchive": (Router.describe_archive, [AN_ARCHIVE]),
    "AWSEvents.ListArchives": (
        Router.list_archives,
        [("NamePrefix", False, a_text()), ("EventSourceArn", False, a_text()), ("State", False, one_of(*ARCHIVE_STATES))],
    ),
    "AWSEvents.StartReplay": (
        Router.start_replay,
        [
            A_REPLAY,
            ("EventSourceArn", True, an_archive_arn),
            ("EventStartTime", True, a_time),
            ("EventEndTime", True, a_time),
            ("Destination", True, a_destination),
        ],
    ),
    "AWSEvents.CancelReplay": (Router.cancel_replay, [A_REPLAY]),
    "AWSEvents.DescribeReplay": (Router.describe_replay, [A_REPLAY]),
    "AWSEvents.ListReplays": (
        Router.list_replays,
        [("NamePrefix", False, a_text()), ("EventSourceArn", False, a_text()), ("State", False, one_of(*REPLAY_STATES))],
    ),
    "AWSEvents.PutEvents": (Router.put_events, [("Entries", True, some_entries)]),
    "RouterLocal.CreateQueue": (Router.create_queue, [("QueueName", True, a_queue_name)]),
    "RouterLocal.DeleteQueue": (Router.delete_queue, [("QueueName", True, a_queue_name)]),
    "RouterLocal.PeekMessages": (Router.peek_messages, [("QueueName", True, a_queue_name), ("Limit", False, a_count(1, PEEKED_MOST))]),
    "RouterLocal.DeleteMessages": (
        Router.delete_messages,
        [("QueueName", True, a_queue_name), ("Through", True, a_count(0, LAST_NUMBER))],
    ),
    "RouterLocal.DeliverDue": (Router.deliver_due, [("Budget", False, a_count(1, A_CALL_MOST))]),
    "RouterLocal.StepReplays": (Router.step_replays, [("Budget", False, a_count(1, A_CALL_MOST))]),
    "RouterLocal.DutyCounts": (Router.duty_counts, []),
}
BY_POLICY = [ON_BUS, ("Policy", True, a_text()), ("Condition", False, nothing)]  # of a PutPermission with a Policy


def members_of(action, value):
    """What the action reads of the body's members; null counts as absent. Raises the first refusal of a member."""
    given = without_null(value)
    _, asked = CALLS[action]
    if action == "AWSEvents.PutPermission" and "Policy" in given:
        asked = BY_POLICY
    found = {}
    for name, is_required, read in asked:
        if name not in given and is_required:
            raise Refusal(VALIDATION, f"Member {name} is required.")
        try:
            found[name] = read(given[name]) if name in given else None
        except NotValid:
            raise Refusal(VALIDATION, f"Member {name} is not valid.") from None
    return found
