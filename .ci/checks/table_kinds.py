"""Kinds of tables whose rows are short for requests.

Each kind has `requests`, which gives what a row asks: the operation, the caller, the body and the wanted reply, as tables.py describes
them; None is wanted of a request that prepares the row.
"""
import json

MEMBERS = {"id": "1", "account": "1", "source": "s", "time": "t", "region": "r", "resources": [], "detail-type": "d"}
TEST = "AWSEvents.TestEventPattern"
ACCEPTED = '{"FailedEntryCount":0,"Entries":[{"EventId":"00000000-0000-8000-8000-%012x"}]}'
DENIED = '{"FailedEntryCount":1,"Entries":[{"ErrorCode":"AccessDeniedException","ErrorMessage":"%s"}]}'
BUS_ARN = "arn:aws:events:us-east-1:111122223333:event-bus/b"
SIGNS = {
    "@": '"Effect":"Allow","Principal":"*","Action":"*","Resource":"*"',
    "%": '"Effect":"Allow","Principal":{"AWS":"arn:aws:iam::444455556666:root"},"Action":"events:PutEvents","Resource":"%s"' % BUS_ARN,
    "$": '"Effect":"Allow","Principal":"*","Action":"events:PutEvents","Resource":"%s"' % BUS_ARN,
    "^": "\ufeff",
}


def object_of(members):
    return json.dumps(members, ensure_ascii=False, separators=(",", ":"))


class Holds:
    """`PATTERN|EVENT|true` or `false`: whether the pattern holds of the event. Both are asked of as the member `detail`, since an event has
    members of its own. A line `pattern PATTERN` gives the pattern of the rows after it, which are `EVENT|true`."""

    def __init__(self):
        self.pattern = None

    def requests(self, row):
        if row.startswith("pattern "):
            self.pattern = row[len("pattern ") :]
            return
        front, _, wanted = row.rpartition("|")
        pattern, event = (self.pattern, front) if self.pattern else front.split("|")
        event = object_of(MEMBERS)[:-1] + f',"detail":{event}}}'
        body = object_of({"EventPattern": f'{{"detail":{pattern}}}', "Event": event})
        yield TEST, None, body, f'{{"Result":{wanted}}}'


class PatternFaults:
    """`TEXT|REASON|PATH`: why the text is no pattern, and where. `TEXT|read` if it is one."""

    def requests(self, row):
        text, _, wanted = row.rpartition("|")
        if wanted == "read":
            wanted = '{"Result":false}'
        else:
            text, _, reason = text.rpartition("|")
            wanted = f"InvalidEventPatternException Event pattern is not valid. Reason: {reason} at {wanted}"
        yield TEST, None, object_of({"EventPattern": text, "Event": object_of(MEMBERS)}), wanted


def whole(text):
    """The policy, with each sign replaced by its part."""
    return "".join(SIGNS.get(it, it) for it in text)


class Verdicts:
    """`ACCOUNT|BUS|SOURCE|DETAIL TYPE|VERDICT`: what becomes of the entry. A line `policy TEXT` gives the policy of each bus. The verdict is
    `allowed`, `denied by NAME` or `no allow`."""

    def __init__(self):
        self.policy, self.buses, self.events = None, ["default"], 0

    def put(self, bus):
        return "AWSEvents.PutPermission", None, object_of({"EventBusName": bus, "Policy": self.policy}), None

    def requests(self, row):
        if row.startswith("policy "):
            self.policy = row[len("policy ") :]
            yield self.put("default")
            return
        account, bus, source, kind, wanted = row.split("|")
        if bus not in self.buses:
            self.buses.append(bus)
            yield "AWSEvents.CreateEventBus", None, object_of({"Name": bus}), None
            if self.policy:
                yield self.put(bus)
        entry = {"Source": source, "DetailType": kind, "Detail": "{}", "EventBusName": bus}
        if wanted == "allowed":
            self.events += 1
            wanted = ACCEPTED % self.events
        else:
            wanted = DENIED % ("No statement allows it." if wanted == "no allow" else f"Denied by statement {wanted[len('denied by '):]}.")
        yield "AWSEvents.PutEvents", account, object_of({"Entries": [entry]}), wanted


class PolicyFaults:
    """`TEXT|REASON at PLACE`: why the text is no policy, or `TEXT|read` if it is one. Signs in it are short for parts of a statement. The bus
    `no` does not exist, which is refused after a text that is no policy."""

    def requests(self, row):
        text, _, reason = row.rpartition("|")
        kind = "PolicyLengthExceededException" if reason.startswith("TooLong") else "ValidationException"
        wanted = f"{kind} Policy is not valid. Reason: {reason}"
        if reason == "read":
            wanted = "ResourceNotFoundException Event bus no does not exist."
        yield "AWSEvents.PutPermission", None, object_of({"EventBusName": "no", "Policy": whole(text)}), wanted


def described(bus, policy):
    """The request that shows the bus, and its reply with this policy, or with none."""
    members = {"Name": bus, "Arn": f"arn:aws:events:us-east-1:111122223333:event-bus/{bus}", **({"Policy": policy} if policy else {})}
    return "AWSEvents.DescribeEventBus", None, object_of({"Name": bus}), object_of(members)


class StoredPolicies:
    """`POLICY|STORED`: how the policy is shown once it is put, with signs. What is shown is put in its turn, and is shown as it is."""

    def requests(self, row):
        for policy in map(whole, row.split("|")):
            yield "AWSEvents.PutPermission", None, object_of({"Policy": policy}), None
            yield described("default", whole(row.split("|")[1]))


class OnePolicy:
    """What a row does to the policy of the bus `b`, which is the row's first field, with signs; without a text there is no policy."""

    def __init__(self):
        self.is_there = False

    def requests(self, row):
        policy, *fields = row.split("|")
        if self.is_there:
            yield "AWSEvents.DeleteEventBus", None, '{"Name":"b"}', None
        self.is_there = True
        yield "AWSEvents.CreateEventBus", None, '{"Name":"b"}', None
        if policy:
            yield "AWSEvents.PutPermission", None, object_of({"EventBusName": "b", "Policy": whole(policy)}), None
        yield from self.changes(*fields)


class AddedStatements(OnePolicy):
    """`POLICY|SID|ACCOUNT|WANTED`: the policy's text with a statement more, or why there is none: `there` or `no account`."""

    def changes(self, sid, account, wanted):
        body = object_of({"EventBusName": "b", "StatementId": sid, "Action": "events:PutEvents", "Principal": account})
        refusals = {"there": f"ResourceAlreadyExistsException Statement {sid} already exists.", "no account": "Member Principal is not valid."}
        yield "AWSEvents.PutPermission", None, body, refusals.get(wanted)
        if wanted not in refusals:
            yield described("b", whole(wanted))


class RemovedStatements(OnePolicy):
    """`POLICY|SID|WANTED`: what is left without the statement: `last` if it was the last one, or `NAME TEXT`: the name of the statement that
    denies a stranger (`-` if none does), and the text; or `not there`, or `no sid`."""

    def changes(self, sid, wanted):
        body = object_of({"EventBusName": "b", "StatementId": sid})
        refusals = {"not there": f"ResourceNotFoundException Statement {sid} does not exist.", "no sid": "Member StatementId is not valid."}
        yield "AWSEvents.RemovePermission", None, body, refusals.get(wanted)
        if wanted == "last":
            yield described("b", None)
        elif wanted not in refusals:
            name, _, left = wanted.partition(" ")
            yield described("b", whole(left))
            entry = {"Source": "s", "DetailType": "x", "Detail": "{}", "EventBusName": "b"}
            wanted = DENIED % f"Denied by statement {name}." if name != "-" else ACCEPTED % 1
            yield "AWSEvents.PutEvents", "777788889999", object_of({"Entries": [entry]}), wanted


QUEUE_ARN = "arn:aws:sqs:us-east-1:111122223333:"
NO_FAILURE = '{"FailedEntryCount":0,"FailedEntries":[]}'
FAILED = '{"FailedEntryCount":1,"FailedEntries":[{"TargetId":"t","ErrorCode":"ValidationException","ErrorMessage":"Member %s is not valid."}]}'
TOO_LONG = {
    "RULE_ARN": "arn:aws:events:us-east-1:111122223333:rule/r",
    "TARGET_ARN": QUEUE_ARN + "q",
    "ERROR_CODE": "TEXT_TOO_LONG",
    "ERROR_MESSAGE": "The text is over 1048576 bytes.",
    "EXHAUSTED_RETRY_CONDITION": "",
    "RETRY_ATTEMPTS": "0",
}


class TargetTexts:
    """`MEMBER|VALUE|TEXT`: what a target with this member gets of an event. Of InputTransformer the value is the template. A line `detail OBJECT`
    gives the event's Detail, and a line `paths OBJECT` the InputPathsMap, for the rows after it. In place of the text may be:

    not valid      the member is refused
    valid          the member is taken, and no event is put
    TEXT_TOO_LONG  what the target gets is too long, and its dead letter is empty
    """

    def __init__(self):
        self.detail, self.paths, self.is_prepared = "{}", {}, False
        self.events, self.numbers = 0, {"q": 0, "d": 0}

    def requests(self, row):
        if row.startswith("detail "):
            self.detail = row[len("detail ") :]
            return
        if row.startswith("paths "):
            self.paths = json.loads(row[len("paths ") :])
            return
        if not self.is_prepared:
            self.is_prepared = True
            yield from self.prepared()
        member, _, rest = row.partition("|")
        value, _, wanted = rest.rpartition("|")
        if member == "InputTransformer":
            value = {"InputPathsMap": self.paths, "InputTemplate": value}
        target = {"Id": "t", "Arn": QUEUE_ARN + "q", "DeadLetterConfig": {"Arn": QUEUE_ARN + "d"}, member: value}
        reply = FAILED % member if wanted == "not valid" else NO_FAILURE
        yield "AWSEvents.PutTargets", None, object_of({"Rule": "r", "Targets": [target]}), reply
        if wanted not in ("not valid", "valid"):
            yield from self.sent(wanted)

    def prepared(self):
        for name in self.numbers:
            yield "RouterLocal.CreateQueue", None, object_of({"QueueName": name}), None
        yield "AWSEvents.PutRule", None, object_of({"Name": "r", "EventPattern": '{"source":["s"]}'}), None

    def sent(self, text):
        """An event, and the message that comes of it."""
        self.events += 1
        entry = {"Source": "s", "DetailType": "x", "Detail": self.detail}
        yield "AWSEvents.PutEvents", None, object_of({"Entries": [entry]}), ACCEPTED % self.events
        yield "RouterLocal.DeliverDue", None, "{}", None
        name, body, attributes = ("d", "{}", TOO_LONG) if text == "TEXT_TOO_LONG" else ("q", text, {})
        self.numbers[name] += 1
        message = {"Number": self.numbers[name], "Body": body, "Attributes": attributes}
        yield "RouterLocal.PeekMessages", None, object_of({"QueueName": name}), object_of({"Messages": [message]})
        yield "RouterLocal.DeleteMessages", None, object_of({"QueueName": name, "Through": self.numbers[name]}), None


KINDS = {
    "patterns that hold": Holds,
    "faults of patterns": PatternFaults,
    "verdicts": Verdicts,
    "faults of policies": PolicyFaults,
    "stored policies": StoredPolicies,
    "added statements": AddedStatements,
    "removed statements": RemovedStatements,
    "texts of targets": TargetTexts,
}
