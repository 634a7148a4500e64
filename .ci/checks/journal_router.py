"""The router by its rules (`router.py`), with the journal that its requests have to leave: a batch for each change of the configuration,
for the events of a PutEvents, for each attempt of a delivery, for the start, each step and the cancellation of a replay, and for messages
that are deleted.
"""
from deliveries import Deliveries
from journal_file import ACCEPTED, CODE, NO_ANSWER, TOO_OLD, batch_bytes, journal
from policies import stored
from router import Router, no_answer


class Attempts(Deliveries):
    """Deliveries that show what was added and attempted."""

    def __init__(self, link, record):
        super().__init__(self.send)
        self.answer, self.record, self.rows, self.code = link, record, [], None

    def send(self, endpoint, text):
        self.code = self.answer(endpoint, text)
        return self.code

    def add(self, delivery):
        super().add(delivery)
        target, is_too_long = delivery.target, delivery.error[0] == "TEXT_TOO_LONG"
        numbers = delivery.retries, delivery.age
        self.rows.append((delivery.rule_arn, target.name, target.arn, delivery.text, *numbers, target.dead_letter, int(is_too_long)))

    def step(self, moment):
        _, number = self.order[0]
        delivery = self.pending[number]
        fate = super().step(moment)
        if moment > delivery.last_moment:
            outcome = TOO_OLD, 0
        elif fate == "Delivered":
            outcome = ACCEPTED, 0
        else:
            outcome = (NO_ANSWER, 0) if self.code is None else (CODE, self.code)
        self.record(moment, [(15, number, outcome)])
        return fate


class RecordingRouter(Router):
    def __init__(self, reading, link=no_answer):
        super().__init__(reading, link)
        self.deliveries = Attempts(link, self.record)
        self.payloads, self.control, self.taken, self.accepted = [], 0, [], []

    @property
    def journal(self):
        return journal(self.payloads)

    def record(self, moment, operations):
        self.payloads.append(batch_bytes(moment, operations))
        self.latest = max(self.latest, moment)

    def served(self, action, caller, value):
        before = {(bus, rule): list(it.targets) for bus, row in self.buses.items() for rule, it in row.rules.items()}
        self.taken, self.accepted = [], []
        reply = super().served(action, caller, value)
        operations = self.accepted
        if action in CHANGES:
            operations = CHANGES[action](self, value, bus_of(value), reply, before)
            self.control += len(operations)
        elif action == "AWSEvents.StartReplay":
            made = self.replays[value["ReplayName"]]
            operations = [(16, made.name, made.archive, *made.range, made.rules)]
        elif action == "AWSEvents.CancelReplay":
            operations = [(18, value["ReplayName"])]
        elif action == "RouterLocal.DeleteMessages" and reply["Deleted"]:
            operations = [(19, value["QueueName"], int(str(getattr(value["Through"], "spelling", value["Through"]))))]
        if operations:
            self.record(self.moment, operations)
        return reply

    def put_target(self, rule, target):
        super().put_target(rule, target)
        made = rule.targets[target["Id"]]
        self.taken.append((made.name, made.arn, input_of(made.inputs), made.retry, made.dead_letter))

    def accept(self, bus, entry, text, archives):
        self.deliveries.rows = []
        self.accepted.append((14, self.events, bus.name, self.control, self.time_of(entry), text, archives, self.deliveries.rows))

    def step_replay(self, replay):
        self.deliveries.rows = []
        _, _, number, _ = replay.left[0]
        super().step_replay(replay)
        self.record(self.moment, [(17, replay.name, number, self.deliveries.rows)])

    # -- The operations of a request that was accepted

    def rule_row(self, bus, name):
        rule = self.buses[bus].rules[name]
        return (3, bus, name, rule.text, int(rule.is_enabled))

    def policy_row(self, bus):
        policy = self.buses[bus].policy
        return [(8, bus, None if policy is None else stored(policy))]

    def archive_made(self, name):
        it = self.archives[name]
        return [(11, name, it.bus.name, it.text, it.days)]

    def archive_changed(self, name):
        it = self.archives[name]
        return [(12, name, it.text, it.days)]

    def removed(self, bus, given, before):
        rule, names = given["Rule"], []
        for it in given["Ids"]:
            if it in before[bus, rule] and it not in names:
                names.append(it)
        return [(7, bus, rule, names)] if names else []


CHANGES = {
    "AWSEvents.CreateEventBus": lambda router, given, *_: [(1, given["Name"])],
    "AWSEvents.DeleteEventBus": lambda router, given, *_: [(2, given["Name"])],
    "AWSEvents.PutRule": lambda router, given, bus, *_: [router.rule_row(bus, given["Name"])],
    "AWSEvents.DeleteRule": lambda router, given, bus, _, before: [(4, bus, given["Name"])] if (bus, given["Name"]) in before else [],
    "AWSEvents.EnableRule": lambda router, given, bus, *_: [(5, bus, given["Name"], 1)],
    "AWSEvents.DisableRule": lambda router, given, bus, *_: [(5, bus, given["Name"], 0)],
    "AWSEvents.PutTargets": lambda router, given, bus, *_: [(6, bus, given["Rule"], router.taken)] if router.taken else [],
    "AWSEvents.RemoveTargets": lambda router, given, bus, _, before: router.removed(bus, given, before),
    "AWSEvents.PutPermission": lambda router, given, bus, *_: router.policy_row(bus),
    "AWSEvents.RemovePermission": lambda router, given, bus, *_: router.policy_row(bus),
    "AWSEvents.CreateArchive": lambda router, given, *_: router.archive_made(given["ArchiveName"]),
    "AWSEvents.UpdateArchive": lambda router, given, *_: router.archive_changed(given["ArchiveName"]),
    "AWSEvents.DeleteArchive": lambda router, given, *_: [(13, given["ArchiveName"])],
    "RouterLocal.CreateQueue": lambda router, given, *_: [(9, given["QueueName"])],
    "RouterLocal.DeleteQueue": lambda router, given, *_: [(10, given["QueueName"])],
}


def bus_of(given):
    """The name of the bus that a request names."""
    return (given.get("EventBusName") or "default").rpartition("/")[2]


def input_of(members):
    """A target's input as an operation has it, from the members as lists show them."""
    for kind, name in enumerate(("Input", "InputPath"), 1):
        if name in members:
            return kind, members[name]
    if "InputTransformer" in members:
        made = members["InputTransformer"]
        return 3, list(made.get("InputPathsMap", {}).items()), made["InputTemplate"]
    return (0,)
