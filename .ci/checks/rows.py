"""Rows worked by hand: requests with their replies, by which the model is checked before the mixed runs.

In a row `E:` at the start of a text, or after a quotation mark, is the prefix of an ARN of events, and `Q:` that of a queue's.
"""
import json

from patterns import Fault, read_json
from router import CALLS, EVENTS_ARN, NO_OBJECT, QUEUE_ARN, Router

A, B = "444455556666", "777788889999"
EVENT = '{"Entries":[{"Source":"%s","DetailType":"Order","Detail":"{}"}]}'
DENIED = '{"FailedEntryCount":1,"Entries":[{"ErrorCode":"AccessDeniedException","ErrorMessage":"%s"}]}'
ACCEPTED = '{"FailedEntryCount":0,"Entries":[{"EventId":"00000000-0000-8000-8000-%012d"}]}'
ONLY_OWNER = '{"__type":"AccessDeniedException","message":"Only the owner may call this."}'
NO_FAILURE = '{"FailedEntryCount":0,"FailedEntries":[]}'


def refused(kind, message):
    return f'{{"__type":"{kind}","message":"{message}"}}'


def two_statements(bus):
    front = '{\\"Sid\\":\\"%s\\",\\"Effect\\":\\"%s\\",\\"Principal\\":{\\"AWS\\":\\"444455556666\\"},'
    front += '\\"Action\\":\\"events:PutEvents\\",\\"Resource\\":\\"E:event-bus/'
    only = ',\\"Condition\\":{\\"StringEquals\\":{\\"events:source\\":\\"shop.secret\\"}}}'
    return f'{{\\"Statement\\":[{front % ("ok", "Allow")}{bus}\\"}},{front % ("no", "Deny")}{bus}\\"{only}]}}'


# Each list is a run of its own: the action, the caller, the body and the body of the reply.
A_POLICY = [
    ("PutPermission", None, f'{{"Policy":"{two_statements("default")}"}}', "{}"),
    ("PutEvents", A, EVENT % "shop.orders", ACCEPTED % 1),
    ("PutEvents", A, EVENT % "shop.secret", DENIED % "Denied by statement no."),
    ("PutEvents", B, EVENT % "shop.orders", DENIED % "No statement allows it."),
    ("PutEvents", None, EVENT % "shop.orders", ACCEPTED % 2),
    ("ListRules", A, "{}", ONLY_OWNER),
    ("ListRules", "44445555666", "[", refused("ValidationException", "Member x-caller-account is not valid.")),
    ("ListRules", A, "[", refused("SerializationException", "The body is not a JSON object.")),
]

FIVE = ",".join(f'{{"Id":"{it}","Arn":"Q:q"}}' for it in range(1, 6))
A_FULL_RULE = [
    ("CreateQueue", None, '{"QueueName":"q"}', '{"QueueArn":"Q:q"}'),
    ("PutRule", None, '{"Name":"r","EventPattern":"{\\"source\\":[\\"a\\"]}"}', '{"RuleArn":"E:rule/r"}'),
    ("PutTargets", None, f'{{"Rule":"r","Targets":[{FIVE}]}}', NO_FAILURE),
    (
        "PutTargets",
        None,
        '{"Rule":"r","Targets":[{"Id":"6","Arn":"Q:q"}]}',
        '{"FailedEntryCount":1,"FailedEntries":[{"TargetId":"6","ErrorCode":"LimitExceededException","ErrorMessage":"Target limit 5 reached."}]}',
    ),
    ("ListTargetsByRule", None, '{"Rule":"r"}', f'{{"Targets":[{FIVE}]}}'),
    ("PutRule", None, '{"Name":"r","EventPattern":"{\\"source\\":[\\"b\\"]}"}', '{"RuleArn":"E:rule/r"}'),
    ("ListTargetsByRule", None, '{"Rule":"r"}', f'{{"Targets":[{FIVE}]}}'),
    ("DeleteRule", None, '{"Name":"r"}', refused("ValidationException", "Rule r has targets.")),
    ("PutTargets", None, '{"Rule":"r","Targets":[{"Id":"5","Arn":"Q:q"}]}', NO_FAILURE),
    ("DeleteRule", None, '{"Name":"nope"}', "{}"),
    (
        "RemoveTargets",
        None,
        '{"Rule":"r","Ids":["5","5"]}',
        '{"FailedEntryCount":1,"FailedEntries":[{"TargetId":"5","ErrorCode":"ResourceNotFoundException","ErrorMessage":"Target 5 does not exist."}]}',
    ),
    ("ListRuleNamesByTarget", None, '{"TargetArn":"Q:q"}', '{"RuleNames":["r"]}'),
    ("RemoveTargets", None, '{"Rule":"r","Ids":["1","2","3","4"]}', NO_FAILURE),
    ("ListRuleNamesByTarget", None, '{"TargetArn":"Q:q"}', '{"RuleNames":[]}'),
    ("DeleteRule", None, '{"Name":"r"}', "{}"),
]

AN_ALLOW = '{\\"Version\\":\\"2012-10-17\\",\\"Statement\\":[{\\"Sid\\":\\"s\\",\\"Effect\\":\\"Allow\\",'
AN_ALLOW += '\\"Principal\\":{\\"AWS\\":\\"arn:aws:iam::444455556666:root\\"},'
AN_ALLOW += '\\"Action\\":\\"events:PutEvents\\",\\"Resource\\":\\"E:event-bus/default\\"}]}'
A_BUS = [
    ("CreateEventBus", None, '{"Name":"orders"}', '{"EventBusArn":"E:event-bus/orders"}'),
    ("CreateEventBus", None, '{"Name":"default"}', refused("ResourceAlreadyExistsException", "Event bus default already exists.")),
    ("PutRule", None, '{"Name":"r","EventPattern":"{\\"source\\":[\\"a\\"]}","EventBusName":"E:event-bus/orders"}', '{"RuleArn":"E:rule/orders/r"}'),
    (
        "DescribeRule",
        None,
        '{"Name":"r","EventBusName":"orders"}',
        '{"Name":"r","Arn":"E:rule/orders/r","EventPattern":"{\\"source\\":[\\"a\\"]}","State":"ENABLED","EventBusName":"orders"}',
    ),
    ("DeleteEventBus", None, '{"Name":"orders"}', refused("ValidationException", "Event bus orders is in use.")),
    ("DeleteEventBus", None, '{"Name":"default"}', refused("ValidationException", "The default bus stays.")),
    ("DeleteRule", None, '{"Name":"r","EventBusName":"orders"}', "{}"),
    ("DeleteEventBus", None, '{"Name":"orders"}', "{}"),
    (
        "PutEvents",
        None,
        '{"Entries":[{"Source":"a","DetailType":"b","Detail":"{}","EventBusName":"orders"}]}',
        '{"FailedEntryCount":1,"Entries":[{"ErrorCode":"InvalidArgument","ErrorMessage":"Parameter EventBusName is not valid."}]}',
    ),
    ("DescribeRule", None, '{"Name":"r","EventBusName":"orders"}', refused("ResourceNotFoundException", "Event bus orders does not exist.")),
    ("PutPermission", None, '{"StatementId":"s","Action":"events:PutEvents","Principal":"444455556666"}', "{}"),
    ("DescribeEventBus", None, "{}", f'{{"Name":"default","Arn":"E:event-bus/default","Policy":"{AN_ALLOW}"}}'),
    (
        "PutPermission",
        None,
        '{"StatementId":"s","Action":"events:PutEvents","Principal":"*"}',
        refused("ResourceAlreadyExistsException", "Statement s already exists."),
    ),
    ("RemovePermission", None, '{"StatementId":"s"}', "{}"),
    ("DescribeEventBus", None, "{}", '{"Name":"default","Arn":"E:event-bus/default"}'),
    ("RemovePermission", None, '{"StatementId":"s"}', refused("ResourceNotFoundException", "Statement s does not exist.")),
    ("PutPermission", None, '{"Policy":"[","Condition":{}}', refused("ValidationException", "Member Condition is not valid.")),
    ("PutPermission", None, '{"Policy":"[","EventBusName":"no"}', refused("ValidationException", "Policy is not valid. Reason: NotJson at 0")),
    ("PutPermission", None, '{"Policy":"{\\"Statement\\":[]}","EventBusName":"no"}', refused("ResourceNotFoundException", "Event bus no does not exist.")),
]

COUNTS = '{"Attempts":%d,"Delivered":%d,"DeadLettered":%d,"Dropped":%d}'
IN_USE = refused("ValidationException", "Queue q is in use.")
A_QUEUE = [
    ("CreateQueue", None, '{"QueueName":"q"}', '{"QueueArn":"Q:q"}'),
    ("PutRule", None, '{"Name":"r","EventPattern":"{\\"source\\":[\\"a\\"]}"}', '{"RuleArn":"E:rule/r"}'),
    ("PutTargets", None, '{"Rule":"r","Targets":[{"Id":"t","Arn":"Q:q"}]}', NO_FAILURE),
    ("PutEvents", None, EVENT % "a", ACCEPTED % 1),
    ("DeliverDue", None, "{}", COUNTS % (1, 1, 0, 0)),
    ("DeleteQueue", None, '{"QueueName":"q"}', IN_USE),
    ("DeleteMessages", None, '{"QueueName":"q","Through":1}', '{"Deleted":1}'),
    ("DeleteMessages", None, '{"QueueName":"q","Through":1}', '{"Deleted":0}'),
    ("PutEvents", None, EVENT % "a", ACCEPTED % 2),
    ("RemoveTargets", None, '{"Rule":"r","Ids":["t"]}', NO_FAILURE),
    ("DeleteQueue", None, '{"QueueName":"q"}', IN_USE),
    ("DutyCounts", None, "{}", '{"Created":2,"Pending":1,"Delivered":1,"DeadLettered":0,"Dropped":0}'),
    ("DeliverDue", None, "{}", COUNTS % (1, 1, 0, 0)),
    ("DeleteQueue", None, '{"QueueName":"q"}', IN_USE),
    ("DeleteMessages", None, '{"QueueName":"q","Through":1}', '{"Deleted":0}'),
    ("DeleteMessages", None, '{"QueueName":"q","Through":2}', '{"Deleted":1}'),
    ("DeleteQueue", None, '{"QueueName":"q"}', "{}"),
    ("DeleteQueue", None, '{"QueueName":"q"}', refused("ResourceNotFoundException", "Queue q does not exist.")),
    ("DutyCounts", None, "{}", '{"Created":2,"Pending":0,"Delivered":2,"DeadLettered":0,"Dropped":0}'),
]

AN_ARCHIVE = [
    (
        "CreateArchive",
        None,
        '{"ArchiveName":"a","EventSourceArn":"E:event-bus/default"}',
        '{"ArchiveArn":"E:archive/a","CreationTime":1700000000,"State":"ENABLED"}',
    ),
    ("PutEvents", None, EVENT % "a", ACCEPTED % 1),
    (
        "DescribeArchive",
        None,
        '{"ArchiveName":"a"}',
        '{"ArchiveArn":"E:archive/a","ArchiveName":"a","EventSourceArn":"E:event-bus/default","State":"ENABLED","RetentionDays":0,'
        '"SizeBytes":197,"EventCount":1,"CreationTime":1700000000}',
    ),
    ("DeleteEventBus", None, '{"Name":"default"}', refused("ValidationException", "The default bus stays.")),
    ("DeleteArchive", None, '{"ArchiveName":"a"}', "{}"),
    ("UpdateArchive", None, '{"ArchiveName":"a"}', refused("ResourceNotFoundException", "Archive a does not exist.")),
    ("ListArchives", None, '{"State":"FAILED"}', refused("ValidationException", "Member State is not valid.")),
    ("ListArchives", None, "{}", '{"Archives":[]}'),
]

# Deliveries to an endpoint, accepted at 1000: the retry policy; the answers, the last one for ever (None is no answer); the
# readings of the DeliverDues, or ALL for each at which something is due; those at which there was an attempt; and the error
# code, the condition and the retries of the dead letter, or no code if it was delivered.
ALL = None
BY_RETRIES, BY_AGE = "MaximumRetryAttempts", "MaximumEventAgeInSeconds"
DELIVERIES = [
    ({BY_RETRIES: 0}, [503], ALL, [1000], ("STATUS_503", BY_RETRIES, "0")),
    ({}, [404], ALL, [1000], ("STATUS_404", "", "0")),
    ({}, [408], ALL, [1000], ("STATUS_408", "", "0")),
    ({}, [425], ALL, [1000], ("STATUS_425", "", "0")),
    ({}, [301], ALL, [1000], ("STATUS_301", "", "0")),
    ({}, [103], ALL, [1000], ("STATUS_103", "", "0")),
    ({}, [600], ALL, [1000], ("STATUS_600", "", "0")),
    ({BY_RETRIES: 0}, [299], ALL, [1000], None),
    ({}, [429, 200], ALL, [1000, 1001], None),
    ({}, [None, 200], ALL, [1000, 1001], None),
    ({}, [409, 404], ALL, [1000, 1001], ("STATUS_404", "", "1")),
    ({BY_RETRIES: 1}, [None], ALL, [1000, 1001], ("NO_ANSWER", BY_RETRIES, "1")),
    ({BY_RETRIES: 2}, [503], ALL, [1000, 1001, 1003], ("STATUS_503", BY_RETRIES, "2")),
    ({BY_AGE: 60}, [503], ALL, [1000, 1001, 1003, 1007, 1015, 1031], ("STATUS_503", BY_AGE, "5")),
    ({BY_AGE: 60}, [503], [1060], [1060], ("STATUS_503", BY_AGE, "0")),
    ({BY_AGE: 60}, [503], [1061], [], ("NO_ATTEMPT", BY_AGE, "0")),
    ({BY_AGE: 60}, [503, 200], [1000, 1061], [1000], ("STATUS_503", BY_AGE, "0")),
    # Ten delays of 1 to 512 seconds, then 142 of 600.
    ({}, [599], ALL, [1000 + 2**it - 1 for it in range(11)] + [2023 + 600 * it for it in range(1, 143)], ("STATUS_599", BY_AGE, "152")),
]

# Texts that are no policies, each with the first reason and its place. `@` is the rest of a statement without a Sid.
POLICY_FAULTS = [
    ("", "NotJson at 0"),
    ('{"Statement":[],"Statement":[]}', "KeyTwice at 0"),
    ('{"Version":"x"}', "NotObject at 0"),
    ('{"Version":"x","Statement":["a"]}', "NotObject at 0"),
    ('{"Version":null,"Statement":[{"Sid":1}]}', "BadVersion at 0"),
    ('{"Statement":[{@},{"Sid":null,@}]}', "BadSid at 2"),
    ('{"Statement":[{"Sid":"a",@},{"Sid":"a"}]}', "BadSid at 2"),
    ('{"Statement":{"Effect":"allow"}}', "BadEffect at 1"),
    ('{"Statement":{"Effect":"Deny","Principal":{"AWS":"444"}}}', "BadPrincipal at 1"),
    ('{"Statement":{"Effect":"Deny","Principal":"*","Resource":1}}', "BadAction at 1"),
    ('{"Statement":{"Effect":"Deny","Principal":"*","Action":[],"Resource":[1]}}', "BadResource at 1"),
    ('{"Statement":{@,"NotAction":"a","Condition":{"StringEquals":{"aws:SourceIp":"a"}}}}', "BadCondition at 1"),
    ('{"Statement":[{@},{@,"NotAction":"a"}]}', "UnknownMember at 2"),
    ('{"Statement":[%s]}' % ("[" * 99), "TooDeep at 0"),
    (" " * 10_241, "TooLong at 0"),
]
A_REST = '"Effect":"Allow","Principal":"*","Action":"*","Resource":"*"'


def with_arns(text):
    return text.replace('"E:', '"' + EVENTS_ARN).replace('"Q:', '"' + QUEUE_ARN)


def value_of(body):
    try:
        value, _ = read_json(body)
    except Fault:
        return NO_OBJECT
    return value if isinstance(value, dict) else NO_OBJECT


def ask(router, action, body, caller=None):
    full = next(it for it in CALLS if it.endswith("." + action))
    return router.answer("POST", full, caller, value_of(with_arns(body)))[1]


def router_with(link, target):
    """A router at 1000 with a queue `d` and a rule whose target has these members."""
    router = Router(1000, link)
    ask(router, "CreateQueue", '{"QueueName":"d"}')
    ask(router, "PutRule", '{"Name":"r","EventPattern":"{\\"source\\":[\\"a\\"]}"}')
    members = {"Id": "t", "Arn": "http://127.0.0.1:1/", "DeadLetterConfig": {"Arn": QUEUE_ARN + "d"}, **target}
    reply = ask(router, "PutTargets", json.dumps({"Rule": "r", "Targets": [members]}))
    assert reply == NO_FAILURE, reply
    return router


def check_delivery(policy, answers, readings, wanted_attempts, wanted_letter):
    left, attempts = list(answers), []

    def link(_endpoint, _text):
        attempts.append(router.reading)
        return left.pop(0) if len(left) > 1 else left[0]

    router = router_with(link, {"RetryPolicy": policy})
    ask(router, "PutEvents", EVENT % "a")
    while readings is ALL and router.deliveries.order:
        router.reading = router.deliveries.order[0][0]
        ask(router, "DeliverDue", '{"Budget":1}')
    for router.reading in readings or []:
        ask(router, "DeliverDue", "{}")
    messages = json.loads(ask(router, "PeekMessages", '{"QueueName":"d"}'))["Messages"]
    letter = [tuple(it["Attributes"][key] for key in ("ERROR_CODE", "EXHAUSTED_RETRY_CONDITION", "RETRY_ATTEMPTS")) for it in messages]
    assert attempts == wanted_attempts, f"the model attempts {policy} {answers} at {attempts}"
    assert letter == [wanted_letter] * (wanted_letter is not None), f"the model's dead letters of {policy} {answers} are {letter}"


def check_order():
    """A retry that is due at 1001 comes after a delivery of 1000, and before one of 1001."""
    sent = []
    router = router_with(lambda _, text: sent.append(json.loads(text)["detail-type"]) or (503 if len(sent) == 1 else 200), {})
    for router.reading, kind in ((1000, "a"), (1000, "b"), (1001, "c")):
        ask(router, "PutEvents", '{"Entries":[{"Source":"a","DetailType":"%s","Detail":"{}"}]}' % kind)
        if kind == "a":
            ask(router, "DeliverDue", "{}")
    ask(router, "DeliverDue", "{}")
    assert sent == ["a", "b", "a", "c"], f"the model sends in the order {sent}"


def check_long_text():
    router = router_with(None, {})
    ask(router, "PutEvents", json.dumps({"Entries": [{"Source": "a", "DetailType": "\x01" * 200_000, "Detail": "{}"}]}))
    letter = json.loads(ask(router, "PeekMessages", '{"QueueName":"d"}'))["Messages"][0]
    assert letter["Body"] == "{}" and list(letter["Attributes"].values())[2:] == ["TEXT_TOO_LONG", "The text is over 1048576 bytes.", "", "0"]


# An archive of one day with an event that was accepted at 1000: the days that it gets and when, the reading of a DescribeArchive after it,
# and whether it then retains the event.
DAYS = [
    (None, None, 87_399, 1),
    (None, None, 87_400, 0),
    (0, 87_399, 250_000_000_000, 1),
    (0, 87_400, 87_400, 0),
    (2, 87_399, 173_799, 1),
    (2, 87_399, 173_800, 0),
    (2, 87_400, 87_399, 0),
    (2_147_483_647, 1000, 250_000_000_000, 1),
]


def check_days():
    for days, at, now, wanted in DAYS:
        router = Router(1000)
        ask(router, "CreateArchive", '{"ArchiveName":"a","EventSourceArn":"E:event-bus/default","RetentionDays":1}')
        ask(router, "PutEvents", EVENT % "a")
        if days is not None:
            router.reading = at
            ask(router, "UpdateArchive", '{"ArchiveName":"a","RetentionDays":%d}' % days)
        router.reading = now
        found = json.loads(ask(router, "DescribeArchive", '{"ArchiveName":"a"}'))["EventCount"]
        assert found == wanted, f"the model's archive with {days} days from {at} on retains {found} events at {now}"


def check():
    """Makes each row with the model. Raises an AssertionError at the first other reply."""
    for rows in (A_POLICY, A_FULL_RULE, A_BUS, A_QUEUE, AN_ARCHIVE):
        router = Router(1_700_000_000)
        for action, caller, body, wanted in rows:
            reply = ask(router, action, body, caller)
            assert reply == with_arns(wanted), f"the model answers {action} {body} with {reply}"
    for row in DELIVERIES:
        check_delivery(*row)
    check_order()
    check_long_text()
    check_days()
    for text, wanted in POLICY_FAULTS:
        _, reply = Router(0).answer("POST", "AWSEvents.PutPermission", None, {"Policy": text.replace("@", A_REST), "EventBusName": "no"})
        kind = "PolicyLengthExceededException" if "TooLong" in wanted else "ValidationException"
        assert reply == refused(kind, f"Policy is not valid. Reason: {wanted}"), f"the model finds {reply} of {text[:80]}"
