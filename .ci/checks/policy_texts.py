"""Texts of policies by chance, for the mixed runs: most are policies that are about the run's callers, buses and events, and a
part of them has a fault."""
import policies
from pattern_texts import spell
from patterns import Number, spelled

NO_TEXTS = [None, 1, {}, ["a", 1], [None], True, [["a"]]]
BAD_PRINCIPALS = [None, "444455556666", "", [], ["*"], {}, {"AWS": None}, {"AWS": 1}, {"AWS": "4444"}, {"AWS": ["*", "a"]}, {"AWS": {}}]
BAD_PRINCIPALS += [{"AWS": "arn:aws:iam::444455556666:user/a"}, {"Service": "events.amazonaws.com"}, {"AWS": "*", "Service": "x"}, {"aws": "*"}]
BAD_CONDITIONS = [None, [], "a", {"StringEquals": None}, {"StringEquals": []}, {"stringequals": {}}, {"Null": {}}]
BAD_CONDITIONS += [{"StringEquals": {"events:source": it}} for it in NO_TEXTS]
BAD_CONDITIONS += [{"StringLike": {it: "a"}} for it in ("events:Source", "aws:PrincipalOrgID", "")]
BAD_STATEMENTS = [None, "a", 1, [1], [{}, []], [[]], True]
BAD_MEMBERS = {
    "Sid": [None, 1, ["a"], {}],
    "Effect": [None, "allow", "", 1, ["Allow"]],
    "Principal": BAD_PRINCIPALS,
    "Action": NO_TEXTS,
    "Resource": NO_TEXTS,
    "Condition": BAD_CONDITIONS,
}


def a_statement(chance, world):
    """A statement. The world has the accounts, bus ARNs, sources and detail types that the run uses."""
    account = chance.choice(world.accounts)
    words = [account, f"arn:aws:iam::{account}:root", "*", [account, chance.choice(world.accounts)], [], ["000000000000", account]]
    statement = {
        "Effect": chance.choices(["Allow", "Deny"], [3, 1])[0],
        "Principal": chance.choices(["*", {"AWS": chance.choice(words)}], [1, 5])[0],
        "Action": chance.choice(["events:PutEvents", "events:PutEvents", "*", "events:*", ["events:PutRule", "events:PutEvents"], "events:Put*", []]),
        "Resource": chance.choice([chance.choice(world.bus_arns), "*", [*world.bus_arns][:2], "*", chance.choice(world.bus_arns) + "*", []]),
    }
    if chance.random() < 0.5:
        statement["Condition"] = a_condition(chance, world)
    if statement["Effect"] == "Deny" and chance.random() < 0.8:
        statement["Condition"] = {"StringEquals": {"events:source": chance.choice(world.sources)}}
    if chance.random() < 0.7:
        statement["Sid"] = chance.choice(["", "ok", "no", "a b", "é", "s-1", "#1", "S" * 64]) + chance.choice(["", "1", "2"])
    keys = list(statement)
    if chance.random() < 0.5:
        chance.shuffle(keys)
    return {key: statement[key] for key in keys}


def a_condition(chance, world):
    condition = {}
    for operator in chance.sample(policies.OPERATORS, chance.choice([0, 1, 1, 2])):
        keys = {}
        for key in chance.sample(policies.KEYS, chance.choice([0, 1, 1, 2])):
            texts = world.sources if key == "events:source" else world.types
            some = [like(chance, it) if operator == "StringLike" else it for it in chance.sample(texts, chance.randint(1, 3))]
            keys[key] = chance.choice([some, some[0], some, []])
        condition[operator] = keys
    return condition


def like(chance, text):
    """A text that this one may be like."""
    start = chance.randint(0, len(text))
    end = chance.randint(start, len(text))
    middle = chance.choice(["*", "?" * (end - start), "?" * (end - start + 1), "**", text[start:end], "\\*", "?"])
    return text[:start] + middle + text[end:]


def a_policy_text(chance, world):
    """The text of a policy, or one that is none."""
    statements = [a_statement(chance, world) for _ in range(chance.choice([1, 1, 2, 2, 3, 0]))]
    sids = set()
    for it in statements:
        if it.get("Sid") in sids and chance.random() < 0.9:
            it.pop("Sid", None)
        sids.add(it.get("Sid"))
    policy = {"Statement": statements[0] if len(statements) == 1 and chance.random() < 0.5 else statements}
    if chance.random() < 0.7:
        policy["Version"] = chance.choice(policies.VERSIONS)
    if chance.random() < 0.2:
        policy["Id"] = chance.choice(["p", None, 1])
    kind = chance.random()
    if kind < 0.35:
        for _ in range(chance.choice([1, 1, 2])):
            spoil(chance, policy, statements)
    if kind > 0.95:
        return of_length(chance, policy, statements)
    if kind > 0.92:
        return chance.choice(["", "[]", "null", "{", spelled(policy) + "x", spelled(policy)[:-1], '{"Statement":["\\ud800"]}', "1"])
    if kind > 0.9:
        deep = chance.choice([97, 98, 99, 120])
        return spelled(policy)[:-1] + ',"Id":[' + "[" * deep + "]" * deep + "]}"
    return spell(chance, policy, 0.1 if kind > 0.85 else 0.0)


def spoil(chance, policy, statements):
    """Makes a fault somewhere in the policy."""
    kind = chance.random()
    if kind < 0.1 or not statements:
        policy["Statement"] = chance.choice(BAD_STATEMENTS)
    elif kind < 0.15:
        policy.pop("Statement", None)
    elif kind < 0.25:
        policy["Version"] = chance.choice(["", "2012-10-18", None, Number("2012"), []])
    elif kind < 0.35:
        chance.choice(statements)[chance.choice(["NotAction", "NotPrincipal", "sid", "effect", ""])] = chance.choice(["a", None])
    elif kind < 0.45:
        chance.choice(statements).pop(chance.choice(["Effect", "Principal", "Action", "Resource"]), None)
    elif kind < 0.55 and len(statements) > 1:
        statements[-1]["Sid"] = statements[0].setdefault("Sid", "twice")
    else:
        member = chance.choice(list(BAD_MEMBERS))
        chance.choice(statements)[member] = chance.choice(BAD_MEMBERS[member])


def of_length(chance, policy, statements):
    """A text with about as many bytes as a policy may have. It may be longer once it has a Version and a list."""
    if not statements:
        return spelled(policy)
    kind = chance.randrange(4)
    long = statements[0]
    long["Sid"] = ""
    if kind < 3:
        policy = {"Statement": long}
        length = policies.LONGEST + chance.choice([-26, -25, -24, -1, 0, 1])
    else:
        policy = {"Version": "2012-10-17", "Statement": [long]}
        length = policies.LONGEST + chance.choice([-1, 0, 1])
    long["Sid"] = "L" * (length - len(spelled(policy).encode()))
    return spelled(policy)
