"""Policies of buses by their rules, plain and slow: which texts are policies, the first fault of any other text, the text that
is stored, and the verdict for one caller and one event.

A policy stays the JSON value that is stored: a Version, and a list of statements.
"""
import re

from patterns import Fault, read_json, spelled

LONGEST = 10_240  # bytes of a policy, as it is given and as it is stored
VERSIONS = ["2008-10-17", "2012-10-17"]
KEYS = ["events:source", "events:detail-type"]
OPERATORS = ["StringEquals", "StringLike"]
ACTIONS = ["*", "events:*", "events:PutEvents"]
MEMBERS = ["Sid", "Effect", "Principal", "Action", "Resource", "Condition"]
ACCOUNT = "[0-9]{12}"


class PolicyFault(Exception):
    """Why a text is no policy, and the statement's place from 1, or 0."""

    def __init__(self, why, place=0):
        super().__init__(why)
        self.why, self.place = why, place


# ---- Which texts are policies


def read_policy(text):
    """The policy that the text spells, as it is stored. Raises the text's first fault."""
    if len(text.encode()) > LONGEST:
        raise PolicyFault("TooLong")
    try:
        value, is_twice = read_json(text)
    except Fault as fault:
        raise PolicyFault(fault.why) from None
    if is_twice:
        raise PolicyFault("KeyTwice")
    if not isinstance(value, dict) or not isinstance(value.get("Statement"), (dict, list)):
        raise PolicyFault("NotObject")
    statements = value["Statement"] if isinstance(value["Statement"], list) else [value["Statement"]]
    if not all(isinstance(it, dict) for it in statements):
        raise PolicyFault("NotObject")
    version = value.get("Version", "2012-10-17")
    if version not in VERSIONS:
        raise PolicyFault("BadVersion")
    sids = []
    for place, statement in enumerate(statements, 1):
        why = statement_fault(statement, sids)
        if why:
            raise PolicyFault(why, place)
        sids.append(statement.get("Sid"))
    return {"Version": version, "Statement": statements}


def statement_fault(statement, sids):
    """The first fault of a statement, after statements with these Sids."""
    if "Sid" in statement and (not isinstance(statement["Sid"], str) or statement["Sid"] in sids):
        return "BadSid"
    if statement.get("Effect") not in ("Allow", "Deny"):
        return "BadEffect"
    if not is_principal(statement.get("Principal")):
        return "BadPrincipal"
    if not are_texts(statement.get("Action")):
        return "BadAction"
    if not are_texts(statement.get("Resource")):
        return "BadResource"
    if "Condition" in statement and not is_condition(statement["Condition"]):
        return "BadCondition"
    return None if all(it in MEMBERS for it in statement) else "UnknownMember"


def are_texts(value):
    """A text, or a list of texts."""
    return isinstance(value, str) or isinstance(value, list) and all(isinstance(it, str) for it in value)


def texts_in(value):
    return value if isinstance(value, list) else [value]


def is_principal(value):
    if value == "*":
        return True
    if not isinstance(value, dict) or list(value) != ["AWS"] or not are_texts(value["AWS"]):
        return False
    return all(re.fullmatch(rf"\*|{ACCOUNT}|arn:aws:iam::{ACCOUNT}:root", it) for it in texts_in(value["AWS"]))


def is_condition(value):
    return isinstance(value, dict) and all(
        operator in OPERATORS and isinstance(keys, dict) and all(key in KEYS and are_texts(it) for key, it in keys.items())
        for operator, keys in value.items()
    )


# ---- The text that is stored, and changes of one statement


def stored(policy):
    """The policy's text. Raises a fault if it is too long."""
    text = spelled(policy)
    if len(text.encode()) > LONGEST:
        raise PolicyFault("TooLong")
    return text


def has_statement(policy, sid):
    return policy is not None and any(it.get("Sid") == sid for it in policy["Statement"])


def with_statement(policy, sid, principal, bus_arn):
    """The policy with one more statement, its last: an Allow for one account, or for everyone."""
    added = {
        "Sid": sid,
        "Effect": "Allow",
        "Principal": "*" if principal == "*" else {"AWS": f"arn:aws:iam::{principal}:root"},
        "Action": "events:PutEvents",
        "Resource": bus_arn,
    }
    before = policy or {"Version": "2012-10-17", "Statement": []}
    return {**before, "Statement": [*before["Statement"], added]}


def without_statement(policy, sid):
    """The policy without the statement, or None if it was the only one."""
    left = [it for it in policy["Statement"] if it.get("Sid") != sid]
    return {**policy, "Statement": left} if left else None


# ---- The verdict


def verdict(policy, account, bus_arn, source, detail_type, is_owner):
    """"Allowed", "NoAllow", or the name of the first Deny that applies, in a list of its own."""
    statements = policy["Statement"] if policy else []
    asked = (account, bus_arn, {"events:source": source, "events:detail-type": detail_type})
    for place, it in enumerate(statements, 1):
        if it["Effect"] == "Deny" and applies(it, *asked):
            return [it.get("Sid", f"#{place}")]
    if is_owner or any(it["Effect"] == "Allow" and applies(it, *asked) for it in statements):
        return "Allowed"
    return "NoAllow"


def applies(statement, account, bus_arn, values):
    principal = statement["Principal"]
    accounts = ["*"] if principal == "*" else texts_in(principal["AWS"])
    return (
        any(it in ("*", account, f"arn:aws:iam::{account}:root") for it in accounts)
        and any(it in ACTIONS for it in texts_in(statement["Action"]))
        and any(it in ("*", bus_arn) for it in texts_in(statement["Resource"]))
        and all(
            any(fits(operator, it, values[key]) for it in texts_in(wanted))
            for operator, keys in statement.get("Condition", {}).items()
            for key, wanted in keys.items()
        )
    )


def fits(operator, wanted, text):
    if operator == "StringEquals":
        return wanted == text
    parts = {"*": ".*", "?": "."}
    return bool(re.fullmatch("".join(parts.get(it, re.escape(it)) for it in wanted), text, re.DOTALL))
