"""Deliveries by their rules: which one is attempted next, what becomes of it, and the messages of queues.

A delivery is pending until an attempt delivers it or ends it without one; then it becomes a message of its dead-letter queue, or
is dropped. The readings of one run do not fall.
"""
import heapq

QUEUE_ARN = "arn:aws:sqs:us-east-1:111122223333:"
RETRIES, AGE = 185, 86_400  # of a target without a RetryPolicy, and the most that one may have
RETRIED = {None, 409, 429, *range(500, 600)}  # answers after which there may be another attempt; None is no answer
LONGEST_DELAY = 600
LONGEST_TEXT = 1_048_576
BY_RETRIES, BY_AGE = "MaximumRetryAttempts", "MaximumEventAgeInSeconds"


class Target:
    """A target of a rule: its ARN as given; what makes its text, or None for the event's, and the inputs as lists show them; its retry
    policy, a pair of numbers or None; and its dead-letter queue's ARN or None."""

    def __init__(self, name, arn, make_text, inputs, retry, dead_letter):
        self.name, self.arn, self.make_text, self.inputs = name, arn, make_text, inputs
        self.retry, self.dead_letter = retry, dead_letter

    def shown(self):
        retry = {} if self.retry is None else {"RetryPolicy": dict(zip((BY_RETRIES, BY_AGE), self.retry))}
        dead_letter = {} if self.dead_letter is None else {"DeadLetterConfig": {"Arn": self.dead_letter}}
        return {"Id": self.name, "Arn": self.arn, **self.inputs, **retry, **dead_letter}


class Delivery:
    def __init__(self, rule_arn, target, text, accepted):
        self.rule_arn, self.target, self.text, self.accepted = rule_arn, target, text, accepted
        self.retries, self.age = target.retry or (RETRIES, AGE)
        self.made = 0  # attempts
        self.error = ("NO_ATTEMPT", "No attempt was made.")  # of the last attempt

    @property
    def last_moment(self):
        return self.accepted + self.age

    def attributes(self, condition):
        """What its dead letter shows, if that condition ended it."""
        code, message = self.error
        return {
            "RULE_ARN": self.rule_arn,
            "TARGET_ARN": self.target.arn,
            "ERROR_CODE": code,
            "ERROR_MESSAGE": message,
            "EXHAUSTED_RETRY_CONDITION": condition,
            "RETRY_ATTEMPTS": str(max(self.made - 1, 0)),
        }


class Queue:
    def __init__(self):
        self.messages = []  # oldest first
        self.count = 0  # of the messages that it ever had

    def put(self, text, attributes):
        self.count += 1
        self.messages.append({"Number": self.count, "Body": text, "Attributes": attributes})

    def delete_through(self, number):
        """Deletes the messages up to that number, and returns how many there were."""
        left = [it for it in self.messages if it["Number"] > number]
        deleted = len(self.messages) - len(left)
        self.messages = left
        return deleted


class Deliveries:
    def __init__(self, link):
        self.link = link  # the code that an endpoint answers to a text, or None
        self.queues = {}
        self.created = 0
        self.pending = {}  # by number
        self.order = []  # of each that is pending when it is due and its number
        self.ended = {"Delivered": 0, "DeadLettered": 0, "Dropped": 0}

    def add(self, delivery):
        self.created += 1
        if len(delivery.text.encode()) > LONGEST_TEXT:
            delivery.text, delivery.error = "{}", ("TEXT_TOO_LONG", "The text is over 1048576 bytes.")
            self.fail(delivery, "")
        else:
            self.pending[self.created] = delivery
            heapq.heappush(self.order, (delivery.accepted, self.created))

    def is_due(self, moment):
        return bool(self.order) and self.order[0][0] <= moment

    def step(self, moment):
        """Attempts the delivery that is due first, of several the one of the least number. Returns what became of it."""
        _, number = heapq.heappop(self.order)
        delivery = self.pending.pop(number)
        if moment > delivery.last_moment:
            return self.fail(delivery, BY_AGE)
        queue = self.queue_of(delivery.target.arn)
        if queue is not None:
            queue.put(delivery.text, {})
            return self.end("Delivered")
        code = self.link(delivery.target.arn, delivery.text)
        if code in range(200, 300):
            return self.end("Delivered")
        due = moment + min(2**delivery.made, LONGEST_DELAY)
        delivery.made += 1
        delivery.error = ("NO_ANSWER", "Target gave no answer.") if code is None else (f"STATUS_{code}", f"Target answered {code}.")
        if code not in RETRIED:
            return self.fail(delivery, "")
        if delivery.made > delivery.retries:
            return self.fail(delivery, BY_RETRIES)
        if due > delivery.last_moment:
            return self.fail(delivery, BY_AGE)
        self.pending[number] = delivery
        heapq.heappush(self.order, (due, number))
        return "Pending"

    def fail(self, delivery, condition):
        """Ends a delivery that did not succeed."""
        queue = self.queue_of(delivery.target.dead_letter)
        if queue is None:
            return self.end("Dropped")
        queue.put(delivery.text, delivery.attributes(condition))
        return self.end("DeadLettered")

    def end(self, fate):
        self.ended[fate] += 1
        return fate

    def queue_of(self, arn):
        """The queue of an ARN, or None for an endpoint and for no ARN. No queue is deleted while a delivery names it."""
        name = queue_name(arn)
        return None if name is None else self.queues[name]


def queue_name(arn):
    """The name of the queue that has this ARN, or None for an endpoint and for no ARN."""
    return arn.removeprefix(QUEUE_ARN) if arn and arn.startswith(QUEUE_ARN) else None
