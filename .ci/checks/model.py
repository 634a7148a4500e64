#!/usr/bin/env python3
"""Checks the model of the mixed runs by rows worked by hand: those of rows.py, and the requests of examples/tables.

Rows of bytes are left out, and tables with an endpoint that answers. Which URLs are endpoints the model knows from a list alone, so the tables
about that are left out too. The last line is `N passed, M failed`.
"""
import sys

import router
import rows
from tables import TABLES, Reply, Wrong, tables_in

LEFT_OUT = ["a_target_is_a_queue_or_an_endpoint", "a_url_has_at_most_1600_bytes"]
ENDPOINTS = ["http://localhost/", "http://localhost:8080/", "http://localhost:9000/a", "http://127.0.0.1:9000/x"]
ENDPOINTS += [f"http://127.0.0.1:1/{it}" for it in "stx"]


def value_of(body):
    return rows.value_of(body) if body else {}


def check(table):
    """Why rows of the table fail, one after the other, and the number of those that do not."""
    model, passed, reasons = router.Router(table.now), 0, []
    for line, (action, caller, body), wanted in table.requests:
        status, reply = model.answer("POST", None if action == "-" else action, caller, value_of(body))
        try:
            Reply(status, reply, False).expect(wanted)
            passed += 1
        except Wrong as why:
            reasons.append(f"{table.file}, {table.name}: {line[:150]}: the model has {str(why)[:300]}")
    return reasons, passed


def main():
    router.ENDPOINTS += ENDPOINTS
    rows.check()
    passed = failed = 0
    for file in sorted(TABLES.glob("*.rows")):
        for table in tables_in(file):
            if table.codes or table.name in LEFT_OUT:
                continue
            reasons, good = check(table)
            passed, failed = passed + good, failed + len(reasons)
            for why in reasons:
                print(why)
    print(f"{passed} passed, {failed} failed")
    return 1 if failed else 0


if __name__ == "__main__":
    sys.exit(main())
