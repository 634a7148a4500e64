#!/usr/bin/env python3
"""The same as sdk.py by Python's http.client, over one keep-alive connection.

    http_client.py 9100
"""
import sys

from shared import FAULTS, Endpoint, Refused, ask, connect, wait_for_deliveries, wait_for_router


def run(port):
    wait_for_router(port)
    router = connect(port)
    with Endpoint() as endpoint:
        bus = {"EventBusName": "http-client"}
        ask(router, "AWSEvents.CreateEventBus", {"Name": "http-client"})
        ask(router, "AWSEvents.PutRule", {"Name": "orders", "EventPattern": '{"source":["shop.orders"]}', **bus})
        put = ask(router, "AWSEvents.PutTargets", {"Rule": "orders", "Targets": [{"Id": "here", "Arn": endpoint.url}], **bus})
        if put["FailedEntryCount"]:
            raise Refused(f"PutTargets fails: {put['FailedEntries']}")
        order = {"Source": "shop.orders", "DetailType": "Order", **bus}
        put = ask(router, "AWSEvents.PutEvents", {"Entries": [{**order, "Detail": '{"order":%d}' % it} for it in range(10)]})
        if put["FailedEntryCount"]:
            raise Refused(f"PutEvents fails: {put['Entries']}")
        for event in endpoint.receive([it["EventId"] for it in put["Entries"]]):
            print(f"received {event['id']} {event['detail-type']} {event['detail']}")
        wait_for_deliveries(port)


if __name__ == "__main__":
    try:
        run(int(sys.argv[1]))
    except (*FAULTS, IndexError, ValueError) as fault:
        sys.exit(f"http_client.py: {fault or type(fault).__name__}")
