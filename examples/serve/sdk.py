#!/usr/bin/env python3
"""A program of a boto3 user. It makes a bus, an archive, a rule and a target, puts ten events, and receives them.

    sdk.py 9100

The target is an HTTP endpoint of this process. The region and the credentials are made up here: the router checks no signature.
The script waits until the port answers, and at the end until nothing is pending.
"""
import os
import sys

from shared import FAULTS, Endpoint, Refused, wait_for_deliveries, wait_for_router

os.environ.update(AWS_DEFAULT_REGION="us-east-1", AWS_ACCESS_KEY_ID="none", AWS_SECRET_ACCESS_KEY="none")
os.environ.update(NO_PROXY="127.0.0.1", no_proxy="127.0.0.1")
os.environ.pop("AWS_PROFILE", None)
try:
    import boto3
    from botocore.exceptions import BotoCoreError, ClientError
except ModuleNotFoundError:
    sys.exit("sdk.py: this Python has no boto3. Debian has it for /usr/bin/python3, as python3-boto3")


def run(port):
    wait_for_router(port)
    events = boto3.client("events", endpoint_url=f"http://127.0.0.1:{port}")
    with Endpoint() as endpoint:
        bus = events.create_event_bus(Name="sdk")["EventBusArn"]
        events.create_archive(ArchiveName="sdk", EventSourceArn=bus, RetentionDays=1)
        events.put_rule(Name="orders", EventBusName="sdk", EventPattern='{"source":["shop.orders"]}')
        put = events.put_targets(Rule="orders", EventBusName="sdk", Targets=[{"Id": "here", "Arn": endpoint.url}])
        if put["FailedEntryCount"]:
            raise Refused(f"put_targets fails: {put['FailedEntries']}")
        order = {"Source": "shop.orders", "DetailType": "Order", "EventBusName": "sdk"}
        put = events.put_events(Entries=[{**order, "Detail": '{"order":%d}' % it} for it in range(10)])
        if put["FailedEntryCount"]:
            raise Refused(f"put_events fails: {put['Entries']}")
        kept = events.describe_archive(ArchiveName="sdk")["EventCount"]
        if kept != 10:
            raise Refused(f"the archive keeps {kept} events")
        for event in endpoint.receive([it["EventId"] for it in put["Entries"]]):
            print(f"received {event['id']} {event['detail-type']} {event['detail']}")
        # boto3 has no call for an action of the router alone.
        wait_for_deliveries(port)


def main():
    if len(sys.argv) != 2 or not sys.argv[1].isdigit():
        sys.exit("sdk.py: the word is a port")
    try:
        run(int(sys.argv[1]))
    except (*FAULTS, BotoCoreError, ClientError) as fault:
        sys.exit(f"sdk.py: {fault or type(fault).__name__}")


if __name__ == "__main__":
    main()
