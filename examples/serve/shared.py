"""What the clients of this folder share: one request, two waits, and an HTTP endpoint of their own."""
import http.client
import http.server
import json
import queue
import sys
import threading
import time

HOST = "127.0.0.1"  # the router does not listen on ::1
START = 3_600  # seconds to wait for the router: a first bin/ebusd proves and builds the program
PATIENCE = 60  # seconds to wait for deliveries


class Refused(Exception):
    """A reply that is not 200, or another answer than the one expected."""


FAULTS = (Refused, OSError, http.client.HTTPException)


def connect(port):
    return http.client.HTTPConnection(HOST, port, timeout=30)


def ask(connection, action, members=None):
    """The value of the reply to one request."""
    connection.request("POST", "/", json.dumps(members or {}), {"X-Amz-Target": action})
    reply = connection.getresponse()
    text = reply.read()
    if reply.status != 200:
        raise Refused(f"{action} gets {reply.status} {text.decode(errors='replace')}")
    return json.loads(text)


def wait_for_router(port):
    """Waits until the port answers a DutyCounts."""
    end, is_waiting = time.monotonic() + START, False
    while True:
        try:
            return duty_counts(port)
        except ConnectionError:
            if time.monotonic() > end:
                raise
        if not is_waiting:
            print(f"waiting for the router at port {port}", file=sys.stderr)
            is_waiting = True
        time.sleep(0.1)


def duty_counts(port):
    """The reply to a DutyCounts over a connection of its own."""
    connection = connect(port)
    try:
        return ask(connection, "RouterLocal.DutyCounts")
    finally:
        connection.close()


def wait_for_deliveries(port):
    """Waits until no delivery is pending. Returns the reply to the last DutyCounts."""
    # A router with one worker delivers only between two connections.
    end = time.monotonic() + PATIENCE
    while (counts := duty_counts(port))["Pending"]:
        if time.monotonic() > end:
            raise Refused(f"{counts['Pending']} deliveries are pending after {PATIENCE} s")
        time.sleep(0.05)
    return counts


class Endpoint:
    """An HTTP endpoint at a free port, in a thread. It answers each event with 200."""

    def __init__(self):
        self.came = came = queue.SimpleQueue()

        class Handler(http.server.BaseHTTPRequestHandler):
            def do_POST(self):
                event = self.rfile.read(int(self.headers["Content-Length"]))
                self.send_response(200)
                self.end_headers()
                came.put(json.loads(event))

            def log_message(self, *_):
                pass

        self.server = http.server.ThreadingHTTPServer((HOST, 0), Handler)
        self.url = f"http://{HOST}:{self.server.server_port}/"

    def __enter__(self):
        threading.Thread(target=self.server.serve_forever, daemon=True).start()
        return self

    def __exit__(self, *_):
        self.server.shutdown()
        self.server.server_close()

    def receive(self, ids):
        """Waits for the events of these ids, and returns them in the order of the ids."""
        events = {}
        while len(events) < len(ids):
            try:
                event = self.came.get(timeout=PATIENCE)
            except queue.Empty:
                raise Refused(f"the endpoint got {len(events)} of {len(ids)} events") from None
            if event["id"] not in ids:
                raise Refused(f"the endpoint got an event that was not put: {event}")
            events[event["id"]] = event
        return [events[it] for it in ids]
