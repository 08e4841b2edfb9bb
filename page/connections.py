"""Connections to the page's server: who is let in, for how long, and how much they may send.

Whoever has the secret is not kept out by those who have not.
"""

import http.client
import io
import secrets
import socket
import socketserver
import sys
import threading
import time

MOST_HEAD = 1 << 14
MOST_REQUESTS = 64
# Connections on which the secret was not shown yet: of more than these the oldest one is closed.
MOST_STRANGERS = 64
SECONDS_OF_SILENCE = 20
# Until a request is there as a whole, with the wait for it.
SECONDS_OF_REQUEST, SECONDS_OF_STRANGER = 20, 5
# Faults of a connection; other ones of the system are of files and programs. (The last is of Python 3.9.)
LOST = (ConnectionError, TimeoutError, socket.timeout)


class Refused(Exception):
    """A request that is not answered, with the status that says why."""

    def __init__(self, status, words):
        super().__init__(words)
        self.status = status
        self.words = words


class Timed(io.RawIOBase):
    """What comes in on a connection, until a moment that no drip of bytes puts off."""

    def __init__(self, connection):
        self.connection = connection
        self.until = 0

    def readable(self):
        return True

    def readinto(self, buffer):
        left = self.until - time.monotonic()
        if left <= 0:
            raise TimeoutError
        self.connection.settimeout(left)
        try:
            return self.connection.recv_into(buffer)
        finally:
            self.connection.settimeout(SECONDS_OF_SILENCE)


class Incoming(io.BufferedReader):
    """Requests as they come in: each has its time, and its head so many bytes."""

    def begin(self, seconds):
        self.raw.until = time.monotonic() + seconds
        self.room = MOST_HEAD

    def readline(self, size=-1):
        if self.room <= 0:
            raise http.client.LineTooLong("head")
        line = super().readline(self.room if size < 0 else min(size, self.room))
        self.room -= len(line)
        return line


def cut(connection):
    """Ends what comes in and goes out on a connection, so that whoever waits for it goes on."""
    try:
        connection.shutdown(socket.SHUT_RDWR)
    except OSError:  # it is closed already
        pass


class Server(socketserver.ThreadingMixIn, socketserver.TCPServer):
    """Listens on 127.0.0.1 alone, and answers each connection in a thread."""

    daemon_threads = True
    allow_reuse_address = True
    request_queue_size = 1024

    def __init__(self, port, handler):
        super().__init__(("127.0.0.1", port), handler)
        self.own_host = f"127.0.0.1:{self.server_address[1]}"
        self.secret = secrets.token_urlsafe(18)
        self.door = threading.Lock()
        self.strangers = {}  # the oldest first
        self.known = set()

    def process_request(self, request, client_address):
        with self.door:
            if len(self.strangers) >= MOST_STRANGERS:
                oldest = next(iter(self.strangers))
                del self.strangers[oldest]
                cut(oldest)
            self.strangers[request] = True
        try:
            super().process_request(request, client_address)
        except RuntimeError:  # no thread can be started
            self.forget(request)
            self.shutdown_request(request)

    def process_request_thread(self, request, client_address):
        try:
            super().process_request_thread(request, client_address)
        finally:
            self.forget(request)

    def forget(self, request):
        with self.door:
            self.strangers.pop(request, None)
            self.known.discard(request)

    def seconds_for(self, request):
        """How long the next request on this connection may take until it is there."""
        with self.door:
            return SECONDS_OF_REQUEST if request in self.known else SECONDS_OF_STRANGER

    def let_in(self, request):
        """Notes that the secret was shown on this connection."""
        with self.door:
            if request not in self.known:
                if len(self.known) >= MOST_REQUESTS:
                    raise Refused(503, "too many requests at once")
                self.strangers.pop(request, None)
                self.known.add(request)

    def handle_error(self, request, client_address):
        if not isinstance(sys.exc_info()[1], LOST):
            super().handle_error(request, client_address)
