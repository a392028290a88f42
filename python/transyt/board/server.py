"""The board's address: 127.0.0.1 alone, and only for who has its secret.

`/`, its two scripts and its style sheet hold nothing of the deck; every other request needs the secret in the header
X-Board. Only POST changes something. Nothing is logged and nothing is written to disk.
"""

import hmac
import json
import os
import secrets
import socket
import threading
import time
from fractions import Fraction
from http.server import BaseHTTPRequestHandler, HTTPServer
from socketserver import ThreadingMixIn
from typing import Any, Callable, Dict, Optional, Tuple

from ..faults import Fault
from ..pictures.svg import shortened
from .state import Board, Stale, Wanted

STATIC = os.path.join(os.path.dirname(os.path.realpath(__file__)), "static")
FILES = {"/": ("board.html", "text/html"), "/board.js": ("board.js", "text/javascript"),
         "/hand.js": ("hand.js", "text/javascript"), "/board.css": ("board.css", "text/css")}
MOST_BODY, MOST_CONNECTIONS, SECONDS, TICKET_SECONDS = 1_000_000, 16, 10, 30
HEADERS = (("Cache-Control", "no-store"), ("Referrer-Policy", "no-referrer"), ("X-Content-Type-Options", "nosniff"),
           ("Content-Security-Policy", "default-src 'none'; script-src 'self'; style-src 'self'; connect-src 'self'; "
            "frame-ancestors 'none'; base-uri 'none'; form-action 'none'"))


class Ticket:
    """A ticket for the secret, good once and for thirty seconds."""

    def __init__(self) -> None:
        self.text = secrets.token_hex(16)
        self._until = time.monotonic() + TICKET_SECONDS
        self._used = False
        self._lock = threading.Lock()

    def take(self, text: str) -> Optional[str]:
        """None where the ticket is good, which it isn't again; else why it is not."""
        with self._lock:
            if not hmac.compare_digest(text.encode("utf-8", "replace"), self.text.encode("ascii")):
                return "this is no ticket of this board"
            if self._used:
                return "this ticket was used already: somebody else has opened the board with it"
            if time.monotonic() > self._until:
                return f"this ticket is older than {TICKET_SECONDS} s"
            self._used = True
            return None


class Server(ThreadingMixIn, HTTPServer):
    """The server of one board: a thread a request, at most sixteen connections."""

    daemon_threads = True
    request_queue_size = 32

    def __init__(self, board: Board) -> None:
        super().__init__(("127.0.0.1", 0), Handler)
        self.board = board
        self.secret, self.ticket = secrets.token_hex(16), Ticket()
        self._places = threading.Semaphore(MOST_CONNECTIONS)

    @property
    def origin(self) -> str:
        """Where the page lives."""
        return f"http://127.0.0.1:{self.server_address[1]}"

    def process_request(self, request: Any, client_address: Any) -> None:
        """Serves a connection in a thread of its own; one more than there may be is closed at once."""
        if not self._places.acquire(blocking=False):
            self.shutdown_request(request)
            return
        super().process_request(request, client_address)

    def process_request_thread(self, request: Any, client_address: Any) -> None:
        """Serves a connection, and gives its place back."""
        try:
            super().process_request_thread(request, client_address)
        finally:
            self._places.release()

    def handle_error(self, request: Any, client_address: Any) -> None:
        """A connection that breaks is nobody's business."""


class Handler(BaseHTTPRequestHandler):
    """One request."""

    server: Server
    server_version, sys_version = "board", ""

    def setup(self) -> None:
        """A connection has ten seconds to send its request."""
        super().setup()
        self._deadline = threading.Timer(SECONDS, self._cut)
        self._deadline.daemon = True
        self._deadline.start()

    def _cut(self) -> None:
        """Ends a connection that is silent or slow."""
        try:
            self.connection.shutdown(socket.SHUT_RDWR)
        except OSError:
            pass

    def finish(self) -> None:
        """The end of a connection."""
        self._deadline.cancel()
        try:
            super().finish()
        except OSError:
            pass

    def log_message(self, format: str, *args: object) -> None:  # noqa: A002
        """No log: its lines would name what was asked."""

    def do_GET(self) -> None:
        """The page, and what is looked at."""
        if self.headers.get("Host") != self.server.origin[len("http://"):]:
            self.answer(404, b"")
        elif self.path in FILES:
            name, kind = FILES[self.path]
            with open(os.path.join(STATIC, name), "rb") as file:
                self.answer(200, file.read(), f"{kind}; charset=utf-8")
        elif not self.has_secret():
            self.answer(404, b"")
        elif self.path == "/state":
            self.say(200, self.server.board.view())
        elif self.path == "/took":
            self.say(200, self.server.board.took())
        elif self.path == "/deck":
            self.answer(200, self.server.board.deck_text().encode("utf-8", "replace"), "text/plain; charset=utf-8")
        else:
            self.answer(404, b"")

    def do_POST(self) -> None:
        """What changes something."""
        if self.headers.get("Host") != self.server.origin[len("http://"):] \
                or self.headers.get("Origin") != self.server.origin:
            self.answer(404, b"")
            return
        if self.path != "/ticket" and not self.has_secret():
            self.answer(404, b"")
            return
        asked = self.body()
        if asked is None:
            return
        if self.path == "/ticket":
            why = self.server.ticket.take(str(asked.get("ticket", "")))
            self.say(403 if why else 200, {"message": why} if why else {"secret": self.server.secret})
            return
        self.change(asked)

    def change(self, asked: Dict[str, Any]) -> None:
        """Makes a change; one that is refused is answered by a sentence and the state that is."""
        board = self.server.board
        calls: Dict[str, Callable[[int], Any]] = {
            "/undo": board.undo, "/redo": board.redo, "/again": board.start_again, "/climb": board.climb,
            "/stop": lambda _: board.stop(), "/certificate": board.certificate,
            "/edit": lambda version: board.edit(version, wanted_of(asked))}
        call = calls.get(self.path)
        if call is None:
            self.answer(404, b"")
            return
        version = asked.get("version")
        try:
            self.say(200, call(version if isinstance(version, int) else -1))
        except Fault as fault:
            self.say(200, {**board.view(), "message": str(fault), "refused": True,
                           "stale": isinstance(fault, Stale)})

    def has_secret(self) -> bool:
        """Whether the request has the board's secret."""
        told = self.headers.get("X-Board", "").encode("utf-8", "replace")
        return hmac.compare_digest(told, self.server.secret.encode("ascii"))

    def body(self) -> Optional[Dict[str, Any]]:
        """The body as a JSON object; None once a fault of it is answered."""
        length = self.headers.get("Content-Length", "")
        if self.headers.get("Transfer-Encoding") or not (length.isascii() and length.isdecimal()):
            self.answer(411, b"")
            return None
        if len(length) > len(str(MOST_BODY)) or int(length) > MOST_BODY:
            self.answer(413, b"")
            return None
        data = self.rfile.read(int(length))
        self._deadline.cancel()
        try:
            asked = json.loads(data)
        except (ValueError, RecursionError):
            asked = None
        if not isinstance(asked, dict):
            self.answer(400, b"")
            return None
        return asked

    def send_error(self, code: int, message: Optional[str] = None, explain: Optional[str] = None) -> None:
        """Requests that are none, and methods that there aren't, are answered as all others are."""
        self.request_version = "HTTP/1.0"
        self.answer(code, b"")

    def say(self, status: int, what: object) -> None:
        """Answers with JSON."""
        self.answer(status, json.dumps(what).encode("utf-8"), "application/json")

    def answer(self, status: int, data: bytes, kind: str = "text/plain") -> None:
        """Answers; the connection ends with it."""
        self._deadline.cancel()
        self.close_connection = True
        self.send_response(status)
        for name, value in (*HEADERS, ("Content-Type", kind), ("Content-Length", str(len(data))),
                            ("Connection", "close")):
            self.send_header(name, value)
        self.end_headers()
        if self.command != "HEAD":
            self.wfile.write(data)


def wanted_of(asked: Dict[str, Any]) -> Wanted:
    """What a hand asks for, out of a request."""
    node, stage, seconds = asked.get("node"), asked.get("stage"), str(asked.get("seconds", "")).strip()
    if type(node) is not int or type(stage) is not int:
        raise Fault("the request names no junction and no stage")
    whole, _, part = seconds.partition(".")
    if not (whole + part).isascii() or not whole.isdecimal() or (part and not part.isdecimal()) or len(seconds) > 12:
        typed = shortened(seconds, 20) if seconds else "an empty field"
        raise Fault(f"{typed} is no time in seconds, such as 12 or 12.5")
    return Wanted(node, stage, Fraction(seconds.rstrip(".")))


def serve(board: Board) -> Tuple[Server, threading.Thread]:
    """Starts a server for a board; it goes on in a thread of its own."""
    server = Server(board)
    thread = threading.Thread(target=server.serve_forever, kwargs={"poll_interval": 0.1}, daemon=True)
    thread.start()
    return server, thread
