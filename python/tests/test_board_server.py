"""The board's address without a browser: who may, what comes in, and how it ends."""

import http.client
import json
import os
import re
import signal
import socket
import subprocess
import sys
import tempfile
import time
import unittest
from typing import Any, Dict, Optional, Tuple
from unittest import mock

import support
from support import PROGRAM, ROOT, needs_program, wait_until
from transyt.board import server as serving
from transyt.board.server import serve, wanted_of
from transyt.board.state import Board
from transyt.deck import read_deck
from transyt.faults import Fault

MARKED = read_deck(support.THREE.replace("Market Street", "<script>alert(1)</script> & \"quotes\" \u05d0\u05d1"))


class Typed(unittest.TestCase):
    """What is typed into a field; without the program."""

    def test_what_is_no_time_is_told_with_an_example(self) -> None:
        """An empty field too; what is long is cut, and marked so."""
        for typed, sentence in (("", "an empty field is no time in seconds, such as 12 or 12.5"),
                                (" ", "an empty field is no time"), ("12,5", "12,5 is no time"),
                                ("-2", "-2 is no time"), ("x" * 40, "x" * 19 + "… is no time")):
            with self.assertRaisesRegex(Fault, f"^{sentence}"):
                wanted_of({"node": 1, "stage": 0, "seconds": typed})
        for odd in (True, "1", None, 1.0):
            with self.assertRaisesRegex(Fault, "names no junction"):
                wanted_of({"node": odd, "stage": 0, "seconds": "2"})

    def test_the_page_has_what_its_scripts_name(self) -> None:
        """Each element that they look for by its id."""
        def text(name: str) -> str:
            with open(os.path.join(serving.STATIC, name), encoding="utf-8") as file:
                return file.read()

        wanted = set(re.findall(r'byId\("([a-z-]+)"\)', text("board.js") + text("hand.js")))
        self.assertGreater(len(wanted), 10)
        self.assertLessEqual(wanted, set(re.findall(r' id="([a-z-]+)"', text("board.html"))))


@needs_program
class Who(unittest.TestCase):
    """Who may, and what comes in."""

    def setUp(self) -> None:
        self.board = Board(MARKED, 1, PROGRAM, [])
        self.addCleanup(self.board.close)
        self.server, _ = serve(self.board)
        self.addCleanup(self.server.server_close)
        self.addCleanup(self.server.shutdown)

    def ask(self, method: str, path: str, body: Optional[bytes] = None,
            **more: str) -> Tuple[int, bytes, Dict[str, str]]:
        """Status, body and headers of an answer."""
        connection = http.client.HTTPConnection("127.0.0.1", self.server.server_address[1], timeout=20)
        self.addCleanup(connection.close)
        headers = {"X_Board": self.server.secret, "Origin": self.server.origin, **more}
        connection.request(method, path, body,
                           {name.replace("_", "-"): value for name, value in headers.items() if value})
        answer = connection.getresponse()
        return answer.status, answer.read(), dict(answer.getheaders())

    def test_the_page_holds_nothing_of_the_deck(self) -> None:
        """The page, its script and its style sheet are the same for every deck, and need no secret."""
        for path in ("/", "/board.js", "/hand.js", "/board.css"):
            status, body, headers = self.ask("GET", path, X_Board="")
            self.assertEqual(status, 200)
            self.assertNotIn(b"Mill Road", body)
            self.assertEqual(headers["Cache-Control"], "no-store")
            self.assertIn("default-src 'none'", headers["Content-Security-Policy"])
            self.assertNotIn("Set-Cookie", headers)
            self.assertNotIn("Access-Control-Allow-Origin", headers)

    def test_without_the_secret(self) -> None:
        """404 for all else, as for what isn't there."""
        for path in ("/state", "/deck", "/nothing"):
            self.assertEqual(self.ask("GET", path, X_Board="")[0], 404)
            self.assertEqual(self.ask("GET", path, X_Board="0" * 32)[0], 404)
        self.assertEqual(self.ask("POST", "/climb", b"{}", X_Board="")[0], 404)
        self.assertEqual(self.ask("GET", "/state?" + self.server.secret, X_Board="")[0], 404)

    def test_another_host_or_origin(self) -> None:
        """A page of another origin can neither read nor write."""
        self.assertEqual(self.ask("GET", "/state", Host="example.org")[0], 404)
        self.assertEqual(self.ask("GET", "/", Host="localhost:1")[0], 404)
        for origin in ("", "null", "http://example.org"):
            self.assertEqual(self.ask("POST", "/climb", b'{"version": 0}', Origin=origin)[0], 404)
        self.assertEqual(self.board.version, 0)

    def test_each_answer_has_the_headers(self) -> None:
        """What isn't there, methods that there aren't, and requests that are none too."""
        for method, path in (("GET", "/nothing"), ("PUT", "/edit"), ("HEAD", "/"), ("OPTIONS", "/edit"),
                             ("GET", "/deck")):
            _, _, headers = self.ask(method, path)
            for name in ("Cache-Control", "Referrer-Policy", "X-Content-Type-Options", "Content-Security-Policy"):
                self.assertIn(name, headers, (method, path))
        with socket.create_connection(("127.0.0.1", self.server.server_address[1]), timeout=5) as line:
            line.sendall(b"GET / HTTP/99\r\n\r\n")
            self.assertIn(b"no-store", line.recv(4096))

    def test_it_is_this_machines_alone(self) -> None:
        """127.0.0.1, and no other address."""
        self.assertEqual(self.server.server_address[0], "127.0.0.1")

    def test_a_change_names_the_state_that_it_was_made_from(self) -> None:
        """Another one, or none, is refused in a sentence with the state that is."""
        for version in (b"1", b'"0"', b"null"):
            body = b'{"version": %s, "node": 2, "stage": 0, "seconds": "10"}' % version
            answer = json.loads(self.ask("POST", "/edit", body)[1])
            self.assertEqual((answer["stale"], answer["refused"], answer["version"]), (True, True, 0))
        answer = json.loads(self.ask("POST", "/edit", b'{"version": 0, "node": 2, "stage": 0, "seconds": "10"}')[1])
        self.assertEqual((answer["version"], answer["nodes"][1]["offset"]), (1, 10))

    def test_only_post_changes(self) -> None:
        """GET of a change is nothing."""
        for path in ("/edit", "/undo", "/redo", "/again", "/climb", "/stop", "/certificate", "/ticket"):
            self.assertEqual(self.ask("GET", path)[0], 404)

    def test_a_ticket_is_good_once(self) -> None:
        """The secret the first time, a sentence the second, and after thirty seconds too."""
        ticket = json.dumps({"ticket": self.server.ticket.text}).encode()
        status, body, _ = self.ask("POST", "/ticket", ticket, X_Board="")
        self.assertEqual((status, json.loads(body)["secret"]), (200, self.server.secret))
        status, body, _ = self.ask("POST", "/ticket", ticket, X_Board="")
        self.assertEqual(status, 403)
        self.assertIn("somebody else", json.loads(body)["message"])
        late = serving.Ticket()
        with mock.patch("time.monotonic", lambda: late._until + 1):
            self.assertIn("older", str(late.take(late.text)))

    def test_bodies(self) -> None:
        """Two megabytes are 413 before they are read, a chunked body 411, no JSON 400."""
        self.assertEqual(self.ask("POST", "/edit", None, Content_Length="2000000")[0], 413)
        self.assertEqual(self.ask("POST", "/edit", None, Transfer_Encoding="chunked", Content_Length="")[0], 411)
        self.assertEqual(self.ask("POST", "/edit", b"{}", Transfer_Encoding="chunked", Content_Length="2")[0], 411)
        self.assertEqual(self.ask("POST", "/edit", b"[1]")[0], 400)
        self.assertEqual(self.ask("POST", "/edit", b"[" * 100_000)[0], 400)
        self.assertEqual(self.ask("POST", "/edit", None, Content_Length="9" * 5_000)[0], 413)
        status, body, _ = self.ask("POST", "/edit", b'{"version": 0, "node": 1, "stage": 0, "seconds": "x"}')
        self.assertEqual((status, json.loads(body)["refused"]), (200, True))
        self.assertIn("x is no time", json.loads(body)["message"])

    def test_a_silent_connection_is_ended(self) -> None:
        """After its time, and a slow one too."""
        with mock.patch.object(serving, "SECONDS", 0.3):
            for sent in (b"", b"GET / HTTP/1.1\r\nHost: "):
                with socket.create_connection(("127.0.0.1", self.server.server_address[1]), timeout=5) as line:
                    line.sendall(sent)
                    begun = time.monotonic()
                    self.assertEqual(line.recv(10), b"")
                    self.assertLess(time.monotonic() - begun, 3)

    def test_twenty_connections(self) -> None:
        """Sixteen are open, the others are closed at once; afterwards the board answers again."""
        lines = [socket.create_connection(("127.0.0.1", self.server.server_address[1]), timeout=5) for _ in range(20)]
        closed = 0
        for line in lines:
            line.settimeout(0.5)
            try:
                closed += line.recv(1) == b""
            except socket.timeout:
                pass
        self.assertEqual(closed, 4)
        for line in lines:
            line.close()
        self.assertTrue(wait_until(lambda: self.try_state() == 200))

    def try_state(self) -> int:
        """The status of /state; 0 where the connection is closed."""
        try:
            return self.ask("GET", "/state")[0]
        except (OSError, http.client.HTTPException):
            return 0

    def test_markup_is_text(self) -> None:
        """Names with markup come as text, in pictures too."""
        view: Dict[str, Any] = json.loads(self.ask("GET", "/state")[1])
        self.assertNotIn("<script", view["signals"])
        self.assertIn("&lt;script&gt;", view["signals"])
        self.assertIn("<script>", view["nodes"][0]["name"])

    def test_the_deck_is_downloaded_with_its_names(self) -> None:
        """As DECK writes it, with the name lines above."""
        text = self.ask("GET", "/deck")[1].decode()
        self.assertEqual(read_deck(text), read_deck(self.board.deck_text()))
        self.assertIn("* NAME TOWN Mill Road, morning", text)


@needs_program
class Ending(unittest.TestCase):
    """The board as a command."""

    def test_it_ends_with_its_child_and_writes_nothing(self) -> None:
        """By SIGINT, SIGTERM and SIGHUP; the folder in which it ran is as it was."""
        for number in (signal.SIGINT, signal.SIGTERM, signal.SIGHUP):
            with self.subTest(number), tempfile.TemporaryDirectory() as folder:
                path = os.path.join(folder, "town.deck")
                with open(path, "w", encoding="utf-8") as file:
                    file.write(support.THREE)
                env = {**os.environ, "PYTHONPATH": os.path.join(ROOT, "python"), "TRANSYT": str(PROGRAM)}
                board = subprocess.Popen([sys.executable, "-B", "-m", "transyt", "board", path], cwd=folder, env=env,
                                         stderr=subprocess.PIPE, text=True, start_new_session=True)
                assert board.stderr is not None
                address = board.stderr.readline().strip()
                self.assertRegex(address, r"^http://127\.0\.0\.1:[0-9]+/#[0-9a-f]{32}$")
                self.assertIn("Ctrl-C ends the board", board.stderr.readline())
                with open(f"/proc/{board.pid}/cmdline", encoding="utf-8") as file:
                    self.assertNotIn(address.split("#")[1], file.read())
                children = self.children(board.pid)
                self.assertTrue(children)
                board.send_signal(number)
                board.wait(10)
                board.stderr.close()
                self.assertTrue(wait_until(lambda: not any(support.is_there(child) for child in children)))
                self.assertEqual(os.listdir(folder), ["town.deck"])

    @staticmethod
    def children(parent: int) -> Tuple[int, ...]:
        """The processes that a process has started."""
        with open(f"/proc/{parent}/task/{parent}/children", encoding="utf-8") as file:
            return tuple(map(int, file.read().split()))


if __name__ == "__main__":
    unittest.main()
