"""Serves the page of tools/play.py --web on the loopback address, to those who have its link."""

import hmac
import json
import os
import re
import secrets
import shutil
import socket
import sys
import threading
import time
import traceback
from http.server import BaseHTTPRequestHandler, ThreadingHTTPServer
from typing import Any, Dict, Tuple

from playing.operations import BadRequest, Beginning, Operations

ADDRESS = "127.0.0.1"
MOST_BYTES = 4 << 20  # of a request
SECONDS = 30.0  # that a request may take to come
SECONDS_OF_LOOKING = 15.0
MOST_STRANGERS = 32  # connections that have not told the token yet
PAGE = os.path.join(os.path.dirname(os.path.abspath(__file__)), "page")
TYPES = {".html": "text/html", ".css": "text/css", ".js": "text/javascript", ".svg": "image/svg+xml"}
HEADERS = {
    "Content-Security-Policy": (
        "default-src 'none'; script-src 'self'; style-src 'self'; connect-src 'self'; img-src 'self'; "
        "base-uri 'none'; form-action 'none'; frame-ancestors 'none'"
    ),
    "X-Content-Type-Options": "nosniff",
    "Referrer-Policy": "no-referrer",
    "Cross-Origin-Opener-Policy": "same-origin",
    "Cross-Origin-Resource-Policy": "same-origin",
    "Cache-Control": "no-store",
}


class Refused(Exception):
    """A request that is not answered: its status, and why."""

    def __init__(self, status: int, reason: str) -> None:
        super().__init__(reason)
        self.status = status


class Server(ThreadingHTTPServer):
    """The server, its token, and what pages ask for."""

    daemon_threads = True
    request_queue_size = 64

    def __init__(self, port: int, operations: Operations) -> None:
        self._strangers: Dict[socket.socket, float] = {}  # when each came, the first one first
        self._lock = threading.Lock()
        super().__init__((ADDRESS, port), Handler)
        self.operations, self.token = operations, secrets.token_urlsafe(24)
        self.host = f"{ADDRESS}:{self.server_address[1]}"
        self.files = {it: _read(it) for it in sorted(os.listdir(PAGE)) if os.path.splitext(it)[1] in TYPES}

    @property
    def link(self) -> str:
        return f"http://{self.host}/{self.token}/"

    def process_request(self, request: Any, client_address: Any) -> None:
        """Answers a connection. Until it has told the token it is one of a few: the oldest of them has to go for it."""
        with self._lock:
            self._strangers[request] = time.monotonic()
            while len(self._strangers) > MOST_STRANGERS:
                self._turn_away(next(iter(self._strangers)))
        super().process_request(request, client_address)

    def know(self, connection: socket.socket) -> None:
        """A connection has told the token, or is closed."""
        with self._lock:
            self._strangers.pop(connection, None)

    def turn_away_late(self) -> None:
        """Ends connections that have not told the token for long, whatever they send meanwhile."""
        with self._lock:
            for connection, came in list(self._strangers.items()):
                if time.monotonic() - came > SECONDS:
                    self._turn_away(connection)

    def _turn_away(self, connection: socket.socket) -> None:
        del self._strangers[connection]
        try:
            connection.shutdown(socket.SHUT_RDWR)
        except OSError:
            pass  # it has gone by itself

    def shutdown_request(self, request: Any) -> None:
        self.know(request)
        super().shutdown_request(request)

    def handle_error(self, request: Any, client_address: Any) -> None:
        """A connection that ends early is nothing to tell; anything else is a mistake of ours."""
        if not isinstance(sys.exc_info()[1], OSError):
            traceback.print_exc()


class Handler(BaseHTTPRequestHandler):
    """Answers a connection's requests."""

    server: Server
    protocol_version = "HTTP/1.1"
    timeout = SECONDS

    def do_GET(self) -> None:
        self._answer(self._file)

    def do_POST(self) -> None:
        self._answer(self._operation)

    def _answer(self, found: Any) -> None:
        try:
            kind, data = found(self._path())
            self._send(200, kind, data)
        except Refused as refused:
            self.close_connection = True
            self._send(refused.status, "text/plain", f"{refused}\n".encode())

    def _send(self, status: int, kind: str, data: bytes) -> None:
        self.send_response(status)
        for name, value in HEADERS.items():
            self.send_header(name, value)
        self.send_header("Content-Type", f"{kind}; charset=utf-8")
        self.send_header("Content-Length", str(len(data)))
        self.end_headers()
        self.wfile.write(data)

    def _path(self) -> str:
        """What is asked for, behind the token. Only the page itself may ask, or who opens its link."""
        if self.headers.get_all("Host", []) != [self.server.host]:
            raise Refused(403, "this is another host")
        if any(it != f"http://{self.server.host}" for it in self.headers.get_all("Origin", [])):
            raise Refused(403, "this is for no other origin")
        if self.headers.get("Sec-Fetch-Site", "none") not in ("none", "same-origin"):
            raise Refused(403, "another site leads here: open the link by hand")
        token, _, path = self.path[1:].partition("/")
        if not hmac.compare_digest(token.encode("utf-8", "replace"), self.server.token.encode()):
            raise Refused(403, "the link has a token, which is wanted")
        self.server.know(self.connection)
        return path

    def _file(self, path: str) -> Tuple[str, bytes]:
        name = path or "page.html"
        if name not in self.server.files:
            raise Refused(404, "there is no such file")
        return TYPES[os.path.splitext(name)[1]], self.server.files[name]

    def _operation(self, path: str) -> Tuple[str, bytes]:
        try:
            done = self.server.operations.do(path, self._given())
        except BadRequest as bad:
            raise Refused(400, str(bad)) from bad
        return "application/json", json.dumps(done).encode()

    def _given(self) -> Dict[str, Any]:
        if self.headers.get("Content-Type") != "application/json":
            raise Refused(415, "JSON is wanted")
        length = self.headers.get("Content-Length", "")
        if not re.fullmatch("[0-9]+", length) or "Transfer-Encoding" in self.headers:
            raise Refused(411, "a length is wanted")
        if len(length) > 10 or int(length) > MOST_BYTES:
            raise Refused(413, f"a request has at most {MOST_BYTES} bytes")
        try:
            given = json.loads(self.rfile.read(int(length)))
        except (ValueError, RecursionError) as bad:
            raise Refused(400, "this is not JSON") from bad
        if not isinstance(given, dict):
            raise Refused(400, "an object is wanted")
        return given

    def log_message(self, *_: Any) -> None:
        """Says nothing of requests."""


def _read(name: str) -> bytes:
    with open(os.path.join(PAGE, name), "rb") as file:
        return file.read()


def serve(program: str, timeout: float, port: int, beginning: Beginning) -> None:
    """Serves the page until Ctrl-C."""
    if not shutil.which(program):
        raise FileNotFoundError(2, "the engine is not there: name it by --engine", program)
    operations = Operations(program, timeout, beginning)
    with Server(port, operations) as server:
        print(f"the page is at {server.link}\nIt is for this machine, and for who has the link. Ctrl-C ends it.", flush=True)
        threading.Thread(target=_look, args=(server,), daemon=True).start()
        try:
            server.serve_forever()
        finally:
            operations.end()


def _look(server: Server) -> None:
    while True:
        time.sleep(SECONDS_OF_LOOKING)
        server.turn_away_late()
        server.operations.end_unheard()
