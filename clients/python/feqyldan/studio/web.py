"""
The studio's web server: the page's own files, and calls as JSON whose replies may have binary
parts.

It listens at 127.0.0.1 only. Each call needs the token in a header, which a page of another origin
can't set without a consent that this server never gives. The Host header must be this server's, so
a name that somebody binds to 127.0.0.1 doesn't help either.
"""

from __future__ import annotations

import hmac
import json
import os
import socketserver
import struct
import sys
from http.server import BaseHTTPRequestHandler, ThreadingHTTPServer
from typing import Any, Callable, Dict, List, Mapping, Tuple

from ..errors import FeqyldanError
from ..storage import cause_of

PAGE = os.path.join(os.path.dirname(os.path.abspath(__file__)), "page")
KINDS = {".html": "text/html; charset=utf-8", ".js": "text/javascript; charset=utf-8",
         ".css": "text/css; charset=utf-8", ".svg": "image/svg+xml"}
# The most bytes of a call: the text of a graph file.
GREATEST = 64 * 2**20
# The seconds that a connection may be idle.
IDLE = 600
POLICY = ("default-src 'none'; script-src 'self'; style-src 'self'; img-src 'self'; "
          "connect-src 'self'; base-uri 'none'; form-action 'none'; frame-ancestors 'none'")
HEADERS = (("Cache-Control", "no-store"), ("X-Content-Type-Options", "nosniff"),
           ("Content-Security-Policy", POLICY), ("Referrer-Policy", "no-referrer"),
           ("Cross-Origin-Resource-Policy", "same-origin"),
           ("Cross-Origin-Opener-Policy", "same-origin"), ("X-Frame-Options", "DENY"))

Call = Callable[[Dict[str, Any]], Any]


class Refusal(Exception):
    """A request that isn't answered: the HTTP status, and why."""

    def __init__(self, status: int, words: str) -> None:
        super().__init__(words)
        self.status = status


class Packed:
    """A reply with binary parts."""

    def __init__(self, head: Dict[str, Any]) -> None:
        self._head = head
        self._parts: List[bytes] = []

    def add(self, content: bytes) -> int:
        """Adds a part, and returns its index."""
        self._parts.append(content)
        return len(self._parts) - 1

    def content(self) -> bytes:
        """Returns the length of the head, the head as JSON, and each part at a multiple of 8
        bytes."""
        at, places = 0, []
        for part in self._parts:
            places.append([at, len(part)])
            at += -(-len(part) // 8) * 8
        head = json.dumps({**self._head, "parts": places}).encode()
        head += b" " * (-(4 + len(head)) % 8)
        return b"".join([struct.pack("<I", len(head)), head,
                         *(part + bytes(-len(part) % 8) for part in self._parts)])


class Handler(BaseHTTPRequestHandler):
    protocol_version = "HTTP/1.1"
    disable_nagle_algorithm = True
    timeout = IDLE
    server: Site

    def version_string(self) -> str:
        return "feqyldan-studio"

    def log_message(self, format: str, *arguments: Any) -> None:
        """Writes nothing: standard error is for what the user has to know."""

    def do_GET(self) -> None:
        self._answer(self._file)

    def do_POST(self) -> None:
        self._answer(self._call)

    def _answer(self, answer: Callable[[], Tuple[str, bytes]]) -> None:
        try:
            self._check_origin()
            kind, content = answer()
            self._send(200, kind, content)
        except Refusal as refusal:
            # The rest of the request wasn't read.
            self.close_connection = True
            self._send(refusal.status, "application/json",
                       json.dumps({"error": str(refusal)}).encode())

    def _check_origin(self) -> None:
        if self.headers.get_all("Host") not in [[host] for host in self.server.hosts]:
            raise Refusal(421, "the Host isn't this server's: open the address that the studio "
                          "printed")
        origin = self.headers.get("Origin")
        if origin is not None and origin not in [f"http://{host}" for host in self.server.hosts]:
            raise Refusal(403, "the Origin isn't this server's")
        if self.headers.get("Sec-Fetch-Site", "none") not in ("none", "same-origin"):
            raise Refusal(403, "a page of another site asked")

    def _file(self) -> Tuple[str, bytes]:
        name = self.path.partition("?")[0][1:] or "index.html"
        if name not in self.server.files:
            raise Refusal(404, "there is no such file")
        return self.server.files[name]

    def _call(self) -> Tuple[str, bytes]:
        token = self.headers.get("X-Studio-Token", "").encode("latin-1", "replace")
        if not hmac.compare_digest(token, self.server.token.encode()):
            raise Refusal(401, "the token is wrong: open the address that the studio printed")
        if self.headers.get("Content-Type") != "application/json":
            raise Refusal(415, "a call is application/json")
        call = self.server.calls.get(self.path)
        if call is None:
            raise Refusal(404, "there is no such call")
        answer = done(call, self._json())
        if isinstance(answer, Packed):
            return "application/octet-stream", answer.content()
        return "application/json", json.dumps(answer).encode()

    def _json(self) -> Dict[str, Any]:
        length = self.headers.get("Content-Length", "")
        if not length.isdecimal() or "Transfer-Encoding" in self.headers:
            raise Refusal(411, "a call needs its length")
        # Python doesn't read a number of very many digits.
        if len(length) > len(str(GREATEST)) or int(length) > GREATEST:
            raise Refusal(413, f"a call has at most {GREATEST:,} bytes")
        body = self.rfile.read(int(length))
        if len(body) < int(length):
            raise Refusal(400, "the call is cut off")
        try:
            told = json.loads(body)
        except ValueError:
            raise Refusal(400, "this isn't JSON") from None
        except RecursionError:
            raise Refusal(400, "its lists and objects are nested too deeply") from None
        if not isinstance(told, dict):
            raise Refusal(400, "a call is a JSON object")
        return told

    def _send(self, status: int, kind: str, content: bytes) -> None:
        self.send_response(status)
        for name, value in (("Content-Type", kind), ("Content-Length", str(len(content))),
                            *HEADERS):
            self.send_header(name, value)
        self.end_headers()
        self.wfile.write(content)


def done(call: Call, told: Dict[str, Any]) -> Any:
    """Returns the result of a call. Its errors become refusals."""
    try:
        return call(told)
    except (FeqyldanError, OSError, ImportError) as error:
        raise Refusal(500, cause_of(error)) from None
    except MemoryError:
        raise Refusal(500, "the memory doesn't suffice for this call") from None
    except (AttributeError, IndexError, KeyError, OverflowError, TypeError, ValueError,
            RecursionError) as error:
        raise Refusal(400, f"the call isn't one of the page's: {error!r}") from None


class Site(ThreadingHTTPServer):
    """The web server, with its own files and these calls. It may only be used by one who knows the
    token."""

    daemon_threads = True

    def __init__(self, port: int, token: str, calls: Mapping[str, Call]) -> None:
        super().__init__(("127.0.0.1", port), Handler)
        self.token, self.calls = token, {f"/api/{name}": call for name, call in calls.items()}
        self.host = f"127.0.0.1:{self.server_address[1]}"
        self.files = {name: (KINDS[ending], read_file(os.path.join(PAGE, name)))
                      for name in sorted(os.listdir(PAGE))
                      for ending in [os.path.splitext(name)[1]] if ending in KINDS}

    def server_bind(self) -> None:
        """Binds the socket. HTTPServer would also ask the network for this machine's name."""
        socketserver.TCPServer.server_bind(self)
        self.server_name, self.server_port = "127.0.0.1", self.server_address[1]

    def handle_error(self, request: Any, client_address: Any) -> None:
        """Writes nothing of a client that has gone."""
        if not isinstance(sys.exc_info()[1], ConnectionError):
            super().handle_error(request, client_address)

    @property
    def hosts(self) -> List[str]:
        """The values of the Host header for this server. Browsers leave out port 80."""
        return [self.host, "127.0.0.1"] if self.server_port == 80 else [self.host]

    @property
    def address(self) -> str:
        """The page's address. A browser doesn't send the fragment, so the token is in it."""
        return f"http://{self.host}/#{self.token}"


def read_file(path: str) -> bytes:
    with open(path, "rb") as file:
        return file.read()
