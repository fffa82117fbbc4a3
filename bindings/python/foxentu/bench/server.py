"""The server of the bench, on 127.0.0.1 alone.

A request counts only with the token in its path and with the Host and Origin of the address that was printed.
"""
import hmac
import http.server
import json
import pathlib
import secrets
import socketserver
import sys
import urllib.parse

from .. import build
from . import session as sessions
from .opened import Unwilling

PAGE = pathlib.Path(__file__).resolve().parent / "page"
# what is served besides answers: these files and no others
FILES = {
    "": ("index.html", "text/html; charset=utf-8"),
    "bench.css": ("bench.css", "text/css; charset=utf-8"),
    "icon.svg": ("icon.svg", "image/svg+xml"),
    **{name: (name, "text/javascript; charset=utf-8") for name in ("bench.js", "grid.js", "panels.js", "server.js", "target.js")},
}
ASKED = ("about", "blocks", "block", "target", "picture")
CHANGED = ("edit", "edit_coefficient", "undo", "redo", "contributions", "search", "compare", "save")
LONGEST = 1 << 18

HEADERS = {
    "Content-Security-Policy": "default-src 'none'; script-src 'self'; style-src 'self'; img-src 'self'; connect-src 'self'; "
    "base-uri 'none'; form-action 'none'; frame-ancestors 'none'",
    "X-Content-Type-Options": "nosniff",
    "Referrer-Policy": "no-referrer",
    "Cross-Origin-Resource-Policy": "same-origin",
    "Cross-Origin-Opener-Policy": "same-origin",
    "Cache-Control": "no-store",
}


class Wrong(Exception):
    """A request that is not taken, with its status."""

    def __init__(self, status, words):
        super().__init__(words)
        self.status, self.words = status, words


def not_a_number(word):
    raise ValueError(word)


class Handler(http.server.BaseHTTPRequestHandler):
    protocol_version = "HTTP/1.1"
    server_version, sys_version = "foxentu", ""
    timeout = 60

    def do_GET(self):
        self._answer(self._get)

    def do_POST(self):
        self._answer(self._post)

    def _other(self):
        self._answer(self._no_method)

    do_HEAD = do_PUT = do_DELETE = do_PATCH = do_OPTIONS = do_TRACE = do_CONNECT = _other

    def _no_method(self, _):
        raise Wrong(405, "GET and POST are the methods here")

    # ---- who asks
    def _path(self):
        """The path behind the token, where host, origin and token are those of the printed address."""
        server = self.server
        hosts, origins = self.headers.get_all("Host", []), self.headers.get_all("Origin", [])
        if len(hosts) != 1 or hosts[0] not in server.hosts:
            raise Wrong(403, "this host is not the address that the bench printed")
        if any(origin not in server.origins for origin in origins):
            raise Wrong(403, "this origin is not the address that the bench printed")
        if self.headers.get("Sec-Fetch-Site", "none") not in ("none", "same-origin"):
            raise Wrong(403, "a page of another site asks")
        path = self.path.partition("?")[0]
        token, slash, rest = path[1:].partition("/")
        if path[:1] != "/" or not slash or not hmac.compare_digest(token.encode("utf-8", "surrogateescape"), server.token.encode()):
            raise Wrong(403, "the address has no token, or another one: the bench printed it")
        return rest

    # ---- what is asked
    def _get(self, path):
        if path in FILES:
            name, kind = FILES[path]
            return self.server.files[name], kind
        if path.startswith("api/") and path[4:] in ASKED:
            try:
                words = urllib.parse.parse_qsl(self.path.partition("?")[2], keep_blank_values=True, max_num_fields=8)
            except ValueError:
                raise Wrong(400, "a request has at most 8 words")
            return self._call(path[4:], {name: self._word(value) for name, value in words})
        raise Wrong(405 if path[4:] in CHANGED else 404, "nothing is under this path")

    def _word(self, value):
        return int(value) if value.isdecimal() and value.isascii() and len(value) < 10 else value

    def _post(self, path):
        asked = self._body()
        if not path.startswith("api/") or path[4:] not in CHANGED:
            raise Wrong(405 if path in FILES or path[4:] in ASKED else 404, "nothing is under this path")
        return self._call(path[4:], asked)

    def _body(self):
        """The body of a request, as a record. A body that is not read ends the connection."""
        length = self.headers.get_all("Content-Length", [])
        if self.headers.get("Transfer-Encoding") is not None or len(length) != 1 or not length[0].isdecimal() or not length[0].isascii():
            raise Wrong(411, "a body comes with its length")
        if len(length[0]) > 9 or int(length[0]) > LONGEST:
            raise Wrong(413, f"a body has at most {LONGEST} bytes")
        data = self.rfile.read(int(length[0]))
        if len(data) < int(length[0]):
            raise Wrong(400, "the body is shorter than its length")
        self.left = False
        if self.headers.get_content_type() != "application/json":
            raise Wrong(415, "a body is JSON")
        try:
            asked = json.loads(data.decode("utf-8"), parse_constant=not_a_number)
        except (ValueError, RecursionError):
            raise Wrong(400, "the body is no JSON")
        if not isinstance(asked, dict):
            raise Wrong(400, "the body is no record")
        return asked

    def _call(self, name, asked):
        try:
            answer = sessions.call(self.server.session, name, asked)
        except Unwilling as why:
            told = {"words": why.words, "number": why.number, "row": why.row, "column": why.column}
            raise Wrong(422, told)
        return (answer, "image/png") if isinstance(answer, bytes) else (json.dumps(answer, separators=(",", ":")).encode(), "application/json")

    # ---- the answer
    def _answer(self, of):
        # whether a body may be there that was not read
        self.left = self.headers.get("Content-Length", "0") != "0" or self.headers.get("Transfer-Encoding") is not None
        try:
            data, kind = of(self._path())
            self._send(200, data, kind)
        except Wrong as wrong:
            told = wrong.words if isinstance(wrong.words, dict) else {"words": wrong.words}
            self._send(wrong.status, json.dumps(told).encode(), "application/json")
        except (ConnectionError, TimeoutError):
            self.close_connection = True

    def _send(self, status, data, kind):
        self.send_response(status)
        for name, value in HEADERS.items():
            self.send_header(name, value)
        self.send_header("Content-Type", kind)
        self.send_header("Content-Length", str(len(data)))
        if self.left:
            self.close_connection = True
            self.send_header("Connection", "close")
        self.end_headers()
        if self.command != "HEAD":
            self.wfile.write(data)

    def send_error(self, code, message=None, explain=None):
        """What the server's base refuses before any of this: a request that is none."""
        self.close_connection, self.left = True, True
        try:
            self._send(code, json.dumps({"words": message or "this is no request"}).encode(), "application/json")
        except OSError:
            pass  # the other side is gone

    def log_message(self, *_):
        """Nothing is written for a request."""


class Server(socketserver.ThreadingMixIn, http.server.HTTPServer):
    daemon_threads = True
    allow_reuse_address = True

    def __init__(self, session, port=0):
        self.session, self.token = session, secrets.token_urlsafe(24)
        self.files = {name: (PAGE / name).read_bytes() for name, _ in FILES.values()}
        super().__init__(("127.0.0.1", port), Handler)
        number = self.server_address[1]
        self.hosts = {f"127.0.0.1:{number}", f"localhost:{number}"}
        self.origins = {f"http://{host}" for host in self.hosts}
        self.address = f"http://127.0.0.1:{number}/{self.token}/"

    def server_bind(self):
        # the base would look the host's name up, which is no business of the bench
        socketserver.TCPServer.server_bind(self)
        self.server_name, self.server_port = "127.0.0.1", self.server_address[1]

    def handle_error(self, request, client_address):
        """A connection that went away is no news; anything else is, in one line."""
        error = sys.exc_info()[1]
        if not isinstance(error, (ConnectionError, TimeoutError)):
            build.note(f"bench: a request failed: {type(error).__name__}: {error}")
