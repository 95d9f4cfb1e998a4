"""Serves the page at 127.0.0.1 alone, to whoever has the token of its address, and to no other page of the browser."""
import hmac, json, pathlib, secrets, sys
from http.server import BaseHTTPRequestHandler, ThreadingHTTPServer
from typing import Dict, Iterator, Optional, Tuple

ADDRESS = '127.0.0.1'
HERE = pathlib.Path(__file__).resolve().parent
STATIC = HERE / 'static'
TYPES = {'.html': 'text/html; charset=utf-8', '.css': 'text/css; charset=utf-8', '.js': 'text/javascript; charset=utf-8',
         '.json': 'application/json'}
# The patterns of tokens, of an installed page or of the checkout.
GRAMMAR = [HERE.parent.parent / 'editors' / 'vscode' / 'syntaxes' / 'catala.tmLanguage.json', STATIC / 'grammar.json']
MOST_BODY = 32 * 1024 * 1024
HEADERS = {'Cache-Control': 'no-store', 'X-Content-Type-Options': 'nosniff', 'Referrer-Policy': 'no-referrer',
           'Cross-Origin-Resource-Policy': 'same-origin', 'Cross-Origin-Opener-Policy': 'same-origin',
           'Content-Security-Policy': "default-src 'none'; script-src 'self'; style-src 'self'; connect-src 'self'; img-src data:; "
                                      "base-uri 'none'; form-action 'none'; frame-ancestors 'none'; require-trusted-types-for 'script'"}


def static_files() -> Dict[str, Tuple[str, bytes]]:
    """The page's own files by name, read once, each with its type: nothing else is ever served as a file."""
    files = {file.name: (TYPES[file.suffix], file.read_bytes()) for file in STATIC.iterdir() if file.suffix in TYPES}
    grammar = next(file for file in GRAMMAR if file.exists())
    return {**files, 'grammar.json': (TYPES['.json'], grammar.read_bytes())}


class Server(ThreadingHTTPServer):
    daemon_threads = True

    def __init__(self, desk, port: int):
        super().__init__((ADDRESS, port), Handler)
        self.desk, self.files = desk, static_files()
        self.host = '%s:%d' % (ADDRESS, self.server_port)
        self.origin = 'http://' + self.host
        self.token, self.ticket = secrets.token_urlsafe(32), secrets.token_urlsafe(32)
        self.address = '%s/%s/' % (self.origin, self.token)
        # What the browser is opened with stands where others on the machine may read it: it is good for one time.
        self.ticket_address = '%s/%s' % (self.origin, self.ticket)

    def has_token(self, token: str) -> bool:
        return hmac.compare_digest(token.encode(), self.token.encode())

    def takes_ticket(self, path: str) -> bool:
        """Whether the path is the ticket, which is of no use from then on."""
        is_ticket = bool(self.ticket) and hmac.compare_digest(path.encode(), ('/' + self.ticket).encode())
        self.ticket = '' if is_ticket else self.ticket
        return is_ticket

    def handle_error(self, request, client_address) -> None:
        """A browser that goes away in the middle of an answer is no fault."""
        if not isinstance(sys.exc_info()[1], ConnectionError):
            super().handle_error(request, client_address)


class Handler(BaseHTTPRequestHandler):
    protocol_version = 'HTTP/1.1'
    server_version, sys_version = 'catala-page', ''
    disable_nagle_algorithm = True
    wbufsize = -1
    timeout = 600

    def log_message(self, form, *told) -> None:
        """The terminal is kept for the address."""

    # ---- who asks

    def only(self, name: str) -> Optional[str]:
        """The one header of a name; nothing where there is none, or more than one."""
        values = self.headers.get_all(name) or []
        return values[0] if len(values) == 1 else None

    def is_ours(self, is_post: bool) -> bool:
        """Whether the request is for this address, and comes from the page itself or, to see it, from no page."""
        origin = self.only('Origin')
        has_origin = origin == self.server.origin if is_post or self.headers.get_all('Origin') else True
        return self.only('Host') == self.server.host and has_origin

    def asked(self) -> Optional[str]:
        """What stands behind the token in the path; nothing where the token isn't there."""
        _, _, behind = self.path.partition('/')
        token, slash, name = behind.partition('/')
        return name if slash and self.server.has_token(token) else None

    # ---- what is answered

    def do_GET(self) -> None:
        name = self.asked()
        if not self.is_ours(False):
            self.refuse(403)
        elif self.server.takes_ticket(self.path):
            self.answer(303, 'text/plain', b'', {'Location': '/%s/' % self.server.token})
        elif name is None:
            self.refuse(403)
        elif (name or 'page.html') in self.server.files:
            self.answer(200, *self.server.files[name or 'page.html'])
        else:
            self.refuse(404)

    def do_POST(self) -> None:
        name = self.asked()
        length = self.only('Content-Length') or ''
        if not self.is_ours(True) or name is None:
            self.refuse(403)
        elif name not in self.server.desk.answers:
            self.refuse(404)
        elif not length.isdecimal() or int(length) > MOST_BODY:
            self.refuse(413)
        else:
            self.say(name, self.rfile.read(int(length)))

    def say(self, name: str, body: bytes) -> None:
        desk = self.server.desk
        try:
            asked = json.loads(body)
        except (ValueError, RecursionError):
            asked = None
        if not desk.is_question(name, asked):
            self.refuse(400)
            return
        self.stream(desk.answers[name](asked))

    def stream(self, parts: Iterator[dict]) -> None:
        """Sends the parts of an answer as lines of JSON, each when it comes."""
        self.head(200, 'application/x-ndjson', {'Transfer-Encoding': 'chunked'})
        for part in parts:
            self.chunk(part)
        self.wfile.write(b'0\r\n\r\n')
        self.wfile.flush()

    def chunk(self, part: dict) -> None:
        line = json.dumps(part).encode() + b'\n'
        self.wfile.write(b'%x\r\n%s\r\n' % (len(line), line))
        self.wfile.flush()

    def head(self, status: int, kind: str, more: Dict[str, str]) -> None:
        self.send_response(status)
        for name, value in {'Content-Type': kind, **HEADERS, **more}.items():
            self.send_header(name, value)
        self.end_headers()

    def answer(self, status: int, kind: str, body: bytes, more: Optional[Dict[str, str]] = None) -> None:
        self.head(status, kind, {'Content-Length': str(len(body)), **(more or {})})
        self.wfile.write(body)
        self.wfile.flush()

    def refuse(self, status: int) -> None:
        """Says no and nothing of why, and ends the connection, so that no body is read."""
        self.close_connection = True
        self.answer(status, 'text/plain', b'', {'Connection': 'close'})
