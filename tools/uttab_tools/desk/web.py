"""The web side of a desk: one page, on this machine, for whoever knows the secret in its address.

The server listens on the loopback address alone. Each request has to name that address as its host and the secret in its
path; one that asks or changes something has to come from the page itself. One thread asks the program; all requests
queue for it, and so does each slice of a search."""

import hmac
import json
import secrets
import sys
import threading
import time
from collections.abc import Callable
from concurrent.futures import ThreadPoolExecutor
from http.server import BaseHTTPRequestHandler, ThreadingHTTPServer
from pathlib import Path
from typing import TypeVar

from uttab_tools import limits
from uttab_tools.desk.facts import KINDS, Facts
from uttab_tools.desk.files import KINDS as MADE
from uttab_tools.desk.files import Maker
from uttab_tools.desk.session import Session, Unasked, moved
from uttab_tools.desk.shortening import shortened

DATA = Path(__file__).resolve().parent / "data"
SHARED = Path(__file__).resolve().parents[1] / "data"
TYPES = {".html": "text/html", ".css": "text/css", ".js": "text/javascript"}

MOST_BODY = 2**20
MOST_DIGITS = 10
MOST_AT_ONCE = 3 * limits.CLASSES
CONNECTIONS = 64

# A page that was answered mostly asks again at once. So long a search waits for that, and at most between two slices;
# so often it looks.
PAUSE, LONGEST_PAUSE, TICK = 0.15, 1.0, 0.01

# Nothing but what the page itself has is loaded, run, framed or sent anywhere.
POLICY = ("default-src 'none'; script-src 'self'; style-src 'self'; connect-src 'self'; img-src 'self' data:; "
          "base-uri 'none'; form-action 'none'; frame-ancestors 'none'")
# A made page has its own script in it. It runs apart from the desk, whose address it can't ask.
MADE_POLICY = ("sandbox allow-scripts allow-modals allow-popups; default-src 'none'; script-src 'unsafe-inline'; "
               "style-src 'unsafe-inline'; img-src data:; base-uri 'none'; form-action 'none'; frame-ancestors 'none'")
HEADERS = {"Cache-Control": "no-store", "X-Content-Type-Options": "nosniff", "Referrer-Policy": "no-referrer",
           "Cross-Origin-Resource-Policy": "same-origin", "Cross-Origin-Opener-Policy": "same-origin"}

Answer = TypeVar("Answer")
Words = dict[str, object]


class BadRequest(Exception):
    """A request that isn't in the form of the page's own."""


def page_files() -> dict[str, tuple[str, bytes]]:
    """The files of the page by name, each with its type."""
    paths = [*sorted(DATA.iterdir()), SHARED / "grid.css", SHARED / "grid.js"]
    files = {path.name: (TYPES[path.suffix], path.read_bytes()) for path in paths if path.suffix in TYPES}
    files[""] = files.pop("desk.html")
    return files


class Server(ThreadingHTTPServer):
    """Serves a session. `address` is where."""

    daemon_threads = True
    request_queue_size = CONNECTIONS

    def __init__(self, port: int, session: Session, facts: Facts, maker: Maker) -> None:
        super().__init__(("127.0.0.1", port), Handler)
        self.session, self.facts, self.maker = session, facts, maker
        self.secret = secrets.token_urlsafe(24)
        self.files = page_files()
        self.head = json.dumps(facts.head | {"made": maker.offered()}, separators=(",", ":"), ensure_ascii=False).encode("utf-8", "replace")
        self.one = ThreadPoolExecutor(max_workers=1)
        self.free = threading.BoundedSemaphore(CONNECTIONS)
        self.answered = self.sliced = 0.0  # when someone was last answered, and when a slice last ended
        self.answers: dict[str, Callable[[Words], Words]] = {
            "ask": self._ask, "do": self._do, "undo": self._undo, "publish": self._publish, "start": self._start,
            "stop": self._stop, "facts": self._facts, "find": self._find, "beside": self._beside, "list": self._list,
            "moved": self._moved, "attending": self._attending}

    @property
    def address(self) -> str:
        return f"http://127.0.0.1:{self.server_port}/{self.secret}/"

    def process_request(self, request: object, client_address: object) -> None:
        """A thread for each connection, as long as they aren't too many."""
        if self.free.acquire(blocking=False):
            super().process_request(request, client_address)  # type: ignore[arg-type]
        else:
            self.shutdown_request(request)  # type: ignore[arg-type]

    def process_request_thread(self, request: object, client_address: object) -> None:
        try:
            super().process_request_thread(request, client_address)  # type: ignore[arg-type]
        finally:
            self.free.release()

    def handle_error(self, request: object, client_address: object) -> None:
        """A connection that broke off is none of ours; what went wrong here is told in a line, and the connection ends."""
        error = sys.exc_info()[1]
        if not isinstance(error, OSError):
            print(f"desk: a request failed: {type(error).__name__}: {error}", file=sys.stderr)

    def by_the_one(self, call: Callable[[], Answer]) -> Answer:
        """What the call answers, made by the thread that asks the program."""
        def fresh() -> Answer:
            self.session.keep_fresh()
            try:
                return call()
            finally:
                self.answered = time.monotonic()
        self.session.asked += 1
        return self.one.submit(fresh).result()

    def slices(self) -> None:
        """A slice of the running search, and a place behind all who wait for the next."""
        now, search = time.monotonic(), self.session.search
        if search and not search.stopping and now - self.answered < PAUSE and now - self.sliced < LONGEST_PAUSE:
            time.sleep(TICK)
            self.one.submit(self.slices)
        elif self.session.slice():
            self.sliced = time.monotonic()
            self.one.submit(self.slices)

    # What the page asks for.

    def _ask(self, words: Words) -> Words:
        lines, classes = texts(words, "lines"), numbers(words, "locked")
        replies, locked = self.by_the_one(lambda: self.session.ask(lines, classes))
        most, largest = mapping(words, "most"), mapping(words, "largest")
        try:
            cut = [shortened(reply, most.get(word), largest.get(word))
                   for reply, word in zip(replies, (line.split(" ")[0] for line in lines))]
        except (ValueError, TypeError, AttributeError) as error:
            raise BadRequest(f"largest: {error}") from None
        return {"replies": [lines for lines, _ in cut], "left": [left for _, left in cut], "locked": locked}

    def _do(self, words: Words) -> Words:
        lines, label = texts(words, "lines"), str(words.get("label", ""))
        return {"replies": self.by_the_one(lambda: self.session.do(lines, label))}

    def _undo(self, words: Words) -> Words:
        count = number(words, "count")
        return {"replies": self.by_the_one(lambda: self.session.undo(count))}

    def _publish(self, _: Words) -> Words:
        return {"replies": [self.by_the_one(self.session.publish)], "file": str(self.session.save)}

    def _start(self, words: Words) -> Words:
        word, seconds, seed = str(words.get("word")), number(words, "seconds"), number(words, "seed")
        self.by_the_one(lambda: self.session.start(word, seconds, seed))
        self.one.submit(self.slices)
        return {}

    def _stop(self, words: Words) -> Words:
        self.session.stop(bool(words.get("atOnce")))
        return {}

    def _facts(self, words: Words) -> Words:
        return dict(self.facts.tell({kind: numbers(words, kind) for kind in (*KINDS, "rule")}))

    def _find(self, words: Words) -> Words:
        kinds = texts(words, "kinds") or list(KINDS)
        return {"hits": self.facts.find(str(words.get("text", ""))[:200], kinds)}

    def _beside(self, words: Words) -> Words:
        kind, one = kind_of(words), number(words, "id")
        if one not in self.facts.at[kind]:
            raise BadRequest(f"there is no such {kind}")
        return {"id": self.facts.beside(kind, one, number(words, "by"))}

    def _list(self, words: Words) -> Words:
        return {"parts": self.facts.listed(kind_of(words))}

    def _moved(self, _: Words) -> Words:
        published = self.session.published
        return {"moved": [] if published is None else moved(published, self.by_the_one(self.session.draft))}

    def _attending(self, words: Words) -> Words:
        one = number(words, "id")
        students = self.facts.who_may_attend(one)
        replies, _ = self.by_the_one(lambda: self.session.ask([f"student {student}" for student in students]))
        return {"students": [[student, self.facts.label("student", student)]
                             for student, reply in zip(students, replies) if f"class {one}" in reply]}

    def answer(self, place: str, words: Words) -> Words:
        """The answer to a request of the page, with the state of the desk after it."""
        try:
            told = self.answers[place](words)
        except Unasked as fault:
            told = {"error": str(fault)}
        return told | {"state": self.session.state()}

    def made(self, name: str) -> bytes:
        """A file that is made of the present timetable."""
        draft = self.by_the_one(self.session.draft)
        return self.maker.make(name, draft, self.session.published)


def words_of(body: bytes) -> Words:
    try:
        words = json.loads(body)
    except (ValueError, RecursionError) as error:
        raise BadRequest(str(error)) from None
    if not isinstance(words, dict):
        raise BadRequest("it is no object")
    return words


def kind_of(words: Words) -> str:
    kind = words.get("kind")
    if not isinstance(kind, str) or kind not in KINDS:
        raise BadRequest("kind is none")
    return kind


def number(words: Words, key: str) -> int:
    value = words.get(key)
    if not isinstance(value, int) or isinstance(value, bool):
        raise BadRequest(f"{key} is no number")
    return value


def mapping(words: Words, key: str) -> dict[str, object]:
    value = words.get(key, {})
    if not isinstance(value, dict):
        raise BadRequest(f"{key} is no object")
    return value


def texts(words: Words, key: str) -> list[str]:
    value = words.get(key, [])
    if not isinstance(value, list) or len(value) > MOST_AT_ONCE or not all(isinstance(one, str) for one in value):
        raise BadRequest(f"{key} is no list of texts")
    return value


def numbers(words: Words, key: str) -> list[int]:
    value = words.get(key, [])
    if not isinstance(value, list) or len(value) > MOST_AT_ONCE or not all(type(one) is int and 0 <= one < 2**32 for one in value):
        raise BadRequest(f"{key} is no list of numbers")
    return value


class Handler(BaseHTTPRequestHandler):
    """Answers the page. Who doesn't know the secret, or comes from another page, gets nothing."""

    server: Server
    protocol_version = "HTTP/1.1"
    timeout = 60
    server_version, sys_version = "desk", ""

    def log_message(self, *_: object) -> None:
        """Nothing is told of a request."""

    def version_string(self) -> str:
        return "desk"

    def send(self, status: int, kind: str, body: bytes, policy: str = POLICY, name: str | None = None) -> None:
        self.send_response(status)
        headers = HEADERS | {"Content-Type": kind, "Content-Length": str(len(body)), "Content-Security-Policy": policy}
        if name is not None:
            headers["Content-Disposition"] = f'attachment; filename="{name}"'
        for key, value in headers.items():
            self.send_header(key, value)
        self.end_headers()
        self.wfile.write(body)

    def refuse(self, status: int, words: str) -> None:
        self.close_connection = True
        self.send(status, "text/plain; charset=utf-8", f"{words}\n".encode())

    def send_error(self, code: int, message: str | None = None, explain: str | None = None) -> None:
        """What isn't HTTP as it is asked for here is refused as all else."""
        self.refuse(code, message or "The request isn’t understood.")

    def place(self) -> str | None:
        """What is asked for below the secret, or none where the request isn't the page's own."""
        path = self.path.split("?")[0]
        _, secret, *rest = (path + "/").split("/")
        place = "/".join(rest).rstrip("/")
        known = hmac.compare_digest(secret.encode("utf-8", "replace"), self.server.secret.encode())
        if known and self._is_ours(place):
            return place
        self.refuse(403, "This isn't the address of a desk.")
        return None

    def _is_ours(self, place: str) -> bool:
        """Whether the host is this one, and the sender the page itself. The page alone may be opened from elsewhere."""
        hosts = [f"{name}:{self.server.server_port}" for name in ("127.0.0.1", "localhost")]
        if self.headers.get_all("Host") not in [[host] for host in hosts]:
            return False
        origin, site = self.headers.get("Origin"), self.headers.get("Sec-Fetch-Site")
        if self.command == "GET" and place == "" and origin is None:
            return self.headers.get("Sec-Fetch-Dest", "document") == "document"
        if site is not None and site not in ("same-origin", "none"):
            return False
        if origin is None:
            return self.command == "GET"
        return origin in [f"http://{host}" for host in hosts]

    def do_GET(self) -> None:
        place = self.place()
        if place is None:
            return
        if place == "problem":
            self.send(200, "application/json", self.server.head)
        elif place == "events":
            self._events()
        elif place in MADE:
            self._made(place)
        elif place in self.server.files:
            kind, body = self.server.files[place]
            self.send(200, f"{kind}; charset=utf-8", body)
        else:
            self.send(404, "text/plain; charset=utf-8", b"There is nothing here.\n")

    def _made(self, place: str) -> None:
        try:
            body = self.server.made(place)
        except Unasked as fault:
            self.refuse(500, str(fault))
            return
        is_page = MADE[place].startswith("text/html")
        self.send(200, MADE[place], body, MADE_POLICY if is_page else POLICY, None if is_page else place)

    def do_POST(self) -> None:
        place = self.place()
        if place is None:
            return
        length = self.headers.get("Content-Length", "")
        known = length.isascii() and length.isdigit() and len(length) < MOST_DIGITS
        if not known or self.headers.get("Content-Type") != "application/json":
            self.refuse(400, "A request is JSON, and says how long it is.")
            return
        if int(length) > MOST_BODY or place not in self.server.answers:
            self.refuse(413 if place in self.server.answers else 404, "There is nothing like that here.")
            return
        try:
            answer = self.server.answer(place, words_of(self.rfile.read(int(length))))
        except BadRequest as error:
            self.refuse(400, f"The request isn’t understood: {error}.")
            return
        body = json.dumps(answer, separators=(",", ":"), ensure_ascii=False).encode("utf-8", "replace")
        self.send(200, "application/json", body)

    def _events(self) -> None:
        """Tells the page what the desk's state is, whenever it changes."""
        self.close_connection = True
        self.send_response(200)
        for key, value in (HEADERS | {"Content-Type": "text/event-stream"}).items():
            self.send_header(key, value)
        self.end_headers()
        session, seen, said = self.server.session, -1, ""
        while not session.ending:
            session.wait(seen, 1)
            state = session.state()
            if state["seen"] != seen or state["said"] != said or state["search"]:
                text = json.dumps(state, separators=(",", ":"), ensure_ascii=False)
                self.wfile.write(f"data: {text}\n\n".encode("utf-8", "replace"))
                seen, said = int(str(state["seen"])), str(state["said"])
                time.sleep(0.2)
            else:
                self.wfile.write(b":\n\n")
