"""Tests of a desk's server: whom it lets in, and what it does with requests that aren't the page's own."""

import json
import random
import re
import signal
import socket
import subprocess
import sys
import time
from collections.abc import Iterator
from pathlib import Path

import pytest
from conftest import PROGRAM, TOOLS, TOP, needs_program
from desk_help import FACULTY, PROBLEM, Desk, commands, replayed, session_on, until

from uttab_tools.desk import web
from uttab_tools.desk.facts import Facts
from uttab_tools.desk.files import Maker
from uttab_tools.names import Names
from uttab_tools.problem import Problem

pytestmark = needs_program


@pytest.fixture
def desk(tmp_path: Path) -> Iterator[Desk]:
    desk = Desk(tmp_path / "log.txt")
    yield desk
    desk.end()


def test_strangers_get_nothing(desk: Desk) -> None:
    own, kind = f"http://{desk.host}", {"Content_Type": "application/json"}
    port = desk.host.split(":")[1]
    for method, place, secret, headers in (
        ("GET", "", "x" * 32, {}), ("GET", "", "", {}), ("GET", "", desk.secret[:-1], {}), ("GET", "", desk.secret + "x", {}),
        ("GET", "", "%c3%a9", {}),
        ("GET", "problem", None, {"Host": "evil.example"}), ("GET", "problem", None, {"Host": f"evil.example:{port}"}),
        ("GET", "", None, {"Host": "127.0.0.1"}), ("GET", "problem", None, {"Origin": "http://evil.example"}),
        ("GET", "problem", None, {"Sec_Fetch_Site": "cross-site"}), ("GET", "events", None, {"Sec_Fetch_Site": "same-site"}),
        ("GET", "", None, {"Sec_Fetch_Dest": "iframe"}), ("GET", "timetable.html", None, {"Sec_Fetch_Site": "cross-site"}),
        ("POST", "undo", None, kind), ("POST", "undo", None, kind | {"Origin": "http://evil.example"}),
        ("POST", "undo", None, kind | {"Origin": "null"}), ("POST", "undo", None, kind | {"Origin": own, "Sec_Fetch_Site": "cross-site"}),
        ("POST", "undo", None, kind | {"Origin": own.replace("http", "https")}), ("POST", "undo", None, kind | {"Origin": "http://127.0.0.1:1"}),
    ):
        body = '{"count": 1}' if method == "POST" else None
        assert desk.request(method, place, body, secret, **headers)[0] == 403, (method, place, headers)
    assert desk.request("POST", "undo", "{}", Origin=own)[0] == 400
    assert desk.request("POST", "nothing", "{}", Origin=own, **kind)[0] == 404
    for place in ("../command.py", "..%2fcommand.py", "desk.html/", "log.py", "/etc/passwd", "desk.js/.."):
        assert desk.request("GET", place)[0] == 404, place
    assert desk.request("GET", "", Sec_Fetch_Site="cross-site", Sec_Fetch_Dest="document")[0] == 200
    assert desk.request("GET", "problem", Sec_Fetch_Site="same-origin")[0] == 200


def test_it_listens_on_this_machine_alone(desk: Desk) -> None:
    port = int(desk.host.split(":")[1])
    listening = [line.split()[1] for line in Path("/proc/net/tcp").read_text().splitlines()[1:] if line.split()[3] == "0A"]
    assert f"0100007F:{port:04X}" in listening
    assert not [one for one in listening if one.endswith(f":{port:04X}") and not one.startswith("0100007F")]


def test_the_page_may_load_nothing_from_elsewhere(desk: Desk) -> None:
    with socket.create_connection(("127.0.0.1", int(desk.host.split(":")[1]))) as link:
        link.sendall(f"GET /{desk.secret}/ HTTP/1.1\r\nHost: {desk.host}\r\nConnection: close\r\n\r\n".encode())
        answer = b"".join(iter(lambda: link.recv(65536), b"")).decode()
    head = answer.partition("\r\n\r\n")[0].lower()
    for words in ("default-src 'none'", "script-src 'self'", "frame-ancestors 'none'", "referrer-policy: no-referrer", "nosniff", "no-store"):
        assert words in head, words
    assert "unsafe-inline" not in head and "unsafe-eval" not in head


def test_nothing_moves_by_itself() -> None:
    """So there is nothing to be left out for who wants less of it."""
    for style in ("desk/data/desk.css", "data/grid.css"):
        assert not re.search("animation|transition|scroll-behavior", (TOOLS / "uttab_tools" / style).read_text()), style


def bad_requests(desk: Desk, count: int) -> Iterator[bytes]:
    """Requests that aren't in order, made of pieces of one that is."""
    rng = random.Random(7)
    body = json.dumps({"lines": ["totals"]}).encode()
    good = (f"POST /{desk.secret}/ask HTTP/1.1\r\nHost: {desk.host}\r\nOrigin: http://{desk.host}\r\nContent-Type: application/json\r\n"
            f"Content-Length: {len(body)}\r\nConnection: close\r\n\r\n").encode() + body
    odd = [b"", b"\r\n\r\n", b"\x00" * 40, b"GET / HTTP/9.9\r\n\r\n", b"GET " + b"/" * 70_000 + b" HTTP/1.1\r\n\r\n", b"A" * 9000,
           b"GET / HTTP/1.1\r\n" + b"X: y\r\n" * 200 + b"\r\n", b"\x16\x03\x01\x02\x00\x01\x00", b"PRI * HTTP/2.0\r\n\r\nSM\r\n\r\n"]
    bodies = ["", "{", "[]", "null", "3", '{"lines": 3}', '{"lines": [3]}', '{"lines": [null]}', '{"lines": ["totals\\nquit"]}', '{"lines": {"a": 1}}',
              '{"lines": [], "locked": ["1"]}', '{"lines": [], "locked": [-1]}', '{"lines": [], "locked": [true]}', '{"lines": [], "most": 3}',
              "[" * 5000, '{"count": 1e99}', '{"count": 0}', '{"count": -1}', '{"word": "search", "seed": 1, "seconds": 1%s}' % ("0" * 400),
              '{"word": "search", "seed": 1, "seconds": NaN}', '{"id": 1%s, "count": []}' % ("0" * 5000), '{"kind": "class"}', '{"kind": ["x"], "id": 1, "by": 1}', '{"id": 99999}', '{"word": 3}', "\u2028"]
    places = ["ask", "do", "undo", "start", "stop", "facts", "find", "beside", "list", "moved", "attending", "publish", "nothing"]
    for turn in range(count):
        if turn % 4 == 0:
            at = rng.randrange(len(good))
            yield good[:at] + rng.randbytes(rng.randrange(4)) + good[at + rng.randrange(1, 6):]
        elif turn % 4 == 1:
            yield odd[rng.randrange(len(odd))]
        else:
            text = bodies[rng.randrange(len(bodies))].encode()
            place = places[rng.randrange(len(places))]
            if place in ("stop", "publish", "moved") and text[:1] == b"{":
                text = b"["
            length = len(text) if turn % 4 == 2 else rng.choice(["0", "1", "-1", "1000000000", "9" * 5000, "²"])
            yield (f"POST /{desk.secret}/{place} HTTP/1.1\r\nHost: {desk.host}\r\nOrigin: http://{desk.host}\r\nContent-Type: application/json\r\n"
                   f"Content-Length: {length}\r\nConnection: close\r\n\r\n").encode() + text


def test_thousands_of_bad_requests_change_nothing(desk: Desk) -> None:
    desk.post("do", lines=["assign 701 5 1"])
    before = (desk.totals(), desk.log.read_text(), desk.state()["stepCount"])
    port = int(desk.host.split(":")[1])
    for request in bad_requests(desk, 3000):
        try:
            with socket.create_connection(("127.0.0.1", port), timeout=60) as link:
                link.sendall(request)
                link.shutdown(socket.SHUT_WR)
                while link.recv(65536):
                    pass
        except OSError:
            pass  # It was cut off, which is an answer.
    assert (desk.totals(), desk.log.read_text(), desk.state()["stepCount"]) == before
    assert "failed" not in desk.told.read_text()


def test_too_many_connections_dont_end_it(desk: Desk) -> None:
    port = int(desk.host.split(":")[1])
    links = [socket.create_connection(("127.0.0.1", port)) for _ in range(100)]
    for link in links:
        link.close()
    assert until(lambda: desk.totals(), "an answer").startswith("ok ")


def test_long_replies_are_cut_and_counted(desk: Desk) -> None:
    answer = desk.post("ask", lines=["violations", "totals"], most={"violations": 10})
    replies, left = answer["replies"], answer["left"]
    assert isinstance(replies, list) and isinstance(left, list)
    assert (len(replies[0]), left[0], left[1]) == (22, {"class": 53, "student": 190}, {})
    assert replies[0][-2] == "violations 263"


def test_who_has_to_be_told_since_it_was_published(tmp_path: Path) -> None:
    """The published file that the desk begins with has its students too."""
    desk = Desk(tmp_path / "log.txt", PROBLEM, FACULTY / "term.json")
    try:
        for lines, words in ((["recall"], b"0 classes moved; 0 students to be told"), (["unassign 801"], b"1 no longer in the timetable; 45 students")):
            desk.post("do", lines=lines)
            status, page = desk.request("GET", "changes.html")
            assert status == 200 and words in page
    finally:
        desk.end()


def test_the_dearest_lines_of_a_long_reply(desk: Desk) -> None:
    desk.post("do", lines=["enrol all", "search 60 11"])
    largest = {"costs": {"rule": ["cost"], "class": ["conflicts", "time room"]}}
    whole, some = (desk.post("ask", lines=["costs"], **more) for more in ({}, {"most": {"costs": 5}, "largest": largest}))
    rows, (kept,), (left,) = whole["replies"][0], some["replies"], some["left"]  # type: ignore[index,misc]
    classes = [line for line in rows if line.startswith("class ")]
    assert [line for line in rows if line in kept] == kept and kept[-1] == rows[-1]
    assert left["class"] == len(classes) - len([line for line in kept if line.startswith("class ")]) > 0

    def dearest(*at: int) -> list[int]:
        return sorted((sum(int(line.split(" ")[place]) for place in at) for line in classes), reverse=True)[:5]
    for at in ((7,), (3, 5)):
        numbers = sorted((sum(int(line.split(" ")[place]) for place in at) for line in kept if line in classes), reverse=True)
        assert numbers[:5] == dearest(*at)


@pytest.mark.parametrize("largest", [3, {"costs": {"class": 3}}, {"costs": {"class": [3]}}, {"costs": {"class": ["absent"]}},
                                     {"costs": {"class": "conflicts"}}])
def test_the_dearest_lines_have_numbers(desk: Desk, largest: object) -> None:
    desk.post("do", lines=["enrol all", "search 60 11"])
    body = json.dumps({"lines": ["costs"], "most": {"costs": 1}, "largest": largest})
    assert desk.request("POST", "ask", body, Origin=f"http://{desk.host}", Content_Type="application/json")[0] == 400


def test_who_attends_a_class_that_isnt_placed(desk: Desk) -> None:
    desk.post("do", lines=["enrol all"])
    for line in ("totals", "assign 801 1 11"):
        desk.post("do" if line != "totals" else "ask", lines=[line])
        students = desk.post("attending", id=801)["students"]
        (reply,) = desk.post("ask", lines=["explain 801"])["replies"]  # type: ignore[misc]
        assert isinstance(students, list) and f"students {len(students)} conflicts 0" in reply and len(students) > 1
    assert desk.post("attending", id=99999)["students"] == []


def test_a_search_waits_for_a_page_that_asks(tmp_path: Path, monkeypatch: pytest.MonkeyPatch) -> None:
    """What a page asks one after the other doesn't wait for a slice each time."""
    problem = Problem(str(PROBLEM))
    with session_on(tmp_path / "log.txt") as session:
        server = web.Server(0, session, Facts(problem, Names(problem, None)), Maker(str(PROBLEM), [], []))
        try:
            server.answer("do", {"lines": ["enrol all", "search 2000 11"]})
            monkeypatch.setattr(web, "PAUSE", 0)
            server.answer("start", {"word": "deluge", "seconds": 600, "seed": 1})
            search = session.search
            assert search is not None
            until(lambda: search.turns > 0, "a slice")
            monkeypatch.setattr(web, "PAUSE", 1000)
            monkeypatch.setattr(web, "LONGEST_PAUSE", 1000)
            server.answer("ask", {"lines": ["totals"]})
            turns = search.turns
            time.sleep(0.3)
            assert "ok " in str(server.answer("ask", {"lines": ["totals"]})) and search.turns == turns
            monkeypatch.setattr(web, "PAUSE", 0)
            until(lambda: search.turns > turns, "the next slice")
            monkeypatch.setattr(web, "PAUSE", 1000)
            server.answer("ask", {"lines": ["totals"]})
            server.answer("stop", {})
            until(lambda: session.search is None, "the stop")
        finally:
            server.one.shutdown()
            server.server_close()


def test_a_search_is_stopped(tmp_path: Path) -> None:
    """A made problem, whose search finds no end."""
    problem = tmp_path / "made.json"
    problem.write_bytes(subprocess.run([str(PROGRAM), "make", "7", "400"], capture_output=True, check=True).stdout)
    desk = Desk(tmp_path / "made.txt", problem)
    try:
        desk.post("do", lines=["enrol all"])
        for at_once in (False, True):
            desk.post("start", word="search", seconds=600, seed=1)
            until(lambda: desk.state()["search"]["turns"] > 0, "some turns")  # type: ignore[index]
            assert desk.totals().startswith("ok ")
            assert "error" in desk.post("do", lines=["drop 1"])
            desk.post("stop", atOnce=at_once)
            until(lambda: desk.state()["search"] is None, "the end of the search")
            assert desk.totals() == replayed(problem, desk.log)
    finally:
        desk.end()


def test_a_desk_that_is_killed_loses_nothing(tmp_path: Path) -> None:
    """Killed at whatever moment: what was answered is in the log."""
    desk = Desk(tmp_path / "log.txt")
    desk.post("do", lines=["enrol all"])
    answered = ["enrol all"]
    for turn in range(4):
        for step in range(turn + 1):
            line = f"assign 701 {turn + step + 1} 1"
            desk.post("do", lines=[line])
            answered.append(line)
        desk.end(signal.SIGKILL)
        desk.begin()
        assert commands(desk.log) == answered
        assert desk.totals() == replayed(desk.problem, desk.log)
    desk.end()


@pytest.mark.parametrize(("words", "status", "told"), [
    (["absent.json"], 3, "No such file"), (["-"], 2, "the problem and the published timetable are files"), ([], 2, "usage"),
    ([str(TOP / "examples/a_faculty/problem.json"), "--program", "/absent"], 2, "/absent: No such file")])
def test_what_cant_be_begun_is_told(words: list[str], status: int, told: str, tmp_path: Path) -> None:
    done = subprocess.run([sys.executable, "-B", "-m", "uttab_tools", "desk", *words, "--log", str(tmp_path / "log.txt")], cwd=TOP / "tools",
                          capture_output=True, text=True, timeout=60, check=False)
    assert (done.returncode, told in done.stderr) == (status, True), done.stderr
