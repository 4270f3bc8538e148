"""Tests of a desk's session and its log, without the web: steps, searches, and that nothing that was accepted is lost."""

import os
import resource
import signal
from collections.abc import Iterator, Sequence
from pathlib import Path

import pytest
from conftest import needs_program
from desk_help import FACULTY, HEADING, PROBLEM, commands, replayed, session_on, until

from uttab_tools.desk import session as session_module
from uttab_tools.desk.log import Entry, Log, entries_of, without_undone
from uttab_tools.desk.process import Reply
from uttab_tools.desk.search import LEAST_SLICE, MOST_SLICE
from uttab_tools.desk.session import Session, Unasked, closures, moved
from uttab_tools.program import FileFault


@pytest.fixture
def log(tmp_path: Path) -> Path:
    return tmp_path / "log.txt"


@pytest.fixture
def session(log: Path) -> Iterator[Session]:
    with session_on(log) as session:
        yield session


def run_search(session: Session, word: str, seconds: float, seed: int) -> None:
    session.start(word, seconds, seed)
    while session.slice():
        pass


# The log.

def entry(line: str) -> Entry:
    return Entry(line, None, False, "")


@pytest.mark.parametrize(("lines", "left"), [
    ("a undo", ""), ("a b undo undo", ""), ("a b undo c", "a c"), ("a publish undo", "a publish undo"),
    ("a publish b undo undo", "a publish undo"), ("undo a", "undo a")])
def test_what_was_undone_isnt_carried_out_again(lines: str, left: str) -> None:
    assert [one.line for one in without_undone([entry(line) for line in lines.split()])] == left.split()


def test_a_log_is_read_as_it_was_written(log: Path) -> None:
    kept = [Entry("enrol all", "ok time 0", False, "Enrolled – “all” שלום"), Entry("lock 1", "ok time 1", False, "two"),
            Entry("lock 2", "ok time 2", True, "two")]
    first = Log(log, HEADING)
    first.keep(kept)
    first.close()
    again = Log(log, HEADING)
    assert again.entries == kept
    again.close()
    assert list(entries_of(["drop 1", "", "# words", "  drop 2\t"])) == [Entry("drop 1", None, False, "drop 1"), Entry("drop 2", None, False, "drop 2")]


@pytest.fixture
def quick_disk(monkeypatch: pytest.MonkeyPatch) -> None:
    """What is tried is the desk, not the disk."""
    monkeypatch.setattr(os, "fsync", lambda _: None)


@pytest.mark.usefixtures("quick_disk")
def test_what_isnt_whole_is_taken_off(log: Path) -> None:
    """Wherever the writing of a log was broken off, all that was answered is in it, and nothing of a step that wasn't."""
    steps = [[Entry("enrol all", "ok time 0", False, "One")], [Entry(f"lock {one}", f"ok time {one}", one > 1, "Two") for one in (1, 2, 3)]]
    ends = [0]
    first = Log(log, HEADING)
    for step in steps:
        first.keep(step)
        ends.append(first.size)
    first.close()
    whole = log.read_bytes()
    for size in range(len(whole) + 1):
        log.write_bytes(whole[:size])
        again = Log(log, HEADING)
        kept = [entry for step, end in zip(steps, ends[1:], strict=True) if end <= size for entry in step]
        assert (again.entries, log.read_bytes()) == (kept, whole[:again.size])
        again.keep(steps[0])
        again.close()
        assert log.read_bytes().endswith(b"\nenrol all\n#= ok time 0\n")


def test_what_was_written_by_hand_stays(log: Path) -> None:
    first = Log(log, HEADING)
    first.keep([entry("lock 1")])
    first.close()
    log.write_text(log.read_text() + "lock 2\n# words\nlock 3\n")
    again = Log(log, HEADING)
    assert [one.line for one in again.entries] == ["lock 1", "lock 2", "lock 3"]
    again.close()


def test_a_file_that_is_no_log_stays_as_it_is(log: Path) -> None:
    other = Log(log, "# problem 1")
    other.keep([entry("lock 1")])
    other.close()
    for content, told in ((log.read_bytes() + b"lock", "is the log of another problem"), (b"\xff", "is no log of a desk"),
                          (b"totals\nmy notes", "is no log of a desk"), (b"x", "is no log of a desk")):
        log.write_bytes(content)
        with pytest.raises(FileFault, match=told):
            Log(log, HEADING)
        assert log.read_bytes() == content


def test_a_log_belongs_to_one_desk(log: Path) -> None:
    first = Log(log, HEADING)
    with pytest.raises(FileFault, match="another desk has this log open"):
        Log(log, HEADING)
    first.close()
    with pytest.raises(FileFault, match="No such file"):
        Log(log.parent / "absent" / "log.txt", HEADING)


@pytest.mark.parametrize("how", ["written", "moved"])
def test_a_log_that_others_changed_is_left_alone(log: Path, how: str) -> None:
    kept = Log(log, HEADING)
    kept.keep([entry("lock 1")])
    content = log.read_bytes()
    if how == "written":
        log.write_bytes(content + b"# mine\n")
    else:
        log.rename(log.with_suffix(".old"))
        log.write_bytes(content)
    left = log.read_bytes()
    with pytest.raises(OSError, match="another program has changed it"):
        kept.keep([entry("lock 2")])
    assert log.read_bytes() == left and [one.line for one in kept.entries] == ["lock 1"]
    kept.close()


# Steps.

@needs_program
def test_questions_and_refused_commands_leave_no_trace(session: Session, log: Path) -> None:
    session.do(["enrol all"], "")
    before, state = log.read_text(), session.totals
    lines = ["explain 101", "why 101 1 2", "stats 101", "suggest 101 1", "totals", "values 101", "violations", "student 151", "meets 101", "costs"]
    replies, locked = session.ask(lines, [101, 201])
    assert len(replies) == len(lines) and locked == []
    assert session.do(["assign 101 99 2"], "")[0] == ["refused 13 no such time"]
    assert (log.read_text(), session.ask(["totals"])[0][0][-1]) == (before, state)


@needs_program
def test_several_commands_are_one_step_or_none(session: Session, log: Path) -> None:
    replies = session.do(["assign 701 5 1", "assign 1021 1 -"], "Two at once")
    assert [reply[-1][:3] for reply in replies] == ["ok ", "ok "]
    assert session.do(["unassign 701", "unassign 801"], "One of these isn’t placed") == [["refused 16 not placed"]]
    assert session.ask(["totals"])[0][0][-1] == session.totals == replies[-1][-1]
    assert commands(log) == ["assign 701 5 1", "assign 1021 1 -"]
    session.do(["enrol all"], "")
    assert [step.label for step in session.steps] == ["Two at once", "enrol all"]
    session.undo(2)
    assert session.steps == [] and " unplaced 63 unsectioned 200 " in session.totals
    assert session.totals == replayed(PROBLEM, log)
    assert session.undo(1) == [["refused 21 nothing to undo"]]
    for count in (0, -1):
        with pytest.raises(Unasked):
            session.undo(count)


@needs_program
def test_locks_are_told_and_stay(session: Session) -> None:
    session.do(["assign 701 5 1"], "")
    session.do(["lock 701"], "")
    before = session.ask(["totals"])[0]
    assert session.ask([], [101, 701, 1021])[1] == [701]
    assert session.ask([], [701])[1] == [701]
    assert session.ask(["totals"])[0] == before
    session.undo(1)
    assert session.ask([], [701])[1] == []


@needs_program
def test_closures_are_those_that_arent_lifted(session: Session) -> None:
    session.do(["close 3 11111 0 288 000011111111110"], "")
    session.do(["close 4 10000 0 10 111111111111111"], "")
    assert [one[0] for one in closures(session.steps)] == [3, 4]
    session.do(["reopen 3"], "")
    assert [one[0] for one in closures(session.steps)] == [4]
    session.undo(1)
    assert [one[0] for one in closures(session.steps)] == [3, 4]


@needs_program
@pytest.mark.parametrize("line", ["", " ", "# words", "quit", "totals\nquit", "totals\rquit", "totals\x0bquit", "undo", "explain é", "publish",
                                  "explain \u2028 1", "totals\ttotals", "x" * 70_000, "draft", "explain 1\x00"])
def test_what_has_no_reply_of_its_own_is_never_asked(session: Session, line: str) -> None:
    with pytest.raises(Unasked):
        session.ask([line])
    with pytest.raises(Unasked):
        session.do([line], "")
    assert session.ask(["explain"])[0] == [["refused 10 bad line"]]


@needs_program
def test_what_is_moved_is_as_many_as_the_totals_say(session: Session) -> None:
    session.do(["enrol all"], "")
    run_search(session, "search", 60, 11)
    session.publish()
    assert session.published is not None and moved(session.published, session.draft()) == []
    session.do(["unassign 701"], "")
    session.do(["force 1401 1 3"], "")
    found = moved(session.published, session.draft())
    assert f" moved {len(found)}" in session.totals and 701 in [one["id"] for one in found]


# A search.

@needs_program
def test_a_search_is_one_step_and_comes_again(session: Session, log: Path) -> None:
    session.do(["enrol all"], "")
    run_search(session, "search", 60, 11)
    assert session.search is None and session.notice is not None and session.notice["why"] == "every class is placed"
    assert " unplaced 0 " in session.totals == replayed(PROBLEM, log) or session.totals == replayed(PROBLEM, log)
    assert len(session.steps) == 2
    run_search(session, "improve", 60, 1)
    assert session.notice is not None and str(session.notice["why"]).startswith("nothing better was found")
    assert session.totals == replayed(PROBLEM, log)
    session.undo(len(session.steps))
    assert " unplaced 63 unsectioned 200 " in session.totals


@needs_program
@pytest.mark.parametrize("word, begin", [("place", ["enrol all"]), ("deluge", ["enrol all", "search 2000 11"])])
def test_searches_that_a_program_may_lack(session: Session, log: Path, word: str, begin: list[str]) -> None:
    if word not in session.knows:
        with pytest.raises(Unasked, match="is no search"):
            session.start(word, 1, 1)
        pytest.skip(f"the program has no `{word}`")
    session.do(begin, "")
    steps, before = len(session.steps), session.totals
    run_search(session, word, 2, 5)
    assert len(session.steps) == steps + 1 and session.totals != before
    assert session.totals == replayed(PROBLEM, log)


@needs_program
def test_nothing_is_changed_while_a_search_runs(session: Session) -> None:
    session.start("search", 60, 1)
    for call in (lambda: session.do(["enrol all"], ""), lambda: session.undo(1), session.publish, lambda: session.start("improve", 1, 1)):
        with pytest.raises(Unasked, match="A search is running"):
            call()
    assert session.ask(["totals"])[0][0][-1] == session.totals
    session.stop(False)
    assert session.slice() is False and session.notice is not None and session.notice["why"] == "stopped"


@needs_program
def test_slices_are_short_while_someone_asks(session: Session, monkeypatch: pytest.MonkeyPatch) -> None:
    session.do(["enrol all", "search 2000 11", "improve 20000 1"], "")
    session.start("deluge", 60, 1)
    search, ask = session.search, session.process.ask
    assert search is not None

    def ask_meanwhile(lines: Sequence[str]) -> list[Reply]:
        session.asked += 1
        return ask(lines)

    search.slice = MOST_SLICE
    monkeypatch.setattr(session.process, "ask", ask_meanwhile)
    assert session.slice() and search.slice == LEAST_SLICE
    assert search.after_slice(search.size, 1, False, True) is None and search.slice == 2 * LEAST_SLICE


@needs_program
def test_each_command_is_another_version(session: Session) -> None:
    seen = [session.version]
    for act in (lambda: session.do(["assign 701 5 1"], "One"), lambda: session.do(["lock 701"], "Two"), lambda: session.undo(1)):
        act()
        seen.append(session.version)
    assert sorted(set(seen)) == seen
    session.ask(["explain 701", "totals"], [701])
    assert session.version == seen[-1]


@needs_program
def test_a_search_goes_on_with_another_program(session: Session, monkeypatch: pytest.MonkeyPatch) -> None:
    session.do(["enrol all", "search 2000 11"], "")
    session.start("improve", 60, 1)
    assert session.slice()
    monkeypatch.setattr(session_module, "MOST_SENT", 0)
    first = session.process
    session.keep_fresh()
    assert session.process is not first and session.slice()
    session.process.kill()
    assert not session.slice() and session.notice is not None and str(session.notice["why"]).startswith("uttab was killed by signal 9")


@needs_program
@pytest.mark.parametrize("words", [("enrol", 1, 1), ("search", 0, 1), ("search", 1, -1), ("search", 1e9, 1), ("", 1, 1)])
def test_a_search_has_a_word_a_time_and_a_seed(session: Session, words: tuple[str, float, int]) -> None:
    with pytest.raises(Unasked):
        session.start(*words)


# Nothing is lost.

@needs_program
def test_the_desk_goes_on_where_its_log_ends(log: Path) -> None:
    with session_on(log) as session:
        session.do(["assign 701 5 1"], "One")
        session.do(["assign 1021 1 -", "enrol all"], "Two")
        session.do(["unassign 701"], "Three")
        session.undo(1)
        run_search(session, "search", 60, 11)
        session.publish()
        before = (session.totals, [step.label for step in session.steps], session.published, session.ask(["explain 801", "stats 801"])[0])
    with session_on(log) as session:
        after = (session.totals, [step.label for step in session.steps], session.published, session.ask(["explain 801", "stats 801"])[0])
    assert after == before


@needs_program
def test_another_program_takes_the_place_of_one_that_ended(session: Session) -> None:
    session.do(["assign 701 5 1"], "One")
    before = session.ask(["totals", "explain 701"])[0]
    session.process.kill()
    with pytest.raises(Unasked, match=r"^uttab was killed by signal 9\. Another took its place"):
        session.do(["unassign 701"], "Lost")
    assert session.ask(["totals", "explain 701"])[0] == before
    assert [step.label for step in session.steps] == ["One"]


@needs_program
def test_another_program_takes_its_place_before_it_has_read_too_much(session: Session, monkeypatch: pytest.MonkeyPatch) -> None:
    session.do(["assign 701 5 1"], "One")
    session.do(["enrol all"], "Two")
    session.undo(1)
    monkeypatch.setattr(session_module, "MOST_SENT", 500)
    first, before = session.process, session.ask(["totals", "explain 701"])
    for _ in range(40):
        session.keep_fresh()
        assert session.ask(["totals", "explain 701"]) == before
    assert session.process is not first and [step.label for step in session.steps] == ["One"]


@needs_program
def test_a_full_disk_takes_the_command_back(session: Session, log: Path) -> None:
    session.do(["assign 701 5 1"], "One")
    before, content = session.totals, log.read_text()
    soft, hard = resource.getrlimit(resource.RLIMIT_FSIZE)
    signal.signal(signal.SIGXFSZ, signal.SIG_IGN)
    resource.setrlimit(resource.RLIMIT_FSIZE, (len(content.encode()) + 20, hard))
    try:
        for change in (lambda: session.do(["unassign 701"], "Two"), lambda: session.undo(1)):
            with pytest.raises(Unasked, match="The command is taken back"):
                change()
            assert (session.totals, log.read_text(), session.ask(["totals"])[0][0][-1]) == (before, content, before)
    finally:
        resource.setrlimit(resource.RLIMIT_FSIZE, (soft, hard))
    session.do(["unassign 701"], "Two")
    assert replayed(PROBLEM, log) == session.totals


@needs_program
def test_a_publication_that_cant_be_written_is_none(session: Session, log: Path) -> None:
    session.do(["enrol all"], "")
    run_search(session, "search", 60, 11)
    session.save = log.parent / "absent" / "published.json"
    with pytest.raises(Unasked, match="Nothing is published"):
        session.publish()
    assert session.published is None and session.totals.endswith(" moved -") and "publish" not in commands(log)


@needs_program
def test_a_publication_that_isnt_kept_is_none(session: Session, log: Path, monkeypatch: pytest.MonkeyPatch) -> None:
    """Where the log can't take it, the file that was published before stays."""
    session.do(["enrol all"], "")
    run_search(session, "search", 60, 11)
    session.save.write_text("before")

    def full(_: object) -> None:
        raise OSError(28, "No space left on device")
    monkeypatch.setattr(session.log, "keep", full)
    with pytest.raises(Unasked, match="The command is taken back"):
        session.publish()
    assert session.save.read_text() == "before" and sorted(path.name for path in log.parent.iterdir()) == ["log.json", "log.txt"]
    assert session.published is None and session.totals.endswith(" moved -") and "publish" not in commands(log)


@needs_program
def test_a_publication_that_was_broken_off_gets_its_name(log: Path) -> None:
    """Killed between the log and the name of the file."""
    with session_on(log) as session:
        session.do(["enrol all"], "")
        run_search(session, "search", 60, 11)
        session.publish()
        content = session.save.read_bytes()
        session.save.rename(session.save.with_name(session.save.name + ".part"))
    with session_on(log) as session:
        assert session.save.read_bytes() == content and len(list(log.parent.iterdir())) == 2


@needs_program
def test_a_desk_that_cant_go_on_does_nothing(session: Session, log: Path) -> None:
    """No program that is elsewhere than the log is asked, until one is where the log ends."""
    session.do(["assign 701 5 1"], "One")
    content, kept, before = log.read_bytes(), session.log.entries[:], session.totals
    session.log.entries = [Entry(kept[0].line, kept[0].totals and kept[0].totals.replace("62", "61"), False, "One")]
    session.process.kill()
    for call in (lambda: session.do(["unassign 701"], ""), lambda: session.undo(1), lambda: session.ask(["totals"]), session.draft):
        with pytest.raises(Unasked, match="The desk can’t go on"):
            call()
    assert log.read_bytes() == content and session.state()["fault"]
    session.log.entries = kept
    assert session.ask(["totals"])[0] == [[before]] and session.state()["fault"] is None


@needs_program
@pytest.mark.parametrize("line", ["totals", "quit", "explain 101", "nothing", "drop é"])
def test_a_log_has_no_other_commands(log: Path, line: str) -> None:
    Log(log, HEADING).close()
    log.write_text(log.read_text() + line + "\n")
    with pytest.raises(FileFault, match=line), session_on(log):
        pass


@needs_program
def test_a_log_that_leads_elsewhere_is_told(log: Path) -> None:
    with session_on(log) as session:
        session.do(["assign 701 5 1"], "One")
    log.write_text(log.read_text().replace("unplaced 62", "unplaced 61"))
    with pytest.raises(FileFault, match="is answered .* and not"), session_on(log):
        pass


@needs_program
@pytest.mark.usefixtures("quick_disk")
def test_a_thousand_commands_in_a_row(session: Session, log: Path) -> None:
    for turn in range(500):
        session.do([f"assign 701 {turn % 12 + 1} {1 + 10 * (turn % 2)}"], f"Turn {turn}")
        if turn % 2:
            session.undo(1)
    session.do(["unassign 701"], "Out")
    assert len(session.steps) == 251 and session.totals == replayed(PROBLEM, log)
    until(lambda: session.state()["stepCount"] == 251, "the state")


# The tutorial's steps, as the page makes them: what is typed is one command, a suggestion and what is taken out are one step.
TUTORIAL = [
    ["assign 701 5 1"], ["assign 1021 1 -"], ["enrol all"], ["search 61 11"], ["undo"], ["place 1000 11"], ["undo"], ["search 61 11"],
    ["force 1401 8 5", "force 1301 2 11", "force 1311 10 13"], ["improve 20000 6"],
    ["force 801 6 3", "force 1101 9 11", "force 1801 6 4"], ["improve 20000 7"], ["deluge 200000 9"], ["undo"], ["publish", "term.json"],
    ["close 3 11111 0 288 000011111111110"], ["unassign 801", "unassign 901", "unassign 1001", "unassign 1501", "unassign 1711"],
    ["repair 1000 3"], ["force 901 11 11", "force 1021 2 -", "force 1101 4 4"], ["improve 20000 8"], ["undo"], ["publish", "after_week_4.json"]]


@needs_program
def test_the_tutorial_ends_in_its_files(session: Session, log: Path) -> None:
    for step in TUTORIAL:
        if step[0] == "publish":
            session.publish()
            assert session.save.read_bytes() == (FACULTY / step[1]).read_bytes()
        elif step[0] == "undo":
            session.undo(1)
        else:
            assert all(reply[-1].startswith("ok ") for reply in session.do(step, ""))
    assert replayed(PROBLEM, log) == session.totals
