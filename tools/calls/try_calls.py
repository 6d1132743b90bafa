#!/usr/bin/python3
"""try_calls.py [-a] [-m MOST] [-o KIND] [-j JOBS] [CASE ..]: the program and its companions are killed, or a call of theirs fails, at calls that change what lies in a home:
at MOST of each kind for each case, spread evenly, or with -a at each; with -m 0 at two calls for each case, once each. -o: this kind alone, as `kill` or `EIO on`. Each run must end with a status that is named; what was acknowledged must
come back once nothing fails any more; and the command, run again, must end well. HAIL names the program, TOOLS the folder of the companions.

Ends with 0: all went so. 1: something went otherwise, which is told. 2: there is no such case. 3: programs can't be traced here, and nothing was
tried."""

from __future__ import annotations

import argparse
import errno
import os
import shutil
import subprocess
import sys
import tempfile
import time
from collections import Counter
from concurrent.futures import ProcessPoolExecutor
from dataclasses import dataclass, field, replace

sys.dont_write_bytecode = True
sys.path.insert(0, os.path.dirname(os.path.realpath(__file__)))
sys.path.insert(0, os.path.join(os.path.dirname(os.path.dirname(os.path.realpath(__file__))), "lib"))

from hail.journal import NoJournal, read_journal
from hail.places import is_whole
from traced import Outcome, Strike, is_possible, run

TOOLS = os.environ["TOOLS"]
HAIL = os.environ["HAIL"]
KEY = b"000102030405060708090a0b0c0d0e0f101112131415161718191a1b1c1d1e1f"
OTHER_KEY = KEY[::-1]
SHAPE = "6 3 1 1 4 8 0".split()
ERRORS = (errno.EIO, errno.ENOSPC, errno.EDQUOT, errno.ESTALE)
FILES = {"notes": bytes(range(256)) * 5, "other": b"other" * 100, "third": b"3" * 900}
NEW = b"new" * 300
NAMED = {0, 3, 4, 6, 7, 8, 9, 11, 12, 13, 14, 15, 70}  # of the program, for right words
Files = dict[str, tuple[bytes | None, ...]]  # by name what a get may give; None: it is not listed


@dataclass(frozen=True)
class Case:
    """What is done over a home of a kind: words of the program, or a companion with its words, behind `home`; what may come of it, and what
    files there are then and before. `again` are the statuses of a second run behind a strike; `done` what must be so behind it."""

    name: str
    kind: str
    words: list[str]
    given: bytes = b""
    statuses: frozenset[int] = frozenset(NAMED)
    again: frozenset[int] = frozenset({0})
    before: dict[str, bytes] = field(default_factory=lambda: dict(FILES))
    after: dict[str, bytes] = field(default_factory=lambda: dict(FILES))
    done: str = ""

    def command(self) -> list[str]:
        """The command, in the folder of the home."""
        if self.words[0].startswith("hail-"):
            return [os.path.join(TOOLS, self.words[0]), *self.words[1:]]
        return [HAIL, "home", *self.words]


def said(words: list[str], folder: str, given: bytes = b"") -> Outcome:
    """How a command ends that nothing strikes."""
    answer = subprocess.run(words, input=given, capture_output=True, cwd=folder, timeout=300, check=False)
    return Outcome(answer.returncode, answer.stdout, answer.stderr)


def must(words: list[str], folder: str, given: bytes = b"") -> bytes:
    """What a command writes that has to end well."""
    answer = said(words, folder, given)
    if answer.status:
        raise SystemExit(f"{' '.join(words)} ends with {answer.status}: {(answer.out + answer.err).decode()}")
    return answer.out


def hail(folder: str, *words: str, given: bytes = b"", home: str = "home") -> bytes:
    """What the program writes."""
    return must([HAIL, home, *words], folder, given)


def tool(folder: str, name: str, *words: str, given: bytes = b"") -> bytes:
    """What a companion writes."""
    return must([os.path.join(TOOLS, name), *words], folder, given)


def make_plain(folder: str) -> None:
    """A home of three files, behind an upgrade, with a folder for copies."""
    tool(folder, "hail-init", "home", *SHAPE, given=KEY)
    for name, data in FILES.items():
        hail(folder, "put", name, given=data)
    hail(folder, "upgrade")
    os.mkdir(os.path.join(folder, "backup"))
    os.mkdir(os.path.join(folder, "tmp"))


def copy_journal(folder: str) -> None:
    """A copy of the journal with its checksum."""
    shutil.copy(f"{folder}/home/journal", f"{folder}/copy")
    with open(f"{folder}/copy.sum", "wb") as file:
        file.write(must(["sha256sum", "copy"], folder))


def fail_put(folder: str, place: int) -> None:
    """A put fails at this provider, so that the others keep its blocks."""
    os.rename(f"{folder}/home/provider-{place}", f"{folder}/aside")
    open(f"{folder}/home/provider-{place}", "x").close()
    said([HAIL, "home", "put", "failed"], folder, NEW)
    os.unlink(f"{folder}/home/provider-{place}")
    os.rename(f"{folder}/aside", f"{folder}/home/provider-{place}")


def make(kind: str, folder: str) -> None:
    """A home of a kind."""
    os.makedirs(folder)
    make_plain(folder)
    parts = kind.split()
    if "stacks" in parts:
        for place in range(6):
            tool(folder, "hail-stack", "home", str(place))
    if "packed" in parts:
        hail(folder, "pack")
    if "left" in parts:
        fail_put(folder, 3)
    if "wrong" in parts:
        shutil.rmtree(f"{folder}/home/provider-2")
    if "due" in parts:
        shutil.rmtree(f"{folder}/home/provider-2")
        hail(folder, "audit")
    if "lost" in parts:
        copy_journal(folder)
        with open(f"{folder}/home/journal", "r+b") as file:
            file.truncate(9)
    if "gone" in parts:
        os.unlink(f"{folder}/home/journal")
    if "copies" in parts:
        with open(f"{folder}/home/copies", "w", encoding="utf-8") as file:
            file.write(f"{folder}/backup\n")
    if "empty" in parts:
        shutil.rmtree(f"{folder}/home")
    if "second" in parts:
        tool(folder, "hail-init", "second", *SHAPE, given=OTHER_KEY)


COMPANION = frozenset({0, 1, 2, 3, 4, 5})  # the statuses of a companion
KEPT = COMPANION | NAMED  # those of hail-keep, which ends as the program does
PUT = {**FILES, "other": NEW}
UNNAMED = {f"n{index}": data.ljust(-(-len(data) // 384) * 384, b"\0") for index, data in enumerate(FILES.values(), 1)}  # in whole stripes
DROPPED = {name: data for name, data in FILES.items() if name != "third"}
NONE: dict[str, bytes] = {}


def cases() -> list[Case]:
    """All that is tried."""
    found = []
    for form in ("folders", "stacks"):
        found += [
            Case(f"put {form}", form, ["put", "other"], NEW, after=PUT),
            Case(f"drop {form}", form, ["drop", "third"], again=frozenset({0, 3}), after=DROPPED),
            Case(f"scrub {form}", f"{form} wrong", ["scrub"], done="whole"),
            Case(f"audit {form}", f"{form} wrong", ["audit"], again=frozenset({0, 6})),
            Case(f"repair {form}", f"{form} due", ["repair"], again=frozenset({0, 7}), done="whole"),
            Case(f"get {form}", form, ["get", "notes"]),
            Case(f"gc {form}", f"{form} left", ["hail-gc", "home", "remove"], statuses=COMPANION, done="collected"),
            Case(f"restore {form}", f"{form} lost", ["hail-restore", "home", "copy", "3"], statuses=COMPANION, again=frozenset({0, 3}), done="restored"),
            Case(f"rebuild {form}", f"{form} gone", ["hail-rebuild", "home", *SHAPE], KEY, COMPANION, frozenset({0, 1}), NONE, UNNAMED, "rebuilt"),
            Case(f"watch {form}", form, ["hail-watch", "home"], statuses=COMPANION, again=frozenset({0, 1})),
            Case(f"verify {form}", form, ["hail-verify", "home"], statuses=COMPANION),
            Case(f"salvage {form}", form, ["hail-salvage", "home", "3", "1"], statuses=COMPANION),
        ]
    return found + [
        Case("pack", "folders", ["pack"]),
        Case("pack back", "packed", ["pack"]),
        Case("put packed", "packed", ["put", "other"], NEW, after=PUT),
        Case("restore packed", "packed lost", ["hail-restore", "home", "copy", "3"], statuses=COMPANION, again=frozenset({0, 3}), done="restored"),
        Case("init", "empty", ["hail-init", "-s", "home", *SHAPE], KEY, COMPANION, frozenset({0, 4}), NONE, NONE),
        Case("keep", "copies", ["hail-keep", "home"], statuses=KEPT, done="copied"),
        Case("keep put", "copies", ["hail-keep", "home", "put", "other"], NEW, KEPT, after=PUT, done="copied"),
        Case("keep scrub", "copies", ["hail-keep", "home", "scrub"], statuses=KEPT, done="copied"),
        Case("stack", "folders", ["hail-stack", "home", "2"], statuses=COMPANION, done="whole"),
        Case("unstack", "stacks", ["hail-stack", "home", "2", "back"], statuses=COMPANION, done="whole"),
        Case("move", "second", ["hail-move", "home", "second"], statuses=COMPANION, after=NONE, done="moved"),
    ]


def numbers(folder: str) -> tuple[int, int] | None:
    """The next numbers by the journal; none where there is none."""
    try:
        with open(f"{folder}/home/journal", "rb") as file:
            return read_journal(file.read()).reached()
    except (OSError, NoJournal):
        return None


def highest(folder: str) -> int:
    """The highest number of which some provider has a block."""
    names = [name for place in range(6) for name in listed(f"{folder}/home/provider-{place}")]
    return max((int(name.split("-")[0]) for name in names if name.split("-")[0].isdigit()), default=0)


def listed(path: str) -> list[str]:
    """The names in a folder that may not be there."""
    return os.listdir(path) if os.path.isdir(path) else []


def files_of(folder: str, home: str = "home") -> dict[str, bytes] | str:
    """The files of a home with what a get gives of each; or what went otherwise."""
    answer = said([HAIL, home, "list"], folder)
    if answer.status:
        return f"list ends with {answer.status}: {answer.err.decode()}"
    files = {}
    for name in (line.split()[0] for line in answer.out.decode().splitlines()):
        got = said([HAIL, home, "get", name], folder)
        if got.status:
            return f"get {name} ends with {got.status}: {got.err.decode()}"
        files[name] = got.out
    return files


def wrong_files(case: Case, folder: str, is_done: bool) -> str:
    """What is wrong of the files behind a strike; where the command ended well they are those of behind it."""
    files = files_of(folder)
    if isinstance(files, str):
        return files
    for name in {*case.before, *case.after, *files}:
        due = {case.after.get(name)} if is_done else {case.before.get(name), case.after.get(name)}
        if files.get(name) not in due:
            return f"{name} is another file"
    return wrong_move(folder, files) if case.done == "moved" else ""


def wrong_move(folder: str, files: dict[str, bytes]) -> str:
    """What is wrong where each file should be in the one home or the other."""
    second = files_of(folder, "second")
    if isinstance(second, str):
        return f"second: {second}"
    return "" if {**second, **files} == FILES and second.items() <= FILES.items() else f"in the homes are {sorted(files)} and {sorted(second)}"


def wrong_home(case: Case, folder: str, before: tuple[int, int] | None, struck: Outcome) -> str:
    """What is wrong of a home behind a strike."""
    reached = numbers(folder)
    if reached is None:
        return "" if before is None else "the journal is none"
    if before and (reached[0] < before[0] or reached[1] < before[1]):
        return f"the numbers fell from {before} to {reached}"
    if highest(folder) >= reached[0]:
        return f"a block has number {highest(folder)}, and the next is {reached[0]}"
    return wrong_files(case, folder, struck.status == 0)


def wrong_end(case: Case, folder: str) -> str:
    """What is wrong behind the second run."""
    files = files_of(folder)
    if files != case.after:
        return files if isinstance(files, str) else f"there are {sorted(files)}, and not the due ones"
    if case.done == "collected" and any(name.startswith("4") for place in range(6) for name in listed(f"{folder}/home/provider-{place}")):
        return "blocks are left"
    if case.done == "copied":
        with open(f"{folder}/home/journal", "rb") as file:
            if not is_whole(f"{folder}/backup", "journal", read_journal(file.read()).compact()):
                return "the copy is behind"
    if case.done == "moved" and files_of(folder, "second") != FILES:
        return "not all are moved"
    next_ones = numbers(folder)
    if case.done == "restored" and (next_ones is None or next_ones < (7, 4)):
        return f"the next numbers are {next_ones}"
    if case.done in ("whole", "rebuilt", "collected", "restored"):
        verified = said([os.path.join(TOOLS, "hail-verify"), "home"], folder)
        if verified.status:
            return f"hail-verify says {(verified.out + verified.err).decode()}"
    return wrong_left(folder)


def wrong_left(folder: str) -> str:
    """What lies in the home that should not."""
    left = [name for name in os.listdir(f"{folder}/home") if ".new" in name or ".part" in name or name.startswith(".")]
    return f"there is {left}" if left else ""


def try_one(case: Case, base: str, strike: Strike) -> tuple[str, str]:
    """Strikes once, over a copy of the base. Gives what came of it, and what went otherwise."""
    with tempfile.TemporaryDirectory(dir=os.path.dirname(base)) as room:
        folder = os.path.join(room, "x")
        shutil.copytree(base, folder, symlinks=True)
        move_copies(folder)
        before = numbers(folder)
        struck = run(case.command(), replace(strike, below=[folder]), case.given, folder, {"TMPDIR": f"{folder}/tmp"})
        return f"status {struck.status}", judge(case, folder, before, struck)


def move_copies(folder: str) -> None:
    """Where the home has a place for copies, it is in this folder."""
    if os.path.exists(f"{folder}/home/copies"):
        with open(f"{folder}/home/copies", "w", encoding="utf-8") as file:
            file.write(f"{folder}/backup\n")


def wrong_words(case: Case, struck: Outcome) -> str:
    """What a companion told or wrote that is not so, where nothing was wrong but the strike."""
    if case.words[0] == "hail-verify" and b": lost from" in struck.out:
        return "a file that is whole is called lost"
    if case.words[0] == "hail-salvage" and struck.status in (0, 1):
        due = UNNAMED["n1"]
        like = len(struck.out) == len(due) and all(came == wanted or struck.status == 1 and came == 0 for came, wanted in zip(struck.out, due))
        return "" if like else "other bytes are salvaged"
    return ""


def judge(case: Case, folder: str, before: tuple[int, int] | None, struck: Outcome) -> str:
    """What went otherwise."""
    if struck.status not in case.statuses | {137}:
        return f"ends with {struck.status}: {struck.err.decode()[-300:]}"
    if b"Traceback" in struck.err:
        return f"tells {struck.err.decode()[-300:]}"
    wrong = wrong_words(case, struck) or wrong_home(case, folder, before, struck)
    if wrong:
        return f"behind {struck.status}: {wrong}: {struck.err.decode()[-200:]}"
    again = said(case.command(), folder, case.given)
    if again.status not in case.again:
        return f"behind {struck.status} called again it ends with {again.status}: {(again.out + again.err).decode()[-300:]}"
    wrong = wrong_end(case, folder)
    return f"behind {struck.status}, called again: {wrong}" if wrong else ""


def try_case(case: Case, room: str, most: int, kind: str) -> tuple[Case, int, list[str], Counter[str]]:
    """Strikes a case at calls of each kind. Gives how often, what went otherwise, and how often each status came."""
    base = os.path.join(room, case.name.replace(" ", "-"), "base")
    make(case.kind, base)
    counts = {reads: count_calls(case, base, reads) if most or not reads else 0 for reads in (False, True)}
    wrong: list[str] = []
    tally: Counter[str] = Counter()
    for label, strike in strikes(counts, most) if most else some_strikes(counts, case):
        if kind not in ("", label):
            continue
        came, why = try_one(case, base, strike)
        tally[f"{label} {came}"] += 1
        if why:
            wrong.append(f"{case.name}: {label} at {strike.at}: {why}")
    shutil.rmtree(os.path.dirname(base))
    return case, sum(tally.values()), wrong, tally


def count_calls(case: Case, base: str, reads: bool) -> int:
    """How many calls a case makes that nothing strikes."""
    with tempfile.TemporaryDirectory(dir=os.path.dirname(base)) as room:
        folder = os.path.join(room, "x")
        shutil.copytree(base, folder, symlinks=True)
        move_copies(folder)
        whole = run(case.command(), Strike([folder], reads=reads), case.given, folder, {"TMPDIR": f"{folder}/tmp"})
        if whole.status:
            raise SystemExit(f"{case.name} ends with {whole.status} unstruck: {(whole.out + whole.err).decode()}")
        return len(whole.calls)


def strikes(counts: dict[bool, int], most: int) -> list[tuple[str, Strike]]:
    """What is tried of so many calls: kills, errors once and from a call on, and errors of reading."""
    kinds = [("kill", Strike([]), False)]
    kinds += [(f"{errno.errorcode[error]}{' on' if lasts else ''}", Strike([], error=error, lasts=lasts), False) for error in ERRORS for lasts in (False, True)]
    kinds += [(f"{errno.errorcode[error]} of a read", Strike([], error=error, reads=True), True) for error in (errno.EIO, errno.ESTALE)]
    found = []
    for index, (label, strike, reads) in enumerate(kinds):
        count = counts[reads]
        step = max(1, -(-count // most))
        begin = 1 + (index * 7) % step
        found += [(label, Strike([], at, strike.error, strike.lasts, reads)) for at in range(begin, count + 1, step)]
    return found


def some_strikes(counts: dict[bool, int], case: Case) -> list[tuple[str, Strike]]:
    """Two of them: a kill and an error. Of which kind and where depends on the name of the case."""
    seed = sum(case.name.encode())
    found = strikes(counts, 1 << 30)
    kills, others = [one for one in found if one[0] == "kill"], [one for one in found if one[0] != "kill"]
    return [kills[seed % len(kills)], others[seed % len(others)]]


def main() -> int:
    parser = argparse.ArgumentParser(description="Strikes at calls of the program and its companions.")
    parser.add_argument("-a", action="store_true", help="at each call")
    parser.add_argument("-m", type=int, default=0, metavar="MOST", help="at most so many calls of each kind; 0: two in all")
    parser.add_argument("-o", default="", metavar="KIND", help="this kind alone")
    parser.add_argument("-j", type=int, default=4, metavar="JOBS", help="so many cases at once")
    parser.add_argument("case", nargs="*", help="these alone")
    words = parser.parse_args()
    all_cases = cases()
    if unknown := set(words.case) - {case.name for case in all_cases}:
        parser.error(f"there is no case {', '.join(sorted(unknown))}; there are {', '.join(case.name for case in all_cases)}")
    if not is_possible():
        print("calls: programs can't be traced here: nothing is tried", file=sys.stderr)
        return 3
    chosen = [case for case in all_cases if not words.case or case.name in words.case]
    room = tempfile.mkdtemp(dir="/dev/shm" if os.access("/dev/shm", os.W_OK) else None)
    total, failed, since = 0, 0, time.time()
    all_of: Counter[str] = Counter()
    try:
        with ProcessPoolExecutor(words.j, max_tasks_per_child=1) as pool:
            jobs = [pool.submit(try_case, case, room, 1 << 30 if words.a else words.m, words.o) for case in chosen]
            for job in jobs:
                case, tried, wrong, tally = job.result()
                total, failed, all_of = total + tried, failed + len(wrong), all_of + tally
                print("\n".join(wrong), end="\n" if wrong else "", file=sys.stderr, flush=True)
                if words.a or words.case:
                    print(f"{case.name}: {tried} tried, {len(wrong)} otherwise, {time.time() - since:.0f} s", flush=True)
    finally:
        shutil.rmtree(room, ignore_errors=True)
    if words.a or words.case:
        print("\n".join(f"{label}: {count}" for label, count in sorted(all_of.items())))
        print(f"{total} tried, {failed} otherwise")
    return 1 if failed else 0


if __name__ == "__main__":
    sys.exit(main())
