"""Changes cut off at every step: the program is killed, hail goes on or not, what lay unsynced on this disk is lost. Behind each, a new start must
find each file old or new, all that was acknowledged, and no leftover.

Pieces have 1,000 bytes here and small files 100, so that a change has many steps.
"""
from __future__ import annotations

import fcntl
import os
import shutil
import unittest
import warnings
from pathlib import Path
from typing import Callable
from unittest import mock

from .common import InFolder, hail, make_home, names_in
from folders import home, manifest, pieces, store, writer
from folders.home import Answer, Home, Refused
from folders.homes import add_to_set, make_set, open_set
from folders.store import Content, Store
from folders.writer import Writer

OLD = {'/a': b'old' * 900, '/b': b'tiny', '/c': bytes(2000)}
NEW = b'new!' * 700

FULL = bool(os.environ.get('FULL'))
"""Whether all works are cut in all ways; else those that have most steps."""

WAYS = ('before', 'behind', 'alone') if FULL else ('alone',)
"""How a step is cut: before it, behind it, or while hail goes on alone, at which the most can go otherwise."""

Work = Callable[[Store], None]


def write(opened: Store, path: str, data: bytes) -> None:
    """A file by pieces, as a client writes it."""
    made = Writer(opened, path)
    for at in range(0, len(data), 700):
        made.write(at, data[at:at + 700])
    made.finish()


WORKS: dict[str, tuple[Work, dict[str, bytes]]] = {
    'write a new file': (lambda s: write(s, '/d', NEW), {**OLD, '/d': NEW}),
    'write over a file': (lambda s: write(s, '/a', NEW), {**OLD, '/a': NEW}),
    'write a small file': (lambda s: write(s, '/b', b'small'), {**OLD, '/b': b'small'}),
    'rename over a file': (lambda s: s.rename('/a', '/c', True), {'/b': OLD['/b'], '/c': OLD['/a']}),
    'rename': (lambda s: s.rename('/b', '/e', False), {'/a': OLD['/a'], '/c': OLD['/c'], '/e': OLD['/b']}),
    'remove': (lambda s: s.remove('/a'), {'/b': OLD['/b'], '/c': OLD['/c']}),
    'set a time': (lambda s: s.set_time('/c', 5), OLD),
}
if not FULL:
    WORKS = {name: WORKS[name] for name in ('write over a file', 'rename over a file', 'remove')}


class Cut:
    """Home.run, cut at the step `at` of the puts and drops: the program ends before it, behind it, or while hail goes on without it."""

    def __init__(self, at: int, how: str) -> None:
        self.at, self.how, self.step = at, how, 0
        self.real = Home.run

    def __call__(self, *words: object, **more: object) -> Answer:
        if words[1] not in ('put', 'drop'):
            return self.real(*words, **more)  # type: ignore[arg-type]
        self.step += 1
        if self.step == self.at and self.how == 'before':
            os._exit(9)
        if self.step == self.at and self.how == 'alone':
            words[0].start(words[1:], more.get('source'), more.get('keep', ()))  # type: ignore[attr-defined]
            os._exit(9)
        answer = self.real(*words, **more)  # type: ignore[arg-type]
        if self.step == self.at:
            os._exit(9)
        return answer


class Small(InFolder):
    """A set of two homes with three files, in small pieces."""

    def setUp(self) -> None:
        super().setUp()
        for module in (manifest, pieces, writer):
            self.patch(module, 'PIECE', 1000)
        for module in (manifest, store):
            self.patch(module, 'INLINE', 100)
        self.patch(home, 'say', lambda text: None)
        for module in (store, pieces, writer):
            self.patch(module, 'say', lambda text: None)
        self.paths = self.homes(2)
        opened = Store(open_set(self.paths))
        for path, data in OLD.items():
            write(opened, path, data)
        opened.close()
        shutil.copytree(self.place, self.place.with_suffix('.kept'))
        self.addCleanup(shutil.rmtree, self.place.with_suffix('.kept'))

    def patch(self, module: object, name: str, value: object) -> None:
        patched = mock.patch.object(module, name, value)
        patched.start()
        self.addCleanup(patched.stop)

    def again(self) -> None:
        """The homes are as they were before the change."""
        shutil.rmtree(self.place)
        shutil.copytree(self.place.with_suffix('.kept'), self.place)

    def found(self) -> dict[str, bytes]:
        """All files, as a new start finds them; and no leftover stays."""
        opened = Store(open_set(self.paths))
        try:
            paths = ['/' + name for name in opened.children('/')]
            files = {path: opened.read(opened.entry(path), 0, 1 << 20) for path in paths if not opened.status(path).is_folder}
            due = [k.name for e in map(opened.entry, files) for k in [e.key, *(p.key for p in e.manifest.pieces)]]
        finally:
            opened.close()
        self.assertEqual(names_in(self.paths), sorted(due))
        return files


class Cutting(Small):
    """Work that is cut off."""

    def cut(self, work: Work, cut: Callable[..., Answer]) -> bool:
        """Does the work in a process of its own that is cut. Whether it was acknowledged before."""
        child = os.fork()
        if child == 0:
            with mock.patch.object(Home, 'run', lambda *w, **m: cut(*w, **m)):
                try:
                    opened = Store(open_set(self.paths))
                    work(opened)
                    Path(self.place / 'acknowledged').touch()
                    opened.close()
                    os._exit(0)
                finally:
                    os._exit(1)
        ended = os.waitstatus_to_exitcode(os.waitpid(child, 0)[1])
        with open(self.place / 'h0/folders/users') as users:
            fcntl.flock(users, fcntl.LOCK_EX)   # the hail that was left alone has ended
        self.assertIn(ended, (0, 9))
        self.was_cut = ended == 9
        return (self.place / 'acknowledged').exists()


class Cuts(Cutting):
    """The program is killed."""

    def test_each_step(self) -> None:
        warnings.simplefilter('ignore', ResourceWarning)    # of processes that are left on purpose
        steps = 0
        for name, (work, new) in WORKS.items():
            for how in WAYS:
                at = 0
                self.was_cut = True
                while self.was_cut:
                    at += 1
                    self.again()
                    acknowledged = self.cut(work, Cut(at, how))
                    if at % 2:
                        for file in (self.place / 'h0/folders').iterdir():
                            file.write_bytes(b'')   # what was not synced is lost
                    with self.subTest(name, at=at, how=how):
                        self.assertIn(self.found(), [new] if acknowledged else [OLD, new])
                    steps += self.was_cut
        self.assertGreater(steps, 5 * len(WORKS) * len(WAYS))

    def test_a_set_that_is_made_or_grows_is_cut(self) -> None:
        for task, count in ((make_set, 0), (add_to_set, 2)):
            for at in range(1, 5):
                for how in ('before', 'behind'):
                    with self.subTest(task.__name__, at=at, how=how):
                        self.again()
                        more = [make_home(self.place / f'new{k}') for k in range(2)]
                        words = (self.paths if count else []) + more
                        child = os.fork()
                        if child == 0:
                            cut = Cut(at, how)
                            with mock.patch.object(Home, 'run', lambda *w, **m: cut(*w, **m)):
                                try:
                                    task(words)
                                finally:
                                    os._exit(0)
                        os.waitpid(child, 0)
                        if count and at < 3:
                            Store(open_set(self.paths)).close()     # the set as it was
                        task(words)
                        opened = Store(open_set(words))
                        write(opened, '/x', NEW)
                        self.assertEqual(opened.read(opened.entry('/x'), 0, 5000), NEW)
                        opened.close()


WRITES = ('write', 'fsync', 'fdatasync', 'rename', 'unlink', 'mkdir', 'ftruncate')
"""The system calls by which hail changes what is on a disk."""


class Killed:
    """Home.run, of which the step `at` of the puts and drops is killed at its k-th system call of a kind, and this program with it."""

    def __init__(self, at: int, call: str, k: int) -> None:
        self.at, self.step, self.real, self.words = at, 0, Home.run, Home.words
        self.tracer = ['strace', '-f', '-qq', '-o', os.devnull, '-e', f'trace={call}', '-e', f'inject={call}:signal=KILL:when={k}']

    def __call__(self, *words: object, **more: object) -> Answer:
        self.step += words[1] in ('put', 'drop')
        if words[1] not in ('put', 'drop') or self.step != self.at:
            return self.real(*words, **more)  # type: ignore[arg-type]
        with mock.patch.object(Home, 'words', lambda home, *given: [*self.tracer, *self.words(home, *given)]):
            answer = self.real(*words, **more)  # type: ignore[arg-type]
        if answer.status in (-9, 137):
            os._exit(9)
        return answer


@unittest.skipUnless(FULL and shutil.which('strace'), 'it is long, and needs strace')
class Writes(Cutting):
    """The hail below is killed at each of its system calls that write, as the power may end between any two."""

    def test_each_step(self) -> None:
        kills = 0
        for name, (work, new) in WORKS.items():
            at, is_step = 0, True
            while is_step:
                at, is_step = at + 1, False
                for call in WRITES:
                    count = self.kills_of(name, work, new, at, call)
                    kills, is_step = kills + count, is_step or count > 0
        print(f'{kills} kills at system calls that write')
        self.assertGreater(kills, 20 * len(WORKS))

    def kills_of(self, name: str, work: Work, new: dict[str, bytes], at: int, call: str) -> int:
        """A step is killed at each of its calls of a kind, one after the other. How many there were."""
        k = 0
        self.was_cut = True
        while self.was_cut:
            k += 1
            self.again()
            acknowledged = self.cut(work, Killed(at, call, k))
            with self.subTest(name, at=at, call=call, k=k):
                self.assertIn(self.found(), [new] if acknowledged else [OLD, new])
        return k - 1


class Faults(Small):
    """A put or drop that goes wrong at each step, with the program alive: the change is done or not, and the client is told which."""

    def test_each_step(self) -> None:
        told = 0
        for name, (work, new) in WORKS.items():
            for status in (13, 12, -9) if FULL else (13,):
                at, reached = 0, True
                while reached:
                    at += 1
                    self.again()
                    opened = Store(open_set(self.paths))
                    failing = Failing(at, status)
                    with mock.patch.object(Home, 'run', lambda *w, **m: failing(*w, **m)):
                        try:
                            work(opened)
                            refused = False
                        except Refused:
                            refused = True
                        opened.close()
                    reached, told = failing.step >= at, told + refused
                    with self.subTest(name, at=at, status=status):
                        now = self.found()
                        self.assertIn(now, [OLD, new] if refused else [new])
        self.assertGreater(told, len(WORKS))


class Failing:
    """Home.run, of which the step `at` of the puts and drops does what is asked and says that it did not, and then does nothing three times."""

    def __init__(self, at: int, status: int) -> None:
        self.at, self.status, self.step, self.real = at, status, 0, Home.run

    def __call__(self, *words: object, **more: object) -> Answer:
        if words[1] not in ('put', 'drop'):
            return self.real(*words, **more)  # type: ignore[arg-type]
        self.step += 1
        if self.step == self.at:
            self.real(*words, **more)  # type: ignore[arg-type]
        elif not self.at < self.step <= self.at + 3:
            return self.real(*words, **more)  # type: ignore[arg-type]
        return Answer(self.status, b'', 'hail: a fault that the test made')


if __name__ == '__main__':
    unittest.main()
