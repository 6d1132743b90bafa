"""What a far end may take and do before it is given up; far ends that can't be begun; what may stand in HOME/remotes and HOME/remote-2."""
from __future__ import annotations

import fcntl
import os
import shutil
import signal
import time
from itertools import product
from pathlib import Path
from typing import Callable, NamedTuple

from .common import HAIL, HANG, HERE, TOOLS, Done, Home, InFolder, run, start
from hail.far_ends import NoRemotes, read_line

DATA = os.urandom(9000)


def runs(name: str) -> bool:
    """Whether a process has this among its words."""
    for path in Path('/proc').glob('[0-9]*/cmdline'):
        try:
            if name.encode() in path.read_bytes().split(b'\0'):
                return True
        except OSError:
            pass
    return False


def is_left(name: str) -> bool:
    """The same of one that was to be killed, which takes a moment to be gone."""
    until = time.monotonic() + HANG
    while runs(name) and time.monotonic() < until:
        time.sleep(0.05)
    return runs(name)


def is_free(path: Path) -> bool:
    """Whether nobody has this locked."""
    file = os.open(path, os.O_RDONLY)
    try:
        fcntl.flock(file, fcntl.LOCK_EX | fcntl.LOCK_NB)
        return True
    except BlockingIOError:
        return False
    finally:
        os.close(file)


class Told(NamedTuple):
    """The name of a case, the commands of far ends, which have it among their words, and how the command is told to end."""

    name: str
    commands: dict[str, str]
    tell: Callable[[int, int], None]


class Limits(InFolder):
    """Over a store whose provider 2 is far away."""

    def setUp(self) -> None:
        super().setUp()
        self.home = Home(self.place / 'made')
        self.home.make('6 3 1 4 4 8 0')
        self.home.put(file=DATA)
        self.home.move_away(2)

    def is_gone(self, command: str, why: str, words: tuple[str, ...] = ('put', 'other')) -> Done:
        """A far end is given up and named in a put, and the file comes back."""
        self.home.far_ends(p2=command)
        put = self.home.remote(*words, data=DATA)
        self.assertEqual(put.status, 13, put)
        self.assertIn('hail: provider fault 2\n', put.err)
        self.assertIn(f'hail-remote: provider 2 is given up: {why}\n', put.err)
        got = self.home.remote('get', 'file')
        self.assertEqual((got.status, got.out), (0, DATA), got)
        self.assertIn('hail-remote: provider 2 is given up: ', got.err)
        return put

    def test_lines(self) -> None:
        """60 seconds where a line says nothing, and what it says where it does."""
        self.assertEqual(read_line('2 ssh host', ''), (2, 60, 'ssh host'))
        self.assertEqual(read_line(' 15\t300s  ssh host', ''), (15, 300, 'ssh host'))
        self.assertEqual(read_line('0 1h', ''), (0, 60, '1h'))
        for line in ('16 a', '2', '2 ', 'ssh', '02 a', '2 a\0b', '٢ a'):
            with self.assertRaises(NoRemotes, msg=line):
                read_line(line, '')

    def test_not_begun(self) -> None:
        """A command that is not there, that fails, or that ends at once."""
        for command in ('no-such-command', '/', 'false', 'true', 'exec 0<&- 1>&-', 'kill -9 $$', ')('):
            self.is_gone(command, 'it ended, or closed a pipe')

    def test_silence(self) -> None:
        """Of two silent far ends each is given up, and more than one of six is too many for B = 1."""
        self.is_gone('1s exec sleep 1000', 'no answer for 1 seconds')
        self.home.move_away(4)
        self.home.far_ends(p2='1s exec sleep 1000', p4='2s exec sleep 1000')
        got = self.home.remote('get', 'file')
        self.assertEqual((got.status, got.out), (4, b''), got)
        for number, seconds in ((2, 1), (4, 2)):
            self.assertIn(f'hail-remote: provider {number} is given up: no answer for {seconds} seconds\n', got.err)

    def test_who_leaves(self) -> None:
        """What leaves its group, its session and its parents ends with the command, if it has a pipe of ours."""
        for turn, keeping in enumerate(('', '0<&-', '0<&- 1>&-')):
            name = f'1000.{os.getpid()}{turn}'
            self.is_gone(f'1s (setsid sleep {name} {keeping} &) ; exec sleep 1000', 'no answer for 1 seconds')
            self.assertFalse(is_left(name), keeping)

    def test_who_was_there(self) -> None:
        """A program that was there before, and was handed the pipes, is not killed, and holds nothing up."""
        path = self.place / 'socket'
        master = start([str(HERE / 'master.py'), str(path)])
        assert master.stdout
        self.assertEqual(master.stdout.readline(), b'ready\n')
        try:
            self.is_gone(f"1s exec {HERE}/master.py '{path}' give", 'no answer for 1 seconds')
            self.assertIsNone(master.poll())
        finally:
            master.kill()
            master.communicate()

    def test_timers(self) -> None:
        """What the timers call has the limit: hail-keep, and hail-watch, which audits behind an outage all the same."""
        self.home.far_ends(p2='1s exec sleep 1000')
        kept = run([str(TOOLS / 'hail-keep'), '-t', '86400', str(self.home.path), 'put', 'other'], DATA)
        self.assertEqual(kept.status, 13, kept)
        self.assertIn('provider 2 is given up: no answer for 1 seconds', kept.err)
        watch = [str(TOOLS / 'hail-watch'), '-a', '1', '-w', '8', str(self.home.path)]
        self.assertEqual(run(watch).status, 4)
        watched = run(watch)
        self.assertEqual((watched.status, watched.text), (1, 'provider 2 does not answer\nprovider 2 is flagged\n'), watched)
        for unit in (TOOLS.parent / 'packaging' / 'systemd').glob('*.service'):
            for line in unit.read_text().splitlines():
                if line.startswith('ExecStart=') and '%f' in line:
                    self.assertRegex(line, '/usr/bin/hail-(watch|keep|verify|gc)\\b', unit.name)

    def test_all_the_time(self) -> None:
        """Behind the seconds of -t all are given up."""
        self.home.far_ends(p2='900s exec sleep 1000')
        words = [str(TOOLS / 'hail-remote'), '-t', '1', str(self.home.path)]
        put = run([*words, 'put', 'other'], DATA)
        self.assertEqual(put.status, 13, put)
        self.assertIn('hail-remote: 1 seconds are over\n', put.err)
        got = run([*words, 'get', 'file'])
        self.assertEqual((got.status, got.out), (0, DATA), got)

    def ends(self, case: Told) -> str:
        """A command is told to end once a far end runs that has the name among its words: nothing of it is left, and the home is free at once."""
        home = self.home.copy(self.place / case.name)
        home.far_ends(**{far: command.format(case.name) for far, command in case.commands.items()})
        running = start([str(TOOLS / 'hail-remote'), str(home.path), 'get', 'file'], HAIL=HAIL)
        until = time.monotonic() + HANG
        while not runs(case.name) and running.poll() is None and time.monotonic() < until:
            time.sleep(0.05)
        case.tell(running.pid, signal.SIGTERM)
        told = running.communicate(timeout=HANG)
        self.assertEqual((running.returncode, is_left(case.name)), (128 + signal.SIGTERM, False), (case, told))
        for path in (home.path, home.path / 'remotes', home.path / 'journal'):
            self.assertTrue(is_free(path), (case, path))
        home.far_ends(**{far: 'SERVE' for far in case.commands})
        got = home.remote('get', 'file')
        self.assertEqual((got.status, got.out, got.err), (0, DATA, ''), (case, got))
        return ''

    def test_told_to_end(self) -> None:
        """SIGTERM, as of systemd to the program alone and of `timeout` to its group: the far ends end too, also one that does not heed it, or left."""
        kinds = ('exec sleep {}', 'trap "" TERM; sleep {}', '(setsid sleep {} &) ; exec sleep 1000')
        tellers: tuple[Callable[[int, int], None], ...] = (os.kill, os.killpg)
        self.each(
            (Told(f'1100.{os.getpid()}{turn}', {'p2': kind}, tell) for turn, (kind, tell) in enumerate(product(kinds, tellers))),
            self.ends,
        )

    def test_told_as_it_begins(self) -> None:
        """The same before all of six far ends are begun: the first one tells it."""
        self.home.move_away(0, 1, 3, 4, 5)
        commands = {'p0': 'kill $PPID; exec sleep {}', **{f'p{place}': 'exec sleep {}' for place in range(1, 6)}}
        self.each((Told(f'1200.{os.getpid()}{turn}', commands, lambda pid, number: None) for turn in range(3)), self.ends)

    def test_standard_streams(self) -> None:
        """Links to the standard streams are refused, also where these are pipes: nothing is read or written there."""
        folder = self.home.path / 'remote-2'
        for requests, answers in (('1', '0'), ('0', '1'), ('2', '0'), ('1', '122'), ('102', '0'), ('01', '00'), ('+1', '+0'), ('1/', '0/')):
            for name, descriptor in (('requests', requests), ('answers', answers)):
                (folder / name).unlink()
                os.symlink(f'/dev/fd/{descriptor}', folder / name)
            put = self.home.hail('put', 'other', data=b'\1' * 999)
            self.assertEqual((put.status, put.out, put.err), (13, b'', 'hail: provider fault 2\n'), (requests, answers))
            got = self.home.hail('get', 'file', data=b'\1' * 999)
            self.assertEqual((got.status, got.out, got.err), (0, DATA, ''), (requests, answers))

    def test_closed_streams(self) -> None:
        """A stream that came closed gets no pipe of a far end."""
        self.home.far_ends(p2='echo told >&2; exec SERVE')
        words = f"'{TOOLS}/hail-remote' '{self.home.path}'"
        for closed in ('2>&-', '0<&- 2>&-', '0<&-'):
            got = run(['bash', '-c', f'{words} get file {closed}'])
            self.assertEqual((got.status, got.out), (0, DATA), (closed, got))
        for closed in ('1>&-', '0<&- 1>&- 2>&-', '1>&- 2>&-'):
            got = run(['bash', '-c', f'{words} get file {closed}'])
            self.assertEqual(got.status, 15, (closed, got))
        shutil.rmtree(self.home.place / 'far-2' / 'provider-2')
        done = run(['bash', '-c', f'{words} scrub 2>&-'])
        self.assertEqual(done.status, 0, done)
        self.assertEqual(self.home.remote('scrub').text.count(' blocks 0\n'), 6)
