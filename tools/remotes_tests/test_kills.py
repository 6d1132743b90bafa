"""hail, hail-remote or a far end is killed at many moments of a command over six far ends, told by the count of its system calls or of answers. Behind
each kill every block at a far end is whole, files come back as they were before or behind the command, no number is given twice, and the command,
begun anew, ends well. A command that outlives a far end did all, or names it and did nothing. Far ends have folders or stacks."""
from __future__ import annotations

import os
import shutil
from typing import NamedTuple

from .common import FULL, HAIL, HERE, Done, Home, InFolder, object_of, run

PLACES = range(6)
OLD, NEW, KEPT, NEXT = (os.urandom(count) for count in (30_000, 33_000, 5_000, 9_000))
WORDS = {'put': ['put', 'new'], 'put_over': ['put', 'old'], 'scrub': ['scrub'], 'repair': ['repair']}
BEFORE = {'old': OLD, 'kept': KEPT}
BEHIND = {'put': {**BEFORE, 'new': NEW}, 'put_over': {**BEFORE, 'old': NEW}, 'scrub': BEFORE, 'repair': BEFORE}
NEAR = 30
"""By so many the calls of two runs may differ, as answers come in other pieces."""

LOST = 2
"""The provider that is mended; its far end is the one that is killed."""


class Kill(NamedTuple):
    """A command over far ends of this form, who is killed, and at which count: of its calls, or of answers where that is hail-remote."""

    command: str
    form: str
    who: str
    at: int


class Base(NamedTuple):
    """A store, and the blocks before and behind the command."""

    home: Home
    before: dict[str, bytes]
    behind: dict[str, bytes]


def servers() -> dict[str, str]:
    """Six honest far ends."""
    return {f'p{place}': 'SERVE' for place in PLACES}


def stopped(home: Home, setting: str) -> str:
    """A far end whose calls are counted."""
    return f"{setting} exec {HERE}/stopper.py '{home.place}/far-{LOST}' serve {LOST}"


def do(home: Home, command: str, **env: str) -> Done:
    """Carries a command out."""
    return home.remote(*WORDS[command], data=NEW if command.startswith('put') else b'', **env)


def objects_of(home: Home) -> set[str]:
    """The numbers under which there are blocks."""
    return {object_of(place) for place in home.blocks(*PLACES)}


class Kills(InFolder):
    """Each moment of each command."""

    def setUp(self) -> None:
        super().setUp()
        self.bases: dict[tuple[str, str], Base] = {}
        self.counted: dict[tuple[str, str, str], int] = {}

    def base(self, command: str, form: str) -> Base:
        """A store all of whose providers are far away; one lost its blocks where a command is to mend them."""
        if (command, form) not in self.bases:
            home = self.store(command, form)
            done = home.copy(self.place / f'done-{command}-{form}')
            done.far_ends(**servers())
            self.assertEqual(do(done, command).status, 0)
            self.bases[command, form] = Base(home, home.gathered().blocks(*PLACES), done.gathered().blocks(*PLACES))
        return self.bases[command, form]

    def store(self, command: str, form: str) -> Home:
        """The store by itself."""
        home = Home(self.place / f'base-{command}-{form}')
        if form == 'stacks':
            home.make('6 3 1 4 4 8 0')
        else:
            home.make_plain('6 3 1 4 4 8 0')
        home.put(**BEFORE)
        lost = home.path / f'provider-{LOST}'
        if command in ('scrub', 'repair'):
            shutil.rmtree(lost)
        if command == 'repair':
            self.assertIn(f'provider {LOST} count 8 flagged', home.hail('audit').text)
        lost.mkdir(exist_ok=True)
        home.move_away(*PLACES)
        return home

    def calls(self, command: str, form: str, who: str) -> int:
        """How many calls hail, or a far end, makes, each counted at its begin and its end."""
        home = self.base(command, form).home.copy(self.place / f'counted-{command}-{form}-{who}')
        count = home.place / 'count'
        far = {f'p{LOST}': stopped(home, f"COUNT_TO='{count}'")} if who == 'far end' else {}
        home.far_ends(**{**servers(), **far})
        env = {'HAIL': str(HERE / 'stopper.py'), 'COUNT_TO': str(count)} if who == 'hail' else {}
        done = do(home, command, **env)
        self.assertEqual(done.status, 0, done)
        self.counted[command, form, who] = int(count.read_text())
        return self.counted[command, form, who]

    def kill(self, home: Home, kill: Kill) -> Done:
        """Carries the command out, and kills in the midst of it."""
        far = {'hail-remote': home.lying('kills', LOST, kill.at), 'far end': stopped(home, f'KILL_AT={kill.at}')}
        home.far_ends(**{**servers(), f'p{LOST}': far.get(kill.who, 'SERVE')})
        env = {'HAIL': str(HERE / 'stopper.py'), 'KILL_AT': str(kill.at)} if kill.who == 'hail' else {}
        done = do(home, kill.command, **env)
        for place in PLACES if kill.who == 'hail-remote' else ():  # a far end has the lock of its home until it ends
            run([HAIL, str(home.place / f'far-{place}'), 'repair'])
        return done

    def ended(self, kill: Kill, done: Done) -> str:
        """What is wrong with how the command ended: by the kill, or well where that came too late, or naming the far end that was killed."""
        if kill.who != 'far end':
            late = done.status == 0 and kill.at > self.counted.get(kill[:3], kill.at) - NEAR
            return '' if done.status in (137, -9) or late else f'ends with {done.status}'
        named = f'hail: provider fault {LOST}\n' in done.err and f'hail-remote: provider {LOST} is given up: it ended, or closed a pipe\n' in done.err
        return '' if done.status == 0 or (done.status == 13 and named) else f'ends otherwise: {done}'

    def blocks_are_whole(self, kill: Kill, home: Home) -> str:
        """Each block is as before or as behind the command."""
        _, before, behind = self.base(kill.command, kill.form)
        for place, data in home.blocks(*PLACES).items():
            if data not in (before.get(place), behind.get(place)):
                return f'leaves another block at {place}'
        return ''

    def files_come_back(self, kill: Kill, done: Done, home: Home) -> str:
        """The files are those before or those behind the command, as it told."""
        names = [line.split(' ')[0] for line in home.hail('list').text.splitlines()]
        found = {name: home.hail('get', name).out for name in names}
        may = {0: [BEHIND[kill.command]], 13: [BEFORE]}.get(done.status, [BEFORE, BEHIND[kill.command]])
        return '' if found in may else f'ends with {done.status}, and leaves other files: {names}'

    def number_is_new(self, home: Home) -> str:
        """The next put has a number that nobody has blocks of."""
        given = objects_of(home)
        kept = home.blocks(*PLACES)
        done = home.hail('put', 'next', data=NEXT)
        if done.status != 0 or len(objects_of(home) - given) != 1:
            return f'gives a number twice: {done}'
        now = home.blocks(*PLACES)
        return '' if all(now[place] == data for place, data in kept.items()) else 'lets the next put write over blocks'

    def goes_on(self, kill: Kill, home: Home) -> str:
        """The command, begun anew, ends well, and all is well then."""
        done = home.hail(*WORDS[kill.command], data=NEW if kill.command.startswith('put') else b'')
        if done.status not in ((0, 7) if kill.command == 'repair' else (0,)):
            return f'does not end: {done}'
        differ = [line for line in home.hail('scrub').text.splitlines()[1:] if not line.endswith(' blocks 0')]
        return f'leaves {differ}' if differ else ''

    def look(self, kill: Kill) -> str:
        """What goes otherwise behind a kill."""
        home = self.base(kill.command, kill.form).home.copy(self.place / '-'.join(map(str, kill)).replace(' ', '-'))
        done = self.kill(home, kill)
        gathered = home.gathered()
        found = self.ended(kill, done) or self.blocks_are_whole(kill, gathered) or self.files_come_back(kill, done, gathered)
        found = found or self.number_is_new(gathered) or self.goes_on(kill, gathered)
        shutil.rmtree(home.place, ignore_errors=True)
        return found and f'{kill.command} over {kill.form}, {kill.who} killed at {kill.at}: {found}'

    def at_calls(self, who: str, form: str) -> None:
        """Someone is killed at his calls, at each with FULL, over far ends of this form, or of both."""
        kills = []
        for command in WORDS:
            for one in ('folders', 'stacks') if FULL else (form,):
                calls = self.calls(command, one, who)
                step = 2 if FULL else max(2, calls // 9)
                kills += [Kill(command, one, who, count) for count in range(1 + (step // 4) * 2, calls, step)]
        self.each(kills, self.look)

    def test_hail(self) -> None:
        """hail is killed at a system call."""
        self.at_calls('hail', 'folders')

    def test_far_end(self) -> None:
        """A far end is killed at a system call."""
        self.at_calls('far end', 'stacks')

    def test_hail_remote(self) -> None:
        """hail-remote is killed behind an answer of a far end."""
        counts = range(8) if FULL else (0, 3, 6)
        kills = [Kill(command, form, 'hail-remote', count) for command in WORDS for form in ('folders', 'stacks') for count in counts]
        for kill in kills:
            self.base(kill.command, kill.form)
        self.each(kills if FULL else kills[::2], self.look)
