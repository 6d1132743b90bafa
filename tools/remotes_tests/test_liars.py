"""Far ends that lie from the start or behind 500 right answers, one of six at B = 1, at each command: whatever they do, no wrong byte comes back,
nothing acknowledged is lost, no honest provider is flagged or changed, nothing hangs beyond the limit, and the provider is named."""
from __future__ import annotations

import os
import shutil
from typing import NamedTuple

from .common import FULL, Done, Home, InFolder, object_of

KINDS = ('twos threes threes_again two_and_silence late other extra huge liar noise flip mute slow half half_and_silence asleep early ends dies'
         ' reads_not closes daemon keeps shouts garbage ones zeros all_ff').split()

MAY_SEEM_RIGHT = set('late other extra huge liar flip early ones'.split())
"""Those that say yes to stores, perhaps to each."""

SEEM_RIGHT = set('other liar flip'.split())
"""Those that say yes to each store, and no more."""

SILENT = set('two_and_silence mute slow half_and_silence asleep daemon keeps reads_not'.split())
"""Those that have to be waited for, here for a second."""

HONEST = {'shouts'}
"""Those that do no harm."""

COMMANDS = 'put put_over get audit repair_it repair_other scrub drop'.split()

FEW = {'put', 'get', 'audit'}
"""Commands that are tried also with those that lie from the start."""

OLD, NEW, TINY = (os.urandom(count) for count in (62_000, 61_000, 70))
FILES = {'long': OLD, **{f't{k}': TINY for k in range(8)}}


class Lie(NamedTuple):
    """A command over a far end of this kind behind so many right answers."""

    command: str
    kind: str
    honest: int


def storing(lie: Lie, done: Done) -> str:
    """A command that stores at the far end ends well, or names it, and never well where no store was answered by yes."""
    statuses = {0} if lie.kind in SEEM_RIGHT | HONEST else {0, 13} if lie.kind in MAY_SEEM_RIGHT else {13}
    if done.status not in statuses:
        return f'ends with {done.status}'
    if done.status == 13 and 'hail: provider fault 2\n' not in done.err:
        return 'does not name it'
    return ''


def audited(lie: Lie, done: Done) -> str:
    """An audit flags it, and nobody else."""
    flagged = [line for line in done.text.splitlines() if line.endswith('flagged')]
    named = [line for line in flagged if line.startswith('provider 2 ')]
    if done.status != 0 or flagged != named or not done.text.split('\n')[0].endswith('undecided 0'):
        return 'flags another, or none is decided'
    return '' if named or lie.kind in HONEST else 'does not flag it'


class Liars(InFolder):
    """Each kind at each command."""

    def setUp(self) -> None:
        super().setUp()
        made = Home(self.place / 'made')
        made.make('6 3 1 0 64 1 0')
        made.put(**FILES)
        self.bases = {lost: self.flagged(made, lost) for lost in (None, 2, 4)}
        self.honest = self.bases[None].blocks(0, 1, 3, 4, 5)

    def flagged(self, made: Home, lost: int | None) -> Home:
        """A store with provider 2 far away, in which an audit flagged one that is whole again. The first file, `long`, is object 1."""
        home = made.copy(self.place / f'base-{lost}')
        if lost is not None:
            kept = home.path / f'provider-{lost}'
            os.rename(kept, home.place / 'kept')
            self.assertIn(f'provider {lost} count', home.hail('audit').text)
            shutil.rmtree(kept, ignore_errors=True)
            os.rename(home.place / 'kept', kept)
        home.move_away(2)
        return home

    def do(self, home: Home, command: str) -> Done:
        """Carries a command out."""
        words = {'put': ['put', 'new'], 'put_over': ['put', 'long'], 'get': ['get', 'long'], 'drop': ['drop', 'long']}
        return home.remote(*words.get(command, [command.split('_')[0]]), data=NEW if command.startswith('put') else b'')

    def ended(self, lie: Lie, done: Done) -> str:
        """What is wrong with how the command ended."""
        if lie.command in ('put', 'put_over', 'repair_it', 'scrub'):
            return storing(lie, done)
        if lie.command == 'audit':
            return audited(lie, done)
        if done.status != 0:
            return f'ends with {done.status}'
        return '' if lie.command != 'get' or done.out == OLD else 'gives other bytes'

    def left(self, lie: Lie, home: Home, done: Done) -> str:
        """What is wrong with what the command left: files come back from the honest providers, whose blocks are as they were."""
        files = dict(FILES)
        if lie.command == 'put' and done.status == 0:
            files['new'] = NEW
        if lie.command == 'put_over' and done.status == 0:
            files['long'] = NEW
        if lie.command == 'drop':
            files.pop('long')
        beside = home.without(2)
        listed = sorted(line.split(' ')[0] for line in beside.hail('list').text.splitlines())
        if listed != sorted(files):
            return f'leaves the files {listed}'
        for name in {'new', 'long', 't7'} & set(files):
            if beside.hail('get', name).out != files[name]:
                return f'loses {name}'
        now = home.blocks(0, 1, 3, 4, 5)
        kept = {place: data for place, data in self.honest.items() if files.get('long') == OLD or object_of(place) != '1'}
        changed = [place for place, data in kept.items() if now.get(place) != data]
        return f'changes {changed}' if changed else ''

    def look(self, lie: Lie) -> str:
        """What goes otherwise at a command over a far end."""
        base = self.bases[{'repair_it': 2, 'repair_other': 4}.get(lie.command)]
        home = base.copy(self.place / '-'.join(map(str, lie)))
        home.far_ends(p2=home.lying(lie.kind, honest=lie.honest, limit='1s ' if lie.kind in SILENT else ''))
        done = self.do(home, lie.command)
        found = 'hangs' if done.status == -1 else self.ended(lie, done) or self.left(lie, home, done)
        shutil.rmtree(home.place, ignore_errors=True)
        return found and f'{lie.command} over a far end that is {lie.kind} behind {lie.honest} answers {found}: {done}'

    def test_from_the_start(self) -> None:
        """Each kind from the first answer on."""
        commands = COMMANDS if FULL else [command for command in COMMANDS if command in FEW]
        self.each([Lie(command, kind, 0) for kind in KINDS for command in commands], self.look)

    def test_behind_right_answers(self) -> None:
        """Each kind behind 500 right answers; a drop asks once."""
        self.each([Lie(command, kind, 500) for kind in KINDS for command in COMMANDS if command != 'drop'], self.look)
