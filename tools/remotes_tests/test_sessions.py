"""A repair, a scrub, a put and a get of more requests than a session of a far end has go through; a far end that is lost at the change of sessions
is named, and counts as gone."""
from __future__ import annotations

import os
import shutil

from .common import FULL, HERE, TOOLS, Done, Home, InFolder, run

SESSIONS = {'repair': 25_000, 'put': 25_000, 'scrub': 12_000, 'get': 200}
"""Bytes of a session, by command: so some twenty changes in a repair or put of a million bytes."""

COUNTING = 'echo >>{begun}; exec SERVE'
"""A far end that tells how often it was begun."""

AT_THE_CHANGE = {
    'does not begin again': '[ ! -e {begun} ] || exit 1; touch {begun}; exec SERVE',
    'is not there any more': '[ ! -e {begun} ] || exec {begun}-nowhere; touch {begun}; exec SERVE',
    'is killed behind three more answers': '[ ! -e {begun} ] || exec {dies}; touch {begun}; exec SERVE',
    'is silent at its second beginning': '[ ! -e {begun} ] || exec sleep 1000; touch {begun}; exec SERVE',
    'answers what it was not asked': '[ ! -e {begun} ] || exec yes; touch {begun}; exec SERVE',
}


class Sessions(InFolder):
    """Sessions that are used up."""

    def remote(self, home: Home, *words: str, data: bytes = b'') -> Done:
        """hail-remote, with short sessions."""
        return run([str(HERE / 'short_sessions.py'), str(SESSIONS.get(words[0], 1 << 24)), str(TOOLS / 'hail-remote'), str(home.path), *words], data)

    def home(self, files: dict[str, bytes], shape: str) -> Home:
        """A store with these files, whose provider 2 is far away, and flagged, as it has lost its blocks."""
        home = Home(self.place / 'made')
        home.make(shape)
        home.put(**files)
        shutil.rmtree(home.path / 'provider-2')
        self.assertIn('provider 2 count', home.hail('audit').text)
        (home.path / 'provider-2').mkdir()
        home.move_away(2)
        return home

    def well(self, done: Done, out: bytes = b'') -> None:
        """It ended with 0, and perhaps with this output."""
        self.assertEqual(done.status, 0, done.err)
        if out:
            self.assertEqual(done.out, out)

    def begun(self, home: Home) -> int:
        """How often the far end was begun since this was asked."""
        path = home.place / 'begun'
        count = len(path.read_text()) if path.exists() else 0
        path.unlink(missing_ok=True)
        return count

    def test_many_sessions(self) -> None:
        """Each command goes over several changes."""
        data = os.urandom(1_000_000)
        home = self.home({'file': data}, '6 3 1 4 16 64 0')
        home.far_ends(p2=COUNTING.format(begun=home.place / 'begun'))
        for words, least in ((['repair'], 18), (['scrub'], 1), (['put', 'file'], 18), (['get', 'file'], 5)):
            self.well(self.remote(home, *words, data=data if words[0] == 'put' else b''), data if words[0] == 'get' else b'')
            self.assertGreaterEqual(self.begun(home), least, words)
        home.far_ends(p2='SERVE')
        self.assertEqual(home.remote('scrub').text.count(' blocks 0\n'), 6)

    def test_lost_at_the_change(self) -> None:
        """A repair names the far end, its audit stays due, and what was stored comes back."""
        data = os.urandom(120_000)
        made = self.home({'file': data}, '6 3 1 4 16 64 0')
        self.each(list(AT_THE_CHANGE), lambda kind: self.lost(made, data, kind))

    def lost(self, made: Home, data: bytes, kind: str) -> str:
        """What goes otherwise where it is lost so."""
        home = made.copy(self.place / kind.replace(' ', '-'))
        command = '1s ' * (kind == 'is silent at its second beginning')
        command += AT_THE_CHANGE[kind].format(begun=home.place / 'begun', dies=home.lying('dies', honest=3))
        found = []
        for words, status in ((['repair'], 13), (['audit'], 6), (['scrub'], 13), (['put', 'other'], 13), (['get', 'file'], 0), (['drop', 'file'], 0)):
            home.far_ends(p2=command)
            self.begun(home)
            done = self.remote(home, *words, data=data if words[0] == 'put' else b'')
            named = 'hail-remote: provider 2 is given up: ' in done.err or words[0] in ('audit', 'drop')
            if done.status != status or not named or (status == 13 and 'hail: provider fault 2\n' not in done.err):
                found.append(f'{words[0]} ends with {done.status}: {done.err}')
            if words[0] == 'get' and done.out != data:
                found.append('get gives other bytes')
        return f'a far end that {kind}: {found}' if found else ''

    def lost_at_a_real_change(self, home: Home) -> None:
        """A repair behind which the far end does not begin again names it, stays due, and ends well once it is back."""
        begun = home.place / 'begun'
        shutil.rmtree(home.place / 'far-2' / 'provider-2')
        self.assertIn('flagged', home.remote('audit').text)
        self.begun(home)
        home.far_ends(p2=AT_THE_CHANGE['does not begin again'].format(begun=begun))
        done = home.remote('repair')
        self.assertEqual((done.status, begun.exists()), (13, True), done)
        self.assertIn('hail: provider fault 2\n', done.err)
        self.assertGreater(len(home.gathered().blocks(2)), 8000)
        self.assertEqual(home.remote('audit').status, 6)
        home.far_ends(p2='SERVE')
        self.well(home.remote('repair'))

    def test_whole_sessions(self) -> None:
        """64 MiB of files over real sessions, of which a repair takes three."""
        if not FULL:
            self.skipTest('it takes long')
        files = {f'f{number}': os.urandom(1 << 22) for number in range(16)}
        home = self.home(files, '6 3 1 1 1 64 0')
        begun = home.place / 'begun'
        home.far_ends(p2=COUNTING.format(begun=begun))
        for word in ('repair', 'scrub'):
            for path in (home.place / 'far-2' / 'provider-2').iterdir():
                path.unlink()
            done = run([str(TOOLS / 'hail-remote'), str(home.path), word])
            self.well(done)
            sessions = self.begun(home)
            self.assertGreaterEqual(sessions, 3)
            print(f'{word} of 64 MiB: {done.seconds:.1f} s, {sessions} sessions')
        self.lost_at_a_real_change(home)
        self.assertEqual(home.remote('scrub').text.count(' blocks 0\n'), 6)
        for name, data in files.items():
            self.well(home.remote('get', name), data)
