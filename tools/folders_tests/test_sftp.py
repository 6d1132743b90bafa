"""hail-sftp by a client of paramiko's, and by packets made by hand: what it does, what it refuses and by which code, and what goes wrong below."""
from __future__ import annotations

import errno
import hashlib
import os
import random
import shutil
import signal
import subprocess
import sys
import unittest
from pathlib import Path
from typing import Any, Callable

from .common import BRIDGE, INIT, TOOLS, InFolder, Pipes, client_of, close_file, fill, get, hail, long, make_home, names_in, paramiko, put, string, word
from folders.home import Home, program
from folders.homes import open_set
from folders.manifest import Key, Manifest, decode, encode

FULL = bool(os.environ.get('FULL'))
"""Whether what takes long is tried at all its steps."""

DATA = random.Random(1).randbytes(4_300_000)
"""Two pieces."""

SOME = DATA[:100_000]
"""One piece."""


class ByClient(InFolder):
    """A test with a client of paramiko's, where there is one."""

    def setUp(self) -> None:
        if paramiko is None:
            self.skipTest('there is no python3-paramiko')
        super().setUp()

    def client(self, homes: list[str], **env: str) -> Any:
        client = client_of(homes, **env)
        self.addCleanup(self.end, client)
        return client

    @staticmethod
    def end(client: Any) -> int:
        if not client.pipes.running.stdin.closed:
            return int(client.pipes.close())
        return 0

    def fails(self, code: int, work: Callable[[], Any]) -> None:
        """SFTP's code for it is this one."""
        numbers = {errno.ENOENT: 2, errno.EACCES: 3}
        with self.assertRaises(IOError) as caught:
            work()
        said = str(caught.exception)
        found = numbers.get(caught.exception.errno or 0) or (8 if said in UNSUPPORTED else 4)
        self.assertEqual(found, code, said)


UNSUPPORTED = ('a file is written anew, not in place', 'a file is written from its front on, no place twice', 'no such request',
               'a file is written from its front on: this is too far ahead', 'a file is as long as it was written',
               'a folder is not renamed: it would be many files', 'a file is read once it is closed', 'Operation unsupported')
"""What is never done here. paramiko tells the text and not the number; `Packets` looks at numbers."""


class Life(ByClient):
    def test_files_and_folders(self) -> None:
        homes = self.homes(2)
        client = self.client(homes)
        for path, data in (('/big', DATA), ('/empty', b''), ('/small', b'x' * 65_536), ('/over', b'y' * 65_537), ('/four', DATA[:4_194_304]), ('/ä b', b'1')):
            put(client, path, data)
            self.assertEqual(get(client, path), data)
            self.assertEqual(client.stat(path).st_size, len(data))
        self.assertEqual(sorted(client.listdir('/')), sorted(['big', 'empty', 'small', 'over', 'four', 'ä b']))
        with client.open('/big', 'r') as file:
            for at in (1, 4_194_300, 4_194_304, 4_299_990):
                file.seek(at)
                self.assertEqual(file.read(100), DATA[at:at + 100])
        client.utime('/big', (1, 1_234_567_890))
        self.assertEqual((client.stat('/big').st_mtime, get(client, '/big')), (1_234_567_890, DATA))
        client.chmod('/big', 0o644)
        client.truncate('/four', 0)
        self.assertEqual(client.stat('/four').st_size, 0)
        client.mkdir('/d')
        client.rename('/small', '/d/small')
        client.remove('/d/small')
        self.assertEqual(client.listdir('/d'), [])
        client.rmdir('/d')
        self.fails(2, lambda: client.stat('/d'))
        client.posix_rename('/big', '/over')
        self.assertEqual(get(client, '/over'), DATA)
        self.assertEqual(self.end(client), 0)
        again = self.client(homes)
        self.assertEqual(get(again, '/over'), DATA)
        self.assertEqual(len(names_in(homes)), 6)   # /over with two pieces, /empty, /four, /ä b

    def test_what_is_refused(self) -> None:
        client = self.client(self.homes(1))
        put(client, '/a', b'one')
        client.mkdir('/d')
        put(client, '/d/x', b'x')
        self.fails(8, lambda: client.open('/a', 'r+').close())
        self.fails(8, lambda: client.open('/a', 'a').close())
        self.fails(8, lambda: client.truncate('/a', 2))
        self.fails(8, lambda: client.posix_rename('/d', '/e'))
        self.fails(8, lambda: client.symlink('/a', '/l'))
        self.fails(4, lambda: client.open('/a', 'wx').close())
        self.fails(4, lambda: client.rename('/d/x', '/a'))
        self.fails(4, lambda: client.mkdir('/d'))
        self.fails(4, lambda: client.mkdir('/a'))
        self.fails(4, lambda: client.rmdir('/d'))
        self.fails(4, lambda: put(client, '/d', b''))
        self.fails(2, lambda: put(client, '/no/x', b''))
        self.fails(2, lambda: put(client, '/a/x', b''))
        self.fails(2, lambda: client.rename('/a', '/no/x'))
        self.fails(2, lambda: client.remove('/no'))
        self.fails(2, lambda: client.rmdir('/no'))
        self.fails(2, lambda: client.listdir('/a'))
        self.assertEqual((get(client, '/a'), get(client, '/d/x')), (b'one', b'x'))

    def test_order_of_writes(self) -> None:
        client = self.client(self.homes(1))
        file = client.open('/mixed', 'w')
        parts = [(at, DATA[at:at + 32_000]) for at in range(0, 500_000, 32_000)]
        random.Random(2).shuffle(parts)
        for at, part in parts:
            file.seek(at)
            file.write(part)
        close_file(client, file)
        self.assertEqual(get(client, '/mixed'), DATA[:512_000])
        file = client.open('/gap', 'w')
        file.write(b'abc')
        file.seek(10)
        file.write(b'def')
        self.fails(4, lambda: close_file(client, file))
        twice = client.open('/twice', 'w')
        twice.write(b'abc')
        twice.seek(1)
        self.fails(8, lambda: twice.write(b'def'))
        self.assertRaises(IOError, close_file, client, twice)
        self.assertEqual(client.listdir('/'), ['mixed'])

    def test_a_client_that_goes_leaves_nothing(self) -> None:
        homes = self.homes(1)
        client = self.client(homes)
        put(client, '/a', b'one')
        file = client.open('/a', 'w')
        file.write(SOME)
        self.assertEqual(get(client, '/a'), b'one')
        file._closed = True
        self.end(client)
        self.assertEqual(len(names_in(homes)), 1)
        self.assertEqual(get(self.client(homes), '/a'), b'one')


def spoil(home: str, place: int, but: str = 'none') -> None:
    """A provider's blocks are random bytes, but for those whose names begin so."""
    for block in Path(home, f'provider-{place}').iterdir():
        if not block.name.startswith(but):
            block.write_bytes(os.urandom(block.stat().st_size))


class Wrong(ByClient):
    """What goes wrong below, and what the client is told."""

    def test_a_killed_program(self) -> None:
        homes = self.homes(2)
        client = self.client(homes)
        put(client, '/a', SOME)
        file = client.open('/a', 'w')
        file.write(SOME[::-1])
        client.pipes.running.send_signal(signal.SIGKILL)
        self.end(client)
        file._closed = True
        again = self.client(homes)
        self.assertEqual(get(again, '/a'), SOME)

    def test_two_at_once(self) -> None:
        homes = self.homes(2)
        one, two = self.client(homes), self.client(homes)
        put(one, '/a', SOME)
        self.assertEqual(get(two, '/a'), SOME)
        file = one.open('/b', 'w')
        file.write(SOME)
        put(two, '/b', b'second')
        three = self.client(homes)      # it is not alone: what is being written is no leftover
        self.assertEqual(get(three, '/b'), b'second')
        close_file(one, file)
        self.assertEqual([get(c, '/b') for c in (one, two, three)], [SOME] * 3)
        two.posix_rename('/b', '/a')
        self.assertEqual([sorted(c.listdir('/')) for c in (one, two, three)], [['a']] * 3)
        three.remove('/a')
        self.fails(2, lambda: get(one, '/a'))
        for client in (one, two, three):
            self.end(client)
        self.assertEqual(names_in(homes), [])

    def test_a_provider_away(self) -> None:
        homes = self.homes(2)
        client = self.client(homes)
        put(client, '/a', SOME)
        for home in homes:
            shutil.rmtree(f'{home}/provider-2')
        self.assertEqual(get(client, '/a'), SOME)
        self.refuse_writes(homes[0])
        put(client, '/b', SOME)         # the other home takes it
        self.assertEqual([name for name in Home(homes[0]).names() if 'piece' in name], [n for n in names_in(homes[:1]) if 'piece' in n])
        self.refuse_writes(homes[1])
        self.fails(4, lambda: put(client, '/c', SOME))
        self.fails(4, lambda: put(client, '/b', b'x'))
        self.fails(4, lambda: client.posix_rename('/a', '/b'))
        self.assertEqual((sorted(client.listdir('/')), client.stat('/b').st_size), (['a', 'b'], len(SOME)))
        for home in homes:
            self.take_writes(home)
        self.assertEqual((get(client, '/a'), get(client, '/b')), (SOME, SOME))
        put(client, '/c', b'x')
        self.assertEqual(get(client, '/c'), b'x')

    def test_it_writes_again_once_all_is_read(self) -> None:
        homes = self.homes(1)
        client = self.client(homes)
        put(client, '/a', SOME)
        self.end(client)
        for place in (1, 2):
            shutil.copytree(f'{homes[0]}/provider-{place}', self.place / f'before-{place}')
            spoil(homes[0], place, but='2-')    # of the tag, the second put
        shutil.rmtree(f'{homes[0]}/folders')
        client = self.client(homes)
        self.fails(3, lambda: put(client, '/c', b'x'))
        for place in (1, 2):
            shutil.copytree(self.place / f'before-{place}', f'{homes[0]}/provider-{place}', dirs_exist_ok=True)
        put(client, '/c', b'x')
        self.assertEqual((get(client, '/a'), get(client, '/c')), (SOME, b'x'))

    def test_the_locks_are_removed_meanwhile(self) -> None:
        """Who starts then takes no notice of a program at work, and removes what that stored: so that one makes no file of it."""
        homes = self.homes(1)
        one = self.client(homes)
        put(one, '/a', SOME)
        file = one.open('/b', 'w')
        file.write(DATA)
        file.flush()
        shutil.rmtree(f'{homes[0]}/folders')
        two = self.client(homes)
        put(two, '/c', b'x')
        self.fails(4, lambda: close_file(one, file))
        self.fails(4, lambda: put(one, '/d', b'x'))
        self.end(one)
        self.assertEqual((sorted(two.listdir('/')), get(two, '/a')), (['a', 'c'], SOME))

    def test_an_older_journal_is_put_back(self) -> None:
        """What was stored since has no name, and what that named in the other home stays, until it was salvaged."""
        homes = self.homes(2)
        client = self.client(homes)
        put(client, '/a', SOME)
        self.end(client)
        copy = self.place / 'journal'
        shutil.copy(f'{homes[0]}/journal', copy)
        (self.place / 'journal.sum').write_text(hashlib.sha256(copy.read_bytes()).hexdigest() + '  journal\n')
        client = self.client(homes)
        given = {'/a': SOME[::-1], **{f'/{k}': DATA[k:] for k in range(3)}, **{f'/s{k}': DATA[k:k + 9] for k in range(6)}}
        for path, data in given.items():
            put(client, path, data)
        self.end(client)
        there = names_in(homes[1:])
        os.remove(f'{homes[0]}/journal')
        restored = subprocess.run([TOOLS / 'hail-restore', homes[0], copy, '40'], stdout=subprocess.PIPE, stderr=subprocess.PIPE)
        self.assertEqual(restored.returncode, 1, restored)
        lines = restored.stdout.decode().splitlines()
        for name in [line.split(':')[0] for line in lines if ': too few blocks: ' in line]:     # what was removed since
            hail(homes[0], 'drop', name)
        client = self.client(homes)
        self.end(client)
        self.assertIn('leftovers stay: ', client.pipes.told)
        self.assertEqual(names_in(homes[1:]), there)
        self.salvage(homes, [int(line.split()[1][:-1]) for line in lines if ': a file that was put since' in line])
        os.remove(f'{homes[0]}/restored')
        client = self.client(homes)
        self.assertEqual({path: get(client, path) for path in given}, given)
        self.end(client)
        self.assertEqual(len(names_in(homes)), len(given) + 1 + 3 * 2)

    def salvage(self, homes: list[str], numbers: list[int]) -> None:
        """Puts what has these numbers in the first home under names again, as the manual page tells."""
        joined = [subprocess.run([TOOLS / 'hail-salvage', homes[0], '1', str(number)], stdout=subprocess.PIPE, check=True).stdout for number in numbers]
        manifests = [data for data in joined if data.startswith(b'hail-file-1 ')]
        self.assertTrue(0 < len(manifests) < len(joined))
        for k, data in enumerate(manifests):
            head = data.index(b'\n') + 1
            hail(homes[0], 'put', f'sftp1-file-{k:020x}', data=data[:head + int(data[:head].split()[2])])
        named = [decode(Home(home).get(name))[0].pieces for home in homes for name in Home(home).names() if name.startswith('sftp1-file-')]
        for piece in [piece for pieces in named for piece in pieces if homes[piece.key.place] == homes[0]]:
            for data in joined:
                if hashlib.sha256(data[:piece.size]).hexdigest() == piece.digest:
                    hail(homes[0], 'put', piece.key.name, data=data[:piece.size])

    def test_a_provider_on_another_machine(self) -> None:
        homes = self.homes(1)
        far = self.place / 'far'
        far.mkdir()
        os.rename(f'{homes[0]}/provider-2', far / 'provider-2')
        Path(homes[0], 'remotes').write_text(f'2 {program()} {far} serve 2\n')
        os.chmod(f'{homes[0]}/remotes', 0o600)
        client = self.client(homes)
        put(client, '/a', SOME)
        put(client, '/b', b'x')
        client.posix_rename('/b', '/c')
        self.assertEqual((get(client, '/a'), get(client, '/c')), (SOME, b'x'))
        self.end(client)
        self.assertEqual((os.path.exists(f'{homes[0]}/provider-2'), len(list((far / 'provider-2').iterdir())) > 10), (False, True))
        self.assertEqual(len(names_in(homes)), 3)

    def test_lying_providers(self) -> None:
        homes = self.homes(1)
        client = self.client(homes)
        put(client, '/a', SOME)
        put(client, '/b', b'x' * 1000)
        self.end(client)
        spoil(homes[0], 1)
        shutil.rmtree(f'{homes[0]}/folders')
        client = self.client(homes)
        self.assertEqual((get(client, '/a'), get(client, '/b')), (SOME, b'x' * 1000))
        self.end(client)
        spoil(homes[0], 2, but='2-')    # of the tag, the second put
        shutil.rmtree(f'{homes[0]}/folders')
        client = self.client(homes)     # more than it bears: no manifest is read, nothing is written, nothing removed
        names = names_in(homes)
        self.fails(2, lambda: get(client, '/a'))
        self.fails(3, lambda: put(client, '/c', b'x'))
        self.fails(3, lambda: client.mkdir('/d'))
        self.end(client)
        spoil(homes[0], 2)              # and the tag
        self.assertEqual(self.bridge(*homes)[0], 4)
        self.assertEqual(names_in(homes), names)

    def test_other_bytes_under_a_name(self) -> None:
        """As N - B colluding providers could have it."""
        homes = self.homes(1)
        client = self.client(homes)
        put(client, '/a', SOME)
        put(client, '/b', b'small')
        self.end(client)
        for name, length in Home(homes[0]).names().items():
            if 'piece' in name:
                hail(homes[0], 'put', name, data=b'\0' * length)
        client = self.client(homes)
        self.fails(4, lambda: get(client, '/a'))
        self.assertEqual(get(client, '/b'), b'small')
        self.end(client)
        manifest = next(n for n, length in Home(homes[0]).names().items() if 'file' in n and length < 250)
        hail(homes[0], 'put', manifest, data=Home(homes[0]).get(manifest)[:-1] + b'x')
        shutil.rmtree(f'{homes[0]}/folders')
        names = names_in(homes)
        client = self.client(homes)
        self.fails(3, lambda: put(client, '/c', b'x'))
        self.end(client)
        self.assertEqual(names_in(homes), names)
        self.assertEqual(hail(homes[0], 'drop', manifest).returncode, 0)    # by hand: then it goes on
        client = self.client(homes)
        put(client, '/c', b'x')
        self.assertEqual(sorted(client.listdir('/')), ['a', 'c'])

    def test_a_full_home_and_one_more(self) -> None:
        home = make_home(self.place / 'h0', '4 1 1 0 1 1 0')
        fill(home, 995)
        self.assertEqual(self.bridge('--init', home)[0], 0)
        client = self.client([home])
        put(client, '/a', SOME)
        put(client, '/b', b'x' * 70_000)    # 1,000 names
        self.fails(4, lambda: put(client, '/c', DATA))
        put(client, '/c', b'y' * 70_000)    # one piece may go on
        client.posix_rename('/c', '/d')
        k = 0
        with self.assertRaises(IOError):
            while k < 30:
                put(client, f'/s{k}', b'x')
                k += 1
        self.assertEqual(len(Home(home).names()), 1024)
        self.assertLess(k, 30)
        self.fails(4, lambda: client.posix_rename('/a', '/e'))
        client.remove('/s0')                # a remove needs no name
        client.posix_rename('/a', '/e')
        self.assertEqual(get(client, '/e'), SOME)
        put(client, '/s0', b'x')
        self.end(client)
        more = make_home(self.place / 'h1')
        self.assertEqual(self.bridge('--add', home, more)[0], 0)
        self.assertEqual(self.bridge(home)[0], 3)
        client = self.client([more, home])
        put(client, '/c', SOME)
        self.assertEqual((get(client, '/c'), get(client, '/d')), (SOME, b'y' * 70_000))
        self.assertEqual(len([n for n in Home(home).names() if n.startswith('full')]), 995)

    def test_locks_that_fill_the_names(self) -> None:
        """As a restic that is killed again and again leaves them: they can be removed where nothing can be written."""
        home = make_home(self.place / 'h0', '4 1 1 0 1 1 0')
        fill(home, 1_000)
        self.assertEqual(self.bridge('--init', home)[0], 0)
        client = self.client([home])
        client.mkdir('/locks')
        with self.assertRaises(IOError):
            for k in range(30):
                put(client, f'/locks/{k}', b'lock')
        self.assertEqual(len(client.listdir('/locks')), 23)
        for name in client.listdir('/locks'):
            client.remove(f'/locks/{name}')
        put(client, '/a', b'x')
        self.assertEqual(sorted(client.listdir('/')), ['a', 'locks'])

    def test_a_full_disk_below_the_locks(self) -> None:
        homes = self.homes(1)
        client = self.client(homes)
        put(client, '/a', SOME)
        count = Path(homes[0], 'folders/count')
        count.unlink()
        count.mkdir()       # it can't be written, as on a full disk
        self.fails(4, lambda: put(client, '/b', b'x'))
        self.fails(4, lambda: client.remove('/a'))
        self.assertEqual(get(client, '/a'), SOME)
        self.end(client)
        client = self.client(homes)
        self.assertEqual(get(client, '/a'), SOME)
        count.rmdir()
        put(client, '/b', b'x')
        self.assertEqual(sorted(client.listdir('/')), ['a', 'b'])

    def test_journals_are_copied(self) -> None:
        """To the places that homes name, by the end of the session; a place that is away is told, and nothing else goes otherwise."""
        homes = [make_home(self.place / f'h{k}') for k in range(2)]
        places = [self.place / f'copies{k}' for k in range(2)]
        for home, place in zip(homes, places):
            place.mkdir()
            Path(home, 'copies').write_text(f'{place}\n')
        self.assertEqual(self.bridge('--init', *homes)[0], 0)
        self.assertTrue(all(self.is_copied(home) for home in homes))
        spy, calls = self.place / 'spy', self.place / 'calls'
        spy.write_text(f'#!/bin/sh\necho "$2 $HAIL_KEEPS" >>{calls}\nexec {program()} "$@"\n')
        spy.chmod(0o700)
        client = self.client(homes, HAIL=str(spy))
        put(client, '/a', DATA)
        self.assertFalse(all(self.is_copied(home) for home in homes))
        self.assertEqual({line for line in calls.read_text().splitlines() if line.startswith('put')}, {'put 1'})     # hail copies none
        self.assertEqual(self.end(client), 0)
        self.assertEqual((client.pipes.told, all(self.is_copied(home) for home in homes)), ('', True))
        places[1].rename(self.place / 'away')
        client = self.client(homes)
        put(client, '/b', DATA)
        self.assertEqual(self.end(client), 0)
        self.assertEqual(client.pipes.told, f'hail-sftp: {homes[1]}: no copy of the journal: {places[1]}: is away\n')
        self.assertEqual([self.is_copied(home) for home in homes], [True, False])

    @staticmethod
    def is_copied(home: str) -> bool:
        return subprocess.run([TOOLS / 'hail-keep', '-c', home], stdout=subprocess.DEVNULL).returncode == 0

    def test_what_stays_of_others(self) -> None:
        homes = self.homes(1)
        client = self.client(homes)
        put(client, '/a', SOME)
        self.end(client)
        for name in ('notes', 'sftp1-piece-' + '0' * 20, 'sftp1-piece-short'):
            hail(homes[0], 'put', name, data=b'mine')
        for name in os.listdir(f'{homes[0]}/folders'):
            Path(homes[0], 'folders', name).write_text('[spoilt')
        client = self.client(homes)
        self.assertEqual(get(client, '/a'), SOME)
        self.end(client)
        names = Home(homes[0]).names()
        self.assertNotIn('sftp1-piece-' + '0' * 20, names)
        self.assertEqual([names.get('notes'), names.get('sftp1-piece-short')], [4, 4])

    def test_a_manifest_of_a_home_that_is_not_there(self) -> None:
        homes = self.homes(1)
        from .test_forms import piece
        hail(homes[0], 'put', 'sftp1-file-' + '0' * 20, data=encode(Manifest('/a', 3, 0, 1, (piece(3),), (Key(7, 'sftp1-file-' + '1' * 20),)), b''))
        client = self.client(homes)
        self.fails(3, lambda: put(client, '/c', b'x'))


class Sets(InFolder):
    """Which homes are taken."""

    def test_no_paramiko(self) -> None:
        """Debian's package is named, and sets can be made without it."""
        home = make_home(self.place / 'home')
        program = 'import sys; sys.modules["paramiko"] = None; sys.path.insert(0, sys.argv.pop(1)); from folders.sftp import main; sys.exit(main(sys.argv[1:]))'
        start = [sys.executable, '-c', program, str(TOOLS)]
        self.assertEqual(subprocess.run([*start, '--init', home]).returncode, 0)
        served = subprocess.run([*start, home], stdin=subprocess.DEVNULL, stderr=subprocess.PIPE)
        self.assertEqual((served.returncode, b'install python3-paramiko' in served.stderr), (1, True), served.stderr)

    @unittest.skipUnless(paramiko, 'there is no python3-paramiko')
    def test_sets(self) -> None:
        one, two, other = self.homes(2) + [make_home(self.place / 'other')]
        os.symlink('h0', self.place / 'link')
        self.assertEqual(self.bridge(one, two, data=INIT)[0], 0)
        self.assertEqual(self.bridge(two, one, data=INIT)[0], 0)
        self.assertEqual([self.bridge(task, one, two)[0] for task in ('--init', '--add')], [0, 0])     # what is done already
        for words in ([one], [two], [one, two, other], [one, one], [one, two, str(self.place / 'link')], [other], [one, other], ['--init', one, other],
                      ['--init', two, one], ['--init', other, two], ['--add', other], ['--add', one, other], ['--add', two, other]):
            self.assertEqual(self.bridge(*words)[0], 3, words)
        self.assertEqual(self.bridge('--init', other)[0], 0)
        for words in ([one, other], ['--add', one, two, other], ['--init', one, two, other]):
            self.assertEqual(self.bridge(*words)[0], 3, words)
        no_words: tuple[list[str], ...] = ([], ['--init'], ['-x', one], ['--listen', '2022', one])
        for words in no_words:
            self.assertEqual(self.bridge(*words)[0], 2, words)
        for words in ([one, str(self.place / 'nowhere')], [str(self.place)], ['--init', str(self.place)]):
            self.assertEqual(self.bridge(*words)[0], 4, words)
        self.assertEqual(names_in([one, two, other]), [])

    def test_two_are_added_at_once(self) -> None:
        """The second is told to name what the first added."""
        homes = self.homes(1)
        for turn in range(4):
            more = [make_home(self.place / f'{turn}-{k}') for k in range(2)]
            running = [subprocess.Popen([BRIDGE, '--add', *homes, home], stderr=subprocess.DEVNULL) for home in more]
            statuses = [process.wait() for process in running]
            self.assertEqual(sorted(statuses), [0, 3])
            homes.append(more[statuses.index(0)])
        self.assertEqual(len(open_set(homes)), 5)

    @unittest.skipUnless(paramiko, 'there is no python3-paramiko')
    def test_a_home_whose_journal_is_older(self) -> None:
        """Its tag is gone, and the others' pieces are no leftovers."""
        homes = self.homes(2)
        hail(homes[1], 'put', 'sftp1-piece-' + '0' * 20, data=b'x')
        hail(homes[0], 'drop', 'sftp1-set')
        hail(homes[1], 'drop', 'sftp1-set')
        for words in (homes, ['--init', *homes], ['--add', *homes]):
            self.assertEqual(self.bridge(*words)[0], 3)
        self.assertEqual(len(names_in(homes)), 1)

    @unittest.skipUnless(paramiko, 'there is no python3-paramiko')
    def test_a_home_that_is_moved(self) -> None:
        """To another shape; cut off at any call of hail, what its files name in the other home is no leftover."""
        other, old = self.homes(2)      # which get the pieces, and the manifests
        new = make_home(self.place / 'new', '5 2 1 4 4 8 0')
        given = {f'/{k}': DATA[k:k + 70_000] for k in range(3)}
        client = client_of([old, other])
        for path, data in given.items():
            put(client, path, data)
        client.pipes.close()
        stays = names_in([other])
        kept = self.place.with_suffix('.kept')
        shutil.copytree(self.place, kept)
        self.addCleanup(shutil.rmtree, kept)
        spy, cut = self.place / 'spy', True
        for call in (*(range(1, 24) if FULL else (3, 6, 13)), 10_000):
            shutil.rmtree(self.place)
            shutil.copytree(kept, self.place)
            spy.write_text(f'#!/bin/sh\necho >>{spy}.calls\n[ "$(wc -l <{spy}.calls)" -ne {call} ] || kill -KILL $PPID\nexec {program()} "$@"\n')
            spy.chmod(0o700)
            moved = subprocess.run([TOOLS / 'hail-move', old, new], env={**os.environ, 'HAIL': str(spy)}, stdout=subprocess.PIPE, stderr=subprocess.PIPE)
            cut = call < 10_000
            with self.subTest(call=call):
                self.assertEqual(moved.returncode == 0, not cut, moved)
                for homes in ([old, other], [new, other]) if cut else ():
                    self.assertIn(self.bridge(*homes, data=INIT)[0], (0, 3))
                    self.assertEqual(names_in([other]), stays)
                self.assertEqual(subprocess.run([TOOLS / 'hail-move', old, new], stdout=subprocess.PIPE).returncode, 0)
                self.assertEqual(self.bridge(old, other)[0], 3)
                client = client_of([new, other])
                self.assertEqual({path: get(client, path) for path in given}, given)
                client.pipes.close()
                self.assertEqual(client.pipes.told, '')
        self.assertEqual(subprocess.run([TOOLS / 'hail-move', other, new], stdout=subprocess.PIPE, stderr=subprocess.PIPE).returncode, 3)

    @unittest.skipUnless(paramiko, 'there is no python3-paramiko')
    def test_a_tag_of_others(self) -> None:
        homes = self.homes(1)
        for text in (b'', b'[]', b'{"set": "x", "own": "y", "members": ["y"]}',
                     b'{"set": "0123456789abcdef", "own": "123456789abcdef0", "members": ["123456789abcdef0", "123456789abcdef0"]}'):
            hail(homes[0], 'put', 'sftp1-set', data=text)
            self.assertEqual(self.bridge(*homes)[0], 3)


class Packets(ByClient):
    """Packets made by hand, with SFTP's numbers."""

    def talk(self, home: str, *packets: bytes) -> tuple[int, list[bytes]]:
        """The status, and the answers but for the version."""
        pipes = Pipes([home])
        pipes.send(INIT)
        self.assertEqual(pipes.receive()[:5], b'\2\0\0\0\3')
        answers = []
        for packet in packets:
            pipes.send(string(packet))
            if packet[0] == 3:      # who opens knows the handle by the answer
                answers.append(pipes.receive())
        while len(answers) < len(packets):
            answers.append(pipes.receive())
        return pipes.close(), answers

    def codes(self, home: str, *packets: bytes) -> list[tuple[int, int, int]]:
        """Of each answer kind, number and, of a status, its code; in the order of the numbers."""
        status, answers = self.talk(home, *packets)
        self.assertEqual(status, 0)
        return sorted(((a[0], int.from_bytes(a[1:5], 'big'), int.from_bytes(a[5:9], 'big') if a[0] == 101 else -1) for a in answers), key=lambda a: a[1])

    def test_codes(self) -> None:
        home = self.homes(1)[0]
        path, none, file = string('/x'), word(0), string('hx1')
        answers = self.codes(
            home,
            b'\3' + word(1) + path + word(2 | 8 | 16) + none,          # a file is made: its handle is hx1
            b'\6' + word(2) + file + long(0) + string('abc'),
            b'\6' + word(3) + file + long(1) + string('d'),            # a place twice
            b'\4' + word(4) + file,
            b'\x11' + word(5) + path,                                  # so there is none
            b'\3' + word(6) + path + word(2 | 4 | 8) + none,           # to append
            b'\x13' + word(7) + path,                                  # a link is read
            b'\x63' + word(8),                                         # no such kind
            b'\3' + word(9) + string(b'\xff') + word(1) + none,        # no UTF-8
            b'\x11' + word(10) + b'\0\0\0\x09/x',                      # a packet that is too short
            b'\6' + word(11) + string('9') + long(0) + string('abc'),  # no such handle
            b'\xc8' + word(12) + string('fsync@openssh.com') + file,
            b'\x10' + word(13) + string('.'),
            b'\x11' + word(14) + string('/a\0b'),
            b'\4' + word(15) + file,                                   # a second close
            b'\x0a' + word(16) + string('9') + none,
            b'\xc8' + word(17) + string('check-file') + file + string('md5') + long(0) + long(0) + word(0),
            b'\xc8' + word(18) + string('statvfs@openssh.com') + string('/'),
            b'\x14' + word(19) + path + path,                          # a link is made
            b'\x09' + word(20) + path + word(1) + long(0),
        )
        self.assertEqual(answers, [
            (102, 1, -1), (101, 2, 0), (101, 3, 8), (101, 4, 4), (101, 5, 2), (101, 6, 8), (101, 7, 8), (101, 8, 8), (101, 9, 5), (101, 10, 5), (101, 11, 4),
            (101, 12, 8), (104, 13, -1), (101, 14, 4), (101, 15, 4), (101, 16, 4), (101, 17, 8), (201, 18, -1), (101, 19, 8), (101, 20, 2)])
        self.assertEqual(names_in([home]), [])

    def test_handles_of_another_kind(self) -> None:
        home = self.homes(1)[0]
        path, none, file, folder = string('/x'), word(0), string('hx1'), string('hx2')
        answers = self.codes(
            home,
            b'\3' + word(1) + path + word(2 | 8 | 16) + none,
            b'\x0b' + word(2) + string('/'),
            b'\x0c' + word(3) + file,
            b'\5' + word(4) + folder + long(0) + word(9),
            b'\x0a' + word(5) + folder + none,
            b'\5' + word(6) + file + long(0) + word(9),
            b'\x0a' + word(7) + file + word(1) + long(5),
            b'\x0a' + word(8) + file + word(8) + word(7) + word(7),
            b'\x0c' + word(9) + folder,
            b'\x0c' + word(10) + folder,
            b'\4' + word(11) + folder,
            b'\4' + word(12) + file,
        )
        self.assertEqual(answers, [(102, 1, -1), (102, 2, -1), (101, 3, 4), (101, 4, 4), (101, 5, 4), (101, 6, 8), (101, 7, 8), (101, 8, 0),
                                   (104, 9, -1), (101, 10, 1), (101, 11, 0), (101, 12, 0)])
        self.assertEqual(len(names_in([home])), 1)

    def test_what_is_no_sftp(self) -> None:
        home = self.homes(1)[0]
        for data in (b'\0\0\0\5\3\0\0\0\1', b'SSH-2.0-x\r\n', INIT + b'\0\0\0\1\3', INIT + b'\xff\xff\xff\xff'):
            self.assertEqual(self.bridge(home, data=data)[0], 1, data)
        for data in (b'', INIT, INIT + b'\0', INIT + b'\0\0\0\7\3\0\0'):     # the client went
            self.assertEqual(self.bridge(home, data=data)[0], 0, data)
        self.assertEqual(self.bridge(home, '--', '-s', 'x', data=INIT)[0], 0)

    def test_a_request_behind_an_unanswered_close(self) -> None:
        home = self.homes(1)[0]
        path = string('/x')
        write = b'\3' + word(1) + path + word(2 | 8 | 16) + word(0)
        answers = self.codes(home, write, b'\6' + word(2) + string('hx1') + long(0) + string('abc'), b'\4' + word(3) + string('hx1'),
                             b'\x12' + word(4) + path + string('/y'), b'\x11' + word(5) + string('/y'), b'\x0d' + word(6) + string('/y'))
        self.assertEqual(answers, [(102, 1, -1), (101, 2, 0), (101, 3, 0), (101, 4, 0), (105, 5, -1), (101, 6, 0)])


if __name__ == '__main__':
    unittest.main()
