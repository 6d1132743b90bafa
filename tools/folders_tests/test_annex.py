"""git-annex-remote-hail, told lines as git-annex would tell them: what is due was worked out by hand."""
from __future__ import annotations

import hashlib
import os
import shutil
import subprocess
import unittest
from pathlib import Path

from .common import TOOLS, InFolder, fill, hail, make_home
from folders.annex import SAY_CHUNK
from folders.home import Home

REMOTE = str(TOOLS / 'git-annex-remote-hail')
LONG = 'SHA256E-s5--' + hashlib.sha256(b'hello').hexdigest() + '.txt'


class Remote(InFolder):
    def setUp(self) -> None:
        super().setUp()
        before = os.getcwd()
        os.chdir(self.place)
        self.addCleanup(os.chdir, before)

    def told(self, *lines: str) -> list[str]:
        """What the remote says to these lines, but for its version and what it asks."""
        ran = subprocess.run([REMOTE], input='\n'.join([*lines, '']).encode(), stdout=subprocess.PIPE)
        said = ran.stdout.decode().splitlines()
        self.assertEqual(said[0], 'VERSION 1')
        return [line for line in said[1:] if not line.startswith(('GETCONFIG', 'PROGRESS'))]

    def speaks(self, homes: str, *lines: str, check: str = '') -> list[str]:
        """The same behind a PREPARE over these homes, which is to end well."""
        said = self.told('PREPARE', f'VALUE {check}', f'VALUE {homes}', *lines)
        self.assertEqual(said[0], 'PREPARE-SUCCESS')
        return said[1:]

    def home(self, name: str, shape: str = '4 1 1 4 4 8 0') -> str:
        return make_home(Path(os.path.realpath(self.place)) / name, shape)

    def test_keys(self) -> None:
        home, two = self.home('home'), self.home('two')
        Path('a file').write_bytes(b'hello')
        said = self.speaks(
            home, f'CHECKPRESENT {LONG}', f'TRANSFER RETRIEVE {LONG} back', f'REMOVE {LONG}', f'TRANSFER STORE {LONG} a file', f'CHECKPRESENT {LONG}',
            f'TRANSFER RETRIEVE {LONG} a file back', 'TRANSFER STORE WORM--short a file', 'WHEREIS WORM--short', 'GETINFO', 'REMOVE WORM--short',
            'CHECKPRESENT WORM--short', 'WHEREIS WORM--short', 'GETCOST', 'GETAVAILABILITY', 'CLAIMURL x', 'TRANSFER SEND x y')
        self.assertEqual(said, [
            f'CHECKPRESENT-FAILURE {LONG}', f'TRANSFER-FAILURE RETRIEVE {LONG} no home has it', f'REMOVE-SUCCESS {LONG}', f'TRANSFER-SUCCESS STORE {LONG}',
            f'CHECKPRESENT-SUCCESS {LONG}', f'TRANSFER-SUCCESS RETRIEVE {LONG}', 'TRANSFER-SUCCESS STORE WORM--short', f'WHEREIS-SUCCESS {home}, WORM--short',
            f'INFOFIELD home {home}', 'INFOVALUE 2 of 1,024 files', 'INFOEND', 'REMOVE-SUCCESS WORM--short', 'CHECKPRESENT-FAILURE WORM--short',
            'WHEREIS-FAILURE', 'COST 200', 'AVAILABILITY LOCAL', 'UNSUPPORTED-REQUEST', 'UNSUPPORTED-REQUEST'])
        self.assertEqual(Path('a file back').read_bytes(), b'hello')
        self.assertEqual(Home(home).names(), {hashlib.sha256(LONG.encode()).hexdigest(): 5})
        self.assertEqual(self.speaks(f'{home}:{two}', 'ERROR stop', 'GETCOST'), [])

    def test_what_is_no_key(self) -> None:
        home = self.home('home')
        Path('big').write_bytes(bytes(4_194_305))
        os.mkdir('folder')
        self.assertEqual(self.speaks(home, 'TRANSFER STORE a big', 'TRANSFER STORE a none', 'TRANSFER STORE a folder', 'TRANSFER RETRIEVE a folder'), [
            f'TRANSFER-FAILURE STORE a it is longer than hail takes: {SAY_CHUNK}', 'TRANSFER-FAILURE STORE a none cannot be read: No such file or directory',
            'TRANSFER-FAILURE STORE a folder cannot be read: Is a directory', 'TRANSFER-FAILURE RETRIEVE a no home has it'])

    def test_settings(self) -> None:
        home, two = self.home('home'), self.home('two')
        for check, homes, fault in (('', 'nowhere', 'no store in nowhere'), ('', '', 'say homes=HOME, or homes=HOME:HOME:..; hail-init makes one'),
                                    ('', 'home:home', 'a home stands twice'), ('', 'home::two', 'no store in '), ('both', 'home', 'check is get or list')):
            self.assertEqual(self.told('PREPARE', f'VALUE {check}', f'VALUE {homes}')[0], f'PREPARE-FAILURE {fault}')
        self.assertEqual(self.told('EXTENSIONS x', 'INITREMOTE', 'VALUE list', 'VALUE home:two', 'VALUE 4MiB'),
                         ['EXTENSIONS', f'SETCONFIG homes {home}:{two}', 'INITREMOTE-SUCCESS'])
        self.assertEqual(self.told('INITREMOTE', 'VALUE ', 'VALUE home', 'VALUE '), [f'INITREMOTE-FAILURE {SAY_CHUNK}'])
        self.assertEqual(len(self.told('LISTCONFIGS')), 3)

    def test_damage_is_neither_present_nor_missing(self) -> None:
        home = self.home('home')
        Path('file').write_bytes(os.urandom(100_000))
        ask = ('CHECKPRESENT a', 'TRANSFER RETRIEVE a back')
        well = ['CHECKPRESENT-SUCCESS a', 'TRANSFER-SUCCESS RETRIEVE a']
        self.assertEqual(self.speaks(home, 'TRANSFER STORE a file'), ['TRANSFER-SUCCESS STORE a'])
        shutil.rmtree('home/provider-1')
        self.assertEqual(self.speaks(home, *ask), well)
        self.assertEqual(Path('back').read_bytes(), Path('file').read_bytes())
        os.rename('home/provider-2', 'away')
        lost = f'{home}: a: status 4 hail: lost row 0'
        self.assertEqual(self.speaks(home, *ask, 'CHECKPRESENT b'),
                         [f'CHECKPRESENT-UNKNOWN a {lost}', f'TRANSFER-FAILURE RETRIEVE a {lost}', 'CHECKPRESENT-FAILURE b'])
        self.assertEqual(self.speaks(home, 'CHECKPRESENT a', check='list'), ['CHECKPRESENT-SUCCESS a'])
        Path('home/provider-2').touch()
        self.assertEqual(self.speaks(home, 'TRANSFER STORE b file', 'CHECKPRESENT b'),
                         [f'TRANSFER-FAILURE STORE b {home}: status 13 hail: provider fault 2', 'CHECKPRESENT-FAILURE b'])
        os.remove('home/provider-2')
        os.rename('away', 'home/provider-2')
        self.assertEqual(hail('home', 'scrub').returncode, 0)
        shutil.rmtree('home/provider-3')
        self.assertEqual(self.speaks(home, *ask), well)
        Path('home/journal').write_bytes(b'XXX' + Path('home/journal').read_bytes()[3:])
        spoilt = 'status 8 hail: bad journal at 0'
        self.assertEqual(self.speaks(home, 'CHECKPRESENT a', 'REMOVE a'),
                         [f'CHECKPRESENT-UNKNOWN a {home}: a: {spoilt}', f'REMOVE-FAILURE a {home}: a is not dropped: {spoilt}'])

    def test_the_journal_is_copied(self) -> None:
        home = self.home('home')
        os.mkdir('copies')
        Path('home/copies').write_text(os.path.realpath('copies') + '\n')
        Path('file').write_bytes(b'hello')
        self.assertEqual(self.speaks(home, 'TRANSFER STORE a file'), ['TRANSFER-SUCCESS STORE a'])
        stored = Path('copies/journal').read_bytes()
        self.assertEqual(self.speaks(home, 'REMOVE a'), ['REMOVE-SUCCESS a'])
        self.assertNotEqual(Path('copies/journal').read_bytes(), stored)
        self.assertEqual(subprocess.run([TOOLS / 'hail-keep', '-c', home]).returncode, 0)

    def test_full_homes(self) -> None:
        homes = [self.home(f'home{k}', '4 1 1 0 1 1 0') for k in range(3)]
        keys = [f'KEY--{k}' for k in range(9)]
        for key in keys:
            Path(key).write_text(key)
        stored = self.speaks(':'.join(homes), *(f'TRANSFER STORE {key} {key}' for key in keys))
        self.assertEqual(stored, [f'TRANSFER-SUCCESS STORE {key}' for key in keys])
        self.assertTrue(all(Home(home).names() for home in homes))
        for home in homes[:2]:
            for name in Home(home).names():
                Home(home).drop(name)
            fill(home, 1024)
        said = self.speaks(':'.join(homes), *(f'TRANSFER STORE {key} {key}' for key in keys), *(f'TRANSFER RETRIEVE {key} {key}.back' for key in keys),
                           *(f'WHEREIS {key}' for key in keys))
        self.assertEqual(said[-9:], [f'WHEREIS-SUCCESS {homes[2]}, {key}' for key in keys])
        self.assertEqual([Path(f'{key}.back').read_text() for key in keys], keys)
        os.remove('home1/journal')
        self.assertEqual(self.told('PREPARE', 'VALUE ', f'VALUE {":".join(homes)}'), [f'PREPARE-FAILURE no store in {homes[1]}'])
        self.assertEqual(self.speaks(homes[0], 'TRANSFER STORE a KEY--1', 'CHECKPRESENT a'), ['TRANSFER-FAILURE STORE a every home is full', 'CHECKPRESENT-FAILURE a'])


if __name__ == '__main__':
    unittest.main()
