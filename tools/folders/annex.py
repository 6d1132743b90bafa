"""git-annex-remote-hail: keeps keys of git-annex in homes of hail, by its protocol for external special remotes.

git-annex cuts files into chunks, encrypts them, and knows their names, folders and versions. A key is a file of hail under its own name or,
where hail takes no such name, under the SHA-256 of it in hexadecimal. A key goes to the home that this checksum tells or, where that is full,
to the next; it is looked for in all of them. So homes can be added at any time, in any order.
"""
from __future__ import annotations

import contextlib
import hashlib
import os
import re
import subprocess
import sys
import time
from typing import BinaryIO, Callable, Iterator, Sequence

from .copies import Copies
from .home import LONGEST, MOST_NAMES, Answer, Doubt, Home, Missing, NoAnswer, Refused, answer_of, is_stored, told

STATUS_FULL = (11, 21)
"""The home's journal, or its names, are full."""

CONFIGS = (
    'CONFIG homes the homes of hail, with a colon between',
    'CONFIG check get, to read a key whole when asked whether it is present, or list, to look into the journal',
)
SAY_CHUNK = 'say chunk=4MiB, or chunk=4MB where it encrypts, which adds bytes: hail takes no file over 4 MiB'


def name_of(key: str) -> str:
    """The file of a key. One that looks like a checksum gets one too, so that no two keys have one name but by a collision."""
    if re.fullmatch(r'[A-Za-z0-9._-]{1,64}', key) and not re.fullmatch('[0-9a-f]{64}', key):
        return key
    return hashlib.sha256(os.fsencode(key)).hexdigest()


class Homes:
    """Several homes as one store of files of at most 4 MiB."""

    def __init__(self, homes: Sequence[Home]) -> None:
        self.homes = list(homes)
        self.copies = Copies(homes)

    def _turn(self, name: str) -> list[Home]:
        """The homes, from the one that the checksum of a name tells."""
        first = int(hashlib.sha256(name.encode()).hexdigest()[:8], 16) % len(self.homes)
        return self.homes[first:] + self.homes[:first]

    def put(self, name: str, path: str, tell: Callable[[int], None]) -> None:
        """Stores a file under a name, in the first home of its turn that is not full. Tells now and then how many bytes it has read."""
        try:
            with open(path, 'rb') as source:
                length = os.fstat(source.fileno()).st_size
                if length > LONGEST:
                    raise Refused('it is longer than hail takes: ' + SAY_CHUNK)
                self._put_somewhere(name, source, length, tell)
        except OSError as fault:
            raise Refused(f'{path} cannot be read: {fault.strerror}') from fault

    def _put_somewhere(self, name: str, source: BinaryIO, length: int, tell: Callable[[int], None]) -> None:
        for home in self._turn(name):
            source.seek(0)
            answer = _wait(home.start(('put', name), source), source, tell)
            self.copies.changed(home)
            if is_stored(answer, name, length):
                return
            if answer.status == 0:
                home.drop(name)
                raise Refused('the file changed while it was read')
            if answer.status not in STATUS_FULL:
                raise Refused(f'{home.path}: {told(answer)}')
        raise Refused('every home is full')

    def get(self, name: str) -> bytes:
        """The bytes of a name, from the first home that gives them. Missing where each home says that it has none; else Refused."""
        fault: Refused | None = None
        for home in self._turn(name):
            try:
                return home.get(name)
            except Missing:
                pass
            except Refused as refused:
                fault = refused
        raise fault or Missing('no home has it')

    def drop(self, name: str) -> None:
        """No home has the name any more. Refused where one does not say so."""
        fault: Refused | None = None
        for home in self.homes:
            try:
                home.drop(name)
            except (Doubt, NoAnswer) as refused:
                fault = refused
            self.copies.changed(home)
        if fault:
            raise fault

    def place(self, name: str) -> Home:
        """The home whose journal has the name. Missing where none has; NoAnswer where one does not say."""
        for home, names in zip(self.homes, [home.names() for home in self.homes]):
            if name in names:
                return home
        raise Missing('no home has it')


def _wait(running: subprocess.Popen[bytes], source: BinaryIO, tell: Callable[[int], None]) -> Answer:
    """Waits for a put; where it takes longer, tells twice a second how far hail has read."""
    since = time.monotonic()
    while running.poll() is None:
        time.sleep(0.01)
        if time.monotonic() - since >= 0.5:
            since = time.monotonic()
            tell(os.lseek(source.fileno(), 0, os.SEEK_CUR))
    return answer_of(running)


def homes_of(text: str) -> Homes:
    """The homes of a setting HOME:HOME:.. Refused where one is no store, or stands twice."""
    if not text:
        raise Refused('say homes=HOME, or homes=HOME:HOME:..; hail-init makes one')
    homes = [Home(path) for path in text.split(':')]
    for word, home in zip(text.split(':'), homes):
        if not word or not home.is_set_up():
            raise Refused(f'no store in {word}')
    if len({home.path for home in homes}) < len(homes):
        raise Refused('a home stands twice')
    return Homes(homes)


class Remote:
    """One conversation with git-annex."""

    def __init__(self, source: BinaryIO, target: BinaryIO) -> None:
        self._source, self._target = source, target
        self._homes = Homes([])
        self._reads = True
        self._answers: dict[str, Callable[[str], None]] = {
            'EXTENSIONS': lambda _: self._say('EXTENSIONS'), 'LISTCONFIGS': self._list_configs, 'INITREMOTE': self._init,
            'PREPARE': self._prepare, 'TRANSFER': self._transfer, 'CHECKPRESENT': self._check, 'REMOVE': self._remove,
            'WHEREIS': self._where, 'GETINFO': self._info, 'GETCOST': lambda _: self._say('COST 200'),
            'GETAVAILABILITY': lambda _: self._say('AVAILABILITY LOCAL'),
        }

    def _say(self, line: str) -> None:
        self._target.write(os.fsencode(line.replace('\n', ' ')) + b'\n')
        self._target.flush()

    def _lines(self) -> Iterator[str]:
        for line in self._source:
            yield os.fsdecode(line.rstrip(b'\n'))

    def _ask(self, setting: str) -> str:
        """A setting of the remote; the empty text where it has none."""
        self._say(f'GETCONFIG {setting}')
        word, _, value = next(self._lines(), '').partition(' ')
        if word != 'VALUE':
            raise SystemExit(1)
        return value

    def converse(self) -> int:
        """Answers until git-annex ends, and copies the journals. 1 where it ends for a fault."""
        self._say('VERSION 1')
        try:
            return self._answer_all()
        finally:
            self._homes.copies.close()

    def _answer_all(self) -> int:
        for line in self._lines():
            word, _, rest = line.partition(' ')
            if word == 'ERROR':
                return 1
            self._answers.get(word, lambda _: self._say('UNSUPPORTED-REQUEST'))(rest)
        return 0

    # What is set up.

    def _list_configs(self, _: str) -> None:
        for line in (*CONFIGS, 'CONFIGEND'):
            self._say(line)

    def _read_settings(self) -> None:
        check = self._ask('check') or 'get'
        if check not in ('get', 'list'):
            raise Refused('check is get or list')
        self._reads = check == 'get'
        self._homes = homes_of(self._ask('homes'))

    def _init(self, _: str) -> None:
        try:
            self._read_settings()
            if not self._ask('chunk'):
                raise Refused(SAY_CHUNK)
            for home in self._homes.homes:
                home.names()
        except Refused as fault:
            self._say(f'INITREMOTE-FAILURE {fault}')
            return
        self._say('SETCONFIG homes ' + ':'.join(home.path for home in self._homes.homes))
        self._say('INITREMOTE-SUCCESS')

    def _prepare(self, _: str) -> None:
        try:
            self._read_settings()
        except Refused as fault:
            self._say(f'PREPARE-FAILURE {fault}')
            return
        self._say('PREPARE-SUCCESS')

    # Keys.

    def _transfer(self, rest: str) -> None:
        way, key, path = (rest.split(' ', 2) + ['', ''])[:3]
        if way not in ('STORE', 'RETRIEVE'):
            self._say('UNSUPPORTED-REQUEST')
            return
        try:
            if way == 'STORE':
                self._homes.put(name_of(key), path, lambda count: self._say(f'PROGRESS {count}'))
            else:
                self._retrieve(key, path)
        except Refused as fault:
            self._say(f'TRANSFER-FAILURE {way} {key} {fault}')
            return
        self._say(f'TRANSFER-SUCCESS {way} {key}')

    def _retrieve(self, key: str, path: str) -> None:
        data = self._homes.get(name_of(key))
        try:
            with open(path, 'wb') as file:
                file.write(data)
        except OSError as fault:
            raise Refused(f'{path} cannot be written: {fault.strerror}') from fault

    def _check(self, key: str) -> None:
        """A key is present where it is read back whole; with check=list where a journal has it. What can't be said is neither."""
        try:
            self._homes.get(name_of(key)) if self._reads else self._homes.place(name_of(key))
        except Missing:
            self._say(f'CHECKPRESENT-FAILURE {key}')
        except Refused as fault:
            self._say(f'CHECKPRESENT-UNKNOWN {key} {fault}')
        else:
            self._say(f'CHECKPRESENT-SUCCESS {key}')

    def _remove(self, key: str) -> None:
        try:
            self._homes.drop(name_of(key))
        except Refused as fault:
            self._say(f'REMOVE-FAILURE {key} {fault}')
        else:
            self._say(f'REMOVE-SUCCESS {key}')

    def _where(self, key: str) -> None:
        try:
            self._say(f'WHEREIS-SUCCESS {self._homes.place(name_of(key)).path}, {name_of(key)}')
        except Refused:
            self._say('WHEREIS-FAILURE')

    def _info(self, _: str) -> None:
        for home in self._homes.homes:
            with contextlib.suppress(Refused):
                count = len(home.names())
                self._say(f'INFOFIELD home {home.path}')
                self._say(f'INFOVALUE {count} of {MOST_NAMES:,} files')
        self._say('INFOEND')


def main(words: Sequence[str]) -> int:
    """Speaks with git-annex on standard input and output. Ends with 0 once that ends, 1 where it tells a fault, 2 where words are given."""
    if words:
        print('usage: git-annex-remote-hail, which git-annex starts', file=sys.stderr)
        return 2
    return Remote(sys.stdin.buffer, sys.stdout.buffer).converse()
