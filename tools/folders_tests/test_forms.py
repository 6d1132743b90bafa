"""The forms that are written and read: manifests, packets, words. No home is needed."""
from __future__ import annotations

import unittest

from .common import long, paramiko, string, word
from folders.annex import name_of
from folders.home import Refused
from folders.manifest import INLINE, PIECE, Key, Manifest, Piece, decode, digest_of, encode, is_path, normal
from folders.sftp import read_words
from folders.store import in_effect

DIGEST = digest_of(b'')


def piece(size: int, k: int = 0) -> Piece:
    return Piece(Key(1, f'sftp1-piece-{k:020x}'), size, DIGEST)


def manifest(path: str = '/a/b', size: int = 3, turn: int = 1, pieces: tuple[Piece, ...] = (), over: tuple[Key, ...] = ()) -> Manifest:
    return Manifest(path, size, 7, turn, pieces, over)


class Manifests(unittest.TestCase):
    def test_comes_back(self) -> None:
        for given, inline in ((manifest(), b'x\ny'), (manifest(size=0), b''), (manifest('/ä "\\', PIECE + 1, 2, (piece(PIECE), piece(1, 1))), b''),
                              (manifest(over=(Key(0, f'sftp1-file-{5:020x}'),)), b'abc')):
            self.assertEqual(decode(encode(given, inline)), (given, inline))

    def test_bytes_by_hand(self) -> None:
        body = b'{"path":"/a/b","size":3,"mtime":7,"turn":1,"pieces":[],"over":[]}\nabc'
        self.assertEqual(encode(manifest(), b'abc'), b'hail-file-1 ' + digest_of(body).encode() + b' 69\n' + body)

    def test_what_is_cut_or_altered_is_refused(self) -> None:
        whole = encode(manifest(), b'abc')
        for k in range(len(whole)):
            self.assertRaises(Refused, decode, whole[:k])
            self.assertRaises(Refused, decode, whole[:k] + bytes([whole[k] ^ 1]) + whole[k + 1:])
        self.assertRaises(Refused, decode, whole + b'x')

    def test_fields_that_do_not_fit_are_refused(self) -> None:
        body = b'{"path":"/a","size":%s,"mtime":0,"turn":1,"pieces":%s,"over":%s}\n'
        one = b'[1,"sftp1-piece-00000000000000000000",3,"%s"]' % DIGEST.encode()
        for size, pieces, over in ((b'1', b'[]', b'[]'), (b'-1', b'[]', b'[]'), (b'true', b'[]', b'[]'), (b'0', b'{}', b'[[0]]'), (b'4', b'[%s]' % one, b'[]'),
                                   (b'0', b'[]', b'[[0,"notes"]]'), (b'6', b'[%s,%s]' % (one, one), b'[]'), (b'3', b'[%s]' % one, b'[[-1,"x"]]')):
            text = body % (size, pieces, over)
            self.assertRaises(Refused, decode, b'hail-file-1 %s %d\n%s' % (digest_of(text).encode(), len(text), text))
        for path in ('a', '/', '/a/', '/a/../b', '/a\0', '//a'):
            self.assertRaises(Refused, encode, manifest(path), b'abc')
        self.assertRaises(Refused, encode, manifest(), b'ab')
        self.assertRaises(Refused, encode, manifest(size=INLINE + 1), bytes(INLINE + 1))
        self.assertRaises(Refused, encode, manifest(size=PIECE, pieces=(piece(PIECE - 1), piece(1, 1))), b'')

    def test_paths(self) -> None:
        self.assertEqual([normal(p) for p in ('', '.', '/', '//a', 'a/./b/../c', '/../x')], ['/', '/', '/', '/a', '/a/c', '/x'])
        self.assertTrue(is_path('/a b/ä'))
        self.assertEqual([is_path(path) for path in ('/a//b', '/\ud800', '/\udcff')], [False] * 3)

    def test_what_is_in_effect(self) -> None:
        first, second, third = (Key(0, f'sftp1-file-{k:020x}') for k in range(3))
        known = {first: manifest('/a', turn=1), second: manifest('/b', turn=2, over=(first,)), third: manifest('/b', turn=3)}
        self.assertEqual({path: entry.key for path, entry in in_effect(known).items()}, {'/b': third})


class Packets(unittest.TestCase):
    """What is not left to paramiko."""

    def setUp(self) -> None:
        if not paramiko:
            self.skipTest('there is no python3-paramiko')

    def test_fields_that_end_too_early(self) -> None:
        from folders.protocol import Broken, Fields
        data = word(9) + long(1 << 40) + string('ä') + string(b'\xff')
        fields = Fields(data)
        self.assertEqual([fields.get_int(), fields.get_int64(), fields.get_text(), fields.get_binary()], [9, 1 << 40, 'ä', b'\xff'])
        for count in range(len(data)):
            fields = Fields(data[:count])
            with self.assertRaises(Broken):
                fields.get_int(), fields.get_int64(), fields.get_text(), fields.get_binary()

    def test_what_is_told_of_files(self) -> None:
        from folders.protocol import attributes_of
        from folders.store import Status
        for status, mode in ((Status(False, 5, 7), 0o100600), (Status(True, 0, 0), 0o40700)):
            told = attributes_of('/a/b', status)
            self.assertEqual((told.filename, told.st_size, told.st_mode, told.st_mtime), ('b', status.size, mode, status.mtime))
        self.assertEqual([attributes_of('/a', Status(False, 0, time)).st_mtime for time in (-1, 1 << 40)], [0, (1 << 32) - 1])


class Words(unittest.TestCase):
    def test_words(self) -> None:
        self.assertEqual(read_words(['--init', 'a', 'b']), ('--init', ['a', 'b']))
        self.assertEqual(read_words(['a', '--', 'x', '-s', 'sftp']), ('', ['a']))
        no_words: tuple[list[str], ...] = ([], ['--init'], ['--listen', 'a'], ['a', '--add'], ['--'], [''])
        for words in no_words:
            self.assertEqual(read_words(words)[1], [])

    def test_names_of_keys(self) -> None:
        self.assertEqual(name_of('WORM--short'), 'WORM--short')
        long = 'SHA256E-s5--' + 'a' * 64
        self.assertEqual(name_of(long), digest_of(long.encode()))
        self.assertEqual(name_of('ä'), digest_of('ä'.encode()))
        self.assertEqual(name_of(DIGEST), digest_of(DIGEST.encode()))
