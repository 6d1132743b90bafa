"""What each request of SFTP does to a store. paramiko, as Debian has it, reads and writes the packets.

Writes are taken in the order in which they come; all else goes on beside one another, but for what is asked of one path, which is done in its
order: clients send the next request without the answer to the last.
"""
# mypy: allow-subclassing-any
from __future__ import annotations

import importlib
import os
import posixpath
import stat
import threading
from concurrent.futures import Future, ThreadPoolExecutor
from typing import Any, Callable

from .home import MOST_NAMES, Missing, ReadOnly, Refused, Unsupported, say
from .manifest import PIECE, is_path, normal
from .store import Entry, Status, Store
from .writer import Writer

paramiko: Any = importlib.import_module('paramiko')
sftp: Any = importlib.import_module('paramiko.sftp')
"""Untyped, whether or not there are stubs of them: those leave out what is done otherwise here."""

LONGEST_DATA = 261_120
"""Bytes that one read is answered with, at most."""

RENAME = 'posix-rename@openssh.com'
SPACE = 'statvfs@openssh.com'
EXTENSIONS = {RENAME: '1', SPACE: '2'}

OF_HANDLES = (sftp.CMD_CLOSE, sftp.CMD_READ, sftp.CMD_WRITE, sftp.CMD_FSTAT, sftp.CMD_FSETSTAT, sftp.CMD_READDIR)
"""The requests whose first field is a handle."""


class Broken(Refused):
    """What came is no SFTP."""


CODES = {
    Missing: sftp.SFTP_NO_SUCH_FILE, Unsupported: sftp.SFTP_OP_UNSUPPORTED, ReadOnly: sftp.SFTP_PERMISSION_DENIED,
    Broken: sftp.SFTP_BAD_MESSAGE, UnicodeDecodeError: sftp.SFTP_BAD_MESSAGE,
}
"""How SFTP calls what was refused; all else is a failure."""


class Pipes:
    """Two descriptors, as paramiko takes a channel."""

    def __init__(self, source: int, target: int) -> None:
        self._source, self._target = source, target

    def recv(self, count: int) -> bytes:
        """Some of the bytes that come; none at the end."""
        return os.read(self._source, count)

    def send(self, data: bytes) -> int:
        """Writes some of these bytes; how many."""
        return os.write(self._target, data)

    def get_transport(self) -> Pipes:
        """There is nothing below the channel."""
        return self

    def get_log_channel(self) -> str:
        """The name under which paramiko logs, which goes nowhere."""
        return 'hail-sftp'

    def get_name(self) -> str:
        """The same for the channel."""
        return 'pipes'

    def get_hexdump(self) -> bool:
        """Packets are not logged."""
        return False


class Fields(paramiko.Message):
    """The fields of a request. Broken where they end too early: a plain message would give zeros."""

    def get_bytes(self, n: int) -> bytes:
        """The next bytes, all of them."""
        found: bytes = self.packet.read(n)
        if len(found) < n:
            raise Broken('a packet ends too early')
        return found


def attributes_of(path: str, status: Status) -> Any:
    """What a client is told of a file or folder. Rights are those of the owner alone."""
    told = paramiko.SFTPAttributes()
    told.filename, told.st_size, told.st_uid, told.st_gid = posixpath.basename(path), status.size, os.getuid(), os.getgid()
    told.st_mode = stat.S_IFDIR | 0o700 if status.is_folder else stat.S_IFREG | 0o600
    told.st_atime = told.st_mtime = min(max(status.mtime, 0), 0xffffffff)
    return told


def path_of(text: str) -> str:
    """The path that a client names. Refused where no file can have it."""
    path = normal(text)
    if not is_path(path):
        raise Refused('no such name can be')
    return path


class Reading(paramiko.SFTPHandle):
    """A file that is open for reading: what it was when it was opened."""

    def __init__(self, store: Store, entry: Entry) -> None:
        super().__init__()
        self._store, self._entry = store, entry

    def is_near(self, offset: int) -> bool:
        """Whether this byte is read without a command of hail."""
        return self._store.is_near(self._entry, offset)

    def read(self, offset: int, length: int) -> bytes:
        """Some of the bytes from this place on; none behind the end."""
        return self._store.read(self._entry, offset, min(length, LONGEST_DATA))

    def write(self, offset: int, data: bytes) -> int:
        """It was opened for reading."""
        raise ReadOnly('it was opened for reading')

    def stat(self) -> Any:
        """Its size and time."""
        manifest = self._entry.manifest
        return attributes_of(manifest.path, Status(False, manifest.size, manifest.mtime))

    def chattr(self, attr: Any) -> int:
        """Rights and owners are not kept; all else is for those who write."""
        if attr.st_size is not None or attr.st_mtime is not None:
            raise Unsupported('a file that is open for reading is not changed')
        return int(sftp.SFTP_OK)

    def close(self) -> None:
        """Nothing is held."""


class Writing(paramiko.SFTPHandle):
    """A file that is being written; it is made at the close."""

    def __init__(self, store: Store, path: str, others: dict[str, Writing]) -> None:
        super().__init__()
        self._store, self.path, self._writer, self._others = store, path, Writer(store, path), others
        others[path] = self

    def read(self, offset: int, length: int) -> bytes:
        """There is no file yet."""
        raise Unsupported('a file is read once it is closed')

    def write(self, offset: int, data: bytes) -> int:
        """Takes bytes of this place."""
        self._writer.write(offset, data)
        return int(sftp.SFTP_OK)

    def stat(self) -> Any:
        """As far as it is written."""
        return attributes_of(self.path, self._store.status(self.path))

    def chattr(self, attr: Any) -> int:
        """It may get a time."""
        if attr.st_size not in (None, self._writer.size):
            raise Unsupported('a file is as long as it was written')
        if attr.st_mtime is not None:
            self._writer.set_time(attr.st_mtime)
        return int(sftp.SFTP_OK)

    def close(self) -> None:
        """Makes the file."""
        self._others.pop(self.path, None)
        self._writer.finish()

    def abort(self) -> None:
        """The client went: the file is not made."""
        self._writer.abort()


class Files(paramiko.SFTPServerInterface):
    """What is asked of paths."""

    def __init__(self, server: object, store: Store) -> None:
        super().__init__(server)
        self._store = store
        self._written: dict[str, Writing] = {}

    def open(self, path: str, flags: int, attr: Any) -> Reading | Writing:
        """A file as it is, or one that is written anew."""
        path = path_of(path)
        if not flags & (os.O_WRONLY | os.O_RDWR):
            return Reading(self._store, self._store.entry(path))
        if flags & os.O_APPEND:
            raise Unsupported('a file is written anew, not in place')
        self._store.may_be_written(path, bool(flags & os.O_CREAT), bool(flags & os.O_EXCL), bool(flags & os.O_TRUNC))
        writing = Writing(self._store, path, self._written)
        if attr.st_mtime is not None:
            writing.chattr(attr)
        return writing

    def canonicalize(self, path: str) -> str:
        """The full path."""
        return path_of(path)

    def stat(self, path: str) -> Any:
        """What is at a path."""
        path = path_of(path)
        self._store.look()
        return attributes_of(path, self._store.status(path))

    lstat = stat

    def list_folder(self, path: str) -> list[Any]:
        """What is in a folder."""
        path = path_of(path)
        self._store.look()
        found = []
        for name in self._store.children(path):
            inner = posixpath.join(path, name)
            try:
                found.append(attributes_of(inner, self._store.status(inner)))
            except Missing:     # it went meanwhile
                pass
        return found

    def chattr(self, path: str, attr: Any) -> int:
        """A file may be made empty, and given a time. Rights and owners are not kept."""
        path = path_of(path)
        if path in self._written:
            return self._written[path].chattr(attr)
        self._store.look()
        status = self._store.status(path)
        if not status.is_folder and attr.st_size not in (None, status.size):
            if attr.st_size:
                raise Unsupported('a file is written anew, not in place')
            Writer(self._store, path).finish()
        if not status.is_folder and attr.st_mtime is not None:
            self._store.set_time(path, attr.st_mtime)
        return int(sftp.SFTP_OK)

    def remove(self, path: str) -> int:
        """Removes a file."""
        self._store.remove(path_of(path))
        return int(sftp.SFTP_OK)

    def rename(self, oldpath: str, newpath: str) -> int:
        """A file gets a path at which nothing is."""
        self._store.rename(path_of(oldpath), path_of(newpath), False)
        return int(sftp.SFTP_OK)

    def posix_rename(self, oldpath: str, newpath: str) -> int:
        """A file gets a path, over the file there."""
        self._store.rename(path_of(oldpath), path_of(newpath), True)
        return int(sftp.SFTP_OK)

    def mkdir(self, path: str, attr: Any) -> int:
        """Makes a folder."""
        self._store.make_folder(path_of(path))
        return int(sftp.SFTP_OK)

    def rmdir(self, path: str) -> int:
        """Removes an empty folder."""
        self._store.remove_folder(path_of(path))
        return int(sftp.SFTP_OK)


class Turns:
    """What is asked of one path is done in its order, all else beside one another."""

    def __init__(self) -> None:
        self._workers = ThreadPoolExecutor(32)
        self._last: dict[str, Future[None]] = {}

    def do(self, paths: list[str], work: Callable[[], None]) -> None:
        """Does this behind what was asked of these paths before. Those wait in the same queue further ahead: so none waits for ever."""
        before = [self._last[path] for path in paths if path in self._last]
        future = self._workers.submit(self._behind, before, work)
        if len(self._last) > 256:
            self._last = {path: last for path, last in self._last.items() if not last.done()}
        self._last.update((path, future) for path in paths)

    @staticmethod
    def _behind(before: list[Future[None]], work: Callable[[], None]) -> None:
        for future in before:
            future.exception()
        work()

    def close(self) -> None:
        """Waits for all."""
        self._workers.shutdown(wait=True)


class Session(paramiko.SFTPServer):
    """One client, from its first packet to its last: paramiko's server, which answers several requests at once."""

    def __init__(self, store: Store, channel: Pipes) -> None:
        super().__init__(channel, 'sftp', None, Files, store)
        self._store, self._pipes, self._turns = store, channel, Turns()
        self._fault: Exception | None = None
        self._sending, self._naming = threading.Lock(), threading.Lock()

    def serve(self) -> None:
        """Answers until the client goes. What it had not closed is not made. Broken where what comes is no SFTP."""
        try:
            self.start_subsystem('sftp', None, self._pipes)
        except EOFError:
            pass
        finally:
            self._turns.close()
            for handle in list(self.file_table.values()):
                if isinstance(handle, Writing):
                    handle.abort()
        if self._fault:
            raise self._fault

    # Packets.

    def _send_server_version(self) -> None:
        kind, _ = self._read_packet()
        if kind != sftp.CMD_INIT:
            raise Broken('the first packet is no SFTP')
        told = paramiko.Message()
        told.add_int(3)
        for name, version in EXTENSIONS.items():
            told.add_string(name)
            told.add_string(version)
        self._send_packet(sftp.CMD_VERSION, told)

    def _read_packet(self) -> tuple[int, bytes]:
        """The next packet; what ends the session but for the client's end is kept."""
        try:
            kind, data = super()._read_packet()
            if len(data) < 4:
                raise Broken('a packet without a number')
        except EOFError:
            raise
        except Exception as fault:
            self._fault = Broken(str(fault))
            raise self._fault from fault
        return kind, data

    def _send_packet(self, t: int, packet: Any) -> None:
        """Answers of several threads do not mix. paramiko would spell a message out before it takes its bytes."""
        data = packet.asbytes() if isinstance(packet, paramiko.Message) else packet
        with self._sending:
            super()._send_packet(t, data)

    def _send_handle_response(self, request_number: int, handle: Any, folder: bool = False) -> None:
        with self._naming:
            super()._send_handle_response(request_number, handle, folder)

    # Requests.

    def _process(self, t: int, request_number: int, msg: Any) -> None:
        """Answers a request, now or in its turn."""
        fields = msg.get_remainder()
        if t in (sftp.CMD_WRITE, sftp.CMD_READDIR) or (t == sftp.CMD_READ and self._is_near(Fields(fields))):
            self._answer(t, request_number, fields)
        else:
            self._turns.do(self._paths_of(t, Fields(fields)), lambda: self._answer(t, request_number, fields))

    def _is_near(self, fields: Fields) -> bool:
        try:
            handle, offset = self.file_table.get(fields.get_binary()), fields.get_int64()
        except Broken:
            return False
        return isinstance(handle, Reading) and handle.is_near(offset)

    def _paths_of(self, t: int, fields: Fields) -> list[str]:
        """The paths that a request is about."""
        try:
            if t in OF_HANDLES:
                handle = self.file_table.get(fields.get_binary())
                return [handle.path] if isinstance(handle, Writing) else []
            if t == sftp.CMD_EXTENDED and fields.get_text() != RENAME:
                return []
            return [normal(fields.get_text()) for _ in range(2 if t in (sftp.CMD_RENAME, sftp.CMD_EXTENDED) else 1)]
        except (Broken, UnicodeDecodeError):
            return []

    def _answer(self, t: int, request_number: int, fields: bytes) -> None:
        """Does what is asked. Whatever goes wrong is told the client, and the session goes on."""
        try:
            self._do(t, request_number, fields)
        except BrokenPipeError:
            pass    # the client went: so its requests end
        except Exception as fault:
            code = next((code for kind, code in CODES.items() if isinstance(fault, kind)), sftp.SFTP_FAILURE)
            if not isinstance(fault, Refused) and code == sftp.SFTP_FAILURE:
                say(f'request {t}: {fault!r}')
            self._refuse(request_number, code, str(fault)[:200])

    def _refuse(self, request_number: int, code: int, text: str) -> None:
        try:
            self._send_status(request_number, code, text)
        except BrokenPipeError:
            pass

    def _do(self, t: int, request_number: int, fields: bytes) -> None:
        """What paramiko leaves out or does otherwise; all else it does."""
        if t not in sftp.CMD_NAMES:
            raise Unsupported('no such request')
        if t in OF_HANDLES and not self._knows(t, Fields(fields).get_binary()):
            raise Refused('no such handle')
        if t == sftp.CMD_CLOSE:
            self._close(request_number, Fields(fields).get_binary())
        elif t == sftp.CMD_EXTENDED and Fields(fields).get_text() == SPACE:
            self._tell_space(request_number)
        elif t == sftp.CMD_EXTENDED and Fields(fields).get_text() != RENAME:
            raise Unsupported('no such request')
        else:
            super()._process(t, request_number, Fields(fields))

    def _knows(self, t: int, name: bytes) -> bool:
        files, folders = t != sftp.CMD_READDIR, t in (sftp.CMD_READDIR, sftp.CMD_CLOSE)
        return (files and name in self.file_table) or (folders and name in self.folder_table)

    def _close(self, request_number: int, name: bytes) -> None:
        """The handle is gone first: none is closed twice, also where the close goes wrong."""
        handle = self.file_table.pop(name, None) or self.folder_table.pop(name, None)
        if handle is None:
            raise Refused('no such handle')
        handle.close()
        self._send_status(request_number, sftp.SFTP_OK)

    def _tell_space(self, request_number: int) -> None:
        """What is free, in pieces, as `df` asks for it."""
        self._store.look()
        free, names = self._store.places.free(), MOST_NAMES * len(self._store.homes)
        told = paramiko.Message()
        told.add_int(request_number)
        for count in (PIECE, PIECE, names, free, free, names, free, free, 0, 0, 255):
            told.add_int64(count)
        self._send_packet(sftp.CMD_EXTENDED_REPLY, told)
