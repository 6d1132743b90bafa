#!/usr/bin/python3
"""A far end that lies: far.py KIND HOME J [HONEST]. It serves provider J as `hail HOME serve J` does for so many requests (0), and is of its KIND
from then on. Where a lie needs a right answer, that server is asked."""
from __future__ import annotations

import os
import random
import signal
import subprocess
import sys
import time
from typing import Callable, NoReturn

STORE, FETCH, ASK = 1, 2, 3
LONG = 1000.0
"""Seconds that nobody waits for."""

Answering = Callable[[int, bytes], bytes]
"""What is answered to the request of this number, from 1."""


def write(data: bytes) -> None:
    """Writes all of it."""
    while data:
        data = data[os.write(1, data):]


def read(count: int) -> bytes:
    """Reads so many bytes; the program ends where the input does."""
    found = b''
    while len(found) < count:
        more = os.read(0, count - len(found))
        if not more:
            sys.exit(0)
        found += more
    return found


def read_request() -> bytes:
    """The next request."""
    kind = read(1)
    if kind[0] == STORE:
        head = read(13)
        return kind + head + read(16 * head[12])
    return kind + read({FETCH: 13, ASK: 50}.get(kind[0], 8))


def tail_of(request: bytes) -> int:
    """The bytes behind a 1 that answers it."""
    return {FETCH: 16 * request[13] if len(request) > 13 else 0, ASK: 16}.get(request[0], 0)


class Server:
    """The honest server."""

    def __init__(self, home: str, number: str) -> None:
        self.running = subprocess.Popen([os.environ['SERVER'], home, 'serve', number], stdin=subprocess.PIPE, stdout=subprocess.PIPE)

    def answer(self, request: bytes) -> bytes:
        """The right answer."""
        assert self.running.stdin and self.running.stdout
        self.running.stdin.write(request)
        self.running.stdin.flush()
        answer = self.running.stdout.read(1)
        return answer + self.running.stdout.read(tail_of(request)) if answer == b'\1' else answer


class Lies:
    """The kinds, by their names."""

    def __init__(self, server: Server) -> None:
        self.server = server
        self.random = random.Random(4)
        self.before = b''

    # -- those that answer each request, in their way

    def twos(self, _: int, request: bytes) -> bytes:
        """Each call fails."""
        return b'\2'

    def threes(self, _: int, request: bytes) -> bytes:
        """There is never any memory."""
        return b'\3'

    def threes_again(self, count: int, request: bytes) -> bytes:
        """Once there is no memory."""
        return b'\3' if count == 1 else self.server.answer(request)

    def two_and_silence(self, count: int, request: bytes) -> bytes:
        """One call fails, and then there is silence."""
        return b'\2' if count == 1 else b''

    def late(self, _: int, request: bytes) -> bytes:
        """The answer to the request before."""
        answer, before = self.server.answer(request), self.before
        self.before = answer
        return before or answer

    def other(self, count: int, request: bytes) -> bytes:
        """The block of a stripe beside it, the answer to another question."""
        if request[0] == FETCH:
            stripe = int.from_bytes(request[9:13], 'little')
            stripe = stripe + 1 if count % 2 else max(0, stripe - 1)
            request = request[:9] + stripe.to_bytes(4, 'little') + request[13:]
        if request[0] == ASK:
            request = request[:9] + bytes(32) + request[41:]
        return self.server.answer(request)

    def extra(self, count: int, request: bytes) -> bytes:
        """Behind each fifth answer stands a byte too many."""
        return self.server.answer(request) + (b'\1' if count % 5 == 1 else b'')

    def huge(self, _: int, request: bytes) -> bytes:
        """Behind each answer stand ten million bytes."""
        return self.server.answer(request) + bytes(10_000_000)

    def liar(self, _: int, request: bytes) -> bytes:
        """Yes, and zeros."""
        return b'\1' + bytes(tail_of(request))

    def noise(self, _: int, request: bytes) -> bytes:
        """Any answer, and symbols of noise."""
        return bytes([self.random.choice([0, 1, 1, 1, 2, 3])]) + self.random.randbytes(tail_of(request))

    def flip(self, _: int, request: bytes) -> bytes:
        """One bit is another."""
        answer = self.server.answer(request)
        return answer[:1] + bytes([answer[1] ^ 1]) + answer[2:] if len(answer) > 2 else answer

    def mute(self, _: int, request: bytes) -> bytes:
        """It only reads."""
        return b''

    def slow(self, _: int, request: bytes) -> bytes:
        """A byte in every three seconds."""
        for byte in self.server.answer(request):
            time.sleep(3)
            write(bytes([byte]))
        return b''

    def half(self, _: int, request: bytes) -> bytes:
        """It ends inside an answer."""
        answer = self.server.answer(request)
        write(answer[:len(answer) // 2])
        sys.exit(0)

    def half_and_silence(self, _: int, request: bytes) -> bytes:
        """It is silent from the middle of an answer on."""
        answer = self.server.answer(request)
        write(answer[:len(answer) // 2])
        return self.asleep()

    def honest(self, _: int, request: bytes) -> bytes:
        """The right answer."""
        return self.server.answer(request)

    # -- those that do something once, and then nothing, or are honest

    def asleep(self) -> NoReturn:
        """It neither reads nor writes."""
        time.sleep(LONG)
        sys.exit(0)

    def early(self) -> None:
        """Answers come before their requests."""
        write(b'\1\0\1')
        self.answer_each(self.honest)

    def ends(self) -> NoReturn:
        """It ends."""
        sys.exit(0)

    def dies(self) -> None:
        """It is killed."""
        os.kill(os.getpid(), signal.SIGKILL)

    def kills(self) -> NoReturn:
        """It kills who began it, which is hail-remote."""
        os.kill(os.getppid(), signal.SIGKILL)
        sys.exit(0)

    def reads_not(self) -> NoReturn:
        """It closes its input."""
        os.close(0)
        self.asleep()

    def closes(self) -> None:
        """It closes its output, and goes on reading."""
        os.close(1)
        self.answer_each(self.mute)

    def daemon(self) -> NoReturn:
        """What it began goes on in a session of its own, with its pipes."""
        if os.fork():
            os._exit(0)
        os.setsid()
        self.asleep()

    def keeps(self) -> NoReturn:
        """It ends, and what it began keeps its pipes."""
        if os.fork():
            os._exit(0)
        self.asleep()

    def shouts(self) -> None:
        """It tells without end, control characters among it, and is honest."""
        line = r'while :; do printf "\033[2J\a evil\r\n%0.s" {1..999}; printf %09999d 7; done >&2'
        subprocess.Popen(['bash', '-c', line], stdin=subprocess.DEVNULL, stdout=subprocess.DEVNULL)
        self.answer_each(self.honest)

    def flood(self, piece: bytes) -> NoReturn:
        """It only writes."""
        while True:
            write(piece or self.random.randbytes(65536))

    def answer_each(self, answering: Answering, count: int = 1 << 62) -> None:
        """Answers so many requests."""
        for number in range(1, count + 1):
            write(answering(number, read_request()))

    def be(self, kind: str) -> None:
        """Is of this kind."""
        floods = {'garbage': b'', 'ones': b'\1' * 65536, 'zeros': bytes(65536), 'all_ff': b'\xff' * 65536}
        if kind in floods:
            self.flood(floods[kind])
        does = getattr(self, kind)
        if does.__code__.co_argcount == 3:
            self.answer_each(does)
        does()


def main(kind: str, home: str, number: str, honest: str = '0') -> None:
    """Serves, and then lies."""
    lies = Lies(Server(home, number))
    lies.answer_each(lies.honest, int(honest))
    lies.be(kind)


if __name__ == '__main__':
    signal.signal(signal.SIGPIPE, signal.SIG_DFL)
    main(*sys.argv[1:])
