"""hail-sftp: answers SFTP on standard input and output from a set of homes; makes such a set, and adds homes to it."""
from __future__ import annotations

import os
import signal
import sys
from typing import Sequence

from .home import NoAnswer, Refused, say
from .homes import NotASet, add_to_set, make_set, open_set
from .store import Store

USAGE = """usage: hail-sftp [--init | --add] HOME ..
       hail-sftp HOME .. [-- WORD ..]"""


def main(words: Sequence[str]) -> int:
    """Ends with 0: done, or the client went. 1: what came was no SFTP, or something was refused. 2: no such words. 3: these are not all homes
    of one set. 4: a home or hail did not answer."""
    task, paths = read_words(words)
    if not paths:
        print(USAGE, file=sys.stderr)
        return 2
    try:
        {'--init': make_set, '--add': add_to_set, '': serve}[task](paths)
    except BrokenPipeError:
        return 0
    except (Refused, OSError) as fault:
        say(str(fault))
        return 3 if isinstance(fault, NotASet) else 4 if isinstance(fault, NoAnswer) else 1
    return 0


def read_words(words: Sequence[str]) -> tuple[str, list[str]]:
    """The task and the homes; no homes where the words are none. What stands behind `--` is passed over: sshfs puts words for ssh there."""
    given = list(words)
    given = given[:given.index('--')] if '--' in given else given
    task = given.pop(0) if given and given[0] in ('--init', '--add') else ''
    return task, [] if any(not word or word.startswith('-') for word in given) else given


def serve(paths: Sequence[str]) -> None:
    """Answers on standard input and output until the client goes."""
    try:
        from .protocol import Pipes, Session
    except ImportError as fault:
        raise Refused(f'{fault}: install python3-paramiko, which reads and writes SFTP') from fault
    sys.setswitchinterval(0.0005)
    signal.signal(signal.SIGINT, signal.SIG_IGN)    # Ctrl-C at a client: that one says what is to be done
    source, target = os.dup(0), os.dup(1)
    store = Store(open_set(paths))
    try:
        Session(store, Pipes(source, target)).serve()
    finally:
        store.close()
