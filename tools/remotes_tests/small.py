#!/usr/bin/python3
"""In place of hail, which SERVER names, or before it: makes each pipe that is open as small as may be, one page, and turns into hail."""
import fcntl
import os
import stat
import sys

SET_SIZE = 1031
"""Of fcntl: sets the size of a pipe."""

for name in os.listdir('/proc/self/fd'):
    try:
        if stat.S_ISFIFO(os.fstat(int(name)).st_mode):
            fcntl.fcntl(int(name), SET_SIZE, 4096)
    except OSError:
        pass
words = sys.argv[1:] if sys.argv[1] == os.environ['SERVER'] else [os.environ['SERVER'], *sys.argv[1:]]
os.execvp(words[0], words)
