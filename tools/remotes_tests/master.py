#!/usr/bin/python3
"""A program that was there before, and takes over the streams of others, as a shared connection of ssh does: master.py SOCKET. It serves none of
them, keeps all, and writes to their standard errors without end. `master.py SOCKET give` hands over its own streams, and waits."""
import os
import socket
import sys
import time

if len(sys.argv) == 3:
    with socket.socket(socket.AF_UNIX) as own:
        own.connect(sys.argv[1])
        socket.send_fds(own, [b'.'], [0, 1, 2])
        time.sleep(1000)
listening = socket.socket(socket.AF_UNIX)
listening.bind(sys.argv[1])
listening.listen()
print('ready', flush=True)
connection, _ = listening.accept()
_, streams, _, _ = socket.recv_fds(connection, 1, 3)
os.set_blocking(streams[2], True)
while True:
    try:
        os.write(streams[2], b'still here\n' * 1000)
    except BrokenPipeError:
        time.sleep(0.01)
