#!/usr/bin/env python3
"""Runs a program with a recording on its standard input that comes in a way of its own:

    feed.py WAY RECORDING PROGRAM

pieces  by a pipe, a few bytes at a time
slow    by a pipe that does not block, and whose writer is slow
error   by a socket on which, after the recording, reading fails
"""
import itertools
import os
import socket
import subprocess
import sys
import time


def write_pieces(end, recording, sizes, pause):
    place = 0
    for size in itertools.cycle(sizes):
        time.sleep(pause)
        os.write(end, recording[place : place + size])
        place += size
        if place >= len(recording):
            return


def by_pipe(recording, program, sizes, pause, blocking):
    reading, writing = os.pipe()
    os.set_blocking(reading, blocking)
    process = subprocess.Popen([program], stdin=reading)
    os.close(reading)
    try:
        write_pieces(writing, recording, sizes, pause)
    except BrokenPipeError:
        pass  # the program has stopped reading: what it prints will tell
    os.close(writing)
    return process.wait()


def by_broken_socket(recording, program):
    reading, writing = socket.socketpair()
    writing.sendall(recording)
    reading.sendall(b"unread")  # an end that closes with bytes unread makes the other's reading fail
    writing.close()
    return subprocess.call([program], stdin=reading)


way, name, program = sys.argv[1:]
with open(name, "rb") as file:
    recording = file.read()
if way == "pieces":
    status = by_pipe(recording, program, [1, 2, 3, 7, 100, 509], 0.001, True)
elif way == "slow":
    status = by_pipe(recording, program, [1000, 16384], 0.05, False)
elif way == "error":
    status = by_broken_socket(recording, program)
else:
    sys.exit(__doc__)
sys.exit(status)
