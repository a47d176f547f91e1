"""Pipes by which a program under test is fed."""
import array
import contextlib
import fcntl
import os
import termios
import time


def waiting(pipe):
    """How many bytes wait in a pipe."""
    count = array.array("i", [0])
    fcntl.ioctl(pipe, termios.FIONREAD, count)
    return count[0]


def feed(pipe, piece, process, is_taken=lambda: True):
    """Gives a program a piece of its input, and waits until it has read and taken that, or has ended."""
    with contextlib.suppress(BrokenPipeError):
        os.write(pipe, piece)
    while (waiting(pipe) or not is_taken()) and process.poll() is None:
        time.sleep(0.0001)
