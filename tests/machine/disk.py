#!/usr/bin/env python3
"""A disk with a volatile cache, for QEMU: a power cut leaves any version since the last flush of each sector written since.

usage: disk.py FILE SOCKET CONTROL

It serves FILE over NBD on a unix socket. A line `cut SEED` on the socket CONTROL does to FILE what a power cut may do, and
returns how many sectors had no flush, and how many of them lost a write.
"""
import contextlib
import mmap
import os
import pathlib
import random
import socket
import struct
import sys
import threading

SECTOR = 512
# The disk has these flags, and takes flushes, forced writes and trims.
FLAGS = 1 | 4 | 8 | 32
READ, WRITE, LEAVE, FLUSH = 0, 1, 2, 3
EXPORT, ABORT, INFO, GO = 1, 2, 6, 7
REPLY, ACKNOWLEDGED, INFORMED, UNSUPPORTED = 0x3E889045565A9, 1, 3, 0x80000001


class Disk:
    """The bytes of the disk, and of each sector without a flush what it had before each write."""

    def __init__(self, file):
        descriptor = os.open(file, os.O_RDWR)
        self.size = os.fstat(descriptor).st_size
        self.bytes = mmap.mmap(descriptor, self.size)
        self.before = {}
        self.lock = threading.Lock()

    def write(self, offset, data, is_forced):
        """Writes a piece, of which a forced one is on the disk at once."""
        for sector in range(offset // SECTOR, (offset + len(data) + SECTOR - 1) // SECTOR):
            if is_forced:
                self.before.pop(sector, None)
            else:
                start = sector * SECTOR
                self.before.setdefault(sector, []).append(self.bytes[start : start + SECTOR])
        self.bytes[offset : offset + len(data)] = data

    def cut(self, seed):
        """Leaves of each sector without a flush one of its versions; returns how many there were, and how many are older ones."""
        choose, older = random.Random(seed), 0
        with self.lock:
            count = len(self.before)
            for sector, versions in self.before.items():
                version = choose.randrange(len(versions) + 1)
                if version < len(versions):
                    self.bytes[sector * SECTOR : (sector + 1) * SECTOR] = versions[version]
                    older += 1
            self.before.clear()
        return count, older


class Connection:
    """One client of NBD."""

    def __init__(self, disk, stream):
        self.disk, self.stream = disk, stream

    def read(self, count):
        """So many bytes of the client."""
        data = b""
        while len(data) < count:
            piece = self.stream.recv(count - len(data))
            if not piece:
                raise EOFError
            data += piece
        return data

    def answer(self, option, kind, data=b""):
        """Answers an option."""
        self.stream.sendall(struct.pack(">QIII", REPLY, option, kind, len(data)) + data)

    def negotiate(self):
        """Agrees on the one disk that there is; returns whether the client wants it."""
        self.stream.sendall(b"NBDMAGIC" + b"IHAVEOPT" + struct.pack(">H", 3))
        self.read(4)
        while True:
            self.read(8)
            option, length = struct.unpack(">II", self.read(8))
            self.read(length)
            if option == EXPORT:
                self.stream.sendall(struct.pack(">QH", self.disk.size, FLAGS))
                return True
            if option in (INFO, GO):
                self.answer(option, INFORMED, struct.pack(">HQH", 0, self.disk.size, FLAGS))
                self.answer(option, ACKNOWLEDGED)
                if option == GO:
                    return True
            elif option == ABORT:
                self.answer(option, ACKNOWLEDGED)
                return False
            else:
                self.answer(option, UNSUPPORTED)

    def serve(self):
        """Does what the client asks for, until it leaves."""
        if not self.negotiate():
            return
        while True:
            _, flags, kind, handle, offset, length = struct.unpack(">IHHQQI", self.read(28))
            data = self.read(length) if kind == WRITE else b""
            if kind == LEAVE:
                return
            result = b""
            with self.disk.lock:
                if kind == READ:
                    result = self.disk.bytes[offset : offset + length]
                elif kind == WRITE:
                    self.disk.write(offset, data, flags & 1)
                elif kind == FLUSH:
                    self.disk.before.clear()
            self.stream.sendall(struct.pack(">IIQ", 0x67446698, 0, handle) + result)


def control(disk, stream):
    """Takes lines `cut SEED`."""
    with stream.makefile("rw") as lines:
        for line in lines:
            print(*disk.cut(line.split()[1]), file=lines, flush=True)


def listen(path, serve):
    """Serves each client of a socket in a thread of its own."""
    pathlib.Path(path).unlink(missing_ok=True)
    listener = socket.socket(socket.AF_UNIX)
    listener.bind(path)
    listener.listen()

    def attend(stream):
        with stream, contextlib.suppress(EOFError, ConnectionError):
            serve(stream)

    while True:
        stream, _ = listener.accept()
        threading.Thread(target=attend, args=[stream], daemon=True).start()


def main(file, requests, controls):
    disk = Disk(file)
    arguments = [controls, lambda stream: control(disk, stream)]
    threading.Thread(target=listen, args=arguments, daemon=True).start()
    listen(requests, lambda stream: Connection(disk, stream).serve())


if __name__ == "__main__":
    main(*sys.argv[1:])
