#!/usr/bin/env python3
"""Lets one system call of a command fail, of all that it and what it starts make, or kills the process that makes it.

usage: failing.py SOCKET NUMBER,.. WORD..    starts the command, with a filter for the calls of these numbers

Linux asks the test about each of these calls, and waits for its answer (seccomp's user notifications: linux/seccomp.h; Linux 5.9
or later). The test knows a call again by the words of its process, its name and its file.
"""
import ctypes
import errno
import fcntl
import os
import re
import select
import signal
import socket
import struct
import subprocess
import sys
import threading

# asm/unistd_64.h: the numbers of calls, by what they do, and the error that each gets.
CALLS = {
    "open": (errno.EMFILE, (257, 2)),
    "read": (errno.EIO, (0, 17)),
    "write": (errno.ENOSPC, (1,)),
    "look": (errno.EIO, (262, 332, 21, 269, 439)),
    "list": (errno.EIO, (217,)),
    "rename": (errno.EIO, (82, 264, 316)),
    "sync": (errno.EIO, (74, 75)),
    "remove": (errno.EIO, (87, 263, 84)),
    "make": (errno.ENOSPC, (83, 258, 133, 259)),
    "cut": (errno.EIO, (77,)),
    "begin": (errno.ENOMEM, (59,)),
    "fork": (errno.EAGAIN, (56, 57, 58, 435)),
    "pipe": (errno.EMFILE, (22, 293)),
}
NAMES = {number: name for name, (_, numbers) in CALLS.items() for number in numbers}
EXECVE = 59
# Calls whose first argument is a path, or is a folder and the second one the path; all others have a descriptor or nothing.
PATH_FIRST, PATH_SECOND = {2, 21, 59, 82, 83, 84, 87, 133}, {257, 258, 259, 262, 263, 264, 269, 316, 332, 439}
DESCRIPTOR = {0, 1, 17, 74, 75, 77, 217}
# linux/seccomp.h, linux/bpf_common.h, linux/prctl.h
SYS_SECCOMP, SET_FILTER, NEW_LISTENER, NO_NEW_PRIVILEGES = 317, 1, 8, 38
ALLOW, ASK, GO_ON = 0x7FFF0000, 0x7FC00000, 1
RECEIVE, SEND = 0xC0502100, 0xC0182101
ASKED, ANSWER = struct.Struct("<QIIiIQ6Q"), struct.Struct("<QqiI")
# What every command reads as it begins, before it does anything of its own.
OF_THE_SYSTEM = re.compile(r"/(usr/|lib|s?bin/|etc/(ld\.so|locale|nsswitch|passwd|group|python|perl|selinux)|proc/(self|filesystems)|dev/tty)|.*/bin/\w+$")
# A read or a write of a pipe fails only if the other end is gone, as after a kill.
PIPE = re.compile(r"(pipe|socket|anon_inode):")


def install(numbers):
    """Installs the filter in this process, and returns the descriptor by which Linux asks."""
    load, equal, end = (lambda offset: (0x20, 0, 0, offset)), (lambda number, to: (0x15, to, 0, number)), (lambda what: (0x06, 0, 0, what))
    # A call of the list jumps to the last instruction.
    lines = [load(0), *(equal(number, len(numbers) - n) for n, number in enumerate(numbers)), end(ALLOW), end(ASK)]
    code = b"".join(struct.pack("<HBBI", *line) for line in lines)
    text = ctypes.create_string_buffer(code)
    program = ctypes.create_string_buffer(struct.pack("<HxxxxxxQ", len(lines), ctypes.addressof(text)))
    library = ctypes.CDLL(None, use_errno=True)
    if library.prctl(NO_NEW_PRIVILEGES, 1, 0, 0, 0):
        raise OSError(ctypes.get_errno(), "prctl")
    listener = library.syscall(SYS_SECCOMP, SET_FILTER, NEW_LISTENER, program)
    if listener < 0:
        raise OSError(ctypes.get_errno(), "seccomp")
    return listener


class Call:
    """A call that waits for its answer."""

    def __init__(self, data):
        self.id, self.process, _, self.number, _, _, *self.arguments = ASKED.unpack(data)
        self.name = NAMES.get(self.number, "other")

    def words(self):
        """The words of the process, without their folders, by which it is known again."""
        try:
            with open(f"/proc/{self.process}/cmdline", "rb") as file:
                words = file.read().decode("latin-1").split("\0")[:-1]
        except OSError:
            return ""
        return " ".join(re.sub(r"/[\w./~-]*/", "", word) for word in words[:6])

    def file(self):
        """The call's file."""
        try:
            if self.number in DESCRIPTOR:
                return os.readlink(f"/proc/{self.process}/fd/{self.arguments[0]}")
            if self.number in PATH_FIRST | PATH_SECOND:
                return self.string(self.arguments[self.number in PATH_SECOND]) or self.folder()
        except OSError:
            pass
        return ""

    def folder(self):
        """The file that a descriptor stands for, in a call with an empty path."""
        return os.readlink(f"/proc/{self.process}/fd/{self.arguments[0] & 0xFFFFFFFF}")

    def string(self, address):
        """A string of the process."""
        with open(f"/proc/{self.process}/mem", "rb", buffering=0) as memory:
            # It may lie at the end of the last page.
            return os.pread(memory.fileno(), min(300, 4096 - address % 4096), address).split(b"\0")[0].decode("latin-1")

    def is_of_the_system(self):
        """Whether the loader, an interpreter or a search for a command makes it."""
        return self.number != EXECVE and OF_THE_SYSTEM.match(self.file()) is not None

    def signature(self):
        """What it is known by: process numbers and the names of temporary files aren't the same in the next start."""
        text = re.sub(r"/\S*/service/", "", f"{self.words()} | {self.name} {PIPE.sub(':', self.file())}")
        text = re.sub(r":[^ ]*$", "pipe", re.sub(r"rasd-\w+-\w{8}/?|/dev/shm/|/tmp/|tmp\.\w+", "", text))
        return re.sub(r"\b\d{3,}\b|\w{32}|[\w-]{36}", "N", text)


class Failing:
    """A command whose calls of some kinds a function answers: it returns an error, signal.SIGKILL, or nothing, and the call goes on."""

    def __init__(self, words, kinds, choose, begin=subprocess.Popen, **how):
        ours, theirs = socket.socketpair()
        numbers = sorted({EXECVE, *(number for kind in kinds for number in CALLS[kind][1])})
        launcher = [sys.executable, "-S", "-E", __file__, str(theirs.fileno()), ",".join(map(str, numbers))]
        self.kinds, self.choose, self.is_begun = kinds, choose, False
        self.process = begin([*launcher, *map(str, words)], pass_fds=[theirs.fileno()], **how)
        theirs.close()
        with ours:
            _, found, _, _ = socket.recv_fds(ours, 1, 1)
        if not found:
            self.process.wait()
            raise OSError("this kernel or its settings allow no filter that asks")
        self.listener = found[0]
        self.thread = threading.Thread(target=self.answer_all, daemon=True)
        self.thread.start()

    def answer_all(self):
        """Answers until no process with the filter is left."""
        poll = select.poll()
        poll.register(self.listener, select.POLLIN)
        while True:
            event = poll.poll()[0][1]
            if not event & select.POLLIN:
                os.close(self.listener)
                return
            data = bytearray(ASKED.size)
            try:
                fcntl.ioctl(self.listener, RECEIVE, data, True)
            except OSError:
                # The process was killed meanwhile.
                continue
            self.answer(Call(data))

    def answer(self, call):
        """Answers one call. The first execve begins the command."""
        wanted = None
        if not self.is_begun:
            self.is_begun = call.number == EXECVE
        elif call.name in self.kinds and not call.is_of_the_system():
            wanted = self.choose(call)
        try:
            if wanted is signal.SIGKILL:
                os.kill(call.process, signal.SIGKILL)
                return
            how = (0, GO_ON) if wanted is None else (-wanted, 0)
            fcntl.ioctl(self.listener, SEND, ANSWER.pack(call.id, 0, *how))
        except OSError:
            # The process has ended meanwhile.
            return


class Once:
    """Chooses the call that has a signature, when it comes for the nth time: it fails, or its process is killed."""

    def __init__(self, signature, place, is_kill):
        self.signature, self.left, self.hit = signature, place, None
        name = signature.rpartition(" | ")[2].split(" ")[0]
        self.kinds, self.wanted = (name,), signal.SIGKILL if is_kill else CALLS[name][0]

    def __call__(self, call):
        if not self.left or call.signature() != self.signature:
            return None
        self.left -= 1
        if self.left:
            return None
        self.hit = call.file()
        return self.wanted


def can_fail():
    """Whether this kernel lets calls fail so."""
    try:
        return Failing(["/bin/true"], ("open",), lambda call: None).process.wait() == 0
    except OSError:
        return False


def main():
    """Installs the filter, gives the listener to the test, and becomes the command."""
    with socket.socket(fileno=int(sys.argv[1])) as other:
        listener = install([int(it) for it in sys.argv[2].split(",")])
        socket.send_fds(other, [b"."], [listener])
        os.close(listener)
    os.execv(sys.argv[3], sys.argv[3:])


if __name__ == "__main__":
    main()
