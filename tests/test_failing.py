"""What docs/PROGRAM.md says of the program when a read or a write fails. target/bin/chains has to stand."""

import contextlib
import functools
import os
import re
import resource
import signal
import socket
import subprocess
import tempfile
import unittest
from pathlib import Path

ROOT = Path(__file__).resolve().parent.parent
PROGRAM = ROOT / "target" / "bin" / "chains"
INPUT = (ROOT / "crates" / "chains" / "stdin").read_bytes()
LISTING = (ROOT / "crates" / "chains" / "stdout").read_bytes()
WHOLE = (LISTING, 0)


def refusal(number):
    return f"refused {number} at 0\n".encode(), 0


def broken_off(length):
    """What is answered to an input that ends behind so many of its bytes: the question has 32, and so has the file's header."""
    if length == len(INPUT):
        return WHOLE
    return refusal(19 if length < 32 else 1 if length < 32 + 32 else 3)


def asked(stdin, **how):
    """What the program prints, and its exit status: below 0 the signal that ended it."""
    program = subprocess.run([PROGRAM], stdin=stdin, stdout=subprocess.PIPE, stderr=subprocess.PIPE, **how)
    assert program.stderr == b""
    return program.stdout, program.returncode


def answered(stdout, **how):
    """The exit status of the program on the six-person file, with this output."""
    program = subprocess.run([PROGRAM], input=INPUT, stdout=stdout, stderr=subprocess.PIPE, **how)
    assert program.stderr == b""
    return program.returncode


@contextlib.contextmanager
def connection(length):
    """A connection that breaks off behind so many bytes of the input: a read behind them fails. The far end closes with something
    unread, which the system takes for a fault."""
    far, near = socket.socketpair()
    with near:
        near.sendall(b"unread")
        far.sendall(INPUT[:length])
        far.close()
        yield near


@contextlib.contextmanager
def pipe():
    near, far = os.pipe()
    with open(near, "rb", buffering=0) as out, open(far, "wb", buffering=0) as into:
        yield out, into


def limit(what, most):
    return functools.partial(resource.setrlimit, what, (most, most))


class Reading(unittest.TestCase):
    def test_a_closed_input(self):
        self.assertEqual(asked(None, preexec_fn=lambda: os.close(0)), refusal(19))

    def test_a_directory(self):
        folder = os.open(ROOT, os.O_RDONLY)
        self.assertEqual(asked(folder), refusal(19))
        os.close(folder)

    def test_an_input_open_for_writing_only(self):
        with open(os.devnull, "wb") as nothing:
            self.assertEqual(asked(nothing), refusal(19))

    def test_a_connection_that_breaks_off_behind_any_byte(self):
        for length in range(len(INPUT) + 1):
            with connection(length) as near:
                self.assertEqual(asked(near), broken_off(length), length)

    def test_that_connection_is_a_read_that_fails(self):
        with connection(7) as near:
            self.assertEqual(near.recv(100), INPUT[:7])
            self.assertRaises(ConnectionResetError, near.recv, 100)

    def test_a_pipe_that_does_not_wait(self):
        for length in (0, 31, 32, 63, 64, len(INPUT) - 1, len(INPUT)):
            with pipe() as (out, into):
                os.set_blocking(out.fileno(), False)
                into.write(INPUT[:length])
                self.assertEqual(asked(out), broken_off(length), length)


class Writing(unittest.TestCase):
    def test_a_closed_output(self):
        self.assertEqual(answered(None, preexec_fn=lambda: os.close(1)), 0)

    def test_a_full_disk(self):
        with open("/dev/full", "wb") as full:
            self.assertEqual(answered(full), 0)

    def test_a_pipe_that_nobody_reads(self):
        for restore_signals in (True, False):
            with pipe() as (out, into):
                out.close()
                self.assertEqual(answered(into, restore_signals=restore_signals), 0)

    def test_a_full_pipe_that_does_not_wait(self):
        with pipe() as (out, into):
            os.set_blocking(into.fileno(), False)
            while into.write(bytes(4096)):
                pass
            self.assertEqual(answered(into), 0)
            into.close()
            self.assertEqual(out.read().strip(b"\0"), b"")

    def cut(self, size, **how):
        """The exit status, and what stands in a file that may have so many bytes."""
        with tempfile.TemporaryFile() as file:
            status = answered(file, preexec_fn=limit(resource.RLIMIT_FSIZE, size), **how)
            file.seek(0)
            return file.read(), status

    def test_the_allowed_size_of_a_file(self):
        for size in range(len(LISTING)):
            self.assertEqual(self.cut(size), (LISTING[:size], -signal.SIGXFSZ))
            self.assertEqual(self.cut(size, restore_signals=False), (LISTING[:size], 0))
        self.assertEqual(self.cut(len(LISTING)), WHOLE)

    def test_the_command_of_the_page_knows_a_whole_listing(self):
        run, look = re.findall(r"^    (.*target/listing)$", (ROOT / "docs" / "PROGRAM.md").read_text(), flags=re.M)

        def whole(listing):
            (ROOT / "target" / "listing").write_bytes(listing)
            return subprocess.run(look, shell=True, cwd=ROOT).returncode

        for listing in (LISTING, LISTING[:-1], b"end 0\n", b"1: 0 1\n" * 12 + b"end 12\n"):
            self.assertEqual(whole(listing), 0, listing)
        broken = [LISTING[:size] for size in range(len(LISTING) - 1)]
        for listing in (*broken, b"1: 0 1\n" * 12 + b"end 1", b"refused 19 at 0\n"):
            self.assertEqual(whole(listing), 1, listing)
        self.assertEqual(subprocess.run(f"{run} && {look}", shell=True, cwd=ROOT).returncode, 0)


class Stack(unittest.TestCase):
    def test_a_stack_too_small(self):
        with connection(len(INPUT)) as near:
            self.assertEqual(asked(near, preexec_fn=limit(resource.RLIMIT_STACK, 200 << 10), env={}), (b"", -signal.SIGSEGV))


if __name__ == "__main__":
    limit(resource.RLIMIT_CORE, 0)()
    unittest.main()
