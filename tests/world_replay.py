"""A program that answers replay scripts (docs/REPLAY.md), asked call by call."""

import os
import pty
import select
import shlex
import subprocess
import time
import tty
from pathlib import Path

ROOT = Path(__file__).resolve().parent.parent
BUILD_SECONDS = 3600
ANSWER_SECONDS = 120


class Differs(Exception):
    """Two programs, or a program and what it has to say, differ."""


def same(what, one, other):
    if one != other:
        raise Differs(f"{what}:\n  {str(one)[:400]}\n  {str(other)[:400]}")


class Replay:
    """Its output is a terminal, so that each answer comes before the next call is made."""

    def __init__(self, command):
        words = shlex.split(command)
        # the command may prove and build first
        subprocess.run(words, cwd=ROOT, stdin=subprocess.DEVNULL, check=True, timeout=BUILD_SECONDS)
        self.terminal, theirs = pty.openpty()
        tty.setraw(theirs)
        self.program = subprocess.Popen(words, cwd=ROOT, stdin=subprocess.PIPE, stdout=theirs)
        os.close(theirs)
        self.unread = b""
        self.calls = 0

    def ask(self, *words):
        """The answer to one call; bytes among its words are put in hex."""
        line = " ".join(hexed(word) for word in words)
        self.program.stdin.write(line.encode() + b"\n")
        self.program.stdin.flush()
        self.calls += 1
        until = time.monotonic() + ANSWER_SECONDS
        while b"\n" not in self.unread:
            if not select.select([self.terminal], [], [], max(0, until - time.monotonic()))[0]:
                raise Differs(f"no answer in {ANSWER_SECONDS} seconds: {line[:200]}")
            self.unread += os.read(self.terminal, 1 << 16)
        answer, self.unread = self.unread.split(b"\n", 1)
        return answer.decode()

    def ask_bytes(self, *words):
        """The bytes that a writer answers with."""
        answer = self.ask(*words)
        if answer.startswith("refused"):
            raise Differs(f"{words[0]}: {answer}")
        return unhexed(answer)

    def close(self):
        self.program.stdin.close()
        try:
            self.program.wait(ANSWER_SECONDS)
        except subprocess.TimeoutExpired:
            self.program.kill()
            self.program.wait()
        os.close(self.terminal)


def hexed(word):
    if isinstance(word, bytes):
        return word.hex() or "-"
    return str(word)


def unhexed(word):
    return b"" if word == "-" else bytes.fromhex(word)
