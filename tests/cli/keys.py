#!/usr/bin/env python3
"""Watches at keys in a terminal of its own, and looks at what becomes of the terminal: keys.py PROGRAM STREAM

A shell runs `PROGRAM watch --keys STREAM` in a pseudo-terminal. While it runs, keys must come one by one, and it has a screen of its own on which no
line wraps. Once it has ended or was stopped, in whatever way, the terminal must be as it was before. The last line is `N passed, M failed`, and the
status 1 if M isn't 0.
"""

import fcntl
import os
import pty
import select
import signal
import struct
import subprocess
import sys
import termios
import time

SECONDS = 20
ASKED = termios.ICANON | termios.ECHO
# No wrapping, and the alternate screen; and both as they were.
TAKES, GIVES = "\x1b[?7l\x1b[?1049h", "\x1b[?1049l\x1b[?7h"
ASKS_SIZE = "\x1b7\x1b[9999;9999H\x1b[6n\x1b8"


class Shell:
    """A shell in a pseudo-terminal, which never edits its line and so leaves the terminal's mode alone."""

    def __init__(self):
        self.process, self.terminal = pty.fork()
        if self.process == 0:
            os.environ.update(PS1="ready> ", TERM="xterm")
            os.environ.pop("COLUMNS", None)
            os.environ.pop("LINES", None)
            os.execvp("bash", ["bash", "--norc", "--noprofile", "--noediting", "-i"])
        self.seen = ""
        self.resize(24, 100)
        self.await_text("ready> ")

    def resize(self, lines, columns):
        fcntl.ioctl(self.terminal, termios.TIOCSWINSZ, struct.pack("HHHH", lines, columns, 0, 0))

    def has_own_screen(self):
        """Whether the last of its codes took the terminal, and did not give it back."""
        return self.seen.rfind(TAKES) > self.seen.rfind(GIVES)

    def mode(self):
        return termios.tcgetattr(self.terminal)[3] & ASKED

    def await_that(self, what, holds):
        """Waits until something holds, and takes meanwhile what the terminal shows."""
        end = time.monotonic() + SECONDS
        while not holds():
            if time.monotonic() > end:
                raise AssertionError(f"{what} didn't come; the terminal shows: {self.seen[-500:]!r}")
            if select.select([self.terminal], [], [], 0.05)[0]:
                self.seen += os.read(self.terminal, 65536).decode(errors="replace")

    def await_text(self, text):
        self.await_that(f"{text!r}", lambda: text in self.seen)

    def type(self, text):
        self.seen = ""
        os.write(self.terminal, text.encode())

    def processes(self, program):
        """The program's processes in the terminal, the first started first."""
        found = subprocess.run(["pgrep", "-s", str(self.process), "-x", os.path.basename(program)], capture_output=True, text=True, check=False)
        return sorted(int(word) for word in found.stdout.split())

    def close(self):
        os.kill(self.process, signal.SIGKILL)
        os.close(self.terminal)
        os.waitpid(self.process, 0)


def watch(shell, program):
    before = shell.mode()
    shell.type(f"{program} watch --keys {sys.argv[2]}; echo status=$?.\n")
    shell.await_text("? shows the keys")
    assert shell.mode() == 0, "keys don't come one by one"
    assert shell.has_own_screen(), "it has no screen of its own"
    return before


def is_as_before(shell, before):
    shell.await_that("the terminal of before", lambda: shell.mode() == before and GIVES in shell.seen and not shell.has_own_screen())


def ends(shell, before, status):
    shell.await_text(f"status={status}.")
    is_as_before(shell, before)


def by_q(shell, program):
    before = watch(shell, program)
    shell.type("q")
    ends(shell, before, 0)


def by_interrupt(shell, program):
    before = watch(shell, program)
    shell.type("\x03")
    is_as_before(shell, before)


def by_signal_to_parent(shell, program):
    before = watch(shell, program)
    os.kill(shell.processes(program)[0], signal.SIGTERM)
    ends(shell, before, 128 + signal.SIGTERM)


def by_kill_of_child(shell, program):
    before = watch(shell, program)
    os.kill(shell.processes(program)[-1], signal.SIGKILL)
    ends(shell, before, 128 + signal.SIGKILL)


def by_kill_of_parent(shell, program):
    watch(shell, program)
    os.kill(shell.processes(program)[0], signal.SIGKILL)
    shell.await_that("the child's end", lambda: not shell.processes(program))


def by_stop(shell, program):
    before = watch(shell, program)
    shell.type("\x1a")
    shell.await_text("Stopped")
    is_as_before(shell, before)
    shell.type("fg\n")
    shell.await_that("the terminal again", lambda: shell.mode() == 0 and shell.has_own_screen())
    shell.await_text(ASKS_SIZE)
    shell.type("q")
    is_as_before(shell, before)


def in_background(shell, program):
    """A watch that goes on behind the shell leaves the terminal to it."""
    before = watch(shell, program)
    shell.type("\x1a")
    shell.await_text("Stopped")
    shell.type("bg; echo in the back\n")
    shell.await_text("in the back\r\n")
    time.sleep(0.5)
    shell.type("\n")
    shell.await_text("ready> ")
    assert shell.mode() == before and TAKES not in shell.seen, "it took the terminal from the shell"
    shell.type("fg\n")
    shell.await_that("the terminal again", lambda: shell.mode() == 0 and shell.has_own_screen())
    shell.type("q")
    is_as_before(shell, before)


def after_a_resize(shell, program):
    """The terminal was asked how large it is."""
    before = watch(shell, program)
    shell.resize(20, 60)
    shell.await_text(ASKS_SIZE)
    shell.type("q")
    ends(shell, before, 0)


def with_a_fault(shell, program):
    """What is told on the terminal stands below what was there before the watch."""
    shell.type(f"{program} watch --keys /nowhere; echo status=$?.\n")
    shell.await_text("status=1.")
    told = shell.seen.find("fault: Read /nowhere: ")
    assert told > shell.seen.rfind(GIVES), "the fault stands on the screen that is gone"


def with_help(shell, program):
    shell.type(f"{program} watch --keys --help; echo status=$?.\n")
    shell.await_text("status=0.")
    assert TAKES not in shell.seen, "the help stands on a screen that is gone"


CASES = [by_q, by_interrupt, by_signal_to_parent, by_kill_of_child, by_kill_of_parent, by_stop, in_background, after_a_resize, with_a_fault, with_help]


def main(program):
    failed = 0
    for case in CASES:
        shell = Shell()
        try:
            case(shell, program)
            print(f"ok: a watch at keys, {case.__name__}")
        except (AssertionError, IndexError, OSError) as error:
            failed += 1
            print(f"FAILED: a watch at keys, {case.__name__}: {error}")
        finally:
            shell.close()
    print(f"{len(CASES) - failed} passed, {failed} failed")
    return failed > 0


if len(sys.argv) != 3:
    sys.exit(__doc__)
sys.exit(main(os.path.abspath(sys.argv[1])))
