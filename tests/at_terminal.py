#!/usr/bin/env python3
"""Runs a command at a terminal of its own, and prints all that it shows there.

at_terminal.py COMMAND WORD...            types one case of a row, and the end of the input
at_terminal.py --errors COMMAND WORD...   has its standard error at the terminal alone; its input is this one's, and its output is dropped
at_terminal.py --output COMMAND WORD...   has its output and its standard error at the terminal; its input is this one's
"""
import os
import pty
import subprocess
import sys


def shown(master):
    """All that comes from a terminal, until it is closed."""
    all_of_it = b""
    while True:
        try:
            some = os.read(master, 4096)
        except OSError:
            return all_of_it
        if not some:
            return all_of_it
        all_of_it += some


def typed_at(command):
    pid, master = pty.fork()
    if pid == 0:
        os.execvp(command[0], command)
    os.write(master, b"0\tyes\tyes\t4\n\x04")
    said = shown(master)
    os.waitpid(pid, 0)
    return said


def written_by(command, output):
    master, terminal = pty.openpty()
    child = subprocess.Popen(command, stdout=terminal if output else subprocess.DEVNULL, stderr=terminal)
    os.close(terminal)
    said = shown(master)
    child.wait()
    return said


words = sys.argv[1:]
if words[0] in ("--errors", "--output"):
    sys.stdout.buffer.write(written_by(words[1:], words[0] == "--output"))
else:
    sys.stdout.buffer.write(typed_at(words))
