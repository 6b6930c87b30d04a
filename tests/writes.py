#!/usr/bin/env python3
"""writes.py COMMAND WORD...: how many writes to its standard output the command makes.

The output is a socket that keeps each write apart.
"""

import socket
import subprocess
import sys


def main(command):
    ours, theirs = socket.socketpair(socket.AF_UNIX, socket.SOCK_SEQPACKET)
    child = subprocess.Popen(command, stdout=theirs.fileno())
    theirs.close()
    writes = 0
    while ours.recv(1 << 20):
        writes += 1
    child.wait()
    print(writes)


main(sys.argv[1:])
