#!/usr/bin/env python3
"""Runs a command with a terminal for standard output and standard error. Prints what it writes there, byte for byte, and ends
with its status.

    terminal.py COMMAND.."""

import os
import pty
import subprocess
import sys
import tty

terminal, inside = pty.openpty()
tty.setraw(inside)
process = subprocess.Popen(sys.argv[1:], stdout=inside, stderr=inside)
os.close(inside)
try:
    while written := os.read(terminal, 4096):
        sys.stdout.buffer.write(written)
except OSError:
    # Nobody has the terminal open any more.
    pass
sys.exit(process.wait())
