#!/usr/bin/env python3
"""Runs the program for a terminal: hints.py PROGRAM [WORD ..]. What it adds to the program's own messages is in front/hints."""
import os
import signal
import sys

if signal.getsignal(signal.SIGINT) == signal.default_int_handler:
    signal.signal(signal.SIGINT, signal.SIG_DFL)
sys.path.insert(0, os.path.dirname(os.path.dirname(os.path.realpath(__file__))))

from front.hints.program import main  # noqa: E402

if __name__ == "__main__":
    sys.exit(main(sys.argv[1:]))
