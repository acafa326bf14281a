#!/usr/bin/env python3
"""Waits while this process runs and leaves no processor idle.

usage: gate/machine/idle.py PID
"""

import sys

from machine import Turns

if __name__ == "__main__":
    Turns(int(sys.argv[1])).wait()
