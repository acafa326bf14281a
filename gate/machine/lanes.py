#!/usr/bin/env python3
"""Prints how many checks `rt ci` may run side by side: the number of processors, where each has memory for the largest check,
and else nothing, so that rt counts for itself.

rt guesses a check's memory from the lines that it reads, some twice what the largest check so far took (5.5 GB, of atoms with their
tests in one crate), and has checks wait for one another by that guess. It does not where RT_JOBS holds a number.

usage: RT_JOBS=$(gate/machine/lanes.py) rt ci
"""

from machine import free_memory, processors

CHECK = 5_000_000_000  # bytes: three of the four largest checks take less

if __name__ == "__main__":
    lanes = processors()
    if free_memory() >= CHECK * lanes:
        print(lanes)
