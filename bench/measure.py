#!/usr/bin/env python3
"""Runs a command three times on a file, and prints the median times and the highest peak memory.

usage: measure.py FILE COMMAND WORD..

The file is the command's standard input. Prints one line (the time that passed, the processor's time,
the peak memory in MB, which are 10^6 bytes), and ends with the command's status.
"""

import os
import statistics
import subprocess
import sys
import time

RUNS = 3


def run_once(path, command):
    """The seconds that passed, those of the processor, the peak memory and the status of one run."""
    with open(path, "rb") as source:
        start = time.monotonic()
        child = subprocess.Popen(command, stdin=source, stdout=subprocess.DEVNULL)
        _, status, usage = os.wait4(child.pid, 0)
        seconds = time.monotonic() - start
    child.returncode = os.waitstatus_to_exitcode(status)
    processor = usage.ru_utime + usage.ru_stime
    return seconds, processor, usage.ru_maxrss * 1024 / 1e6, child.returncode


def main():
    if len(sys.argv) < 3:
        sys.exit("usage: measure.py FILE COMMAND WORD..")
    path, command = sys.argv[1], sys.argv[2:]
    runs = [run_once(path, command) for _ in range(RUNS)]
    seconds = statistics.median(run[0] for run in runs)
    processor = statistics.median(run[1] for run in runs)
    peak = max(run[2] for run in runs)
    status = max(run[3] for run in runs)
    print(f"{seconds:.2f} s, processor {processor:.2f} s, peak {peak:.0f} MB, status {status}")
    sys.exit(status)


if __name__ == "__main__":
    main()
