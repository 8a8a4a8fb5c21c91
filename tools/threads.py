#!/usr/bin/env python3
"""What `-j 2` gives: times `check`, `diff` and `lift` of one container at -j 1 and -j 2, in turn, and says what each thread took of the
processor (its schedstat, looked at every few milliseconds until it ends). Run it while both cores are free:

    tools/threads.py [LISTS] [ROUNDS]

It needs `make command`, and writes to a folder of its own in /dev/shm, which it removes.
"""

import pathlib
import shutil
import subprocess
import sys
import tempfile
import time

ROOT = pathlib.Path(__file__).resolve().parent.parent
COMMAND = ROOT / "host/target/release/sorbrudder"
LIST = "a && b || c && d || e && f || g && h"


def archive(folder, lists):
    """A container of lists of 15 tokens that versions 5 and 6 read otherwise."""
    text = f"5 {LIST}\n" * lists
    packed = subprocess.run([COMMAND, "pack", "-", "-o", "in"], input=text.encode(), cwd=folder, capture_output=True)
    if packed.returncode != 0:
        sys.exit(packed.stderr.decode())


def timed(folder, words):
    """The clock's seconds, and the processor's seconds of each thread that took more than a hundredth."""
    (folder / "out").unlink(missing_ok=True)
    since = time.monotonic()
    child = subprocess.Popen([COMMAND, *words], cwd=folder, stdout=subprocess.DEVNULL, stderr=subprocess.DEVNULL)
    took, tasks = {}, pathlib.Path(f"/proc/{child.pid}/task")
    while child.poll() is None:
        try:
            for task in tasks.iterdir():
                took[task.name] = int((task / "schedstat").read_text().split()[0]) / 1e9
        except (FileNotFoundError, ProcessLookupError):
            pass
        time.sleep(0.004)
    clock = time.monotonic() - since
    return clock, sorted((seconds for seconds in took.values() if seconds > 0.01), reverse=True)


def main():
    lists, rounds = (int(word) for word in (sys.argv[1:] + ["300000", "3"][len(sys.argv) - 1 :])[:2])
    if not COMMAND.is_file():
        sys.exit("threads.py: no command; run: make command")
    folder = pathlib.Path(tempfile.mkdtemp(prefix="sorbrudder-threads-", dir="/dev/shm"))
    try:
        archive(folder, lists)
        print(f"{lists} lists, {(folder / 'in').stat().st_size} bytes; the least of {rounds} rounds")
        for words in (["check", "in"], ["diff", "in", "--to", "6"], ["lift", "in", "-o", "out", "--to", "6"]):
            least = {}
            for _ in range(rounds):
                for jobs in ("1", "2"):
                    one = timed(folder, [*words, "-j", jobs])
                    least[jobs] = min(least.get(jobs, one), one)
            for jobs, (clock, threads) in least.items():
                shown = ", ".join(f"{seconds:.2f}" for seconds in threads)
                print(f"{words[0]:5} -j {jobs}: {clock:.2f} s by the clock; threads {shown} s")
            print(f"{words[0]:5} by the clock {least['1'][0] / least['2'][0]:.2f} times as fast")
    finally:
        shutil.rmtree(folder)


if __name__ == "__main__":
    main()
