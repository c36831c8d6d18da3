"""Times programs: their CPU time in seconds, and the most memory in bytes that they had."""
import os
import shutil
import subprocess
import sys

from pathlib import Path

PROGRAM = os.environ.get("WASM1", "./wasm1")


# Starts a program and prints its status, its CPU time and the most memory that it had. It is run by itself, since a
# process counts the most memory of the one that started it as its own.
MEASURE = """
import os, subprocess, sys
process = subprocess.Popen(sys.argv[1:], stdout=subprocess.DEVNULL, stderr=subprocess.DEVNULL)
_, status, usage = os.wait4(process.pid, 0)
print(os.waitstatus_to_exitcode(status), usage.ru_utime + usage.ru_stime, usage.ru_maxrss * 1024)
"""


def timed(words):
    """The status, the CPU time and the most memory of a run."""
    measured = subprocess.run([sys.executable, "-c", MEASURE, *words], check=True, capture_output=True, text=True)
    status, seconds, memory = measured.stdout.split()
    return int(status), float(seconds), int(memory)


def compared(command, files):
    """Writes each of the files for the megabytes that the words ask for, runs the command and wasm-validate on it and
    prints a line. Gives the name, the path, the content and the command's CPU time."""
    directory = Path(sys.argv[1])
    directory.mkdir(parents=True, exist_ok=True)
    megabytes = int(sys.argv[2]) if len(sys.argv) > 2 else 8
    other = shutil.which("wasm-validate")
    for name, content in files(megabytes).items():
        path = directory / (name + ".wasm")
        path.write_bytes(content)
        status, ours, memory = timed([PROGRAM, command, str(path)])
        line = f"{name}: {len(content)} bytes, status {status}, {ours:.3f} s, {memory / len(content):.1f} bytes a byte"
        if other:
            status, theirs, _ = timed([other, str(path)])
            line += f"; wasm-validate status {status}, {theirs:.3f} s, ratio {ours / max(theirs, 0.001):.2f}"
        print(line)
        yield name, path, content, ours
