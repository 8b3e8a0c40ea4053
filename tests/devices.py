"""The program reads a script, and writes its lines, where that fails."""
import os
import resource
import signal
import subprocess
import tempfile

EXCHANGE = "consumes_and_acknowledges"
DEVICE = "error: device\n"


def limit(room):
    """Has the process write at most so many bytes to a file; the write behind them fails."""
    signal.signal(signal.SIGXFSZ, signal.SIG_IGN)
    resource.setrlimit(resource.RLIMIT_FSIZE, (room, room))


def written(program, script, room):
    """What stands in a file of this room where the lines were written to it, and how the program ended."""
    with tempfile.TemporaryFile() as file:
        done = subprocess.run([program], input=script.encode(), stdout=file, stderr=subprocess.PIPE, check=False, preexec_fn=lambda: limit(room))
        file.seek(0)
        return file.read().decode(), done.stderr.decode(), done.returncode


def faults(program, scripts):
    """What is wrong, if anything is: a front of the lines is written, as much as there is room for, and then the failure is told."""
    if EXCHANGE not in scripts:
        return []
    script, found = scripts[EXCHANGE], []
    lines, _, _ = written(program, script, 1 << 20)
    for room in range(len(lines) + 1):
        wanted = (lines[:room], DEVICE, 1) if room < len(lines) else (lines, "", 0)
        if written(program, script, room) != wanted:
            found.append(f"writing to a file of {room} bytes: not a front of the lines, or another end")
    for name, stdin in (("a folder", os.open("/", os.O_RDONLY)), ("a file that can't be read", os.open(os.devnull, os.O_WRONLY))):
        done = subprocess.run([program], stdin=stdin, stdout=subprocess.PIPE, stderr=subprocess.PIPE, check=False)
        os.close(stdin)
        if (done.stdout, done.stderr.decode(), done.returncode) != (b"", DEVICE, 1):
            found.append(f"reading the script from {name}: {done.stderr.decode()[:200]!r}, status {done.returncode}")
    return found
