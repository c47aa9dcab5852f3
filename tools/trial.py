"""What the checks of the tools have alike: a tool is run in this process, and the tests in all processors."""

import io
import os
import runpy
import subprocess
import sys
import tempfile
from concurrent.futures import ProcessPoolExecutor
from contextlib import redirect_stderr, redirect_stdout
from xml.parsers.expat import ExpatError

import report as reports

TOP = os.path.dirname(os.path.dirname(os.path.abspath(__file__)))
PROGRAM = "crates/lardsim/out/lardsim"
FOLDER = tempfile.TemporaryDirectory()  # of the files that a check makes
FAULTS = AssertionError, subprocess.CalledProcessError, ExpatError


def call_raw(command):
    """A tool, run in this process: its status, the bytes that it printed, and its complaints."""
    out, errors = io.TextIOWrapper(io.BytesIO(), encoding="utf-8"), io.StringIO()
    words = command.split() if isinstance(command, str) else command
    sys.argv, status = words, 0
    with redirect_stdout(out), redirect_stderr(errors):
        try:
            runpy.run_path(words[0], run_name="__main__")
        except SystemExit as end:
            status = end.code or 0
    out.flush()
    return int(status), out.buffer.getvalue(), errors.getvalue()


def call(command):
    """The same with what it printed as text."""
    status, out, errors = call_raw(command)
    return status, out.decode(), errors


def fine(command):
    """What a tool prints that has nothing to complain of."""
    status, out, errors = call(command)
    if status or errors:
        raise AssertionError(f"{command}: status {status}: {errors}")
    return out


def content(path):
    with open(path, encoding="latin-1") as file:
        return file.read()


def new_file(text):
    """The name of a new file of this text."""
    with tempfile.NamedTemporaryFile("w", suffix=".report", delete=False, dir=FOLDER.name, encoding="latin-1") as file:
        file.write(text)
        return file.name


def syn(client):
    """The SYN of a client that begins at 1000 with a window of 65,535 and a maximum segment size of 1,460."""
    data = bytes.fromhex("9c400050000003e8000000006002ffff00000000020405b4")
    ends = reports.client_address(client) + reports.CLUSTER + bytes([0, 6, 0, len(data)])
    return (data[:16] + reports.checksum(ends + data).to_bytes(2, "big") + data[18:]).hex()


def replay(schedule):
    """The name of the report of a schedule, as the built program writes it."""
    done = subprocess.run([PROGRAM, "replay"], input=schedule, capture_output=True, check=True)
    return new_file(done.stdout.decode("latin-1"))


def faults_of(test):
    """What a test finds. Each is a function, which gives the faults, with what it is given."""
    try:
        return list(test[0](test[1]))
    except FAULTS as error:
        return [f"{test[0].__name__}: {error}"]


def run_all(name, tests, left_out=None):
    """Runs the tests, prints their faults and how many passed, and ends the check. What was left out stands in the last line."""
    with ProcessPoolExecutor(os.cpu_count()) as pool:
        found = list(pool.map(faults_of, tests))
    for fault in (fault for faults in found for fault in faults):
        print(f"{name}: {fault}", file=sys.stderr)
    failed = sum(bool(faults) for faults in found)
    if left_out is None and not os.path.exists(PROGRAM):
        print(f"{name}: the program is not built, so nothing was replayed")
    print(f"{name}: {left_out + '; ' if left_out else ''}{len(found) - failed} passed, {failed} failed")
    FOLDER.cleanup()
    sys.exit(failed > 0)
