"""What tests/card-file and tests/card-file-faults share: card files in folders of their own, runs of the programs, and cases.

The programs are shell, lister and page as bin/build makes them, or the commands in the environment variables
SHELL_UNDER_TEST, LISTER_UNDER_TEST and PAGE_UNDER_TEST. They are copied first, so that a user without rights can run them too.
"""

import os
import shutil
import subprocess
import sys
import tempfile
import traceback
from pathlib import Path

from programs import ours

SECONDS_FOR_A_RUN = 60

NOBODY = 65534

# The programs that read a card on standard input.
READERS = "lister", "page"

# Every byte of a card counts, so the old one and the new one differ in all of them.
OLD = bytes(n * 7 % 251 for n in range(16_384))
PUT = "card 16384 165\n"
NEW = bytes([165]) * 16_384


class Failed(Exception):
    """A case does not hold."""


class NotRun(Exception):
    """A case needs what is not there."""


def expect(holds, what, run=None):
    if not holds:
        raise Failed(what if run is None else f"{what}\n    {run}")


class Run:
    """What a run of a program left."""

    def __init__(self, status, out, error):
        self.status, self.out, self.error = status, out.decode(), error.decode(errors="replace")

    def __str__(self):
        return f"status {self.status}, standard output {self.out[-200:]!r}, standard error {self.error[-500:]!r}"


class Folder:
    """A folder of its own, with the programs beside it."""

    def __enter__(self):
        self.top = Path(tempfile.mkdtemp(prefix="test-"))
        self.top.chmod(0o755)
        for name in "shell", *READERS:
            shutil.copy(ours(name)[0], self.top / name)
            (self.top / name).chmod(0o755)
        self.path = self.top / "cards"
        self.path.mkdir()
        self.path.chmod(0o777)
        return self

    def __exit__(self, *_):
        self.path.chmod(0o777)
        shutil.rmtree(self.top, ignore_errors=True)

    @property
    def shell(self):
        return str(self.top / "shell")

    def reader(self, name):
        return str(self.top / name)

    def card(self, content=OLD, name="card"):
        path = self.path / name
        path.write_bytes(content)
        path.chmod(0o666)
        return path

    def names(self):
        return sorted(path.name for path in self.path.iterdir())


def as_nobody():
    """Without the rights of root, which may read and write everything."""
    if os.getuid() == 0:
        os.setgroups([])
        os.setgid(NOBODY)
        os.setuid(NOBODY)


def run(command, script="", **arguments):
    """Runs a program on a script, or on the standard input given; its standard output and error are what is not given."""
    if "stdin" not in arguments:
        arguments["input"] = script.encode()
    arguments = {"stdout": subprocess.PIPE, "stderr": subprocess.PIPE, "timeout": SECONDS_FOR_A_RUN} | arguments
    done = subprocess.run([str(word) for word in command], **arguments)
    return Run(done.returncode, done.stdout or b"", done.stderr or b"")


def told(run_, name, *reasons):
    """One line on standard error, with the file's name and the reason."""
    lines = run_.error.splitlines()
    expect(len(lines) == 1, "not one line on standard error", run_)
    expect(str(name) in lines[0], f"standard error does not name {name}", run_)
    expect(any(reason in lines[0] for reason in reasons), f"standard error does not say {' or '.join(reasons)}", run_)


def is_old(card, run_=None, content=OLD):
    expect(card.read_bytes() == content, f"{card.name} is not as it was: {card.stat().st_size} bytes", run_)


def run_cases(cases, what):
    """Runs each case in a folder of its own, prints a line for each; the exit status."""
    wrong, missing = [], []
    for case in cases:
        name = case.__doc__.strip()
        try:
            with Folder() as folder:
                said = case(folder)
            print(f"holds: {name}{f' ({said})' if said else ''}", flush=True)
        except NotRun as reason:
            missing.append(name)
            print(f"did not run: {name}: {reason}", flush=True)
        except Failed as failure:
            wrong.append(name)
            print(f"FAILS: {name}: {failure}", flush=True)
        except Exception:
            wrong.append(name)
            print(f"FAILS: {name}: {traceback.format_exc()}", flush=True)
    print(f"{what}: {len(cases) - len(wrong) - len(missing)} cases hold, {len(wrong)} fail, {len(missing)} did not run")
    return 1 if wrong else 77 if missing else 0
