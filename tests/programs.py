"""The programs that the tests run: ours, or what is named to be tested in their place, and the second implementation's; what they print, and where two
prints differ."""

import os
import shlex
import shutil
import subprocess
import sys
from pathlib import Path

ROOT = Path(__file__).resolve().parent.parent
SECOND = ROOT / "tests" / "second"
BUILT = SECOND / "target" / "release"

SECONDS_FOR_A_RUN = 120
DID_NOT_RUN = 77


def build_second():
    """Builds the second implementation. Where cargo is missing there is nothing to compare with: the exit status is 77."""
    if shutil.which("cargo") is None:
        print(f"{Path(sys.argv[0]).name}: no cargo, so there is no second implementation to compare with")
        sys.exit(DID_NOT_RUN)
    manifest = SECOND / "Cargo.toml"
    subprocess.run(["cargo", "build", "--release", "--offline", "--quiet", "--manifest-path", manifest], check=True)


def second(name, *arguments):
    """The command of the second implementation's shell, lister or page program."""
    return [BUILT / f"second-{name}", *arguments]


def ours(name):
    """The command of our shell, lister or page program, or the one in NAME_UNDER_TEST; a path in it begins at the repository's root."""
    variable = f"{name.upper()}_UNDER_TEST"
    command = shlex.split(os.environ.get(variable, f"crates/{name}/out/{name}"))
    path = shutil.which(ROOT / command[0] if "/" in command[0] else command[0])
    if path is None:
        sys.exit(f"no program {command[0]}: `bin/build {name}` builds ours, or name one in {variable}")
    return [path, *command[1:]]


def output_of(command, **arguments):
    """What a program prints; a status other than 0 is part of it."""
    try:
        run = subprocess.run(
            command, cwd=ROOT, stdout=subprocess.PIPE, stderr=subprocess.PIPE, timeout=SECONDS_FOR_A_RUN, **arguments
        )
    except subprocess.TimeoutExpired as expired:
        return (expired.stdout or b"") + b"(doesn't end)\n"
    if run.returncode != 0:
        return run.stdout + b"(status %d: %s)\n" % (run.returncode, run.stderr.strip()[-200:])
    return run.stdout


def first_difference(expected, found):
    """The first line, from 0, that the outputs don't share, with both lines."""
    expected, found = expected.split(b"\n"), found.split(b"\n")
    number = next((n for n, (a, b) in enumerate(zip(expected, found)) if a != b), min(len(expected), len(found)))

    def line(lines):
        return lines[number].decode(errors="replace")[:160] if number < len(lines) else "(nothing)"

    return number, line(expected), line(found)
