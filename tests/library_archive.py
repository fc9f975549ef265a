"""What the tests of the library share: its archive, how C is compiled against it, and the faults that wrappers
around it plant."""

import os
import re
import subprocess
from pathlib import Path

from prototypes import HEADER
from sources import ROOT

DID_NOT_RUN = 77

WARNINGS = ["-Wall", "-Wextra", "-Wpedantic", "-Wconversion", "-Wshadow", "-Werror"]
C99 = ["gcc", "-std=c99", "-O2", *WARNINGS, f"-I{HEADER.parent}"]


def archive():
    if "LIBRARY_UNDER_TEST" in os.environ:
        return Path(os.environ["LIBRARY_UNDER_TEST"]).resolve(strict=True)
    path = ROOT / "target" / "staticlib" / "libnumgalis.a"
    if not path.exists():
        subprocess.run([ROOT / "bin" / "build", "library"], check=True)
    return path


def planted(source):
    """The faults of a source: of each its number, what is wrong, the words by which it is to be found, and the
    function that is wrapped."""
    text = source.read_text()
    return re.findall(r'^#(?:el)?if FAULT == (\d+) /\* (.+): "(.+)" \*/\nWRAP\((numgalis_\w+),', text, re.M)


def faults_found(test, folder, compiled, source, library_file, outcome):
    """Links a compiled program with each fault in turn. Running it, outcome gives a status and a text: 1 and the
    fault's words, if it is found. The status of the test: 0 if all are."""
    faults = planted(source)
    unseen = 0
    for number, what, words, function in faults:
        program = folder / f"fault-{number}"
        flags = [f"-DFAULT={number}", f"-Wl,--wrap={function}"]
        subprocess.run([*C99, *flags, compiled, source, library_file, "-o", program], check=True)
        status, text = outcome(program)
        told = re.search(rf"^.*(?:{words}).*$", text, re.M)
        found = status == 1 and told is not None
        unseen += not found
        print(f"{'found' if found else 'NOT FOUND'}: {what} ({function}): {told.group(0) if found else text}")
    print(f"{test}: {len(faults)} faults planted, {len(faults) - unseen} found")
    return 1 if unseen or not faults else 0
