"""A copy of the crates with what is proved of them, in which a test makes its changes: the check there proves again only what they change."""

import os
import shutil
import subprocess
import tempfile
from contextlib import contextmanager
from pathlib import Path

ROOT = Path(__file__).resolve().parent.parent


def linked(one, other):
    """Copies a file; what is proved, which a check replaces and never changes, by a link where that can be made."""
    try:
        return os.link(one, other) if one.endswith(".oantt") else shutil.copy2(one, other)
    except OSError:
        return shutil.copy2(one, other)


@contextmanager
def copied(crate):
    """A folder with the crates, what is proved of this one, and the libraries that are built of the others."""
    with tempfile.TemporaryDirectory(prefix="crates-") as folder:
        others = lambda at, names: ["incremental"] if Path(at) != ROOT / "crates" / crate / "out" else []
        shutil.copy(ROOT / "crates.txt", folder)
        shutil.copytree(ROOT / "crates", Path(folder) / "crates", ignore=others, copy_function=linked)
        yield Path(folder)


def checked(tree, crate, *words):
    """The exit status of the check of a crate in such a folder, and what it says."""
    command = ["rt", "check", "--jobs", "1", *words]
    how = {"stdin": subprocess.DEVNULL, "stdout": subprocess.PIPE, "stderr": subprocess.STDOUT}
    run = subprocess.run(command, cwd=tree / "crates" / crate, **how)
    return run.returncode, run.stdout.decode(errors="replace")
