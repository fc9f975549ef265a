"""What the tests of the library read off its header: the functions with their parameters and the refusals that
their comments name, and the constants."""

import re

from sources import ROOT

HEADER = ROOT / "include" / "numgalis.h"


class Prototype:
    """A function of the header. `told` are the parameters that its comment says something of, `refusals` those
    that it lists."""

    def __init__(self, name, parameters, comment):
        self.name = name
        parts = [" ".join(part.split()) for part in parameters.split(",")]
        self.parameters = [re.fullmatch(r"(.*?)\s*(\w+)", part).groups() for part in parts]
        self.refusals = re.findall(r"^ \*   NUMGALIS_(\w+) ", comment, re.M)
        told = re.findall(r"^ \* (\w+(?:, \w+)*) {2,}\S", comment, re.M)
        self.told = [word for words in told for word in words.split(", ")]


def prototypes(header):
    """The functions, in order; one without a comment right above it has an empty one."""
    for found in re.finditer(r"^size_t (\w+)\(([^)]*)\);", header, re.M):
        above = re.search(r"/\*(?:(?!\*/).)*\*/\n\Z", header[: found.start()], re.S)
        yield Prototype(*found.groups(), above.group(0) if above else "")


def comments(header):
    return re.findall(r"/\*.*?\*/", header, re.S)


def code(header):
    return re.sub(r"/\*.*?\*/", "", header, flags=re.S)


def numbers(header):
    """The constants, those of the enums too, without the prefix."""
    return {name: int(number) for name, number in re.findall(r"\bNUMGALIS_(\w+)(?: =)? (\d+)\b", code(header))}


def version(header):
    found = re.search(r'^#define NUMGALIS_VERSION "([^"]+)"$', header, re.M)
    return found.group(1) if found else None
