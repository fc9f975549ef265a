"""What the tests of the documents read off the sources: the calls with their parameters, questions and answers, and the constants."""

import re
from pathlib import Path

ROOT = Path(__file__).resolve().parent.parent
CRATES = ROOT / "crates"
CALLS = CRATES / "calls" / "src"
SPECS = CRATES / "disk" / "specs"

LENT = ["card", "queue_data", "journal_data", "rec"]


def members(tree):
    """The paths of a tree of imports, `a::{b, c::{d, e as f}}`, each with the name that it has where it is brought in."""
    head, opened, inner = tree.partition("{")
    if not opened:
        path, _, name = tree.partition(" as ")
        yield name or path.rsplit("::", 1)[-1], path
        return
    depth, parts = 0, [""]
    for letter in inner[: inner.rindex("}")]:
        depth += (letter == "{") - (letter == "}")
        if letter == "," and depth == 0:
            parts.append("")
        else:
            parts[-1] += letter
    for part in filter(None, map(str.strip, parts)):
        for name, path in members(part):
            yield (head.split("::")[-2], head.removesuffix("::")) if path == "self" else (name, head + path)


def imports(source):
    """What a source of code brings in, by the name that it has there, with its path."""
    trees = re.findall(r"^(?:pub )?use ([^;]+);", source, re.M)
    return dict(pair for tree in trees for pair in members(" ".join(tree.split())))


def archived():
    """The crate that the library's archive is made of: the one static library of crates.txt."""
    (name,) = re.findall(r"^(\w+) +staticlib\b", (ROOT / "crates.txt").read_text(), re.M)
    return name


def constants():
    """The numbers that constants are given, by name: several where a name stands in several modules."""
    found = {}
    for path in sorted(CRATES.glob("*/src/*.rt")):
        for name, number in re.findall(r"\bconst (\w+): \w+ = (\d+);", path.read_text()):
            found.setdefault(name, set()).add(int(number))
    return found


class Call:
    """A public function of the crate `calls`, which has its module's name."""

    def __init__(self, name, comment, parameters, answer, contract, constructors):
        self.name = name
        self.types = dict(re.findall(r"(\w+): ([^,]+(?:; \w+\])?)", parameters))
        self.parameters = list(self.types)
        # a call that gives the record back beside its reply is named for that
        self.answer = answer.replace("Replied", "Reply")
        self.gives_record = answer.endswith("Replied")
        asked = re.search(r"// (Questions:.*)", comment)
        self.commented = [int(n) for n in re.findall(r"(?:Questions:|,) (\d+) ", asked.group(1))] if asked else []
        named = [word for word in re.findall(r"\w+", contract) if word in constructors]
        self.definition = constructors[named[-1]] if named else None

    def may_change(self, parameter):
        return self.types[parameter].startswith("&mut") or parameter == "rec" and self.gives_record


def constructors():
    """Each constructor of the definitions `Call`, `Edit` and `Look`."""
    text = (SPECS / "Call.antt").read_text()
    names = set()
    for data in re.findall(r"^pub data \w+ : Type 0 where\n((?:  .*\n)+)", text, re.M):
        for line in data.splitlines():
            names |= set(line.split(" : ")[0].split())
    return names


def names_of_constructors(source):
    """The constructors by the names that a source of code may have for them: their own, and those that it imports them by."""
    renamed = re.findall(r"(\w+) as (\w+)", " ".join(re.findall(r"^ghost use .*\.specs\.Call\.\{[^}]*\}", source, re.M)))
    return {name: name for name in constructors()} | {new: old for old, new in renamed}


def calls():
    """The calls: of each public module the function of its name."""
    for module in re.findall(r"^pub mod (\w+);", (CALLS / "lib.rt").read_text(), re.M):
        source = (CALLS / f"{module}.rt").read_text()
        found = re.search(rf"((?:^//[^\n]*\n)*)^pub fn ({module})\(([^)]*)\) -> (\w+)\n(.*?)^\{{", source, re.M | re.S)
        if found:
            comment, name, parameters, answer, contract = found.groups()
            yield Call(name, comment, parameters, answer, contract, names_of_constructors(source))


def numbered(definition, head):
    """The numbers of the questions in the equation of a definition that begins so."""
    text = (SPECS / "Questions.antt").read_text()
    found = re.search(rf"^{definition} {head}.* =((?:.*\n(?: .*\n)*))", text, re.M)
    return [int(n) for n in re.findall(r"\((\d+), ", found.group(1))] if found else None


def questions(constructor):
    """The questions that the definition asks for a call, in order."""
    edit = numbered("edit_questions", rf"\w+ \(?{constructor}\b")
    if edit is not None:
        return numbered("questions", r"\(on_stream\b") + edit
    look = numbered("look_questions", rf"\(?{constructor}\b")
    if look is not None:
        return numbered("questions", r"\(in_view\b") + look
    return numbered("questions", rf"\(?{constructor}\b")


def refusals():
    """The name of each refusal, by its number."""
    text = (CRATES / "answers" / "specs" / "Answers.antt").read_text()
    return {int(number): name for name, number in re.findall(r"^number (\w+) = (\d+)$", text, re.M)}
