"""What the contracts of a crate say, as one sum, and what tools/try-edits found of the crate's edits.

The sum is over the definitions of specs/ and the head of each function of src/, which has its clauses. A change of a body, of a
proof, or of the place from which a definition is taken leaves it as it was; a change of a contract, or of a definition of the crate,
doesn't. Those of the crates below aren't in it.
"""
import hashlib
import pathlib
import re

TOP = pathlib.Path(__file__).resolve().parent.parent
TRIED = TOP / "docs" / "edits-tried.txt"
OF_GATE, LEFT_OUT = "*.edit", "*.edit.md"
TAKEN = re.compile(rb"^(?:pub )?use .*\n", re.M)
HEAD = re.compile(r"^\s*(?:pub(?:\([^)]*\))? )?(?:(?:const|unsafe) )*fn \w+")


def heads(text):
    """The head of each function, up to its body: lines that are indented further are its parameters and clauses."""
    head, indent = [], ""
    for line in text.splitlines():
        if not head and HEAD.match(line):
            indent = line[: len(line) - len(line.lstrip())]
        elif not head:
            continue
        head.append(line)
        if not line.startswith(f"{indent} ") and line.endswith(("{", "}", ";")):
            yield "\n".join(head)
            head = []


def contract_sum(crate):
    """A short sum of a crate's definitions and of the heads of its functions."""
    folder = TOP / "crates" / crate
    total = hashlib.sha256()
    for path in sorted(folder.glob("specs/**/*.antt")):
        total.update(TAKEN.sub(b"", path.read_bytes()))
    for path in sorted(folder.glob("src/**/*.rt")):
        for head in heads(path.read_text()):
            total.update(head.encode())
    return total.hexdigest()[:16]


def edits(crate, pattern="*.edit*"):
    """The files of a crate's edits, those that the gate leaves out among them."""
    return sorted((TOP / "crates" / crate / "must-fail").glob(pattern))


def crates_with_edits(pattern="*.edit*"):
    """The crates that have such edits, in order."""
    return sorted({path.parent.parent.name for path in TOP.glob(f"crates/*/must-fail/{pattern}")})


def crates_left_out():
    """The crates of which the gate leaves out an edit."""
    return crates_with_edits(LEFT_OUT)


def tried():
    """For each crate whose edits were tried: the commit, how many were refused, how many were tried, and the sum of its contracts then."""
    lines = re.findall(r"^(\w+) ([0-9a-f]+) (\d+)/(\d+) ([0-9a-f]+)$", TRIED.read_text(), re.M) if TRIED.exists() else []
    return {crate: (commit, int(refused), int(number), total) for crate, commit, refused, number, total in lines}
