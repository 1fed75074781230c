"""Proves copies of a crate and of those below it, for the tools that build from what is proved."""
import os
import re
import shutil
import subprocess
import sys

import unproved


def lines_below(crate):
    """The lines of crates.txt for a crate and those below it."""
    lines = {re.match(r"\w+", line)[0]: line for line in (unproved.TOP / "crates.txt").read_text().splitlines() if re.match(r"\w+[^:#]*:", line)}
    wanted, found = [crate], {}
    for name in wanted:
        if name in lines and name not in found:
            found[name] = lines[name]
            wanted += lines[name].partition(":")[2].split()
    return found


def copy_below(folder, lines, *left_out):
    """Copies of the crates of these lines, without what was built of them and the parts that are left out."""
    for name in lines:
        shutil.copytree(unproved.TOP / "crates" / name, folder / "crates" / name, ignore=shutil.ignore_patterns("out", *left_out))
    shutil.copy(unproved.TOP / "HANDLES", folder)
    (folder / "crates.txt").write_text("\n".join(lines.values()) + "\n")


def is_of_gate(name):
    """Whether `rt ci` built the library that stands in a crate's out/, of the files as they are: it leaves no stamp, as a check does."""
    place = unproved.TOP / "crates" / name
    made = place / "out/rlib"
    sources = [file for part in ("src", "specs", "proofs") for file in (place / part).rglob("*") if file.is_file()]
    whole = (made / f"{name}.rlib/format").is_file() and not (made / "stamp").exists()
    return whole and max(file.stat().st_mtime for file in sources) < (made / f"{name}.rlib/format").stat().st_mtime


def link_or_copy(source, target):
    try:
        os.link(source, target)
    except OSError:
        shutil.copy2(source, target)


def after_gate(folder, crate, *left_out):
    """A copy of the crate, and copies of those below it with the libraries that a gate has just built; `None` where it left none."""
    lines = lines_below(crate)
    libraries = [name for name in lines if name != crate]
    if not all(map(is_of_gate, libraries)):
        return None
    copy_below(folder, lines, *left_out)
    for name in libraries:
        made = unproved.TOP / "crates" / name / "out/rlib"
        shutil.copytree(made, folder / "crates" / name / "out/rlib", copy_function=link_or_copy)
    return folder / "crates" / crate


def prove(folder, crate, *left_out):
    """Has `rt ci` pass copies of the crate and of those below it, without the parts that are left out; the crate's copy.

    Nothing but the files that are copied is read, so nothing that was built before counts but what the kit keeps of the same files.
    """
    unproved.kit()
    copy_below(folder, lines_below(crate), *left_out)
    if subprocess.run(["rt", "ci"], cwd=folder).returncode:
        sys.exit("not everything passed")
    return folder / "crates" / crate
