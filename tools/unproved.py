"""Makes programs of unproved text beside copies of the crates, for the tools that run outside the gate.

`rt try` makes such a program, runs it and removes it. Here it is made by a copy of the kit's folder whose compiler and
linker are scripts, which may change what they are told, and the linker's keeps the program.
"""
import pathlib
import shutil
import subprocess
import sys

TOP = pathlib.Path(__file__).resolve().parent.parent
# The scripts in place of the toolchain's, of which `real` is the one.
CLANG = """#!/bin/sh
{change}
exec {real} "$@"
"""
LINKER = """#!/bin/sh
{change}
{real} "$@" && cp program {program}
"""
# Like the gate's programs, and without the checks that `rt try` adds, which proofs make needless there.
OPTIMIZED = """if grep -aq rattle-llvm-checks module.bc; then
    {real} -S -emit-llvm -x ir module.bc -o - | sed -e '/^  call void @"rattle-llvm-checks::/d' -e 's/sanitize_address/nounwind/' \\
        -e 's/ "frame-pointer"="all"//; s/"target-cpu"="x86-64"/"target-cpu"="x86-64-v2"/' > module.ll
fi
for word do
    shift
    case $word in
        module.bc) [ -f module.ll ] && word=module.ll; set -- "$@" $word ;;
        -O0) set -- "$@" -O3 -Xclang -fmerge-functions -mllvm -mergefunc-use-aliases ;;
        -fsanitize=address) ;;
        *) set -- "$@" "$word" ;;
    esac
done"""
# With those checks, and without those of memory.
CHECKED = """for word do
    shift
    case $word in
        -O0) set -- "$@" -O1 ;;
        -fsanitize=address) ;;
        *) set -- "$@" "$word" ;;
    esac
done"""
WITHOUT_SANITIZER = """for word do
    shift
    case $word in
        --whole-archive) left_out=1 ;;
        --no-whole-archive) left_out= ;;
        *) [ "$left_out" ] || set -- "$@" "$word" ;;
    esac
done"""


def kit():
    """The kit's folder."""
    if not shutil.which("rt"):
        sys.exit("the Rattle kit's command rt is not on PATH: README.md says what the kit is")
    page = subprocess.run(["rt", "doc"], capture_output=True, text=True, check=True).stdout.strip()
    return pathlib.Path(page).resolve().parent


def copy_kit(folder, compiling, linking):
    """The kit's folder once more, with scripts for the compiler and the linker."""
    real, made = kit(), folder / "kit"
    scripts = {"clang": (CLANG, compiling), "ld.lld": (LINKER, linking)}
    shutil.rmtree(made, ignore_errors=True)
    for part in ("bin", "toolchain/bin"):
        (made / part).mkdir(parents=True)
    (made / "toolchain/lib").symlink_to(real / "toolchain/lib")
    for entry in [*real.iterdir(), *(real / "bin").iterdir(), *(real / "toolchain/bin").iterdir()]:
        place = made / entry.relative_to(real)
        if entry.name in scripts and entry.parent.name == "bin" and entry.parent.parent.name == "toolchain":
            text, change = scripts[entry.name]
            change = change.format(real=entry)
            place.write_text(text.format(change=change, real=entry, program=folder / "program"))
            place.chmod(0o755)
        elif entry.name == "rt" or entry.suffix == ".py":
            # They find the kit's folder from their own.
            shutil.copy(entry, place)
        elif not place.exists():
            place.symlink_to(entry)
    return made


def copy_crates(folder):
    """Copies of the crates, as far as a program is made of them."""
    for crate in (TOP / "crates").iterdir():
        for part in ("src", "specs", "proofs"):
            if (crate / part).is_dir():
                shutil.copytree(crate / part, folder / "crates" / crate.name / part, dirs_exist_ok=True)
    for name in ("HANDLES", "crates.txt"):
        shutil.copy(TOP / name, folder)


def add_crate(folder, crate, needs, sources):
    """A crate of these sources above the copies."""
    place = folder / "crates" / crate
    (place / "src").mkdir(parents=True, exist_ok=True)
    for name, source in sources.items():
        shutil.copy(TOP / "tools" / source, place / "src" / f"{name}.rt")
    with open(folder / "crates.txt", "a") as file:
        file.write(f"{crate}: {needs}\n")
    return place


def build(folder, place, flags, compiling, linking):
    """Makes the program of the crate at this place; its path."""
    program = folder / "program"
    rt = copy_kit(folder, compiling, linking) / "bin/rt"
    words = [sys.executable, rt, "try", "--steps", "1", *flags]
    done = subprocess.run(words, cwd=place, stdin=subprocess.DEVNULL, capture_output=True, text=True)
    if not program.exists():
        sys.exit(f"no program was made\n{done.stdout[-2000:]}\n{done.stderr[-4000:]}")
    return program


def make(folder, crate, needs, sources, flags=(), compiling="", linking=""):
    """Makes the program of a crate of these sources, unless it is there already; its path."""
    program = folder / "program"
    if program.exists():
        return program
    folder.mkdir(parents=True, exist_ok=True)
    copy_crates(folder)
    return build(folder, add_crate(folder, crate, needs, sources), flags, compiling, linking)
