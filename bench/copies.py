"""Copies of crates in a folder of their own, so that nothing here changes; and in such a folder the program that times things."""
import os
import pathlib
import shutil
import subprocess
import tempfile

top = pathlib.Path(__file__).resolve().parent.parent

# The crate of the program that times things. The gate proves none of it, so each of its files has another ending, `.txt`.
times = top / "bench" / "times"


def lines():
    """The lines of crates.txt, by the names of their crates."""
    rows = [row.partition("#")[0] for row in (top / "crates.txt").read_text(encoding="utf-8").splitlines()]
    return {row.split(":")[0].split()[0]: row for row in rows if ":" in row}


def below(line):
    """What the crate of a line stands on."""
    return line.partition(":")[2].split()


def copy_to(room, names, *more, without=("must-fail",)):
    """Puts the named crates and all that they stand on into a folder, and a crates.txt with their lines and these. Folders of the given
    names stay here; without `out` among them, what was proved of the crates here is taken along."""
    there, needed = lines(), []

    def add(name):
        if name in there and name not in needed:
            for it in below(there[name]):
                add(it)
            needed.append(name)

    for name in names:
        add(name)
    for name in needed:
        shutil.copytree(top / "crates" / name, room / "crates" / name, ignore=shutil.ignore_patterns(*without))
    shutil.copy(top / "HANDLES", room)
    (room / "crates.txt").write_text("".join(f"{it}\n" for it in [*map(there.get, needed), *more]), encoding="utf-8")


def build(program):
    """Proves and builds the program that times things, by the gate's own command, which takes from the machine what it keeps."""
    line = (times / "line").read_text(encoding="utf-8").strip()
    with tempfile.TemporaryDirectory(prefix="times-") as folder:
        room = pathlib.Path(folder)
        copy_to(room, below(line), line, without=("must-fail", "out"))
        for file in times.rglob("*.txt"):
            it = room / "crates" / "times" / file.relative_to(times).with_suffix("")
            it.parent.mkdir(parents=True, exist_ok=True)
            shutil.copy(file, it)
        subprocess.run(["rt", "ci"], cwd=room, check=True, stdout=subprocess.DEVNULL)
        program.parent.mkdir(exist_ok=True)
        shutil.copy(room / "crates" / "times" / "out" / "times", program)


def times_program():
    """The program that times things: the one that the variable TIMES names, or that of `bench/times/out`, which is built if it isn't
    there."""
    program = pathlib.Path(os.environ.get("TIMES", times / "out" / "times"))
    if not program.exists():
        build(program)
    return program
