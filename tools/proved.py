"""What tools that hand out something proved share: a repository of one crate and all below it, and the gate over that."""
import os
import shlex
import shutil
import subprocess
from collections import deque
from pathlib import Path

ROOT = Path(__file__).resolve().parent.parent
RT = shlex.split(os.environ.get("RT", "rt"))
# What a verdict on a crate and a run of it read.
PARTS = ("src", "specs", "proofs", "args", "stdin", "stdout", "status", "data")
TAIL_LINES = 40


def rows_below(name):
    """The lines of crates.txt of a crate and of all below it, by name."""
    rows = {}
    for line in (ROOT / "crates.txt").read_text(encoding="utf-8").splitlines():
        row = line.partition("#")[0]
        if row.strip():
            rows[row.partition(":")[0].split()[0]] = row
    found, left = {}, [name]
    while left:
        it = left.pop()
        if it in rows and it not in found:
            found[it] = rows[it]
            left += rows[it].partition(":")[2].replace(",", " ").split()
    return found


def copy_into(room, rows):
    """Makes a repository of these crates alone."""
    (room / ".git").mkdir()
    (room / "crates.txt").write_text("".join(f"{it}\n" for it in rows.values()), encoding="utf-8")
    shutil.copy(ROOT / "HANDLES", room)
    for name in rows:
        of = room / "crates" / name
        of.mkdir(parents=True)
        for part in (ROOT / "crates" / name / it for it in PARTS):
            if part.is_dir():
                shutil.copytree(part, of / part.name, symlinks=True)
            elif part.exists():
                shutil.copy(part, of)


def told(words, folder, is_news):
    """The status of a command there: 0 where it passed. Prints each line that is news, and the end of what was said where it failed."""
    said = deque(maxlen=TAIL_LINES)
    with subprocess.Popen([*RT, *words], cwd=folder, stdout=subprocess.PIPE, stderr=subprocess.STDOUT, text=True, errors="replace") as running:
        try:
            for line in running.stdout:
                said.append(line)
                if is_news(line):
                    print(line, end="", flush=True)
        except BaseException:
            # It is not left running where this is told to stop.
            running.terminate()
            raise
    print(*(said if running.returncode else list(said)[-1:]), sep="", end="")
    return running.returncode


def gate_in(room):
    """The status of the gate there: 0 where it passed. Tells each crate as it is proved."""
    return told(["ci"], room, lambda line: line.startswith("rt: ") and line.endswith((" proved\n", " NOT PROVED\n")))


def leave(file, to, mode):
    """Gives a file its name in one step, so that nobody uses half of it."""
    to.parent.mkdir(parents=True, exist_ok=True)
    new = to.with_name(f"{to.name}.new")
    shutil.copyfile(file, new)
    new.chmod(mode)
    new.replace(to)
