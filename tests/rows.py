#!/usr/bin/env python3
"""Rows: suites of commands for a program, each with its answer beneath. rows/README.md describes their form.

As a program it runs the suites that it is given, or prints the commands of one.
"""

import difflib
import subprocess
import sys
from pathlib import Path

TOP = Path(__file__).resolve().parent.parent
ROWS = TOP / "tests" / "rows"
ANSWER = "  "
CASE = "case "
# how many seconds a suite may take, and how many lines are shown of one that differs
WITHIN = 600
SHOWN = 40


def split(suite):
    """The program's name, and the lines that it has to say."""
    first, *lines = suite.read_bytes().decode().split("\n")
    word, _, name = first.partition(" ")
    if word != "program" or not name.isidentifier():
        raise ValueError(f"{suite.name}: its first line names no program")
    if lines and lines[-1] == "":
        lines.pop()
    return name, lines


def commands(lines):
    """The lines that the program gets."""
    return "".join(line + "\n" for line in lines if not line.startswith(ANSWER))


def is_stale(built):
    """Whether the program isn't there, or some source is newer."""
    if not built.exists():
        return True
    sources = [TOP / "crates.txt", *(path for end in ("rt", "antt") for path in (TOP / "crates").rglob(f"*.{end}"))]
    return any("out" not in path.parts and path.stat().st_mtime > built.stat().st_mtime for path in sources)


def build(name):
    """Where the program lies, proved and built from the sources as they stand."""
    folder = TOP / "crates" / name
    built = folder / "out" / name
    if is_stale(built):
        subprocess.run(["rt", "run"], cwd=folder, stdin=subprocess.DEVNULL, stdout=subprocess.DEVNULL, check=True)
        built.touch()
    return built


def case_of(lines, at):
    """The label of the case that a line stands in."""
    for line in reversed(lines[: at + 1]):
        if line.startswith(CASE):
            return line.removeprefix(CASE)
    return "no case"


def differences(due, came):
    """Lines that tell how two lists of lines differ. A suite's second line is the first of `due`."""
    told = []
    for tag, a, b, c, d in difflib.SequenceMatcher(None, due, came, autojunk=False).get_opcodes():
        if tag != "equal":
            told.append(f"line {a + 2}, case {case_of(due, min(a, len(due) - 1))}:")
            told += [f"  wanted {line!r}" for line in due[a:b]]
            told += [f"  came   {line!r}" for line in came[c:d]]
    return told


def wrong_with(suite):
    """What is wrong with what the program says for a suite, or nothing."""
    name, due = split(suite)
    try:
        ran = subprocess.run([build(name)], input=commands(due).encode(), capture_output=True, timeout=WITHIN, check=False)
    except (OSError, subprocess.SubprocessError) as error:
        return f"{error}"
    told = differences(due, ran.stdout.decode("utf-8", "backslashreplace").removesuffix("\n").split("\n"))
    if ran.returncode != 0:
        told.append(f"status {ran.returncode}")
    if len(told) > SHOWN:
        told = [*told[:SHOWN], f"and {len(told) - SHOWN} lines more"]
    return "\n  ".join(["differs", *told]) if told else None


def labels(suite):
    """The labels of a suite's cases."""
    return [line.removeprefix(CASE) for line in split(suite)[1] if line.startswith(CASE)]


def told(suites=None):
    """Each suite's name with the number of its cases, and what is wrong with it."""
    for suite in sorted(ROWS.glob("*.rows")) if suites is None else suites:
        names = labels(suite)
        twice = sorted({name for name in names if names.count(name) > 1})
        wrong = f"labels that stand twice: {', '.join(twice)}" if twice else wrong_with(suite)
        yield f"rows {suite.stem}, {len(names)} cases", wrong


def main(words):
    if words[:1] == ["commands"]:
        sys.stdout.write(commands(split(Path(words[1]))[1]))
        return 0
    failed = 0
    for name, wrong in told([Path(word) for word in words] or None):
        failed += wrong is not None
        print(f"{name}: {wrong or 'ok'}")
    return 1 if failed else 0


if __name__ == "__main__":
    sys.exit(main(sys.argv[1:]))
