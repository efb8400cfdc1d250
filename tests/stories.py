"""Stories: calls of the built program one after another on the same two files, some of which change them.

A story is a list of steps. A step is the words of a call, its input, what it has to say and its exit status, and at
need what the files have to be like afterwards. A scene is a function, for what no list of steps can tell: calls that
run at the same time, or an input that is written while answers are read.
"""

import os
import random
import shutil
import subprocess
import tempfile
import threading
from collections.abc import Callable
from dataclasses import dataclass
from pathlib import Path

import scripts
import series
from files import CLOSED, HEADER, bitmap, block, changed, header, place, pointer

# the user that runs a call which root would pass, since root writes every file
NOBODY = 65534
CREATE = ["CREATE", "-BLOCK=1024", "-KEY=64", "-VALUE=400", "-ALLOC=100"]


def said(*texts):
    return "".join(text + "\n" for text in texts).encode()


@dataclass
class Step:
    words: list
    said: bytes
    status: int = 0
    stdin: bytes = b""
    # how standard input and output are: full, no output, no input, neither
    streams: str = ""
    # what is wrong with the files afterwards
    check: Callable | None = None


def run(texts, *answers, **more):
    """A run of these lines, with these answers."""
    return Step(["RUN"], said(*answers), stdin=said(*texts), **more)


def new_database(total=100):
    """The files of a new database, after the format."""
    blocks = [
        bitmap(0, {1, 2}, total, number=0),
        block(1, [(0, pointer(2))], number=0),
        block(0, [], number=0),
    ]
    db = header(free=total - 3, number=1) + b"".join(blocks).ljust(total * 1024, b"\0")
    return {"db": db, "db.bi": CLOSED}


def look(folder):
    return {entry.name: entry.read_bytes() for entry in folder.iterdir() if entry.is_file()}


def is_new(folder):
    return None if look(folder) == new_database() else "the files aren't those of a new database"


def has_length(length):
    """The database file has so many bytes."""

    def check(folder):
        found = (folder / "db").stat().st_size
        return None if found == length else f"{found} bytes and not {length}"

    return check


def has_block(*starts):
    """One block of the database file begins so, for each of these."""

    def check(folder):
        db = (folder / "db").read_bytes()
        blocks = [db[at : at + 1024] for at in range(HEADER, len(db), 1024)]
        missing = [start for start in starts if sum(data.startswith(start) for data in blocks) != 1]
        return f"no block, or several, begin with {missing[0].hex(' ')}" if missing else None

    return check


def put(name, at, data):
    """Writes over bytes of a file before the next step."""

    def check(folder):
        path = folder / name
        path.write_bytes(changed(path.read_bytes(), at, data))

    return check


def go_back(folder):
    """Opens the gate of images that lead back to the database without nodes."""
    old = new_database()["db"]
    pieces = [(0, old[:HEADER])] + [(at, old[at : at + 1024]) for at in range(HEADER, len(old), 1024)]
    images = b"".join(
        at.to_bytes(8, "little") + len(data).to_bytes(4, "little") + data for at, data in pieces
    )
    group = len(images).to_bytes(8, "little") + len(old).to_bytes(8, "little") + images
    (folder / "db.bi").write_bytes(CLOSED[:8] + b"\1" + group + b"\0")


MADE = Step(CREATE, said("CREATED 100"))
SOUND = Step(["INTEG"], said("FAULTS 0"))
LEAF = bytes.fromhex("01000000210000000200000000000000 0800000041000078 09000200bf11000079")
ROOT = bytes.fromhex("01000001310000000300000000000000 0e000000 4100bf210000")
PIECES = [
    bytes.fromhex("01000000fa0100000300000000000000 ea010000 4100bf110000"),
    bytes.fromhex("01000000c60300000300000000000000 b6030000 4100bf210000"),
    bytes.fromhex("01000000fa0100000300000000000000 ea010000 4100bf310000"),
]
# the directory's leaf once its last name has gone, by the fourth transaction
NO_ENTRIES = bytes.fromhex("01000000100000000400000000000000")
FULL = ["SET ^%c=1" % letter for letter in b"ABCDEFGHIJKLMNOP"]

STORIES = {
    "nodes have what was set last": [
        MADE,
        run(
            ['SET ^A="x"', 'SET ^A(1)="y"', 'SET ^B(2)=""', 'SET ^A(1)="z"'],
            *["OK"] * 4,
            "EPOCH 4",
        ),
        SOUND,
        run(
            ["GET ^A", "GET ^A(1)", "GET ^B(2)", "GET ^A(2)", "GET ^B", "GET ^C"],
            'VALUE "x"',
            'VALUE "z"',
            'VALUE ""',
            *["UNDEF"] * 3,
            "EPOCH 0",
        ),
    ],
    "keys and values that are too long": [
        MADE,
        run(
            [
                'SET ^A("' + "q" * 59 + '")="v"',
                'SET ^A("' + "q" * 60 + '")="v"',
                'SET ^A("q")="' + "v" * 400 + '"',
                'SET ^A("q")="' + "v" * 401 + '"',
                'SET ^A("' + "q" * 60 + '")="' + "v" * 401 + '"',
            ],
            "OK",
            "KEYTOOLONG 65",
            "OK",
            "VALUETOOLONG 401",
            "KEYTOOLONG 65",
            "EPOCH 2",
        ),
        SOUND,
    ],
    "a new database": [Step(CREATE, said("CREATED 100"), check=is_new), SOUND],
    "a database is made once": [
        MADE,
        Step(["CREATE"], said("NOTEMPTY"), 8, check=is_new),
        SOUND,
    ],
    "numbers that aren't given": [Step(["create"], said("CREATED 100"), check=is_new), SOUND],
    "numbers in any order and case": [
        Step(["Create", "-limit=64", "-Alloc=64"], said("CREATED 64"), check=has_length(HEADER + 64 * 1024)),
        SOUND,
    ],
    "the smallest database": [
        Step(
            ["CREATE", "-BLOCK=512", "-KEY=3", "-VALUE=0", "-ALLOC=3", "-EXT=64", "-LIMIT=64"],
            said("CREATED 3"),
            check=has_length(HEADER + 3 * 512),
        ),
        SOUND,
        run(["SET ^A=\"\"", "GET ^A", "SET ^AB=\"\""], "OK", 'VALUE ""', "KEYTOOLONG 4", "EPOCH 1"),
        SOUND,
    ],
    "numbers out of their range": [
        Step(["CREATE", "-ALLOC=2"], said("BADWORDS 1"), 7),
        Step(["CREATE", "-KEY=64", "-BLOCK=1000"], said("BADWORDS 2"), 7),
        Step(["CREATE", "-KEY=64", "-KEY=64"], said("BADWORDS 2"), 7),
        Step(["CREATE", "-BLOCK=512", "-VALUE=400", "-KEY=255"], said("BADWORDS 4"), 7),
        Step(["CREATE", "-ALLOC=101", "-LIMIT=100"], said("BADWORDS 3"), 7),
        Step(["RUN", "-X"], said("BADWORDS 1"), 7),
    ],
    "a file of images alone": [
        Step(["VERSION"], said("GDSPROF1"), check=lambda folder: (folder / "db.bi").write_bytes(b"x") and None),
        Step(CREATE, said("NOTEMPTY"), 8),
    ],
    "values are kept": [
        MADE,
        run(['SET ^A="x"', 'SET ^A(1)="y"'], "OK", "OK", "EPOCH 2", check=has_block(LEAF)),
        SOUND,
        run(["GET ^A", "GET ^A(1)", "GET ^B", "EPOCH"], 'VALUE "x"', 'VALUE "y"', "UNDEF", "EPOCH 0", "EPOCH 0"),
        Step(["EXTRACT", "-STAMP=x"], said("GT.M MUPIP EXTRACT", "x ZWR", '^A="x"', '^A(1)="y"')),
    ],
    "no input": [MADE, Step(["RUN"], said("EPOCH 0"), check=is_new)],
    "lines outside the grammar": [
        MADE,
        run(
            ['SET ^A("")="x"', "", "set ^A=1", "GET ^A", 'ORDER ^A("")', "QUIT"],
            "BADLINE",
            "BADLINE",
            "BADLINE",
            "UNDEF",
            "END",
            "BADLINE",
            "EPOCH 0",
        ),
        Step(["RUN"], said("OK", 'VALUE "1"', "EPOCH 1"), stdin=b"SET ^A=1\r\nGET ^A"),
        SOUND,
    ],
    "keys and values that are too long": [
        MADE,
        run(
            [
                'SET ^A("%s")=1' % ("q" * 59),
                'SET ^A("%s")=1' % ("q" * 60),
                'SET ^B="%s"' % ("v" * 400),
                'SET ^B="%s"' % ("v" * 401),
            ],
            "OK",
            "KEYTOOLONG 65",
            "OK",
            "VALUETOOLONG 401",
            "EPOCH 2",
        ),
        SOUND,
    ],
    "a leaf goes into three": [
        Step(CREATE[:3] + ["-VALUE=940", "-ALLOC=100"], said("CREATED 100")),
        run(
            ['SET ^A(1)="%s"' % ("v" * 480), 'SET ^A(3)="%s"' % ("v" * 480), 'SET ^A(2)="%s"' % ("v" * 940)],
            "OK",
            "OK",
            "OK",
            "EPOCH 3",
            check=has_block(ROOT, *PIECES),
        ),
        SOUND,
    ],
    "a file gets full": [
        Step(["CREATE", "-ALLOC=64", "-LIMIT=64"], said("CREATED 64")),
        run(FULL, *["OK"] * 15, "FULL 31", "EPOCH 15"),
        run(["SET ^A=2", "GET ^A"], "FULL 31", 'VALUE "1"', "EPOCH 0"),
        SOUND,
    ],
    "a KILL makes room": [
        Step(["CREATE", "-ALLOC=64", "-LIMIT=64"], said("CREATED 64")),
        run([*FULL, "KILL ^A", FULL[-1]], *["OK"] * 15, "FULL 31", "OK", "OK", "EPOCH 17"),
        SOUND,
    ],
    "questions and a KILL of a global": [
        MADE,
        run(
            [
                'SET ^A="1"',
                'SET ^A(1)="2"',
                'SET ^A(1,2)="3"',
                'SET ^AB="4"',
                "DATA ^A(1)",
                "ORDER ^A",
                "QUERY ^A",
                "KILL ^A",
                "DATA ^A",
                "GET ^AB",
                "KILL ^A",
            ],
            *["OK"] * 4,
            "DATA 11",
            "NEXT ^AB",
            "NODE ^A(1)",
            "OK",
            "DATA 0",
            'VALUE "4"',
            "OK",
            "EPOCH 6",
        ),
        SOUND,
        Step(["EXTRACT", "-STAMP=x"], said("GT.M MUPIP EXTRACT", "x ZWR", '^AB="4"')),
    ],
    "nodes go one after another": [
        MADE,
        run(
            [
                'SET ^A(1)="x"',
                'SET ^A(2)="y"',
                "KILL ^A(1)",
                'ORDER ^A("")',
                "ORDER ^A(2)",
                "QUERY ^A",
                "KILL ^A",
                "ORDER ^%",
            ],
            "OK",
            "OK",
            "OK",
            "NEXT 2",
            "END",
            "NODE ^A(2)",
            "OK",
            "END",
            "EPOCH 4",
            check=has_block(NO_ENTRIES),
        ),
        SOUND,
        run(["DATA ^A", "SET ^A=1", "DATA ^A"], "DATA 0", "OK", "DATA 1", "EPOCH 1"),
        SOUND,
    ],
    "questions about keys that are too long": [
        MADE,
        run(
            ['%s ^A("%s")' % (verb, "q" * 60) for verb in ("KILL", "GET", "ORDER", "DATA", "QUERY")]
            + ['ORDER ^A("%s","")' % ("q" * 60), 'ORDER ^A("%s")' % ("q" * 59)],
            *["KEYTOOLONG 65"] * 6,
            "END",
            "EPOCH 0",
        ),
    ],
    "a KILL of nothing takes no transaction number": [
        Step(CREATE, said("CREATED 100"), check=put("db", 40, (2**63 - 1).to_bytes(8, "little"))),
        run(
            ["KILL ^A", "SET ^A(1)=1", "KILL ^B", "KILL ^A", "DATA ^A"],
            *["OK"] * 3,
            "TNSPENT",
            "DATA 10",
            "EPOCH 3",
        ),
        SOUND,
    ],
    "a file grows": [
        Step(["CREATE", "-ALLOC=40", "-EXT=64"], said("CREATED 40")),
        run(FULL[:4], *["OK"] * 4, "EPOCH 4", check=has_length(HEADER + 104 * 1024)),
        SOUND,
        run(["GET ^D"], 'VALUE "1"', "EPOCH 0"),
    ],
    "transaction numbers are spent": [
        Step(CREATE, said("CREATED 100"), check=put("db", 40, (2**63 - 1).to_bytes(8, "little"))),
        run(["SET ^A=1", "SET ^A=2", "GET ^A"], "OK", "TNSPENT", 'VALUE "1"', "EPOCH 1"),
        SOUND,
    ],
    "images lead back": [
        MADE,
        run(["SET ^A=1"], "OK", "EPOCH 1", check=go_back),
        run(["GET ^A"], "UNDEF", "EPOCH 0"),
        SOUND,
    ],
    "a damaged file of images": [
        Step(CREATE, said("CREATED 100"), check=put("db.bi", 8, b"\1")),
        Step(["RUN"], said("BADIMAGES 9"), 9, stdin=b"SET ^A=1\n"),
    ],
    "a database with a fault": [
        Step(CREATE, said("CREATED 100"), check=put("db", place(2, 3), b"\5")),
        Step(["RUN"], said("UNSOUND 1"), 10, stdin=b"SET ^A=1\n"),
    ],
    "absent files": [Step(["RUN"], said("BADIMAGES 0"), 9, stdin=b"GET ^A\n")],
    "a directory in the place of the file": [
        Step(["VERSION"], said("GDSPROF1"), check=lambda folder: (folder / "db").mkdir()),
        *(Step([command], b"", 2) for command in ("CREATE", "RUN", "INTEG")),
    ],
    "standard output is full": [
        MADE,
        Step(["RUN"], b"", 4, stdin=b"SET ^A=1\nEPOCH\n", streams="full"),
        run(["GET ^A"], "UNDEF", "EPOCH 0"),
        SOUND,
    ],
    "standard output is closed": [
        Step(CREATE, b"", 4, streams="no output", check=is_new),
        Step(["RUN"], b"", 4, stdin=b"SET ^A=1\nEPOCH\n", streams="no output"),
        run(["GET ^A"], "UNDEF", "EPOCH 0"),
        SOUND,
    ],
    "standard input is closed": [
        MADE,
        Step(["RUN"], said("EPOCH 0"), streams="no input", check=is_new),
        Step(["RUN"], b"", 4, streams="neither", check=is_new),
        SOUND,
    ],
}


def without(streams):
    """Closes streams in the new process before the program starts."""
    closed = {"no output": [1], "no input": [0], "neither": [0, 1]}.get(streams, [])

    def close():
        for number in closed:
            os.close(number)

    return close if closed else None


def call(program, folder, step, user=None):
    """The status of a call, and what it said."""
    with open("/dev/full", "wb") as full:
        ran = subprocess.run(
            [program, folder / "db", *step.words],
            cwd=folder,
            input=step.stdin,
            stdout=full if step.streams == "full" else subprocess.PIPE,
            preexec_fn=without(step.streams),
            timeout=60,
            user=user,
        )
    return ran.returncode, ran.stdout or b""


def wrong_with_story(program, folder, steps, user=None):
    """What is wrong with the answers of these steps or with the files, or nothing."""
    for number, step in enumerate(steps, 1):
        status, answer = call(program, folder, step, user)
        if answer != step.said:
            return f"step {number} said {answer!r} and not {step.said!r}"
        if status != step.status:
            return f"step {number}: status {status} and not {step.status}"
        wrong = step.check and step.check(folder)
        if wrong:
            return f"step {number}: {wrong}"
    return None


def start(program, folder, *words):
    return subprocess.Popen(
        [program, folder / "db", *words], cwd=folder, stdin=subprocess.PIPE, stdout=subprocess.PIPE
    )


def answers_come_at_once(program, folder):
    """Each line is answered before the next one is given."""
    call(program, folder, MADE)
    process = start(program, folder, "RUN")
    late = threading.Timer(20, process.kill)
    late.start()
    try:
        for line, answer in [
            (b"SET ^A=1\n", b"OK\n"),
            (b"GET ^A\n", b'VALUE "1"\n'),
            (b"EPOCH\n", b"EPOCH 1\n"),
            (b"\n", b"BADLINE\n"),
        ]:
            process.stdin.write(line)
            process.stdin.flush()
            found = process.stdout.readline()
            if found != answer:
                return f"{line!r} is answered {found!r}"
        rest, _ = process.communicate()
        return None if (process.returncode, rest) == (0, b"EPOCH 1\n") else f"ended with {rest!r}"
    finally:
        late.cancel()
        process.kill()


def pieces_do_not_matter(program, folder):
    """A script that comes byte for byte."""
    call(program, folder, MADE)
    process = start(program, folder, "RUN")
    for byte in b'SET ^A="x"\nGET ^A\r\nGET ^B':
        process.stdin.write(bytes([byte]))
        process.stdin.flush()
    found, _ = process.communicate(timeout=20)
    wanted = said("OK", 'VALUE "x"', "UNDEF", "EPOCH 1")
    return None if (process.returncode, found) == (0, wanted) else f"said {found!r}"


def one_program_at_a_time(program, folder):
    """While a run goes on no other call gets at the files, and none changes them."""
    call(program, folder, MADE)
    process = start(program, folder, "RUN")
    process.stdin.write(b"SET ^A=1\nGET ^A\n")
    process.stdin.flush()
    for _ in range(2):
        process.stdout.readline()
    try:
        for words, status in [(["RUN"], 3), (["INTEG"], 2), (["EXTRACT"], 2), (["CREATE"], 2)]:
            found = call(program, folder, Step(words, b"", stdin=b"SET ^A=2\n"))
            if found != (status, b""):
                return f"{words[0]} beside it: {found}"
        rest, _ = process.communicate(timeout=20)
    finally:
        process.kill()
    if rest != b"EPOCH 1\n":
        return f"ended with {rest!r}"
    return wrong_with_story(program, folder, [run(["GET ^A"], 'VALUE "1"', "EPOCH 0"), SOUND])


def a_file_that_may_only_be_read(program, folder):
    """A SET is answered, and its epoch fails."""
    call(program, folder, MADE)
    folder.chmod(0o755)
    for name in ("db", "db.bi"):
        (folder / name).chmod(0o444)
    steps = [Step(["RUN"], said("OK"), 3, stdin=b"SET ^A=1\n", check=is_new)]
    if os.geteuid() != 0:
        return wrong_with_story(program, folder, steps)
    # root may write each file, and others may not reach the repository's folder
    with tempfile.TemporaryDirectory() as elsewhere:
        os.chmod(elsewhere, 0o755)
        return wrong_with_story(Path(shutil.copy(program, elsewhere)), folder, steps, NOBODY)


def random_scripts_are_answered_as_by_a_map(program, folder):
    """Some thousand lines on small blocks; tests/random_scripts has more."""
    return scripts.wrong_with_scripts(program, folder, random.Random(17), 6, 1000)


SCENES = {
    **{
        f"series, {name}": lambda program, folder, one=one: series.wrong_with_series(program, folder, one)
        for name, one in series.SERIES.items()
    },
    "random scripts": random_scripts_are_answered_as_by_a_map,
    "answers come at once": answers_come_at_once,
    "pieces do not matter": pieces_do_not_matter,
    "one program at a time": one_program_at_a_time,
    "a file that may only be read": a_file_that_may_only_be_read,
}


def told(program, new_folder):
    """Tells of each story and scene what is wrong with it, or nothing."""
    for name, steps in STORIES.items():
        with new_folder() as folder:
            yield name, wrong_with_story(program, folder, steps)
    for name, scene in SCENES.items():
        with new_folder() as folder:
            yield name, scene(program, folder)
