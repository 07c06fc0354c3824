"""The program `mtree` as a child process. It makes an index, and writes one where the library is not there."""

from __future__ import annotations

import os
import shutil
import subprocess
import tempfile
from typing import Any, Iterable, Iterator, List, Optional, Sequence, Tuple

from ._answers import Hit
from ._errors import Damaged, Error, InUse, NoIndex, Rejected, TooLong

_SCRIPT_BYTES = 64 << 20
"""A script of the program has at most this many bytes."""

Ran = Tuple[int, str, str]
"""The status of the program, what it wrote, and what it told on standard error."""


def find() -> str:
    """Returns the path of the program: the variable MTREE_PROGRAM, the file `mtree_cli` beside this module, the one that a clone of the
    repository has built, or `mtree` where the shell finds it. Raises FileNotFoundError."""
    here = os.path.dirname(os.path.abspath(__file__))
    top = os.path.dirname(os.path.dirname(os.path.dirname(here)))
    named = os.environ.get("MTREE_PROGRAM")
    for path in [named] if named else [os.path.join(here, "mtree_cli"), os.path.join(top, "crates", "mtree_cli", "out", "mtree_cli")]:
        if os.access(path, os.X_OK) and os.path.isfile(path):
            return path
    found = None if named else shutil.which("mtree")
    if found is None:
        raise FileNotFoundError(f"the program mtree is not at {named or 'its places'}: build it by ./mtree, or name it in MTREE_PROGRAM")
    return found


def is_here() -> bool:
    """Returns whether there is a program."""
    try:
        return bool(find())
    except FileNotFoundError:
        return False


def run(words: Sequence[str], script: bytes = b"") -> Ran:
    """Runs the program with a script, and gives its status and what it writes.

    The script is whole before the program starts. Through a pipe, the end of this process would cut it within a number, and the program
    would take the rest for a row."""
    with _room() as given:
        given.write(script)
        given.seek(0)
        done = subprocess.run([find(), *words], stdin=given, stdout=subprocess.PIPE, stderr=subprocess.PIPE)
    return done.returncode, done.stdout.decode(), done.stderr.decode(errors="replace").strip()


def _room() -> Any:
    """Returns a file without a name."""
    if hasattr(os, "memfd_create"):
        return os.fdopen(os.memfd_create("mtree script"), "w+b")
    return tempfile.TemporaryFile()


def said(ran: Ran) -> str:
    """Returns what the program wrote, where its status is 0. Raises what the status stands for."""
    if ran[0] != 0:
        raise error(ran)
    return ran[1]


def error(ran: Ran) -> Exception:
    """Returns the exception that a status other than 0 stands for."""
    status, text, told = ran
    # The reason stands on standard error for a use, a device or a file, and for all else on the last line of standard output.
    lines = [told.replace("mtree: ", ""), text.strip()]
    words = next((line.rsplit("\n", 1)[-1] for line in (lines if status in (2, 5, 10) else lines[::-1]) if line), f"the program ended with the status {status}")
    if status < 0:
        return Error(f"the program was ended by the signal {-status}")
    if status == 1:
        return Rejected(text.strip())
    if status == 8:
        return MemoryError(words)
    if status == 10 and "is in use" in words:
        return InUse(words)
    if status == 10 and "No such file" in words:
        return FileNotFoundError(words)
    return {2: ValueError, 5: OSError, 6: NoIndex, 7: TooLong, 9: Damaged, 10: OSError}.get(status, Error)(words)


def insert_scripts(rows: Iterable[str], tags: Optional[Iterable[str]], most: Optional[int] = None) -> Iterator[bytes]:
    """Returns scripts of one insert for each row, each of at most `most` rows and within the program's limit."""
    lines = (f"insert,{row}\n" for row in rows) if tags is None else (f"tinsert,{tag},{row}\n" for tag, row in zip(tags, rows))
    return _scripts(lines, most)


def query_scripts(word: str, bound: int, points: Iterable[str]) -> Iterator[bytes]:
    """Returns scripts of one query for each point, each within the program's limit."""
    return _scripts(f"{word},{bound},{point}\n" for point in points)


def _scripts(lines: Iterable[str], most: Optional[int] = None) -> Iterator[bytes]:
    script: List[str] = []
    size = 0
    for line in lines:
        if size + len(line) > _SCRIPT_BYTES or len(script) == most:
            yield "".join(script).encode()
            script, size = [], 0
        script.append(line)
        size += len(line)
    if script:
        yield "".join(script).encode()


def load_script(rows: Sequence[str], tags: Optional[Sequence[str]]) -> bytes:
    """Returns a script of one load of all rows. Raises ValueError where it has too many bytes."""
    lines = rows if tags is None else [f"{tag},{row}" for tag, row in zip(tags, rows)]
    script = (f"load,{len(rows)}\n" if tags is None else f"tload,{len(rows)}\n") + "".join(f"{line}\n" for line in lines)
    if len(script) > _SCRIPT_BYTES:
        raise ValueError(f"the rows take {len(script)} bytes as a script, and a load may take {_SCRIPT_BYTES}: insert the others after it")
    return script.encode()


def answers(text: str) -> Iterator[Optional[List[Hit]]]:
    """Returns the answers of a run of queries, which shows tags. A query that was refused has None."""
    lines = iter(text.splitlines())
    for line in lines:
        word, count = line.split(" ", 1)
        hits = []
        for _ in range(int(count) if word == "hits" else 0):
            id, tag, distance = next(lines).split()
            hits.append(Hit(int(id), int(distance), int(tag)))
        yield hits if word == "hits" else None
