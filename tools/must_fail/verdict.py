"""What a check says of an edit: refused at a goal of a function that it touches, or something else, which is no refusal."""
import re
from dataclasses import dataclass

# What a check says where a text names what is not there any more, or rests on what was refused. It shows nothing of a contract.
VANISHED = re.compile(r"has no field|is not in scope|has no `|was not admitted|is no name|which (?:is|are) not proved")
PLACED = re.compile(r"(?:note: )?(?:\./)?(\S+?):(\d+):\d+: (.*)")
REFUSED, WAITS, LEFT_PROVED, NAME_ALONE, ELSEWHERE, UNREAD, LATE = range(7)
WORDS = {
    REFUSED: "refused",
    WAITS: "NOT SEEN: it waits for the proof of a function that it calls",
    LEFT_PROVED: "NOT REFUSED: still proved",
    NAME_ALONE: "NOT REFUSED: only a name is gone",
    ELSEWHERE: "NOT REFUSED: not proved, but at no goal of a function that it touches",
    UNREAD: "BAD EDIT: the check did not come to its end",
    LATE: "BAD EDIT: the check did not come to its end in time",
}


@dataclass
class Outcome:
    kind: int
    line: str = ""

    def __str__(self):
        return WORDS[self.kind] + (f": {self.line[:200]}" if self.line else "")


def came_to_its_end(said):
    return re.search(r"(?m)^only=", said) is not None


def is_proved(said, crate, function):
    """Whether nothing of the function itself is left to prove: the holes of a copy are in the proofs of what is taken by its contract."""
    return re.search(rf"(?m)^fn {re.escape(crate)}::{re.escape(function.path())}: (no holes|proved|depends on a hole in .*)$", said) is not None


def waits(said, crate, function, taken):
    """Whether its goals were not tried because a function that it calls is not proved, and is none of those taken by their contracts."""
    line = re.search(rf"(?m)^fn {re.escape(crate)}::{re.escape(function.path())}: .*?it calls (.*), which (?:is|are) not proved", said)
    return line is not None and any(it.partition("::")[2] not in taken for it in re.findall("`([^`]+)`", line[1]))


def outcome(said, crate, functions, sources, taken):
    """What a check that came to its end says of an edit of these functions, where others are taken by their contracts. Each change is of one line, so the
    lines of the unedited sources hold."""
    found = [own_lines(said, crate, sources[it.file], it) for it in functions]
    waiting = any(waits(said, crate, it, taken) for it in functions)
    for kind in (REFUSED, NAME_ALONE):
        line = next((lines[kind] for lines in found if kind in lines), None)
        if line and (kind == REFUSED or not waiting):
            return Outcome(kind, line)
    if waiting:
        return Outcome(WAITS)
    return Outcome(LEFT_PROVED if all(is_proved(said, crate, it) for it in functions) else ELSEWHERE)


def own_lines(said, crate, text, function):
    """The first line that shows an open goal of the function itself, and the first that shows only a vanished name."""
    found = {}
    for line in said.split("\n"):
        at = PLACED.match(line)
        if has_open_goal(line, crate, function):
            found.setdefault(REFUSED, line)
        elif at and is_own(at, line, text, function):
            found.setdefault(NAME_ALONE if VANISHED.search(at[3]) else REFUSED, line)
    return found


def has_open_goal(line, crate, function):
    """Whether this line names a goal of the function as one that no search proved. In a cycle each goal's name begins with its function's."""
    said = re.match(rf"fn {re.escape(crate)}::{re.escape(function.path())}: no proof: expected answers in (\S+); `search` did not prove (.*)", line)
    if not said:
        return False
    goals = re.findall(r"`([^`]+)`", said[2])
    return "/+" not in said[1] or any(it.startswith(f"{function.name}-") for it in goals)


def is_own(at, line, text, function):
    """Whether a line that names a place speaks of this function: a goal noted at its lines, or an error in its proof or in that of its cycle."""
    file, number = at[1], int(at[2])
    if file == function.file:
        first, last = function.lines(text)
        return line.startswith("note: ") and first <= number <= last
    folder = "/".join(["proofs", *function.module.split("::")]) if function.module else "proofs"
    if file.startswith(f"{folder}/+"):
        return "error" in line and re.search(rf"`{function.name}-", line) is not None
    return "error" in line and file.startswith(f"proofs/{function.path().replace('::', '/')}/")
