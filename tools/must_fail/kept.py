"""Refusals that earlier runs on this machine saw. As rt ci keeps what it proved, each is kept under a sum of all that it was made from: the kit, this tool,
the crate, the libraries that it stands on as they are built, and the edit. So an entry never goes stale. Only refusals are kept, of functions that the same
run saw proved as they are."""
import hashlib
import os
import time
from contextlib import suppress

from must_fail.check import PARTS, kit

TOOLS = os.path.dirname(os.path.dirname(os.path.realpath(__file__)))
# after so many seconds without use an entry is removed
LASTS = 30 * 24 * 3600


def store():
    """The folder where refusals are kept."""
    return f"{os.environ.get('XDG_CACHE_HOME') or os.path.expanduser('~/.cache')}/ctftrace/refused"


def files_below(folder):
    return sorted(f"{below}/{name}" for below, _, names in os.walk(folder) for name in names if "__pycache__" not in below)


def sum_of(texts):
    return hashlib.sha256(repr(texts).encode()).hexdigest()


def contents(root, files):
    """The files' paths below the root, with what they hold."""
    found = []
    for path in files:
        with open(path, "rb") as it:
            found.append((os.path.relpath(path, root), it.read()))
    return found


def kit_marks():
    """What tells one kit from another: its name, and the size and time of its checker."""
    checker = os.stat(f"{kit()}/bin/rattle")
    return contents(kit(), [f"{kit()}/KIT-ID"]), checker.st_size, checker.st_mtime_ns


class Kept:
    """The refusals that are kept of a copy's crate; with `anew` none of an earlier run."""

    def __init__(self, copy, folder, anew):
        self.copy, self.folder, self.anew, self.at = copy, folder, anew, store()
        self.sum = self.sum_now()

    def sum_now(self):
        """A sum of all that a verdict on an edit of the crate rests on, but for the edit; None where a library is not built."""
        with suppress(FileNotFoundError):
            return sum_of(self.rests_on())
        return None

    def rests_on(self):
        """What a verdict rests on. Of a library its file `format` counts, since that holds a sum of its other files."""
        copy, crates = self.copy, f"{self.copy.top}/crates"
        own = [it for part in PARTS for it in files_below(f"{copy.folder}/{part}")]
        libraries = [f"{crates}/{it}/out/rlib/{it}.rlib/format" for it in copy.below(copy.crate)]
        tool = contents(TOOLS, [f"{TOOLS}/try_edits", *files_below(f"{TOOLS}/must_fail")])
        return [kit_marks(), tool, copy.uses[copy.crate], contents(crates, own), contents(crates, libraries)]

    def place(self, edit):
        """Where the refusal of an edit is kept."""
        return f"{self.at}/{self.copy.crate}-{sum_of([self.sum, contents(self.folder, [f'{self.folder}/{edit.name}'])])}"

    def seen(self, edits):
        """Those of the edits whose refusal is kept."""
        found = [] if self.anew or not self.sum else [it for it in edits if os.path.isfile(self.place(it))]
        for edit in found:
            with suppress(OSError):
                os.utime(self.place(edit))
        return found

    def keep(self, edits):
        """Keeps the refusals of these edits, unless a file that they rest on was changed meanwhile. Where nothing can be written none is kept."""
        if not self.sum or self.sum_now() != self.sum:
            return
        with suppress(OSError):
            os.makedirs(self.at, mode=0o700, exist_ok=True)
            for edit in edits:
                with open(self.place(edit), "w", encoding="utf-8") as it:
                    it.write(f"{self.copy.crate}/{edit.name}: {edit.outcome}\n")


def forget_old():
    """Removes what was not used for long."""
    for path in files_below(store()):
        with suppress(OSError):
            if time.time() - os.stat(path).st_mtime > LASTS:
                os.remove(path)
