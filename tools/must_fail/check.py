"""A copy of a crate in which edits are written and checked."""
import os
import shutil
import signal
import subprocess
import tempfile

from must_fail.edit import applied
from must_fail.layout import Layout
from must_fail.source import functions_of

PARTS = ("src", "specs", "proofs")


class Late(Exception):
    """A check that did not end in its time."""


def kit():
    """The folder of the kit whose rt is on the PATH."""
    return os.path.dirname(os.path.dirname(os.path.realpath(shutil.which("rt"))))


class Copy:
    """A copy of a crate of a repository whose libraries are built, and the work that checks of it keep."""

    def __init__(self, top, crate, uses, room):
        self.top, self.crate, self.uses, self.room = top, crate, uses, room
        self.folder, self.kept = f"{top}/crates/{crate}", f"{room}/kept"
        self.sources = {}
        for below, _, names in os.walk(f"{self.folder}/src"):
            for name in names:
                with open(f"{below}/{name}", encoding="utf-8") as it:
                    self.sources[os.path.relpath(f"{below}/{name}", self.folder)] = it.read()
        self.functions = functions_of(self.sources)
        self.is_program = "src/main.rt" in self.sources

    def lay_out(self, edits):
        """Gives each edit a copy of its function, and takes by its contract what none touches."""
        self.layout = Layout(self.sources, edits)
        self.sources, self.functions = self.layout.sources, self.layout.functions

    def words(self, functions):
        """The command that checks these functions."""
        own = kit()
        words = [f"{own}/bin/rattle", "check", "--crate-name", self.crate, f"src/{'main' if self.is_program else 'lib'}.rt"]
        for name in ["std", *self.uses[self.crate]]:
            built = f"{self.top}/crates/{name}/out/rlib" if name in self.uses else f"{own}/rlibs"
            words += ["--extern", f"{name}={built}/{name}.rlib"]
        words += ["-L", f"dependency={own}/rlibs"]
        for name in self.below(self.crate):
            words += ["-L", f"dependency={self.top}/crates/{name}/out/rlib"]
        words += ["--antt-project", f"{own}/rattle/logic/antt-project.json", "--logic-built", f"{own}/logic_built"]
        for path in dict.fromkeys(it.path() for it in functions):
            words += ["--only", path]
        return [*words, "--links", f"{self.crate}=", "--jobs", "1", "--allow-holes"]

    def below(self, crate):
        """The repository's crates that this one stands on."""
        found = []
        for name in self.uses[crate]:
            if name in self.uses:
                found += [it for it in [*self.below(name), name] if it not in found]
        return found

    def check(self, edits, functions, seconds, keeps=False):
        """Checks these functions in a copy with these edits; returns what the check says, or Late. A check that keeps its work serves the others, each
        of which has a copy of it."""
        with tempfile.TemporaryDirectory(prefix="edits-", dir=self.room) as copy:
            kept = self.kept if keeps else f"{copy}/kept"
            if not keeps and os.path.isdir(self.kept):
                shutil.copytree(self.kept, kept, copy_function=shutil.copyfile)
            for part in PARTS:
                if os.path.isdir(f"{self.folder}/{part}"):
                    shutil.copytree(f"{self.folder}/{part}", f"{copy}/{part}")
            self.layout.lay_out_proofs(self.crate, copy)
            for file, text in {**self.sources, **applied(edits, self.sources)}.items():
                with open(f"{copy}/{file}", "w", encoding="utf-8") as it:
                    it.write(text)
            return said_by([*self.words(functions), "--incremental", kept], copy, seconds)


def said_by(words, folder, seconds):
    """What a command says, or Late where it takes more seconds of processor time: of time by the clock it may be given little."""
    limited = ["sh", "-c", 'ulimit -t "$0"; exec "$@"', str(seconds), *words]
    how = {"cwd": folder, "stdin": subprocess.DEVNULL, "stdout": subprocess.PIPE, "stderr": subprocess.STDOUT}
    ran = subprocess.run(limited, text=True, errors="replace", **how)
    if ran.returncode in (-signal.SIGXCPU, -signal.SIGKILL):
        raise Late
    return ran.stdout
