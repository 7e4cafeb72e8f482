"""Each edit in a copy of its function, which stands behind the function under a name of its own. Nothing calls a copy, so the edits of a crate stand side
by side: several of one function, and those of a function and of one that it calls. A copy has its function's clauses, and its proof is the function's under
the new name; one copy without an edit shows that the function is proved so. A trait's methods, functions that call themselves or stand in a cycle, and
`main` have no copy: an edit of them stands in the function itself. Every other function is taken by its contract."""
import os
import re

from must_fail.by_contract import can_be_taken, leave_open, taken_by_contract
from must_fail.source import functions_of


def can_be_copied(function):
    return not (function.trait or function.cycle or function.calls_itself or function.name == "main")


def proof_of(path, proofs):
    """Where the proof of a function lies, if it has one of its own."""
    return f"{proofs}/{path.replace('::', '/')}"


def renamed(line, name, new_name):
    """A line with a function's new name where it has the head of the function."""
    return re.sub(rf"\bfn {name}\b", f"fn {new_name}", line)


def with_own_goals(text, crate, path, copy):
    """The proof of a function (by its path) as that of its copy: where it names its own goals, alone or in a group that is imported, it names the copy's."""
    begins = f"Rattle.{crate}.proofs."
    own, other = (f"{it.replace('::', '.')}." for it in (path, copy))
    grouped = re.compile(rf"(?m)^use {re.escape(begins)}\{{.*")
    text = text.replace(begins + own, begins + other)
    return grouped.sub(lambda line: re.sub(rf"(?<=[{{ ]){re.escape(own)}", other, line[0]), text)


class Layout:
    """The sources of a crate with copies behind each function that an edit touches. The edits then speak of their copies."""

    def __init__(self, sources, edits):
        self.in_place = [edit for edit in edits if not all(map(can_be_copied, edit.functions))]
        touched = list(dict.fromkeys(it for edit in edits for it in edit.functions))
        # by edit (None for the copy without one) and function the copy's name; by a copy's path its function's
        self.names = {(None, it): f"{it.name}_unedited" for it in touched if can_be_copied(it)}
        for number, edit in enumerate(edits):
            self.names |= {(edit, it): f"{it.name}_edit_{number}" for it in edit.functions if can_be_copied(it)}
        self.copied = {it.named(name).path(): it.path() for (_, it), name in self.names.items()}
        # by edit and function the line where the copy begins; by place in the sources, where the line is now
        self.begins, self.moved = {}, {}
        behind = {}
        for edit, it in self.names:
            behind.setdefault((it.file, it.lines(sources[it.file])[1] - 1), []).append((edit, it))
        copied = {file: self.with_copies(file, text, behind) for file, text in sources.items()}
        self.taken = self.not_tried(functions_of(copied), [it for it in touched if not can_be_copied(it)])
        self.sources = {file: taken_by_contract(text, self.taken[file]) for file, text in copied.items()}
        self.functions = functions_of(self.sources)
        by_path = {it.path(): it for found in self.functions.values() for it in found}
        # what is checked as it is
        self.unedited = [by_path[it.named(self.names.get((None, it), it.name)).path()] for it in touched]
        for edit in edits:
            self.move(edit, sources, by_path)

    def not_tried(self, functions, in_place):
        """Of these functions (by file) those that are neither copies nor tried in their place, nor in a cycle with one that is."""
        cycles = {(it.module, it.cycle) for it in in_place if it.cycle}
        tried = {*self.copied, *(it.path() for it in in_place)}

        def is_taken(function):
            return can_be_taken(function) and function.path() not in tried and (function.module, function.cycle) not in cycles

        return {file: list(filter(is_taken, found)) for file, found in functions.items()}

    def taken_paths(self):
        """The paths of what is taken by its contract."""
        return {it.path() for found in self.taken.values() for it in found}

    def with_copies(self, file, text, behind):
        """The text of a file with the copies that stand behind each place."""
        lines, out = text.split("\n"), []
        for at, line in enumerate(lines):
            self.moved[file, at] = len(out)
            out.append(line)
            for edit, function in behind.get((file, at), ()):
                self.begins[edit, function] = len(out)
                own = lines[function.lines(text)[0] - 1 : at + 1]
                out += [renamed(it, function.name, self.names[edit, function]) for it in own]
        return "\n".join(out)

    def move(self, edit, sources, by_path):
        """Has an edit change the lines of its copies, where it has copies, and touch these."""
        lines, touched = {}, []
        for function in edit.functions:
            first, last = function.lines(sources[function.file])
            name, begins = self.names.get((edit, function), function.name), self.begins.get((edit, function))
            touched.append(by_path[function.named(name).path()])
            for (file, at), new in edit.lines.items():
                if file == function.file and first <= at + 1 <= last:
                    to = self.moved[file, at] if begins is None else begins + at + 1 - first
                    lines[file, to] = renamed(new, function.name, name)
        edit.lines, edit.functions = lines, touched

    def lay_out_proofs(self, crate, folder):
        """Writes the proofs of the copies beside those of their functions, in this copy of the crate's folder, and leaves those open that are not tried."""
        for copy, path in self.copied.items():
            own, other = (proof_of(it, f"{folder}/proofs") for it in (path, copy))
            if not os.path.isdir(own):
                continue
            os.makedirs(other)
            for name in (it for it in os.listdir(own) if os.path.isfile(f"{own}/{it}")):
                with open(f"{own}/{name}", encoding="utf-8") as it:
                    text = it.read()
                with open(f"{other}/{name}", "w", encoding="utf-8") as it:
                    it.write(with_own_goals(text, crate, path, copy))
        for function in (it for found in self.taken.values() for it in found):
            leave_open(function, crate, f"{folder}/proofs")
