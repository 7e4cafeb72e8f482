"""Which edits can stand in one copy of a crate: each touches functions of its own, and none touches a function that another's rests on, since the
goals of a caller are not tried while its callee is not proved. Nothing rests on the copies of functions in which most edits stand (layout.py).
Functions of one cycle are proved together, and each has goals of its own."""
import re

WAITS = re.compile(r"(?m)^fn (\S+): .*?it calls `([^`]+)`, which is not proved")


class Calls:
    """What is known of which function calls which: first from the texts of bodies, then from what checks say."""

    def __init__(self, crate, functions, sources):
        self.crate, self.known = crate, {}
        self.cycles = {it.path(): (it.module, it.cycle) for it in functions if it.cycle}
        by_name = {}
        for it in functions:
            by_name.setdefault(it.name, []).append(it)
        for it in functions:
            body = sources[it.file][it.begins : it.ends]
            words = {*re.findall(r"\b(\w+)\s*(?:::<[^;()]*>)?\(", body)} - {it.name}
            self.known[it.path()] = {by_name[word][0].path() for word in words if len(by_name.get(word, ())) == 1}

    def learn(self, said):
        """Takes in each line that names a callee for which a caller waits."""
        start = f"{self.crate}::"
        for caller, callee in WAITS.findall(said):
            if caller.startswith(start) and callee.startswith(start):
                self.known.setdefault(caller[len(start) :], set()).add(callee[len(start) :])

    def below(self, path):
        """This function and all that it calls, but for the others of its cycle."""
        found, left = set(), [path]
        while left:
            it = left.pop()
            if it not in found:
                found.add(it)
                left += self.known.get(it, ())
        mates = {it for it in found if it in self.cycles and self.cycles[it] == self.cycles.get(path)}
        return found - mates | {path}

    def next_batch(self, edits):
        """As many of the edits as can stand together, in their order, and those that are left."""
        batch, left, taken, reached = [], [], set(), set()
        for edit in edits:
            own = {it.path() for it in edit.functions}
            below = set().union(*(self.below(it) for it in own))
            if below & taken or own & reached:
                left.append(edit)
            else:
                batch.append(edit)
                taken |= own
                reached |= below
        return batch, left
