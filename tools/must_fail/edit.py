"""A must-fail edit: a wrong body, as pairs of lines that stand in the sources and lines that take their place."""
import os
import re


class BadEdit(Exception):
    """Why an edit cannot be tried."""


class Edit:
    """An edit: the lines that it changes (by file and by number from 0, with the new text) and the functions that it touches."""

    def __init__(self, name, lines, functions):
        self.name, self.lines, self.functions = name, lines, functions
        # what the last check said of it, and whether it waited once for the proof of another function
        self.outcome, self.waited = None, False


def pairs_of(text):
    """The triples (file, old, new) of an edit's lines."""
    file, old = "", None
    for line in text.split("\n"):
        if line.startswith("file: "):
            file = line[len("file: ") :].strip()
        elif line.startswith("old: "):
            old = line[len("old: ") :]
        elif line.startswith("new:"):
            if not file or not old:
                raise BadEdit("a 'new:' line stands before any 'file:' or 'old:' line")
            yield file, old, re.sub(r"\A ", "", line[len("new:") :])
            old = None


def read_edit(path, sources, functions):
    """Reads an edit of these sources (text by file) with these functions (by file). Each pair applies to what those before it made."""
    with open(path, encoding="utf-8") as it:
        pairs = list(pairs_of(it.read()))
    texts = {}
    for file, old, new in pairs:
        if not file.startswith("src/") or file not in sources:
            raise BadEdit(f"there is no source {file}")
        text = texts.get(file, sources[file])
        found = text.count(old)
        if found != 1:
            raise BadEdit(f"an 'old:' text is in {file} {found} times, and not once")
        texts[file] = text.replace(old, new)
    lines = {(file, at): new for file, text in texts.items() for at, new in changed_lines(sources[file], text)}
    if not lines:
        raise BadEdit("it changes nothing")
    return Edit(os.path.basename(path), lines, touched(sources, functions, lines))


def changed_lines(text, edited):
    """The lines that differ, by number. Each text of an edit is one line, so no line comes or goes."""
    both = zip(text.split("\n"), edited.split("\n"))
    return [(at, new) for at, (old, new) in enumerate(both) if old != new]


def touched(sources, functions, lines):
    """The functions in which a changed line lies."""
    found = {}
    for file, at in lines:
        here = [it for it in functions[file] if it.lines(sources[file])[0] <= at + 1 <= it.lines(sources[file])[1]]
        if not here:
            raise BadEdit(f"line {at + 1} of {file} stands in no function")
        found.update(dict.fromkeys(here))
    return list(found)


def applied(edits, sources):
    """The texts of the sources that these edits change."""
    texts = {}
    for edit in edits:
        for (file, at), new in edit.lines.items():
            lines = texts.setdefault(file, sources[file].split("\n"))
            lines[at] = new
    return {file: "\n".join(lines) for file, lines in texts.items()}
