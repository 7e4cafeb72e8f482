"""Where the functions of a Rattle source file stand, and what rattle calls them."""
import re
from dataclasses import dataclass, replace

NO_TEXT = re.compile(
    r"//[^\n]*|/\*.*?\*/|\bb?r(?P<marks>#*)\".*?\"(?P=marks)|b?\"(?:\\.|[^\"\\])*\"|b?'(?:\\(?:x[0-9a-fA-F]{2}|u\{[0-9a-fA-F]+\}|.)|[^'\\])'", re.S
)
HEAD = re.compile(r"\b(fn|impl|trait|mod)\b")
# What stands before the word of an item and belongs to it.
BEFORE = re.compile(r"(?:#\[(?:[^\[\]]|\[[^\]]*\])*\]\s*)*(?:pub(?:\([^)]*\))?\s+)?(?:(?:const|final|unsafe)\s+)*\Z")


@dataclass(frozen=True)
class Function:
    """A function with a body: its file, the places in the text where it begins and ends, and its name without the crate's.
    The owner is the type of an impl, and the trait is that of the impl or the one that declares it; each may be empty; the cycle is the name of the functions that are proved with it, or is empty. It may call itself."""

    file: str
    begins: int
    ends: int
    module: str
    owner: str
    trait: str
    name: str
    cycle: str
    calls_itself: bool

    def named(self, name):
        """A function of another name in its place."""
        return replace(self, name=name)

    def path(self):
        """The name by which rattle knows it, without the crate's."""
        return "::".join(it for it in (self.module, self.owner + self.trait, self.name) if it)

    def lines(self, text):
        """The numbers of its first and its last line."""
        return text.count("\n", 0, self.begins) + 1, text.count("\n", 0, self.ends) + 1


def blanked(text):
    """The text with spaces in place of comments, texts and characters, so that each brace counts."""
    return NO_TEXT.sub(lambda found: re.sub(r"[^\n]", " ", found[0]), text)


def closing(text, at):
    """The place behind the brace that closes the one at this place."""
    depth = 0
    for place in range(at, len(text)):
        depth += (text[place] == "{") - (text[place] == "}")
        if depth == 0:
            return place + 1
    return len(text)


def body_of(text, at):
    """The place of the brace that opens the body of the item whose head begins here, or None where it has none. Clauses stand before a body."""
    while True:
        found = re.compile(r"[;{]").search(text, at)
        if not found or found[0] == ";":
            return None
        before = re.search(r"(\b(requires|ensures|ghost)\b[^{};]*)\Z", text[max(0, found.start() - 200) : found.start()])
        if not before:
            return found.start()
        at = closing(text, found.start())


def beginning(plain, at):
    """Where an item begins whose word stands here: at its first attribute."""
    lowest = max(0, at - 1000)
    return lowest + BEFORE.search(plain[lowest:at]).start()


def owner_of(head):
    """The type of an impl's head, without arguments, and the trait of it with the names of its arguments behind it, as rattle joins them.
    A type of which an argument is none of the impl's parameters has the names of its arguments behind it, too."""
    head = head.split(" where ")[0]
    parameters = re.match(r"\s*(<(?:[^<>]|<[^<>]*>)*>)?", head)[0]
    trait, _, kind = head[len(parameters) :].rpartition(" for ")
    name, _, arguments = trait.partition("<")
    return last_name(kind) + ("" if trait else own_arguments(kind, parameters)), last_name(name) + "".join(map(last_name, arguments_of(arguments[:-1])))


def arguments_of(text):
    """The arguments in a list, without their own."""
    return re.sub(r"<[^<>]*>", "", text).split(",")


def own_arguments(kind, parameters):
    """What rattle puts behind the name of a type that a method without a trait belongs to."""
    given = [last_name(it) for it in arguments_of(kind.strip().partition("<")[2][:-1]) if it.strip()]
    taken = {last_name(it.split(":")[0]) for it in arguments_of(parameters.strip()[1:-1])}
    return "" if all(it in taken or it == "_" for it in given) else "".join(f"+{it}" for it in given)


def last_name(path):
    """The last name of a path, without arguments and marks of references."""
    return re.sub(r"<.*", "", path.strip(), flags=re.S).split("::")[-1].strip(" &'")


def module_of(file):
    path = file[len("src/") : -len(".rt")]
    return "" if path in ("lib", "main") else path.replace("/", "::")


def functions_of(sources):
    """The functions of a crate's sources (text by file), by file. The methods of a type are named by the module that declares the type."""
    plain = {file: blanked(text) for file, text in sources.items()}
    homes = {name: module_of(file) for file, text in plain.items() for name in re.findall(r"\b(?:struct|enum)\s+(\w+)", text)}
    found = {}
    for file, text in plain.items():
        inside = functions_within(file, text, 0, len(text), module_of(file), "", "")
        found[file] = [replace(it, module=homes.get(it.owner, it.module)) if it.owner and not it.trait else it for it in inside]
    return found


def functions_within(file, plain, at, ends, module, owner, trait):
    while True:
        found = HEAD.search(plain, at, ends)
        if not found:
            return
        opens = body_of(plain, found.end())
        if opens is None or opens >= ends:
            at = found.end()
            continue
        closes = closing(plain, opens)
        name = re.match(r"\s*(\w*)", plain[found.end() :])[1]
        if found[1] == "fn":
            begins = beginning(plain, found.start())
            cycle = re.search(r"#\[cycle\((\w+)\)\]", plain[begins : found.start()])
            itself = rf"\b(?:self\.|Self::){name}\s*\(" if owner else rf"(?<![\w.:]){name}\s*\("
            calls_itself = bool(re.search(itself, plain[opens:closes]))
            yield Function(file, begins, closes, module, owner, trait, name, cycle[1] if cycle else "", calls_itself)
        elif found[1] == "impl":
            yield from functions_within(file, plain, opens + 1, closes, module, *owner_of(plain[found.end() : opens]))
        elif found[1] == "trait":
            yield from functions_within(file, plain, opens + 1, closes, module, "", name)
        else:
            inner = "::".join(it for it in (module, name) if it)
            yield from functions_within(file, plain, opens + 1, closes, inner, "", "")
        at = closes
