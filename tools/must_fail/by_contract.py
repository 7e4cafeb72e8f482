"""Functions that are taken by their contracts. What no edit touches need not be proved where edits are tried: `rt ci` proves it, and what calls it rests on
its contract alone. So its body is one `unreachable!()` there, and its proof is left open: the states of a long body cost as much as its proof."""
import os
import re
import shutil

from must_fail.source import blanked, body_of, closing


def can_be_taken(function):
    return not function.trait and function.name != "main"


def without_body(text, function):
    """The text with a body in place of the function's that needs no proof under its clauses, of as many lines. In a cycle it is no more."""
    plain = blanked(text)
    head = re.compile(r"\bfn\b").search(plain, function.begins).end()
    opens = body_of(plain, head)
    closes = closing(plain, opens)
    own_head = re.sub(r"#\[cycle\(\w+\)\]", "", text[function.begins : opens])
    body = "{ unreachable!()" + "\n" * text.count("\n", opens, closes) + "}"
    return text[: function.begins] + own_head + body + text[closes:]


def taken_by_contract(text, functions):
    """The text of a file with these functions of it taken by their contracts."""
    for function in sorted(functions, key=lambda it: it.begins, reverse=True):
        text = without_body(text, function)
    return text


def leave_open(function, crate, proofs):
    """Leaves the proof of a function open, in this folder of the crate's proofs."""
    path = function.path()
    own = f"{proofs}/{path.replace('::', '/')}"
    around = "/".join([proofs, *filter(None, function.module.split("::"))])
    if function.cycle or function.calls_itself:
        shutil.rmtree(f"{around}/+{function.cycle or function.name}", ignore_errors=True)
    os.makedirs(own, exist_ok=True)
    for name in (it for it in os.listdir(own) if os.path.isfile(f"{own}/{it}")):
        os.remove(f"{own}/{name}")
    with open(f"{own}/Proof.antt", "w", encoding="utf-8") as it:
        it.write(f"use Rattle.{crate}.proofs.{path.replace('::', '.')}.Statement.{{statement}}\n\n")
        it.write(f"pub {function.name}_spec : {{M : Type 1}} → statement M\n{function.name}_spec = ?\n")
