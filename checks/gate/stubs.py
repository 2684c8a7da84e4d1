"""A copy of a crate in which most functions are stubs: they keep their contracts, their bodies are `unreachable!()`, and a hole stands for
their proofs. What calls a function rests on its contract alone, so its goals are those of the whole crate."""
import os
import re
from pathlib import Path

# Where the check finds a function's proof.
PROOF_FILES = ("Answers", "Invariants", "Proof")
# Whose bodies may be computed.
COMPUTED = re.compile(r"^ *(?:pub(?:\([a-z]+\))? )?(?:extern \"C\" )?(?:const|ghost) ")
TYPE = re.compile(r"^(?:pub(?:\([a-z]+\))? )?(?:struct|enum) (\w+)", re.MULTILINE)


def body_of(text, begin):
    """Where the body of the function that begins here stands, with its braces; None if it has none, or all on one line."""
    indent, at = re.compile(" *").match(text, begin)[0], begin
    while True:
        end = text.find("\n", at)
        line = text[at:end]
        if end < 0 or not line.strip() or not line.startswith(indent):
            return None
        if line[len(indent)] != " ":
            if line.endswith("{"):
                last = re.compile(rf"^{indent}\}}$", re.MULTILINE).search(text, end)
                return (end - 1, last.end()) if last else None
            if line.endswith(("}", ";")):
                return None
        at = end + 1


def modules_of_types(texts):
    """The module of each type of a crate."""
    found = {}
    for path, text in texts.items():
        module = path[len("src/") : -len(".rt")].replace("/", "::")
        found |= {name: "" if module in ("lib", "main") else f"{module}::" for name in TYPE.findall(text)}
    return found


def checked_name(item, modules):
    """A function's name as a check prints it: that of a method begins with the module of its type, and not with that of the impl."""
    parts = item.name.split("::")
    if len(parts) < 2 or not parts[-2][0].isupper():
        return item.name
    holder = max((name for name in modules if parts[-2].startswith(name)), key=len, default=None)
    return item.name if holder is None else f"{modules[holder]}{parts[-2]}::{parts[-1]}"


def write_stubs(room, crate, texts, items, is_kept):
    """Makes stubs of the functions in the crate of this folder that aren't kept. Returns the names of their proofs' holes.

    What a constant may be computed by, what has no body of its own lines, and what a trait gives its impls, stay as they are.
    """
    modules, hole = modules_of_types(texts), f"Rattle.{crate}.proofs.Stubs.unfilled"
    for path, text in texts.items():
        own = [item for item in items if item.path == path and item.kind == "fn" and not item.is_of_trait]
        for item in sorted(own, key=lambda it: -it.begin):
            name, body = checked_name(item, modules), body_of(text, item.begin)
            if body is None or is_kept(item, name) or COMPUTED.match(text[item.begin : item.begin + 80]):
                continue
            indent = re.compile(" *").match(text, item.begin)[0]
            text = f"{text[: body[0]]}{{\n{indent}    unreachable!()\n{indent}}}{text[body[1] :]}"
            write_proof(room, crate, name, item.last)
        Path(f"{room}/{path}").write_text(text, encoding="utf-8")
    os.makedirs(f"{room}/proofs", exist_ok=True)
    with open(f"{room}/proofs/Stubs.antt", "w", encoding="utf-8") as file:
        file.write("-- the one hole, on which each stub's proof rests\npub unfilled : ⊥\nunfilled = ?\n")
    with open(f"{room}/proofs/Lib.antt", "a", encoding="utf-8") as file:
        file.write("pub mod Stubs\n")
    return {hole}


def write_proof(room, crate, name, last):
    """Puts a proof that rests on the one hole in the place of a function's own. A proof with a hole of its own would be checked anew by
    each check, and its goal printed."""
    folder, module = f"{room}/proofs/{name.replace('::', '/')}", f"Rattle.{crate}.proofs.{name.replace('::', '.')}"
    for file in PROOF_FILES:
        if os.path.exists(f"{folder}/{file}.antt"):
            os.remove(f"{folder}/{file}.antt")
    os.makedirs(folder, exist_ok=True)
    with open(f"{folder}/Proof.antt", "w", encoding="utf-8") as file:
        file.write(f"use {module}.Statement.{{statement}}\nuse Rattle.{crate}.proofs.Stubs.{{unfilled}}\n\n")
        file.write(f"pub {last}_spec : {{M : Type 1}} → statement M\n{last}_spec = absurd unfilled\n")


# What a check that allows holes says of a function whose own proof has none.
ON_HOLES = ("no holes", "depends on a hole in")


def rests_on(line, holes):
    """Whether what a check that allows holes says of a function is that it is proved, given that these holes are filled."""
    return line.startswith(ON_HOLES) and all(hole in holes for hole in re.findall(r"`(Rattle\.[^`]*)`", line))
