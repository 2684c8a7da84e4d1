"""Checks of the definitions in crates/*/specs: what the comments above them say of them."""
import os
import re
from pathlib import Path

from gate.source import Source
from repository import repository
from repository.repository import NAME

# A definition at the margin, with its name.
DEFINED = re.compile(rf"(?:(?:pub|abbrev|unfoldable) )*(?:(?:record|data) ({NAME})|({NAME}) :(?=\s))")
# What a file imports by name, and what one passes on.
IMPORTED = re.compile(r"^ *(?:pub |ghost )*use (Rattle\.[^\s{]*)\.\{([^}]*)\};?$", re.MULTILINE)
PASSED_ON = re.compile(r"^pub use (Rattle\.\S+)\.(\w+)(?: as (\w+))?$", re.MULTILINE)
# Crates whose calls nobody makes.
NOT_FOR_USERS = ("worked_examples", "test_")
UNTRUSTED = "not part of the trusted specification"


class Definition:
    """A definition: its module and name, its text, and what is said above it, above its part of the file and of the file."""

    def __init__(self, module, name, said):
        self.module, self.name, self.said, self.text = module, name, said, ""


def imports_of(text):
    """What the names mean that a text imports."""
    found = {}
    for path, names in IMPORTED.findall(text):
        for name, _, other in (name.strip().partition(" as ") for name in names.split(",")):
            found[other or name] = f"{path}.{name}"
    return found


def definitions_in(name, text):
    lines = text.split("\n")
    of_file = [line for line in lines[: next((k for k, line in enumerate(lines) if not line.startswith("--")), len(lines))]]
    part, comment, now, found, above = [], [], None, {}, ""
    for line in lines[len(of_file) :]:
        declared = DEFINED.match(line)
        if line.startswith("-- ----"):
            part, comment, now = [line], [], None
        elif line.startswith("--"):
            comment = [*comment, line] if above.startswith("--") else [line]
        elif declared and (declared[1] or declared[2]) not in found:
            said = " ".join(re.sub("^--[- ]*", "", line) for line in [*of_file, *part, *comment])
            now = Definition(repository.module_of(name), declared[1] or declared[2], said)
            found[now.name] = now
        if now and not line.startswith("--"):
            now.text += line + "\n"
        above = line
    return found.values()


class Definitions:
    """The definitions of all crates, by their whole names."""

    def __init__(self):
        self.by_name, self.imported, self.passed = {}, {}, {}
        for file in repository.tracked():
            if "/specs/" in file and file.endswith(".antt"):
                text = Path(file).read_text(encoding="utf-8")
                module = repository.module_of(file)
                self.by_name |= {f"{module}.{it.name}": it for it in definitions_in(file, text)}
                self.imported[module] = imports_of(text)
                for path, last, other in PASSED_ON.findall(text):
                    self.passed[f"{module}.{other or last}"] = f"{path}.{last}"

    def named(self, whole):
        """The definition of a whole name, which a crate may pass on, or None."""
        for _ in range(3):
            module, _, name = whole.rpartition(".")
            if whole in self.by_name or module not in self.passed:
                break
            whole = f"{self.passed[module]}.{name}"
        return self.by_name.get(whole)

    def cited(self, text, module, imported):
        """The definitions that a text names."""
        for word in set(re.findall(NAME, text)):
            it = self.by_name.get(f"{module}.{word}") or self.named(imported.get(word, ""))
            if it:
                yield it

    def reached(self):
        """The definitions that the clauses of calls for users cite, and those that these cite, with how each is reached."""
        left = [(it, where) for where, text, imported in clauses_for_users() for it in self.cited(text, "", imported)]
        found = {}
        while left:
            it, where = left.pop()
            if it not in found:
                found[it] = where
                left += [(below, f"{where} > {it.name}") for below in self.cited(it.text, it.module, self.imported[it.module])]
        return found


def clauses_for_users():
    """The clauses of each call that is for users, and what the names in them mean."""
    for crate in sorted(os.listdir("crates")):
        if not crate.startswith(NOT_FOR_USERS):
            source = Source(f"crates/{crate}")
            for item in source.public():
                if repository.is_for_users(crate, item):
                    text = source.texts[item.path]
                    head = re.split(r"^ *\{\s*$|^ *\{\}", text[item.begin : item.end], maxsplit=1, flags=re.MULTILINE)[0]
                    clauses = re.sub(r"//.*|\b(?:ensures|requires)\*? [a-z_0-9]+ (?=\{)", "", head)
                    yield f"{crate}::{item.name}", clauses, imports_of(text)


def what_users_rely_on_is_trusted():
    """No definition that a clause of a call for users reaches is said to be no part of the trusted specification."""
    wrong = [f"{it.module}.{it.name}: by {where}" for it, where in Definitions().reached().items() if UNTRUSTED in it.said]
    assert not wrong, "\n".join(sorted(wrong))


def each_rule_has_its_section():
    """Above each definition of `fax_bits` and `fax_reading`, its part of the file or the file itself, is a section of T.4 or T.6, or
    that it is auxiliary or not part of the trusted specification."""
    lacking = [
        f"{it.module}.{it.name}"
        for it in Definitions().by_name.values()
        if it.module.startswith(("Rattle.fax_bits.", "Rattle.fax_reading.")) and not re.search(rf"\bT\.[46]\b|\bauxiliary\b|{UNTRUSTED}", it.said)
    ]
    assert not lacking, "\n".join(lacking)


CHECKS = [what_users_rely_on_is_trusted, each_rule_has_its_section]
