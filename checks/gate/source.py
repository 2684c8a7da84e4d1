"""The functions of a crate's source, and which of them reach which."""
import os
import re
from pathlib import Path

ITEM = re.compile(r"^( *)(?:pub(?:\([a-z]+\))? )?(?:extern \"C\" )?(?:const |ghost )*(fn|const|static) (\w+)", re.MULTILINE)


class Item:
    """A function or a constant of a file: where its text is, and which names occur in it."""

    def __init__(self, path, name, kind, begin, end, text, is_public, is_of_trait):
        self.path, self.name, self.kind, self.begin, self.end, self.is_public = path, name, kind, begin, end, is_public
        self.is_of_trait = is_of_trait
        self.words = set(re.findall(r"\b\w+\b", re.sub(r"//.*", "", text)))
        self.has_contract = bool(re.search(r"^ *ensures\b", text, re.MULTILINE)) or name.endswith("Decoder::push_row")
        self.has_body = not re.search(r"\{\}\s*$", text)

    @property
    def last(self):
        return self.name.rpartition("::")[2]


# A type that another crate may name if its module is public, or if it is passed on: its methods too, whichever module they stand in.
TYPE = re.compile(r"^pub (?:struct|enum|trait|type) (\w+)", re.MULTILINE)


def module_of(path):
    """The module of a file; nothing for the root."""
    module = path[len("src/") : -len(".rt")].replace("/", "::")
    return "" if module in ("lib", "main") else module


def items_of(path, text):
    """The functions and constants of a file that `rt fmt` has laid out: each ends at a line with its own indent."""
    above = f"{module_of(path)}::".removeprefix("::")
    starts = [(found.start(), found[0]) for found in re.finditer(r"^(?:impl|trait|pub trait|mod)\b.*$", text, re.MULTILINE)]
    made = []
    for found in ITEM.finditer(text):
        indent = found[1]
        ends = re.compile(rf"^{indent}(?:\}}|.*(?<!=)[;}}]$)", re.MULTILINE).search(text, found.start())
        if found[2] == "fn":
            ends = re.compile(rf"^{indent}(?:\}}|[^ \n].*[;}}]$)|^{indent} +.*;\n(?={indent}\S|\n)", re.MULTILINE).search(text, found.start())
        end = ends.end() if ends else len(text)
        holder, head = "", [line for at, line in starts if at < found.start()] if indent else []
        if head:
            holder = f"{holder_of(head[-1])}::"
        is_public = "pub " in found[0] and "pub(" not in found[0]
        is_of_trait = bool(head) and head[-1].startswith(("trait", "pub trait"))
        made.append(Item(path, f"{above}{holder}{found[3]}", found[2], found.start(), end, text[found.start() : end], is_public, is_of_trait))
    return made


def holder_of(line):
    """The name of the type of an impl, as a check prints it: of a trait's impl the type, the trait, and the trait's type."""
    line = re.sub(r"^(pub )?(impl|trait|mod) ?(<[^>]*> )?", "", line.split(" where ")[0].rstrip("{ "))
    of, _, own = line.rpartition(" for ")
    name = re.sub(r"<.*", "", own).rpartition("::")[2].strip(" &")
    trait, _, given = of.partition("<")
    return name + trait.rpartition("::")[2] + re.sub(r"<.*|\W", "", given.rpartition("::")[2])


def texts_of(folder):
    """The files of a crate's source, by their paths in its folder."""
    found = {}
    for at, _, names in sorted(os.walk(f"{folder}/src")):
        for name in sorted(names):
            found[os.path.relpath(f"{at}/{name}", folder)] = Path(f"{at}/{name}").read_text(encoding="utf-8")
    return found


class Source:
    """The items of a crate's source, and which of them reach which by calls and constants, as far as names tell."""

    def __init__(self, folder):
        self.texts = texts_of(folder)
        self.items = [item for path, text in self.texts.items() for item in items_of(path, text)]
        by_last = {}
        for item in self.items:
            by_last.setdefault(item.last, []).append(item)
        self.named_by = {item: {it for word in item.words for it in by_last.get(word, []) if it is not item} for item in self.items}
        self.below = {}
        for item in self.items:  # what is reached by way of others
            seen, left = set(), [item]
            while left:
                for it in self.named_by[left.pop()] - seen:
                    seen.add(it)
                    left.append(it)
            self.below[item] = seen
        self.computed = set().union(*[self.below[item] for item in self.items if item.kind != "fn"])

    def item_at(self, path, place):
        inside = [item for item in self.items if item.path == path and item.begin <= place < item.end]
        return max(inside, key=lambda item: item.begin, default=None)

    def public(self):
        """The functions that another crate can name, and the sinks' `push_row`."""
        root = self.texts.get("src/lib.rt") or self.texts.get("src/main.rt", "")
        modules = set(re.findall(r"^pub mod (\w+);", root, re.MULTILINE))
        uses = re.findall(r"^pub use (\w+)::(\{[^}]*\}|\w+);", root, re.MULTILINE)
        passed = {(path, name) for path, names in uses for name in re.findall(r"\w+", names)}
        declared = {(module_of(path), name) for path, text in self.texts.items() for name in TYPE.findall(text)}
        types = {name for module, name in declared if module in {*modules, ""} or (module, name) in passed}
        for item in self.items:
            above = item.name.split("::")
            is_named = len(above) == 1 or above[0] in modules or tuple(above[:2]) in passed or above[-2] in types
            if item.kind == "fn" and (item.is_public and is_named or item.last == "push_row") and "/tests" not in item.path:
                yield item

    def named(self, name):
        """The items of this name. A check names a method by the module of its type, and not by that of the impl."""
        found = [item for item in self.items if item.name == name]
        parts = name.split("::")
        return found or [item for item in self.items if len(parts) > 2 and item.name.split("::")[-2:] == parts[-2:]]
