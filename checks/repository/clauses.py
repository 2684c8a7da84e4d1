"""Which edits a clause of a function for users has: one that names it, or one that clauses.txt cites, or a reason there.

clauses.txt has a line for each clause that no edit names, `CRATE FUNCTION.CLAUSE`. Below the first heading stand clauses that a
function keeps by passing on what it calls, each with the edits that turn it there, `CRATE/EDIT`; below the second one edits of parts
that serve a clause which has an edit of its own; below each other heading, which is a reason, clauses for which it is true."""
import collections
import re
from pathlib import Path

LIST = "checks/repository/clauses.txt"
PASSED, RULES = "Kept by what is called, where an edit turns it", "Rules of the standards, bounds and refusals in parts of what is named"
MOST_EDITS = 650
# How many edits a clause may have that is all of a function's contract, and so may be several facts.
MOST_FACTS = 3
CLAUSE = re.compile(r"\b(requires|ensures)(\*?)\s+(?:(\w+)\s*)?\{")


def clauses_of(text):
    """The clauses of a function's text before its body, each as its word and its name: `returns` if it has none."""
    text = re.sub(r"//.*", "", text)
    found, at = [], text.index("fn ")
    while at < len(text) and text[at] not in "{;":
        head = CLAUSE.match(text, at)
        if not head:
            at += 1
            continue
        found.append((head[1] + head[2], head[3] or "returns"))
        at, depth = head.end(), 1
        while depth:
            depth += {"{": 1, "}": -1}.get(text[at], 0)
            at += 1
    return found


class Reach:
    """Which items a function reaches, in its crate and in those below, as far as names tell; what takes a sink's type, its `push_row`."""

    def __init__(self, sources):
        self.sources, self.seen, self.by_name, self.of = sources, {}, {}, {}
        lines = [line for line in Path("crates.txt").read_text(encoding="utf-8").splitlines() if not line.startswith("#")]
        self.below = {line.split(":")[0].split()[0]: line.partition(":")[2].split() for line in lines}
        for crate, source in sources.items():
            names = self.by_name.setdefault(crate, collections.defaultdict(set))
            for item in source.items:
                self.of[item] = crate
                names[item.last].add(item)
                if item.last == "push_row" and item.name.endswith("Decoder::push_row"):
                    names[item.name.split("::")[-2].removesuffix("Decoder")].add(item)

    def crates(self, crate):
        """A crate and all below it."""
        if crate not in self.seen:
            self.seen[crate] = {crate}.union(*(self.crates(it) for it in self.below.get(crate, ()) if it in self.sources))
        return self.seen[crate]

    def reached(self, item):
        """The items that a function reaches, with itself."""
        found, left = {item}, [item]
        while left:
            one = left.pop()
            for crate in self.crates(self.of[one]):
                for word in one.words & self.by_name[crate].keys():
                    new = self.by_name[crate][word] - found
                    found |= new
                    left += new
        return found


def listed():
    """The lines of the list by their headings: each a clause, and the edits that it cites."""
    found, heading = {}, None
    for line in Path(LIST).read_text(encoding="utf-8").splitlines():
        if line.startswith("## "):
            heading = line[3:]
        elif line and not line.startswith("# "):
            clause, _, cited = line.partition(": ")
            found.setdefault(heading, []).append((clause, cited.split()))
    return found


class Promises:
    """The clauses of the functions for users, and which edits name them."""

    def __init__(self, sources, users, edits):
        self.sources, self.items, self.names = sources, {}, {}
        self.trait = next(item for item in sources["fax_lines"].items if item.name == "Decoder::push_row")
        for crate, own in users.items():
            for item in own:
                self.names[item] = self.names_of(crate, item, "ensures", "ensures*")
                self.items |= {f"{crate} {item.name}.{clause}": item for clause in self.names[item]}
        self.named = collections.defaultdict(list)
        for edit in edits:
            for clause in self.clauses_named(edit):
                self.named[clause].append(edit)

    def names_of(self, crate, item, *words):
        text = self.sources[crate].texts[item.path][item.begin : item.end]
        return [name for word, name in clauses_of(text) if word in words]

    def clauses_named(self, edit):
        """The clause that an edit names: `returns` is the only one; an edit of a sink's `push_row` names one of the trait's too."""
        item = next((item for item in self.sources[edit.crate].named(edit.function) if item in self.names), None)
        if item is None:
            return
        plain = self.names_of(edit.crate, item, "ensures")
        clause = plain[0] if edit.clause == "returns" and len(plain) == 1 else edit.clause
        if clause in (self.names[item] or self.names[self.trait]):
            yield f"{edit.crate} {item.name}.{clause}"
            if not self.names[item]:
                yield f"fax_lines {self.trait.name}.{clause}"

    def most_of(self, clause):
        """How many edits may name a clause: the trait's are named by those of each sink."""
        item = self.items.get(clause)
        if item is self.trait:
            return MOST_EDITS
        return MOST_FACTS if item and len(self.names[item]) == 1 else 1


def faults(sources, users, edits):
    """What is wrong with the edits of crates, whose functions for users are given, and with the list."""
    promises, reach, lines = Promises(sources, users, edits), Reach(sources), listed()
    by_name = {f"{edit.crate}/{edit.name}": edit for edit in edits}
    cited = {f"{edit.crate}/{edit.name}" for own in promises.named.values() for edit in own}
    found = [f"{len(own)} edits name {clause}" for clause, own in promises.named.items() if len(own) > promises.most_of(clause)]
    once = collections.Counter(clause for heading, own in lines.items() if heading != RULES for clause, _ in own)
    found += [f"listed twice: {clause}" for clause, count in once.items() if count > 1]
    found += [f"no edit names it, and it isn't listed: {clause}" for clause in promises.items.keys() - promises.named.keys() - once.keys()]
    for heading, own in lines.items():
        if own != sorted(own):
            found.append(f"the lines below '{heading}' aren't sorted")
        for clause, names in own:
            if clause not in promises.items:
                found.append(f"listed, but no clause of a function for users: {clause}")
            elif (clause in promises.named) != (heading == RULES):
                found.append(f"listed below '{heading}', but {'an' if clause in promises.named else 'no'} edit names it: {clause}")
            elif bool(names) != (heading in (PASSED, RULES)):
                found.append(f"edits stand below the first two headings alone, and there always: {clause}")
            else:
                reached = reach.reached(promises.items[clause]) if names else set()
                for name in names:
                    if name not in by_name or not by_name[name].touched & reached:
                        found.append(f"{clause} reaches nothing that {name} changes, or there is no such edit")
                    elif heading == RULES and name in cited:
                        found.append(f"{clause} cites {name}, which names a clause for users or is cited before")
                cited |= {*names}
    found += [f"it names no clause for users, and no line cites it: {name}" for name, edit in by_name.items() if name not in cited and not edit.must_fail]
    if len(edits) > MOST_EDITS:
        found.append(f"{len(edits)} edits, at most {MOST_EDITS} may be")
    return sorted(found)
