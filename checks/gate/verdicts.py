"""What a check of edits says, and whether it refuses an edit for its reason."""
import re

from gate import stubs

LOST = re.compile(r"is not in scope|has no field|has no `|was not admitted|no such|is no name|not checked: ")
GAVE_UP = re.compile(r"gave up|could not tell|ran out")
AT = re.compile(r"(?:\./)?proofs/(\S+)/(\w+)\.antt:\d+:\d+: error: (?:(?:in )?`([^`]*)`: )?(.*)")
NOT_SHOWN = " (not shown: its right body isn't proved)"
DEPENDS = re.compile(r"\d+ declarations? that depends? on `([^`]*)`, which [^,]*, (?:was|were) not checked: (.*)")
OPEN = re.compile(r"note: (src/\S+?):\d+:\d+: (.*?) \(`([^`]+)`\)(.*)")


class Said:
    """What a check says of one function: whether it is proved, and what stays open, as pairs of a goal's name and why."""

    def __init__(self):
        self.line, self.open, self.weak = "", [], []


def read(output, crate, is_mixed=False):
    """What a check's output says of each function. In a batch of several edits, a lemma may be refused because of another edit."""
    said, notes, errors, lemmas = {}, [], {}, {}
    lines = output.split("\n")
    for number, line in enumerate(lines):
        wrong = AT.match(line)
        opened = OPEN.match(line)
        if wrong:
            declared, why = wrong[3] or "", wrong[4]
            is_answer = wrong[2] in ("Answers", "Invariants", "Proof")
            found = errors.setdefault(wrong[1].replace("/", "::"), []) if is_answer else []
            depends = DEPENDS.match(why)
            if depends:
                goals = re.findall(r"([\w-]+)(?= \(via|,| and|$)", depends[2])
                found += [(goal, depends[1], None) for goal in goals]
                if not is_answer:
                    lemmas |= {goal: lemmas[depends[1]] for goal in goals if depends[1] in lemmas}
            else:
                more = " ".join([why, *[it.strip() for it in lines[number + 1 : number + 4] if it.startswith("  ")]])
                found.append((declared, "", more))
                if not is_answer:
                    lemmas[declared] = more
        elif opened:
            notes.append((opened[3], f"{opened[2]}{opened[4]}"))
        elif line.startswith("fn "):
            name, _, verdict = line[3:].partition(": ")
            it = said.setdefault(name.removeprefix(f"{crate}::"), Said())
            it.line = verdict
            for goal, why in notes:
                (it.weak if GAVE_UP.search(why) else it.open).append((goal, why))
            notes = []
    for function, found in errors.items():
        it = said.setdefault(function, Said())
        of = {goal: why for goal, by, why in found if why} | ({} if is_mixed else lemmas)
        for goal, by, why in found:
            why = why or of.get(by)
            if why:
                (it.weak if LOST.search(why) or GAVE_UP.search(why) else it.open).append((goal, why))
    return said


def names(goal, clause):
    """Whether a goal is one of this clause. A goal of a function with a single clause, or of a loop, names no clause."""
    if "-requires" in goal:
        return False
    if clause == "loop":
        return not goal.startswith("returns")
    return goal.endswith(f"-clause-{clause}") or f"-clause-{clause}-" in goal or ("-clause-" not in goal and goal.startswith("returns"))


def gave_up(edit, said):
    """Whether a search gave up at a goal that names the edit's clause."""
    it = said.get(edit.function)
    return bool(it) and any(names(goal, edit.clause) and GAVE_UP.search(why) for goal, why in it.weak)


def judged(edit, said, output, cited):
    """Whether the edit is refused for its reason, and what to print. Of a goal with a written answer also what this answer cites counts."""
    it = said.get(edit.function)
    if not said:
        lines = [line for line in output.split("\n") if "error" in line] or output.split("\n")
        return False, f"it did not reach the prover: {lines[0][:200]}"
    if not it:
        near = sorted(name for name in said if name.endswith(f"::{edit.function.rpartition('::')[2]}"))
        return False, f"no function {edit.function or '(none)'} was checked{': ' + ', '.join(near) if near else ''}"
    if it.line.startswith(("proved", *stubs.ON_HOLES)):
        return False, f"{edit.function} is proved with this edit"
    found = [(goal, why) for goal, why in it.open if names(goal, edit.clause)]
    if found:
        return True, f"{found[0][0]}: {found[0][1][:150]}"
    by = [(goal, name, why) for name, why in it.open for goal, names_cited in cited.items() if name in names_cited]
    if by:
        return True, f"{by[0][0]}, whose answer cites {by[0][1]}: {by[0][2][:150]}"
    others = [f"open: {goal}" for goal, _ in it.open]
    weak = [f"{goal}: {why[:150]}" for goal, why in it.weak]
    return False, f"no goal of {edit.function} that names `{edit.clause}` is refused by a value; {'; '.join([*others, *weak]) or it.line[:200]}"
