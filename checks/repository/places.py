"""Lists of places in the code: where `OutOfMemory` and a refusal may be made, and the decoder's loops.

    python3 checks/run.py repository --write    writes the lists anew; look at what has changed

A clause can't say that an allocation failed: so a function that is allowed to answer that memory is wanted may do so at any size. Each
line of code that names such an answer, or a flag for it, is listed in out_of_memory.txt with the blocks around it. It stands in the
failing arm of a call, or passes on or keeps what such an arm made; no other condition is around it. Calls that allocate a given size
are listed too.

The bound on work counts only what takes a count. What reads bits without one could do so again and again: each loop of the decoder is
listed in loops.txt, with what it reads so, and no function goes over data by an iterator."""
import os
import re
from pathlib import Path

WANT_OF_MEMORY, LOOPS = "checks/repository/out_of_memory.txt", "checks/repository/loops.txt"
# The decoder's crates.
DECODER = ["fax_bits", "fax_reading", "fax_lines", "fax_rows", "fax_feeds", "hayro_ccitt"]
# Crates whose functions nobody calls: tests, and worked examples.
NOT_CALLED = {"test_decoder", "test_encoder", "test_faxrows", "test_allocations", "worked_examples"}
WORDS = re.compile(
    r"\bOutOfMemory\b|\bOUT_OF_MEMORY\b|\bMemory\b|\bRefused\b|\bAllocError\b|\bAllocFailed\b|\bwants_memory\b|\bhas_refused\b|\b(?:try_)?reserve\w*\("
    r"|\bwith_capacity\w*\(|\bvec!|\bBox::new\b"
)
STATUS = re.compile(r"(?<!/ )\b4\b")
# The conditions that may be around a place besides the arm of a call: what an earlier arm has kept, a sink without room, and a list that
# is full and got no room.
KEPT = {
    "if changes.len() == changes.capacity()",
    "if !make_room(changes)",
    "if self.wants_memory",
    "if let Strip::Rows(encoder) = self",
    "if self.lists.len() - self.end <= changes.len()",
    "if self.bitmap.len() < self.start.saturating_add(bytes)",
    "if self.bitmap.len() < self.start.saturating_add(self.bytes)",
    "if self.rows == self.most",
    "if !bits_fit(encoded)",
    "if lacks_memory(&row)",
}


# What reads bits, or moves among them, without a count.
READS = re.compile(r"(?:\.|\b(?=go_to|pass_v0))(read_bit|peek_u32|consume|align|go_to|pass_v0|refill\w*|pass|run_index|twelve|seven|skip_to_eol|holds_one)\(")
LOOP = re.compile(r"(?:'\w+: )?\b(?:while\b[^;{]*|loop\s*|for\b[^;{]*\bin\b[^;{]*)\{")
ITERATORS = re.compile(r"\.(?:iter|chunks\w*|windows|split\w*|fold|all|any|position|find|contains|count)\(")


def blanked(text):
    """The code of a file: comments, texts and what is only proved are blank."""
    text = re.sub(r'//[^\n]*|"(?:[^"\\]|\\.)*"', lambda found: " " * len(found[0]), text)
    for head in re.finditer(r"\b(?:ensures|requires)\b\s*\w*\s*\{|\bghost\b[^;{]*[;{]|^use [^;{]*[;{]", text, re.MULTILINE):
        end, depth = head.end(), int(head[0].endswith("{"))
        while depth:
            depth += {"{": 1, "}": -1}.get(text[end], 0)
            end += 1
        text = text[: head.start()] + re.sub(r"[^\n]", " ", text[head.start() : end]) + text[end:]
    return text


def blocks_around(code, place):
    """The heads of the blocks around a place, from the function on."""
    heads, since = [], 0
    for at in range(place):
        if code[at] == "{":
            heads.append(" ".join(code[since:at].split()))
        elif code[at] == "}":
            heads.pop()
        if code[at] in "{};" or (code[at] == "," and not in_brackets(code, since, at)):
            since = at + 1
    first = next((index for index, head in enumerate(heads) if re.search(r"\bfn \w+", head)), len(heads))
    return heads[first:]


def in_brackets(code, since, at):
    """Whether a comma is in brackets, or in a function's signature."""
    text = code[since:at]
    return text.count("(") > text.count(")") or text.count("[") > text.count("]") or re.search(r"\bfn \w", text) is not None


def files_of(crate):
    """The path in `crates` and the code of each file of a crate."""
    for folder, _, names in sorted(os.walk(f"crates/{crate}/src")):
        for name in sorted(names):
            yield f"{folder}/{name}".removeprefix("crates/"), blanked(Path(f"{folder}/{name}").read_text(encoding="utf-8"))


def wants_of_memory():
    """Each place: the file, the function, the blocks around it, and its line."""
    for crate in sorted(set(os.listdir("crates")) - NOT_CALLED):
        for path, code in files_of(crate):
            start = 0
            for line in code.splitlines(keepends=True):
                text = re.sub(r"-> (?:std::result::)?Result<.*AllocError>", "", line)
                if WORDS.search(text) or (crate in ("c_rows", "hayro_ccitt_c") and STATUS.search(line)):
                    heads = blocks_around(code, start + len(line) - len(line.lstrip()))
                    yield path, function_of(heads), heads[1:], " ".join(line.split())
                start += len(line)


def loops():
    """Each loop of the decoder: the file, the function, the blocks around it, and its head, with what it reads without a count."""
    for path, code in (file for crate in DECODER for file in files_of(crate)):
        for found in LOOP.finditer(code):
            end, depth = found.end(), 1
            while depth:
                depth += {"{": 1, "}": -1}.get(code[end], 0)
                end += 1
            heads, reads = blocks_around(code, found.start()), sorted(set(READS.findall(code[found.start() : end])))
            yield path, function_of(heads), heads[1:], " ".join([*found[0].rstrip("{ ").split(), *(f"[{name}]" for name in reads)])


def function_of(heads):
    return re.search(r"\bfn (\w+)", heads[0])[1] if heads else ""


def listed(places):
    return [" | ".join([f"{path} {function}".strip(), *heads, line]) for path, function, heads, line in places]


def is_listed(places, name):
    """That the places are those of a list."""
    known = Path(name).read_text(encoding="utf-8").splitlines()
    found = listed(places)
    new, gone = [it for it in found if found.count(it) > known.count(it)], [it for it in known if known.count(it) > found.count(it)]
    assert not new and not gone, "\n".join([*(f"new: {it}" for it in new), *(f"gone: {it}" for it in gone)])


def conditions():
    """The conditions around places that are no arm of a call."""
    for path, function, heads, line in wants_of_memory():
        for head in heads:
            if re.match(r"(?:else )?if\b|while\b|for\b|loop\b", head.removeprefix("} ")) and head not in KEPT:
                is_call = re.match(r"if \w+(?:\.\w+)*\(.*\)\.is_err\(\)$", head) or head == "loop"
                if not is_call:
                    yield f"{path} {function}: {head}: {line}"


def out_of_memory_is_made_where_it_is_listed():
    """No place is new, and no condition but the answer of a call is around one."""
    is_listed(wants_of_memory(), WANT_OF_MEMORY)
    others = list(conditions())
    assert not others, "\n".join(others)


def loops_are_those_listed():
    """No loop of the decoder is new, none reads more without a count, and no iterator takes the place of a loop."""
    is_listed(loops(), LOOPS)
    found = [f"{path}: {line.strip()}" for crate in DECODER for path, code in files_of(crate) for line in code.splitlines() if ITERATORS.search(line)]
    assert not found, "\n".join(found)


def write():
    """Writes the lists anew."""
    for name, places in ((WANT_OF_MEMORY, wants_of_memory()), (LOOPS, loops())):
        Path(name).write_text("".join(f"{it}\n" for it in listed(places)), encoding="utf-8")


CHECKS = [out_of_memory_is_made_where_it_is_listed, loops_are_those_listed]
