"""Writes the Cargo package `hayro-ccitt`: the proved sources with their contracts erased, which is Rust.

    python3 release/erased/erase.py FOLDER

FOLDER gets the package, laid out by rustfmt, with the library for C in its folder `c`, the programs in `programs`,
and what reads files in `files`. Contracts, ghost
items and models go, and calls of laws, which do nothing; what is left is kept token by token, except as the lines of REWRITTEN say. The bodies in BY_HAND are replaced. What isn't understood is refused: a word of a contract that is left, an attribute
that isn't known, a function or a line that isn't there once, a character that Rust doesn't have."""
import os
import re
import shutil
import subprocess
import sys
import tempfile

HERE = os.path.dirname(os.path.abspath(__file__))
API = "bindings/rust"
# The crate of the calls for C, and its module that is by hand here.
CALLS = "hayro_ccitt_c"
HANDLE = "handle"
# The programs, which are a package of their own, beside that of the library.
PROGRAMS = ["faxrows", "faxpack", "faxconv"]
# The readers and writers of files, which are a package of their own too.
FILES = ["fax_decode", "png_write"]
# The file that a crate begins with.
ROOTS = ["lib", "main"]
# Modules that no call needs, or the whole crate.
LEFT_OUT = {
    "fax_reading": None,
    "hayro_ccitt": ["in_step", "laws", "locality", "reach", "tagged"],
    "fax_encode": ["laws"],
    "fax_conforms": ["laws"],
}
# The files of the API that are by hand here: the others are those of bindings/rust.
API_BY_HAND = ["calls.rs", "pushed.rs"]

# The functions whose bodies are by hand, by their files, since Rust has no stable form of them: with `--cfg vectors`, which takes a
# compiler with vectors that aren't stable, the bodies are those that are proved.
WITHOUT_VECTORS = {
    # vectors of 16 bytes
    ("fax_bits", "bit_reader", "bytes_turned"): "word.swap_bytes().reverse_bits()",
    # vectors of four numbers: no place is found at once, which the contract allows
    ("fax_lines", "regular_places", "regular_places"): "([u32::MAX; 4], 0)",
}
# Those whose bodies are by hand since a list takes several items at once faster.
BY_HAND = {
    ("fax_feeds", "row_feed", "append_reserved"): "data.extend_reserved(bytes);",
    ("fax_lines", "vertical_groups", "push_places"): "row.extend_reserved(&places);",
}
# Other lines by hand: each is there once.
LINES_BY_HAND = {
    # so that it isn't tried without vectors
    ("fax_lines", "context"): ("by_groups: self.suits_groups", "by_groups: cfg!(vectors) && self.suits_groups"),
}
# A name, a field, or what a call with a name or without arguments returns.
PLACE = r"\w+(?:\.\w+(?:\(\w*\))?)*"
# What is written otherwise, in each file that has it.
REWRITTEN = [
    (r"\bfmt<W: fmt::Write>", "fmt"),
    (r"\bfmt::Formatter<W>", "fmt::Formatter<'_>"),
    (r"\bimpl<T: Drop>", "impl<T>"),
    (r"\bpub extern \"C\" fn\b", "pub fn"),
    # what a program begins with
    (r"(?m)^fn main\(rt: HostRuntime\)", "pub fn main(rt: HostRuntime)"),
    # what is all zeros before a call
    (r"#\[repr\(C\)\]", "#[repr(C)]\n#[derive(Default)]"),
    # pointers that nothing is read by
    (r"\*mut u8\b", "usize"),
    # what Rust 1.85 doesn't have
    (rf"(?<=(?:if| =) )({PLACE})\.is_multiple_of\(2\)(?= \{{|;)", r"\1 % 2 == 0"),
    (rf"(?<=(?:if| =) )({PLACE})\.is_multiple_of\(2\)(?= [!=]= )", r"(\1 % 2 == 0)"),
    (rf"\bif let Some\((\w+)\) = ({PLACE})\s+&& ((?!let )[\w.() <=>!]+?)\s+\{{", r"if let Some(\1) = \2.filter(|_| \3) {"),
    (rf"\b({PLACE})\.to_vec\(alloc\)", r"Vec::copied(alloc, \1)"),
    (rf"\b({PLACE}\[[\w.]*\])\.to_vec\(alloc\)", r"Vec::copied(alloc, &\1)"),
    (rf"\b({PLACE})\.to_vec\(self\.alloc\)", r"Vec::copied(self.alloc, \1)"),
    (r"\bvec!\[in ([\w.()]+); (\w+); (\w+)\]", r"Vec::filled(\1, \2, \3)"),
    # vectors, and bytes that are turned by these
    (r"\buse std::simd::prelude::\*;", "#[cfg(vectors)]\nuse core::simd::{ToBytes, prelude::*};"),
    (r"\b(\w+)\.shuffle::<4>\(", r"simd_swizzle!(\1, "),
    (rf"(?<=_from_slice\(&)({PLACE})\.to_be_bytes\(\)", r"be_bytes(\1)"),
    (r"\bu64::from_be_bytes\(", "be_word("),
]
# What `lists.rs` has in place of Rattle's std.
FROM_LISTS = ["AllocError", "AllocFailed", "Box", "Global", "Vec", "be_bytes", "be_word"]
# What `system.rs` has in place of it, in the programs: all of std, and these of its prelude. Elsewhere only this is Rust's own std.
FROM_SYSTEM = ["HostRuntime", "String"]
OF_STD = r"::(io|os|fs|time|process|env)\b"
# The features of the library for C that calls need.
FEATURES = {"hayro_ccitt_check": "check"}
DROPPED_USES = r"use std::(alloc::[^;]*|marker::Model)"
KEPT_ATTRIBUTES = r"#!?\[(inline(\((always|never)\))?|cold|derive\([\w, ]*\)|repr\(C\)|rattlefmt::skip)\]"
DROPPED_ATTRIBUTES = r"#!?\[(tactic\(.*\)|unsafe\(no_mangle\))\]"
REFUSED_WORDS = {"ghost", "requires", "ensures", "invariant", "tactic", "rattlefmt", "Rattle", "Model", "Drop", "unsafe"}

TOKEN = re.compile(
    r"""(?P<comment>//[^\n]*)|(?P<string>b?"(?:\\.|[^"\\])*")|(?P<char>b?'(?:\\[^'\n]+|[^'\\\n])')|(?P<label>'[a-z_]\w*)
    |(?P<word>[A-Za-z_][A-Za-z0-9_]*)|(?P<number>[0-9][A-Za-z0-9_]*)|(?P<space>\s+)|(?P<mark>.)""",
    re.VERBOSE | re.DOTALL,
)


class Refused(Exception):
    pass


def read(path):
    with open(path, encoding="utf-8") as file:
        return file.read()


def write(path, text):
    os.makedirs(os.path.dirname(path), exist_ok=True)
    with open(path, "w", encoding="utf-8") as file:
        file.write(text)


def after_braces(text, at):
    """The place after the braces that begin here, after spaces."""
    start = re.compile(r"\s*").match(text, at).end()
    if text[start : start + 1] != "{":
        raise Refused(f"no braces: {text[at : at + 60]!r}")
    depth = 0
    for mark in re.compile(r"[{}]").finditer(text, start):
        depth += 1 if mark[0] == "{" else -1
        if depth == 0:
            return mark.end()
    raise Refused(f"braces that don't end: {text[at : at + 60]!r}")


def matched(pattern, text, at):
    return re.compile(pattern, re.DOTALL).match(text, at)


def after_clause(text, at):
    """The place after a clause whose first word ends here."""
    return after_braces(text, matched(r"\*?(\s+\w+)?", text, at).end())


def after_ghost(text, at):
    """The place after a ghost item whose first word ends here."""
    if found := matched(r"\s+use\s[^;]*;", text, at):
        return found.end()
    if found := matched(r"\s+\w+\s*=", text, at):
        end, mark = after_braces(text, found.end()), ";"
    elif found := matched(r"\s+\w+\s*:", text, at):
        end, mark = after_braces(text, found.end()), "[,;]"
        if proof := matched(r"\s*(by\b|=)", text, end):
            end = after_braces(text, proof.end())
    else:
        raise Refused(f"a ghost item that isn't known: {text[at : at + 60]!r}")
    last = matched(rf"\s*{mark}", text, end)
    if not last:
        raise Refused(f"a ghost item that doesn't end: {text[at : at + 60]!r}")
    return last.end()


def attribute(text, at):
    """An attribute that begins here, and what it becomes."""
    depth, end = 0, at
    for mark in re.compile(r"[\[\]]").finditer(text, at):
        depth += 1 if mark[0] == "[" else -1
        if depth == 0:
            end = mark.end()
            break
    whole = text[at:end]
    if re.fullmatch(DROPPED_ATTRIBUTES, whole, re.DOTALL):
        return whole, ""
    if not re.fullmatch(KEPT_ATTRIBUTES, whole):
        raise Refused(f"an attribute that isn't known: {whole}")
    kept = re.sub(r"\bDrop(, )?|, Drop\b", "", whole).replace(", )", ")").replace("rattlefmt", "rustfmt")
    return whole, "" if kept == "#[derive()]" else kept


def erase(text):
    """The text without contracts, ghost items and models, and how many of each there were."""
    kept, counts, at = [], {"clauses": 0, "ghost items": 0, "models": 0, "calls of laws": 0}, 0
    while at < len(text):
        token = TOKEN.match(text, at)
        piece = token[0]
        if piece in ("requires", "ensures"):
            counts["clauses"] += 1
            at = after_clause(text, token.end())
        elif piece == "ghost":
            counts["ghost items"] += 1
            # The comment and the visibility of a ghost item go with it.
            whole = "".join(kept)
            kept = [whole[: re.search(r"(///[^\n]*\n\s*)*(\bpub(\([a-z]+\))?\s+)?$", whole).start()]]
            at = after_ghost(text, token.end())
        elif piece == "impl" and (model := matched(r"impl[^{;]*?\bModel for\b[^{]*", text, at)):
            counts["models"] += 1
            at = after_braces(text, model.end())
        elif piece == "#":
            whole, by = attribute(text, at)
            at += len(whole)
            kept.append(by)
            if not by:
                at = matched(r"\s*", text, at).end()
        elif piece == "use" and (use := matched(DROPPED_USES + ";", text, at)):
            at = use.end()
        else:
            kept.append(piece)
            at = token.end()
    return "".join(kept), counts


def laws_of(crate):
    """The files with the laws of a crate, and with those of the crates below that it passes on."""
    found = [f"crates/{it}/src/laws.rt" for it in crates_below(crate)] + [f"crates/{it}/src/laws.rt" for it, below in LEFT_OUT.items() if not below]
    return [path for path in found if os.path.exists(path)]


def without_laws(text, counts):
    """Calls of laws are for their contracts: they go, if what they call does nothing."""
    for crate, law in re.findall(r"^use (\w+)::laws::(\w+);$", text, re.MULTILINE):
        if not any(re.search(rf"\bpub fn {law}\(\)\s*\{{\}}", erase(read(path))[0]) for path in laws_of(crate)):
            raise Refused(f"a law of {crate} that does something: {law}")
        text = once(text, f"use {crate}::laws::{law};\n", "")
        text, calls = re.subn(rf"^ *{law}\(\);\n", "", text, flags=re.MULTILINE)
        counts["calls of laws"] += calls
    return text


def rewritten(text):
    for pattern, by in REWRITTEN:
        text = re.sub(pattern, by, text)
    return text


def without_unused_labels(text):
    """Labels are for contracts of loops: what no `break` or `continue` names goes."""
    named = {*re.findall(r"\b(?:break|continue) ('\w+)", text)}
    return re.sub(r"('\w+): (?=while|loop|for)", lambda label: label[0] if label[1] in named else "", text)


def renamed(text, crate, crates, is_of_programs):
    """The paths of crates as those of modules."""
    kept, at, before = [], 0, ""
    while at < len(text):
        token = TOKEN.match(text, at)
        piece, at = token[0], token.end()
        is_front = text.startswith("::", at) and not before.endswith("::")
        if token["comment"]:
            piece = re.sub(r"(?<=\]\()crate::", f"crate::proved::{crate}::", piece)
        elif is_front and piece == "std" and is_of_programs:
            piece = "crate::system"
        elif is_front and piece == "std":
            piece = "std" if re.compile(OF_STD).match(text, at) else "core"
        elif is_front and piece == "crate":
            piece = f"crate::proved::{crate}"
        elif is_front and token["word"] and piece in crates:
            piece = f"crate::proved::{piece}"
        kept.append(piece)
        before = (before + piece)[-2:]
    return "".join(kept)


def with_body(text, name, body):
    """The text with this body of the function of this name, once: it is made of the body that is there, in its braces."""
    found = list(re.finditer(rf"\bfn {name}\b[^{{]*", text))
    if len(found) != 1:
        raise Refused(f"{len(found)} functions {name}")
    start, end = found[0].end(), after_braces(text, found[0].end())
    return text[:start] + body(text[start:end]) + text[end:]


def with_bodies(text, crate, name, used):
    """The text of a module with the bodies by hand, and what these are; and the text without those that have vectors."""
    here = [(function, body, of is WITHOUT_VECTORS) for of in (BY_HAND, WITHOUT_VECTORS) for (*file, function), body in of.items() if file == [crate, name]]
    plain, said = text, []
    for function, body, has_vectors in here:
        plain = with_body(plain, function, lambda _, body=body: f"{{ {body} }}")
        text = with_body(text, function, lambda proved, body=body, has_vectors=has_vectors: by_vectors(proved, body) if has_vectors else f"{{ {body} }}")
        said.append(f"the body of `{function}`{' without vectors' if has_vectors else ''}")
        used.add((crate, name, function))
    return text, said, plain


def by_vectors(proved, body):
    """A body that has vectors, and another one where there are none."""
    return f"{{\n#[cfg(vectors)]\n{proved}\n#[cfg(not(vectors))]\n{{ {body} }}\n}}"


def code_of(text):
    """The text without comments, strings and characters."""
    return "".join(token[0] for token in TOKEN.finditer(text) if token["space"] or token["word"] or token["number"] or token["mark"] or token["label"])


def refuse_leftovers(text):
    code = code_of(text)
    if left := {*re.findall(r"\w+", code)} & REFUSED_WORDS:
        raise Refused(f"words of contracts are left: {sorted(left)}")
    if other := [mark for mark in code if not mark.isascii()]:
        raise Refused(f"characters of contracts are left: {other[:9]}")
    if found := re.search(rf"\bstd(?!{OF_STD})::|\bvec!|\bu\d+x\d+\b|\bdyn\b|\bextern\b|\bis_multiple_of\b|\b(?:if|while) let [^{{;]*&& |/\*", code):
        raise Refused(f"not erased: {found[0]}")


def imports_of(text, is_of_programs):
    """The lines that take what the text names from `lists.rs` and, in the programs, from `system.rs`."""
    code = code_of(text)
    from_lists, from_system = ([name for name in names if re.search(rf"\b{name}\b", code)] for names in (FROM_LISTS, FROM_SYSTEM if is_of_programs else []))
    lines = {"lists": from_lists, "system": from_system}
    return "".join(f"use crate::{of}::{{{', '.join(names)}}};\n" for of, names in lines.items() if names)


def module(crate, name, crates, used, is_of_programs):
    """A source of a crate as a module of the package."""
    path = f"crates/{crate}/src/{name}.rt"
    text, counts = erase(read(path))
    text = without_laws(text, counts)
    text = rewritten(text)
    if name in ROOTS:
        if crate == CALLS:
            text = re.sub(r"^mod ", "pub(crate) mod ", text, flags=re.MULTILINE)
        for gone in LEFT_OUT.get(crate) or []:
            text, count = re.subn(rf"^(pub )?mod {gone};\n|^(pub )?use {gone}::[^;]*;\n", "", text, flags=re.MULTILINE)
            if not count:
                raise Refused(f"{path} has no module {gone}")
    text = renamed(without_unused_labels(text), crate, crates, is_of_programs)
    text = re.sub(r"\n{3,}", "\n\n", re.sub(r"[ \t]+$", "", text, flags=re.MULTILINE))
    if line := LINES_BY_HAND.get((crate, name)):
        text = once(text, *line)
        used.add((crate, name))
    text, by_hand, plain = with_bodies(text, crate, name, used)
    refuse_leftovers(plain)
    by_hand += [f"`{line[1]}`"] if line else []
    front = re.match(r"(\s|//![^\n]*\n)*", text).end()
    erased = ", ".join(f"{count} {what}" for what, count in counts.items() if count) or "nothing"
    said = f"// {path} without contracts. Erased: {erased}." + "".join(f" By hand: {what}." for what in by_hand)
    return f"{said}\n\n{text[:front].strip()}\n\n{imports_of(text, is_of_programs)}{text[front:]}"


# A parameter of a call for C: its name and its type. A slice is for C a pointer and a length.
PARAMETER = re.compile(r"(?P<name>\w+): (?P<type>u32|&(?P<mut>mut )?(\[(?P<item>\w+)\]|\w+))$")


def calls_for_c():
    """The names of the calls for C, and of each its parameters without the allocator."""
    found = {}
    for name in modules_of(f"crates/{CALLS}/src"):
        text, _ = erase(read(f"crates/{CALLS}/src/{name}.rt"))
        calls = re.findall(r'\bpub extern "C" fn (\w+)\(\s*alloc: Global, ([^)]*?),?\s*\) -> u32\s*\{', re.sub(r"\s+", " ", text))
        if len(calls) != code_of(text).count("extern"):
            raise Refused(f"crates/{CALLS}/src/{name}.rt: a call for C of another form")
        for call, parameters in calls:
            found[call] = [PARAMETER.match(parameter) for parameter in parameters.split(", ")]
            if None in found[call]:
                raise Refused(f"a parameter of {call} that isn't known: {parameters}")
    return dict(sorted(found.items()))


def safe_calls(calls):
    """Each call without its allocator."""
    return "".join(
        f"\n#[inline]\npub fn {name}({', '.join(it[0] for it in parameters)}) -> u32 {{\n"
        f"proved::{name}(Global, {', '.join(it['name'] for it in parameters)})\n}}\n"
        for name, parameters in calls.items()
    )


def lent_calls(calls):
    """Each call as C calls it."""
    text = "use crate::{lent, room};\nuse decoder::calls;\n"
    for name, parameters in calls.items():
        of_c, passed = [], []
        for it in parameters:
            if it["item"]:
                of_c += [f"{it['name']}: *{'mut' if it['mut'] else 'const'} {it['item']}", f"{it['name']}_length: usize"]
                passed.append(f"unsafe {{ {'room' if it['mut'] else 'lent'}({it['name']}, {it['name']}_length) }}")
            else:
                of_c.append(f"{it['name']}: {re.sub(r'(?=[A-Z])', 'calls::', it['type'], count=1)}")
                passed.append(it["name"])
        text += f'\n#[cfg(feature = "{FEATURES[name]}")]' if name in FEATURES else ""
        text += f'\n#[unsafe(no_mangle)]\npub unsafe extern "C" fn {name}({", ".join(of_c)}) -> u32 {{\n'
        text += "// SAFETY: as the headers say.\n" if "unsafe" in "".join(passed) else ""
        text += f"calls::{name}({', '.join(passed)})\n}}\n"
    return text


def crates_below(*tops):
    """These crates and those that they are made of, those below first."""
    named = dict((line.split(":")[0].split()[0], line.split(":")[1].split()) for line in read("crates.txt").splitlines() if not line.startswith("#"))
    found = [*tops]
    for name in found:
        found += [it for it in named[name] if it in named and it not in found]
    return [name for name in sorted(found, key=list(named).index) if LEFT_OUT.get(name, []) is not None]


def modules_of(folder):
    """The files of a crate's modules below its folder, without their endings: those of modules within modules are in folders."""
    found = [os.path.relpath(f"{at}/{name}", folder) for at, _, names in os.walk(folder) for name in names]
    return [name.removesuffix(".rt") for name in found if name.endswith(".rt")]


def write_modules(folder, written, crates, used, is_of_programs=False):
    """Writes the modules of some crates, in files that name those of all these crates."""
    for crate in written:
        for name in sorted(modules_of(f"crates/{crate}/src")):
            if name in (LEFT_OUT.get(crate) or []) or (crate, name) == (CALLS, HANDLE):
                continue
            try:
                text = module(crate, name, crates, used, is_of_programs)
            except Refused as why:
                sys.exit(f"crates/{crate}/src/{name}.rt: {why}")
            write(f"{folder}/{crate}/{'mod' if name in ROOTS else name}.rs", text)
    modules = "".join(f"pub mod {crate};\n" for crate in written)
    modules += "pub use decoder::proved::*;\n" if len(written) < len(crates) else ""
    write(f"{folder}/mod.rs", said_by_hand(f"{HERE}/src/proved.rs") + modules)


def write_proved(folder):
    """Writes the modules of the library, and those of the programs, which take the library's."""
    below, used = crates_below(CALLS), set()
    write_modules(f"{folder}/src/proved", below, below, used)
    write(f"{folder}/src/proved/{CALLS}/{HANDLE}.rs", said_by_hand(f"{HERE}/src/{HANDLE}.rs"))
    for package, tops in (("programs", PROGRAMS), ("files", FILES)):
        crates = crates_below(CALLS, *tops)
        write_modules(f"{folder}/{package}/src/proved", [it for it in crates if it not in below], crates, used, package == "programs")
    if unused := {*BY_HAND, *WITHOUT_VECTORS, *LINES_BY_HAND} - used:
        sys.exit(f"no such sources: {sorted(unused)}")


def once(text, old, new):
    if text.count(old) != 1:
        raise Refused(f"{text.count(old)} times: {old!r}")
    return text.replace(old, new)


def said_by_hand(path):
    return f"// {os.path.relpath(path)}, by hand.\n\n{read(path)}"


def write_api(folder):
    """The modules of bindings/rust, except those that call C."""
    for name in sorted(os.listdir(f"{API}/src")):
        if name in API_BY_HAND:
            write(f"{folder}/src/{name}", said_by_hand(f"{HERE}/src/{name}"))
            continue
        text = read(f"{API}/src/{name}")
        if name == "lib.rs":
            text = once(text, "#![deny(unsafe_op_in_unsafe_fn)]", "#![forbid(unsafe_code)]\n#![cfg_attr(vectors, feature(portable_simd))]")
            text = once(text, "mod calls;\n", "#[doc(hidden)]\npub mod calls;\n")
            text = once(text, "mod encoding;\n", "mod encoding;\n#[doc(hidden)]\npub mod lists;\n")
            text = once(text, "mod pushed;\n", "#[doc(hidden)]\npub mod proved;\nmod pushed;\n")
            text = re.sub(r"(?<=\n)//! What runs is a C.*?\n(?=//!\n)", read(f"{HERE}/src/what_runs.txt"), text, count=1, flags=re.DOTALL)
            text = once(text, ", and needs an allocator and a C compiler.", ", and needs an allocator.")
        write(f"{folder}/src/{name}", f"// {API}/src/{name}, as it is{' but for what runs' if name == 'lib.rs' else ''}.\n\n{text}")
    write(f"{folder}/src/lists.rs", said_by_hand(f"{HERE}/src/lists.rs"))
    for of in ("examples", "tests"):
        shutil.copytree(f"{API}/{of}", f"{folder}/{of}", ignore=shutil.ignore_patterns("__pycache__"))


def write_calls(folder):
    """Adds the calls for C to the modules for them, of the package and of the library for C."""
    calls = calls_for_c()
    with open(f"{folder}/src/calls.rs", "a", encoding="utf-8") as file:
        file.write(safe_calls(calls))
    write(f"{folder}/c/src/calls.rs", f"// crates/{CALLS}/src/lib.rt, feeds.rt and checks.rt: their calls, as C calls them.\n\n{lent_calls(calls)}")


def write_package(folder):
    write_proved(folder)
    write_api(folder)
    write_calls(folder)
    for name in ("Cargo.toml", "README.md", "c/Cargo.toml", "programs/Cargo.toml", "files/Cargo.toml"):
        write(f"{folder}/{name}", read(f"{HERE}/{name}"))
    for name in ("hayro_ccitt.h", "fax_encode.h", "hayro_ccitt_heap.h"):
        write(f"{folder}/c/include/{name}", read(f"c/{name}"))
    for of in ("c/src", "programs/src", "files/src"):
        for name in files_in(f"{HERE}/{of}"):
            write(f"{folder}/{of}/{name}", said_by_hand(f"{HERE}/{of}/{name}"))
    roots = [f"{folder}/{name}.rs" for name in ("src/lib", "c/src/lib", "files/src/lib", "programs/src/lib", *(f"programs/src/bin/{it}" for it in PROGRAMS))]
    done = subprocess.run(["rustfmt", "--edition", "2024", *roots], capture_output=True, text=True, check=False)
    if done.returncode != 0:
        sys.exit(f"rustfmt: {done.stderr[-3000:]}")


def files_in(folder):
    return {os.path.relpath(f"{at}/{name}", folder) for at, _, names in os.walk(folder) for name in names}


def main(folder):
    """Writes the package. Files that are there and don't change stay as they are, so that cargo builds nothing again."""
    os.chdir(f"{HERE}/../..")
    with tempfile.TemporaryDirectory() as work:
        write_package(work)
        for name in files_in(work):
            text = read(f"{work}/{name}")
            if not os.path.exists(f"{folder}/{name}") or read(f"{folder}/{name}") != text:
                write(f"{folder}/{name}.part", text)
                os.replace(f"{folder}/{name}.part", f"{folder}/{name}")
        for name in files_in(folder) - files_in(work):
            if name.startswith(("src/", "examples/", "tests/", "c/src/", "c/include/", "files/src/", "programs/src/")):
                os.remove(f"{folder}/{name}")


if __name__ == "__main__":
    main(os.path.abspath(sys.argv[1]))
