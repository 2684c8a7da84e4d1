"""Checks of the repository's files: what must be there, and what must not."""
import ast
import collections
import os
import re
import subprocess
import sys
from pathlib import Path
from types import ModuleType

from gate.built import with_libraries
from gate.edit import edits_in, kit
from gate.source import Source
from repository import clauses, places


def tracked():
    """The files that git knows, or would know."""
    listed = subprocess.run(
        ["git", "ls-files", "--cached", "--others", "--exclude-standard"], capture_output=True, text=True, check=True
    )
    return [name for name in listed.stdout.splitlines() if os.path.isfile(name)]


def handles_are_none():
    assert Path("HANDLES").read_text(encoding="utf-8") == "Handles allowed: none.\n", "HANDLES was changed"


# The functions that are proved by hand: privacy ties the count of work to the code, and a handle for C owns what its pointer points
# to.
BY_HAND = [
    "crates/fax_bits/proofs/codes/Ticks/after",
    "crates/fax_bits/proofs/codes/Ticks/new",
    "crates/hayro_ccitt_c/proofs/handle/Handle/dangling",
    "crates/hayro_ccitt_c/proofs/handle/Handle/from_unboxed",
    "crates/hayro_ccitt_c/proofs/handle/Handle/into_unboxed",
    "crates/hayro_ccitt_c/proofs/handle/Unboxed/from_box",
    "crates/hayro_ccitt_c/proofs/handle/Unboxed/into_box",
]


def seven_proofs_by_hand():
    """No other function may be proved by hand."""
    by_hand = sorted(name.removesuffix("/Proof.antt") for name in tracked() if name.endswith("/Proof.antt"))
    assert by_hand == BY_HAND, by_hand


# A requirement cited by a word and a number, or by a letter and a number. T.4 and T.6 are the standards.
NUMBERED = re.compile(
    r"\b(?:[Dd]ocument|[Pp]aper|[Dd]emand)s? \d+\b|\bthe[ ]papers?\b|\b(?:[DLRW]\d{1,2}(?:\.\d+)?|T[1-5]\.\d)\b"
)
# Bytes in hexadecimal, which may look like a letter and a number.
BYTES = re.compile(r"0x[0-9A-Fa-f_]+|\b[0-9A-F]{2}(?: [0-9A-F]{2})+\b|\"[0-9A-F]+\"")


def nothing_is_cited_by_number():
    """The repository is self-contained: it cites no requirement by a number."""
    found = []
    for name in tracked():
        if name == "HANDLES" or name.endswith(".png") or (name.startswith("corpus/") and not name.endswith(".md")):
            continue
        with open(name, encoding="utf-8", errors="ignore") as file:
            for number, line in enumerate(file, 1):
                if NUMBERED.search(BYTES.sub("", line)):
                    found.append(f"{name}:{number}: {line.strip()}")
    assert not found, "\n".join(found[:10])


LINK = re.compile(r"\]\(([^)#]*)(?:#([^)]*))?\)")


def anchors(name):
    """The anchors of a page's headings: small letters, without other signs, with dashes for spaces."""
    headings = re.findall(r"^#+ +(.*)$", Path(name).read_text(encoding="utf-8"), re.MULTILINE)
    return [re.sub(r"[^\w\- ]", "", heading.strip().lower()).replace(" ", "-") for heading in headings]


def links_lead_somewhere():
    broken = []
    for name in tracked():
        if not name.endswith(".md"):
            continue
        links = LINK.findall(Path(name).read_text(encoding="utf-8"))
        for target, anchor in links:
            page = os.path.join(os.path.dirname(name), target) if target else name
            if "://" not in target and (not os.path.exists(page) or (anchor and anchor not in anchors(page))):
                broken.append(f"{name}: {target}#{anchor}")
    assert not broken, "\n".join(broken)


def readme_names_the_kit():
    version = subprocess.run(["rt", "version"], capture_output=True, text=True, check=True).stdout.strip()
    assert version in Path("README.md").read_text(encoding="utf-8"), f"the README doesn't name {version}"


def pages_are_short_and_say_for_whom():
    """README has at most 1,500 words and the pages of docs/ 12,000 together, with their code. Below its title each page says whom it is
    for; README is for all."""
    words = {name: len(Path(name).read_text(encoding="utf-8").split()) for name in tracked() if re.fullmatch(r"README\.md|docs/\w+\.md", name)}
    assert words["README.md"] <= 1500 and sum(words.values()) - words["README.md"] <= 12000, words
    pages = [name for name in tracked() if re.fullmatch(r"(docs/|checks/|corpus/|bench/)?\w+\.md", name) and name != "README.md"]
    silent = [name for name in pages if not re.match(r"# .*\n\nFor ", Path(name).read_text(encoding="utf-8"))]
    assert len(pages) >= 16 and not silent, silent


def lines_of_code(ending, comment):
    """The lines of the files with this ending, without comments and texts."""
    for name in tracked():
        if name.endswith(ending):
            with open(name, encoding="utf-8") as file:
                for number, line in enumerate(file, 1):
                    yield f"{name}:{number}", re.sub(r'"[^"]*"', "", line).split(comment)[0]


def no_proof_has_a_hole():
    found = [place for place, line in lines_of_code(".antt", "--") if "?" in line]
    assert not found, found


# Where a count of work is made, or made from another one: a context has one, which `decode` restarts, and a reader of rows
# keeps a context.
COUNTS = {
    "crates/fax_bits/src/codes.rt": {"new", "after", "tick"},
    "crates/fax_lines/src/context.rt": {"new"},
    "crates/fax_rows/src/counts.rt": {"restart"},
    "crates/fax_lines/src/pen.rt": {"take_up"},  # stands where a count was moved away, and `lay_down` requires that it is still zero
    "crates/fax_rows/src/row_reader.rt": {"new"},  # a reader's own context, which no call of `decode` has
    "crates/fax_rows/src/row_cursor.rt": {"new"},  # the same
    "crates/fax_feeds/src/row_feed.rt": {"new"},  # the same
}
MAKES_A_COUNT = re.compile(
    r"\bTicks>?\s*::|\bTicks\s*\{\s*\}|\bTicks\s+as\b|\btype\b.*\bTicks\b"
    r"|\bSelf\s*(?:::\s*new\b|\{\s*\})|\bDecoderContext\s*::\s*new\b"
)


def is_test(place):
    return re.search(r"(^|[/_])tests(\.rt|/)", place) is not None


def no_work_is_thrown_away():
    """Contracts bound only the count of the context. So inside the decoder's crates no other count may be made, into which work
    would be counted and lost: only the functions named above make one. Tests may."""
    found = []
    function = {}
    for place, line in lines_of_code(".rt", "//"):
        name = place.rsplit(":", 1)[0]
        if not name.startswith(tuple(f"crates/{crate}/src/" for crate in places.DECODER)) or is_test(name):
            continue
        begun = re.search(r"\bfn (\w+)", line)
        if begun:
            function[name] = begun[1]
        if MAKES_A_COUNT.search(line) and function.get(name) not in COUNTS.get(name, ()):
            found.append(f"{place}: {line.strip()}")
    assert not found, "\n".join(found)


def one_line_is_unsafe():
    """Only the box of a handle is made of a pointer, in a function that is proved by hand. The names that C calls are declared by an
    attribute with that word."""
    lines = ((place, line.replace("#[unsafe(no_mangle)]", "")) for place, line in lines_of_code(".rt", "//"))
    found = [f"{place.rsplit(':', 1)[0]}: {line.strip()}" for place, line in lines if re.search(r"\bunsafe\b", line)]
    assert found == ["crates/hayro_ccitt_c/src/handle.rt: unsafe { Box::from_raw(alloc, at) }"], found


# The files of Rust that have unsafe code, and how many places of it: each says above it why it is sound.
UNSAFE = {
    "bindings/rust/src/calls.rs": 7,
    "release/erased/c/src/heap.rs": 5,
    "release/erased/c/src/lib.rs": 2,
    "release/erased/c/src/room.rs": 2,
    "release/erased/files/src/exports.rs": 6,
    "release/erased/programs/src/system.rs": 5,
}


def rust_is_unsafe_in_few_files():
    """The package of proved machine code calls C from one file; the library for C of the erased sources has three, their programs one,
    and what reads files one, apart from the safe package. Each says above such a place why it is sound."""
    found = [place for place, line in lines_of_code(".rs", "//") if re.search(r"\bunsafe\s*(\{|extern|fn|impl)", line)]
    others = [place for place in found if not place.startswith(("bench/", "checks/releases/erased/", *(f"{name}:" for name in UNSAFE)))]
    assert not others, others
    for name, count in UNSAFE.items():
        text = Path(name).read_text(encoding="utf-8")
        places = len(re.findall(r"\bunsafe\s*(?:\{ |\{$|impl|extern \"C\" \{)", re.sub(r"//.*", "", text), re.MULTILINE))
        assert places == text.count("// SAFETY: ") == count, (name, places)


# What `hayro_ccitt` passes on of the crates below it, which no other crate names: nothing of the window, nor of a reader's offset, nor
# anything that counts more than a tick; and of a context no function that changes what a row is, or counts it. What `fax_encode` passes
# on of its layers: the bitmap. What `hayro_ccitt_c` passes on of the one below it: the structures of C.
PASSED_ON = {
    "fax_bits": {
        "DecodeError",
        "DecodeSettings",
        "EncodingMode",
        "Result",
        "bit_reader::BitOrder",
        "bit_reader::BitReader",
        "bit_reader::copy",
        "bits_fit",
        "codes::Color",
        "codes::Mode",
        "codes::Ticks",
        "tables",
    },
    "fax_lines": {
        "Decoder",
        "changes::append_pixels",
        "changes::b1_index",
        "changes::change_or_end",
        "context::DecoderContext",
        "context::decode_1d_line",
        "context::decode_2d_line",
    },
    "fax_rows": {
        "group3::check_eob",
        "group3::decode_1d",
        "group3::decode_2d",
        "group3::recover",
        "group4::decode",
        "row_cursor::RowCursor",
        "row_reader::RowReader",
    },
    "fax_feeds": {"row_feed::Fed", "row_feed::RowFeed"},
    "fax_words": set(),
    "fax_bitmap": {
        "bitmap_rows::rows_of_bitmap",
        "bitmap_sink::BitmapSink",
        "black_runs::paint_cleared",
        "painting::most_cleared_first",
        "painting::paint_over",
        "painting::paint_row",
        "pixel_words::fill_all",
        "pixel_words::fill_apart",
        "pixel_words::fill_bytes",
    },
    "fax_coding": set(),
    "c_rows": {
        "encoding::EncodeOutcome",
        "encoding::EncodeSettings",
        "report::Outcome",
        "row_outcome::RowOutcome",
        "settings::Settings",
    },
}
# The encoder's layers.
ENCODER = ["fax_words", "fax_bitmap", "fax_coding", "fax_encode"]


# The crates below the decoder, below the encoder and below the library for C: the file that passes their items on, which, and the crates
# that may depend on them.
def below():
    laws = {item.name for item in Source("crates/fax_reading").public()}
    assert all(name.startswith("laws::") for name in laws), laws
    for place, crate in enumerate(places.DECODER[:-1]):
        name, items = ("laws", laws) if crate == "fax_reading" else ("lib", PASSED_ON[crate])
        yield crate, f"crates/hayro_ccitt/src/{name}.rt", items, places.DECODER[place + 1 :]
    for crate in ENCODER[:-1]:
        above = ENCODER[1:] if crate == "fax_words" else ENCODER[-1:]
        yield crate, "crates/fax_encode/src/lib.rt", PASSED_ON[crate], above
    yield "c_rows", "crates/hayro_ccitt_c/src/lib.rt", PASSED_ON["c_rows"], ["hayro_ccitt_c"]


def only_what_users_call_is_passed_on():
    """Of the crates below `hayro_ccitt`, `fax_encode` and `hayro_ccitt_c` what is listed above, and of `fax_reading`, which has laws alone,
    each of them."""
    for crate, name, items, crates in below():
        with open(name, encoding="utf-8") as file:
            found = re.findall(rf"^ *pub use {crate}::(?:([\w:]+)::)?(\{{[^}}]*\}}|\w+);", file.read(), re.MULTILINE)
        passed = {f"{path}::{item}".removeprefix("::") for path, names in found for item in re.findall(r"\w+", names)}
        assert passed == items, passed ^ items
        others = [place for place, line in lines_of_code(".rt", "//") if re.search(rf"\bpub(?:\([a-z]+\))? use {crate}\b", line)]
        assert len(others) == len(found) and all(place.startswith(f"{name}:") for place in others), others
        with open("crates.txt", encoding="utf-8") as file:
            above = [line.split(":")[0].split()[0] for line in file if not line.startswith("#") and crate in line.partition(":")[2].split()]
        # what the decoder and others stand on may be named by crates that don't stand on the decoder
        above = [name for name in above if name in places.DECODER or crate not in places.DECODER or "hayro_ccitt" in with_libraries(name)]
        assert above == crates, above


def is_for_users(crate, item):
    """Whether a function is more than a part of the library: of the crates below others only what these pass on is, with each
    method of a type that is, and the sinks' `push_row`."""
    if crate not in PASSED_ON or item.last == "push_row":
        return True
    above, types = item.name.split("::"), {name.rpartition("::")[2] for name in PASSED_ON[crate]}
    return bool(types & set(above[-2:-1]) or PASSED_ON[crate] & {"::".join(above[:length]) for length in range(1, len(above) + 1)})


def users_of(crate, source):
    """The functions with a contract and a body that users call; of a program those of its `main.rt`."""
    mains = [item for item in source.items if item.path == "src/main.rt" and item.kind == "fn"]
    public = [item for item in source.public() if is_for_users(crate, item)]
    return {item for item in [*public, *mains] if item.has_contract and item.has_body}


def each_clause_has_an_edit():
    """Each clause of each function for users is named by an edit, or listed in clauses.txt, and each edit names one or is cited there."""
    sources = {crate: Source(f"crates/{crate}") for crate in sorted(os.listdir("crates")) if not crate.startswith("test_")}
    edits = [edit for crate, source in sources.items() for edit in edits_in(f"crates/{crate}", crate, source)]
    found = clauses.faults(sources, {crate: users_of(crate, source) for crate, source in sources.items()}, edits)
    assert not found, "\n".join(found)


def each_edit_can_be_applied():
    """Each edit's old texts occur once in the file, in an item, it says what it breaks, and no goal that it names has an answer."""
    rt, found = kit(), []
    for crate in sorted(os.listdir("crates")):
        source = Source(f"crates/{crate}")
        for edit in edits_in(f"crates/{crate}", crate, source):
            _, why = rt.read_edit(edit.file, f"crates/{crate}")
            if why or not edit.changed:
                found.append(f"{edit.label}: {why or 'it changes no item'}")
            elif not edit.function:
                found.append(f"{edit.label}: it has no line 'breaks: FUNCTION: CLAUSE'")
            elif edit.lacks_twin():
                found.append(f"{edit.label}: {edit.lacks_twin()}")
            answers = f"crates/{crate}/proofs/{edit.function.replace('::', '/')}/Answers.antt"
            if edit.goals and os.path.exists(answers):
                answered = set(re.findall(r"^pub (\S+) :", Path(answers).read_text(encoding="utf-8"), re.MULTILINE))
                found += [f"{edit.label}: {goal} has a written answer" for goal in edit.goals if goal in answered]
    assert not found, "\n".join(found)


# A name of a proof: anything but spaces, brackets, commas, semicolons, colons and points.
NAME = r"[^\s(){}\[\],;:.]+"
# The goals of functions, which the checker names.
NOT_CITED = ("/Answers.antt", "/Invariants.antt", "/Proof.antt")
DECLARED = re.compile(rf"^( *)((?:pub |abbrev |unfoldable )*)({NAME}) :(?=\s)", re.MULTILINE)


def is_field(text, start, indent):
    """Whether what is declared there is a record's field: the tactics use fields without naming them."""
    above = [line for line in text[:start].split("\n") if line.strip() and len(line) - len(line.lstrip()) < len(indent)]
    return bool(above) and re.match(r" *(pub )?record ", above[-1]) is not None


IMPORT = re.compile(r"^(?:pub |ghost )?use (Rattle\.[^\s{]*)\.\{(.*)\};?$", re.MULTILINE)


# The lemmas that a function gives to the search.
GIVEN = re.compile(r"\busing\(([^)]*)\)")


def imported_names(name, text):
    """The whole names that a file imports."""
    for path, names in IMPORT.findall(text):
        for lemma in names.split(","):
            yield f"{path}.{lemma.split(' as ')[0].strip()}"
    for given in GIVEN.findall(text):
        for lemma in given.split(","):
            yield f"Rattle.{lemma.strip().replace('crate', name.split('/')[1], 1).replace('::', '.')}"


def module_of(name):
    """The module of a file, as `use` lines write it: that of `Lib.antt` is its folder's."""
    return "Rattle." + name.removeprefix("crates/").removesuffix(".antt").removesuffix("/Lib").replace("/", ".")


# A file of lemmas, or a folder of them, that a crate passes on.
PASSES_ON = re.compile(r"^pub use (Rattle\.\w+\.proofs(?:\.\w+)*?\.(\w+))$", re.MULTILINE)


def each_lemma_is_cited():
    """A lemma that nothing cites is useless: each is named besides its declaration, or another file imports it. Examples aren't
    cited."""
    texts = {}
    for name in tracked():
        if name.endswith((".antt", ".rt")):
            texts[name] = re.sub(r"--.*" if name.endswith(".antt") else r"//.*", "", Path(name).read_text(encoding="utf-8"))
    imported = {whole for name, text in texts.items() for whole in imported_names(name, text)}
    for name, text in texts.items():
        for of, last in PASSES_ON.findall(text):
            passed = f"{module_of(name)}.{last}."
            imported |= {whole.replace(passed, f"{of}.", 1) for whole in imported if whole.startswith(passed)}
    dead = []
    for name, text in texts.items():
        if "/proofs/" not in name or not name.endswith(".antt") or name.endswith((*NOT_CITED, "/Examples.antt")):
            continue
        words = collections.Counter(re.findall(NAME, text))
        module = module_of(name)
        for found in DECLARED.finditer(text):
            indent, modifiers, lemma = found.groups()
            if is_field(text, found.start(), indent):
                continue
            head = rf"^{indent}(?:(?:pub|abbrev|unfoldable) )*{re.escape(lemma)} (?::|[^\n]*=$|[^\n]* = |=)"
            given = len(re.findall(head, text, re.MULTILINE))
            if words[lemma] <= given and f"{module}.{lemma}" not in imported:
                dead.append(f"{name}: {lemma}")
    assert not dead, "\n".join(dead)


# A declaration at the margin, or the public one of a module, which stands further in.
TOP_LEVEL = re.compile(
    rf"^( *)((?:pub |abbrev |unfoldable )*)(?:(?:record|data) ({NAME})|({NAME}) :(?=\s)(?! *goal\.))", re.MULTILINE
)


def top_level_names(text):
    """The names that a file declares for others: all at the margin, and the public ones in its modules. Those of goals are the
    checker's, as are the names in a proof by hand."""
    text = re.sub(r"--.*", "", text)
    for found in TOP_LEVEL.finditer(text):
        indent, modifiers, kind, lemma = found.groups()
        if not indent or ("pub" in modifiers and is_in_module(text, found.start(), len(indent))):
            yield kind or lemma


def is_in_module(text, start, indent):
    """Whether what stands there, so far in, is in modules alone: in no record, and not after a `where`."""
    for line in reversed(text[:start].split("\n")):
        inner = len(line) - len(line.lstrip())
        if line.strip() and inner < indent:
            if not line.lstrip().startswith("module _"):
                return False
            indent = inner
    return True


def no_name_stands_twice():
    """In one crate no two files of proofs, and no proof and definition, have a name in common."""
    declared = collections.defaultdict(lambda: collections.defaultdict(set))
    for name in tracked():
        crate, _, path = name.removeprefix("crates/").partition("/")
        if path.startswith(("proofs/", "specs/")) and path.endswith(".antt") and not path.endswith("/Proof.antt"):
            with open(name, encoding="utf-8") as file:
                for lemma in top_level_names(file.read()):
                    declared[crate][lemma].add(path)
    found = [
        f"{crate}: {lemma}: {sorted(files)}" for crate, names in declared.items() for lemma, files in names.items() if len(files) > 1
    ]
    assert not found, "\n".join(found)


def each_name_of_a_module_is_there():
    """What a file of checks takes of a module is there: the file may be run much later than this."""
    modules = {name: it for name, it in sys.modules.items() if (getattr(it, "__file__", None) or "").startswith(f"{os.getcwd()}/checks/")}
    missing = []
    for name, module in modules.items():
        for node in ast.walk(ast.parse(Path(module.__file__).read_text(encoding="utf-8"))):
            if isinstance(node, ast.Attribute) and isinstance(node.value, ast.Name):
                of = vars(module).get(node.value.id)
                if isinstance(of, ModuleType) and not hasattr(of, node.attr):
                    missing.append(f"{name}:{node.lineno}: {node.value.id}.{node.attr}")
    assert len(modules) > 40 and not missing, missing


WIDTH = 130


def no_line_is_too_long():
    """No line of a proof, of a definition, or of the imports of contracts has more than 130 columns."""
    found = []
    for name in tracked():
        if name.startswith("crates/") and name.endswith((".antt", ".rt")):
            with open(name, encoding="utf-8") as file:
                for number, line in enumerate(file.read().split("\n"), 1):
                    if len(line) > WIDTH and (name.endswith(".antt") or line.startswith("ghost use ")):
                        found.append(f"{name}:{number}: {len(line)} columns")
    assert not found, "\n".join(found)


MOST_CLAUSES = 8
# the functions that have more
LONGER = {
    "fax_rows": {"decode", "next_row", "read_line"},
    "fax_feeds": {"feed", "feed_all", "read_whole_line"},
    "hayro_ccitt": {"decode", "decode_low_first", "line_ends_before"},
}


def no_contract_is_too_long():
    """No function but nine has more than eight clauses, `requires` counted. A list of examples or laws, which has no body, may have
    as many as it likes."""
    found = []
    for crate in sorted(os.listdir("crates")):
        source = Source(f"crates/{crate}")
        for item in source.items:
            if item.kind == "fn":
                text = source.texts[item.path][item.begin : item.end]
                count = len(clauses.clauses_of(text))
                is_longer = item.name.split("::")[-1] in LONGER.get(crate, ())
                if count > MOST_CLAUSES and not is_longer and not re.search(r"\{\s*\}\s*$", text):
                    found.append(f"{crate}: {item.name}: {count} clauses")
    assert not found, "\n".join(found)


MOST_FUNCTIONS = 120
# the crate that has more
LARGER = {"fax_bits": 144}


def no_crate_has_too_many_functions():
    """A crate is one layer: its check takes time by its functions, and the crates above it wait. Tests and examples, which nothing waits
    for, may have more."""
    counts = {crate: sum(item.kind == "fn" for item in Source(f"crates/{crate}").items) for crate in set(os.listdir("crates")) - places.NOT_CALLED}
    found = {crate: count for crate, count in counts.items() if count > LARGER.get(crate, MOST_FUNCTIONS)}
    assert not found, found


CHECKS = [
    handles_are_none,
    seven_proofs_by_hand,
    nothing_is_cited_by_number,
    links_lead_somewhere,
    readme_names_the_kit,
    pages_are_short_and_say_for_whom,
    no_proof_has_a_hole,
    no_work_is_thrown_away,
    *places.CHECKS,
    each_lemma_is_cited,
    no_name_stands_twice,
    one_line_is_unsafe,
    rust_is_unsafe_in_few_files,
    only_what_users_call_is_passed_on,
    each_clause_has_an_edit,
    each_edit_can_be_applied,
    no_line_is_too_long,
    no_contract_is_too_long,
    no_crate_has_too_many_functions,
    each_name_of_a_module_is_there,
]
COMMANDS = {"--write": places.write}
