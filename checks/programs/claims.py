"""Checks what the pages say is proved: each row of README's table stands in docs/CLAIMS.tsv with clauses that exist, and links to a part
of a page that has its premises; each part of docs/PROVED.md names clauses or definitions that exist; and each premise in CLAIMS.tsv is
needed. The results for its data are those of corpus/cases.tsv, which a model worked out apart from this program."""
import glob
import re

from programs import program
from repository.repository import LINK, anchors

COLUMNS = ["row", "behind", "premise", "data", "within", "without"]


def read(path):
    with open(path, encoding="utf-8") as file:
        return file.read()


def claims():
    lines = [line.split("\t") for line in read("docs/CLAIMS.tsv").splitlines() if not line.startswith("#")]
    assert lines and all(len(line) == len(COLUMNS) for line in lines), [line for line in lines if len(line) != len(COLUMNS)]
    return [dict(zip(COLUMNS, line)) for line in lines]


def rows_of_readme():
    """README's rows of what is proved: what each is about, and what it says."""
    table = read("README.md").split("\n## What is proved\n")[1].split("\n| what | proved |\n|---|---|\n")[1].split("\n\n")[0]
    return dict(line.strip("| ").split(" | ", 1) for line in table.splitlines())


def linked(said):
    """The parts of pages that a row links to, each line end of them a space: what is below a heading, up to one of no lower level."""
    for page, anchor in LINK.findall(said):
        text = read(page)
        headings = list(re.finditer(r"^(#+) .*$", text, re.MULTILINE))
        first = anchors(page).index(anchor) if anchor else 0
        level = len(headings[first][1])
        end = next((it.start() for it in headings[first + 1 :] if len(it[1]) <= level), len(text))
        yield " ".join(text[headings[first].end() : end].split())


def sources(crate, part):
    return {path: read(path) for path in glob.glob(f"crates/{crate}/{part}", recursive=True)}


def contract_of(crate, function):
    """The contracts of functions of this name, of `TYPE::NAME` those in the type's file."""
    owner, _, name = function.rpartition("::")
    for text in sources(crate, "src/**/*.rt").values():
        for start in re.finditer(rf"\bpub (?:unsafe )?(?:extern \"C\" )?fn {name}\b", text):
            body = re.compile(r"^ *\{", re.MULTILINE).search(text, start.end())
            if body and (not owner or re.search(rf"^impl.*\b{owner}\b", text, re.MULTILINE)):
                yield text[start.end() : body.start()]


def stands(place):
    """Whether a clause, a field of a definition or a law is in the sources."""
    crate, _, rest = place.partition("::")
    what, _, label = rest.partition(".")
    if what.startswith("laws::"):
        return any("ensures" in contract for contract in contract_of(crate, what.removeprefix("laws::")))
    record = re.compile(rf"^pub record {what}\b(?:.*\n)+?(?=\n\S|\Z)", re.MULTILINE)
    texts = [text + "\n\n" for text in sources(crate, "specs/*.antt").values()]
    fields = "".join(found.group(0) for text in texts for found in record.finditer(text))
    return re.search(rf"^  pub {label} :", fields, re.MULTILINE) is not None or any(
        f"ensures {label} {{" in contract for contract in contract_of(crate, what)
    )


def rows_are_claims():
    """Each row of README's table has a line with clauses that exist, each line is about a row of it, and each premise stands in these
    words where the row links to."""
    rows, listed = rows_of_readme(), claims()
    claimed = {claim["row"] for claim in listed if claim["behind"] != "-"}
    assert rows and claimed == set(rows), set(rows) ^ claimed
    behind = [place for claim in listed if claim["behind"] != "-" for place in claim["behind"].split() if place != "kit"]
    missing = [place for place in behind if not stands(place)]
    assert behind and not missing, missing
    parts = {row: " ".join(linked(said)) for row, said in rows.items()}
    assert all(parts.values()), [row for row, part in parts.items() if not part]
    lost = [claim["premise"] for claim in listed if claim["premise"] != "-" and claim["premise"] not in parts[claim["row"]]]
    assert not lost, lost
    print(f"  {len(rows)} rows, {len(behind)} clauses")


# What crates define: functions, clauses, definitions and their fields, types and modules.
NAMED = re.compile(
    r"\bfn (\w+)|\b(?:ensures|requires) (\w+) \{|\b(?:struct|enum|trait|mod) (\w+)"
    r"|^ *(?:(?:pub|abbrev|unfoldable) )*(?:record |data )?(\w+)(?: [^:\n]*)? :\s",
    re.MULTILINE,
)


def proved_names_clauses():
    """Each bullet of PROVED on what is proved, and each paragraph that isn't about a crate or what follows it, names something in
    the crates; all that stands in parentheses after a title does."""
    texts = [*sources("*", "src/**/*.rt").values(), *sources("*", "specs/*.antt").values()]
    names = {name for text in texts for found in NAMED.findall(text) for name in found if name}
    page = read("docs/PROVED.md").split("\n## ", 1)[1]
    parts = [part for part in re.split(r"\n\n|\n(?=- )", page) if not part.startswith(("#", "```", "|")) and part.strip()]
    titled = 0
    for part in parts[1:]:
        if title := re.match(r"- \*\*[^*]*\*\* \(([^)]*)\)", part):
            unknown = [name for name in re.findall(r"`(\w+)`", title.group(1)) if name not in names]
            assert not unknown, (part[:80], unknown)
            titled += 1
    said = [part for part in parts[1:] if not part.startswith("**") and not part.endswith(":")]
    unnamed = [part for part in said if not names & set(re.findall(r"\w+", " ".join(re.findall(r"`([^`]*)`", part))))]
    assert titled and not unnamed, unnamed
    print(f"  {len(said)} parts, {titled} of them with a title and its clauses")


def rows_read(case, known):
    """The rows that the program writes, which are those of the corpus."""
    *words, data = case.split()
    done = program.run(words, bytes.fromhex(data))
    lines = done.stdout.decode().splitlines()
    assert "/".join(lines) == known[" ".join(words), data], (case, lines)
    return lines[:-1]


def premises_are_needed():
    lines = [line.split("\t") for line in read("corpus/cases.tsv").splitlines() if not line.startswith("#")]
    known = {(words, data): text for words, data, text in lines}
    needed = [claim for claim in claims() if claim["premise"] != "-"]
    for claim in needed:
        without = rows_read(claim["without"], known)
        if claim["data"] == "-":
            assert not known[tuple(claim["without"].rsplit(" ", 1))].rpartition("/")[2].startswith("ok "), claim
            continue
        data = rows_read(claim["data"], known)
        if claim["within"] != "-":
            assert rows_read(claim["within"], known)[-2:] == data[-2:] != without[-2:], claim
        elif claim["row"] == "damage in a line":
            assert len(data) != len(without), claim
        else:
            assert data[:2] != without[:2] if claim["row"] == "the rows before damage" else data != without, claim
    # A repaired row is counted as such alone, also where a run of it was cut.
    assert rows_read("2d 63 9 l 0447", known)[0] == "r 61"
    lines = program.run(["-d", "2d", "63", "9", "l"], bytes.fromhex("0447")).stdout.decode().splitlines()
    assert lines[0].startswith("damaged 0 ") and not any(line.startswith("cut ") for line in lines), lines
    print(f"  {len(needed)} sentences are false without a premise")


CHECKS = [rows_are_claims, proved_names_clauses, premises_are_needed]
