"""Checks of data: each case of `corpus/conforms.tsv`, in both orders of bits."""
import re

import pytest
from conftest import ROOT, damaged, keys_of, lines_of, strips

import hayro_ccitt
from hayro_ccitt import Rule, Violation

CASES = [(words, bytes.fromhex(digits.replace("-", "")), int(k), found) for words, digits, k, *found in lines_of("conforms.tsv")]
MIRRORED = bytes(int(f"{byte:08b}"[::-1], 2) for byte in range(256))


def arguments_of(words):
    keys = keys_of(words)
    del keys["strict"]
    return keys


def test_each_case_has_its_violation_in_each_grade():
    for words, data, k, found in CASES:
        keys = arguments_of(words)
        for turned, low_first in ((data, keys["low_first"]), (data.translate(MIRRORED), not keys["low_first"])):
            for grade, expected in zip(("readable", "procedure"), found):
                violation = hayro_ccitt.check(turned, **{**keys, "low_first": low_first}, grade=grade, k_limit=k)
                place, _, name = expected.partition(" ")
                assert violation == (None if expected == "ok" else Violation(int(place), Rule[name])), (words, data.hex(), grade, violation)


def test_the_grade_is_readable_unless_it_is_said():
    words, data = "g4 8 1 -", bytes.fromhex("330DC0")
    assert hayro_ccitt.check(data, **arguments_of(words)) is None
    assert hayro_ccitt.check(memoryview(data), **arguments_of(words), grade="procedure") is not None


def test_rules_are_those_of_the_header():
    header = (ROOT / "c/hayro_ccitt.h").read_text(encoding="utf-8")
    numbers = {name: int(number) for name, number in re.findall(r"\bHAYRO_CCITT_RULE_(\w+) = (\d+)", header)}
    assert {rule.name: number for number, rule in enumerate(Rule, 1)} == numbers
    table = re.search(r"#define HAYRO_CCITT_RULE_TEXTS(.*?)\n    }\n", header, re.DOTALL)[1]
    assert [str(rule) for rule in Rule] == re.findall(r'"([^"]*)"', table)[1:]
    assert len(set(Rule)) == len(numbers)


def test_a_violation_says_where_and_which_rule():
    violation = hayro_ccitt.check(bytes.fromhex("2000"), 8, 1, k=-1, end_of_block=False)
    assert violation == (3, Rule.RUN) and violation.section == Rule.RUN.section == "T.4, 4.1.1"
    assert str(violation) == "bit 3: a run is expected (T.4, 4.1.1)"
    assert str(hayro_ccitt.check(b"", 0)) == "bit 0: no columns"


def test_what_is_encoded_follows_the_procedure():
    for keys in ({"k": -1}, {"k": 0, "end_of_line": True}, {"k": 4, "end_of_line": True}):
        data = hayro_ccitt.encode(b"\x18\x24\x42\x81\x00", 8, **keys)
        assert hayro_ccitt.check(data, 8, **keys, grade="procedure", k_limit=max(keys["k"], 0)) is None
    assert hayro_ccitt.check(data, 8, k=4, end_of_line=True, grade="procedure", k_limit=2) is not None


def test_what_conforms_is_decoded_as_its_rows():
    """Real strips, whole and damaged: what conforms by the procedure is readable, and what is readable has no damage."""
    seen = set()
    for words, data, _ in strips():
        if len(data) > 2000 or "s" in words.split()[3]:
            continue
        for part in damaged(data):
            keys = arguments_of(words)
            readable, prescribed = (hayro_ccitt.check(part, **keys, grade=grade) is None for grade in ("readable", "procedure"))
            assert readable or not prescribed, (words, part.hex())
            if readable:
                assert not hayro_ccitt.decode(part, **keys).damage, (words, part.hex())
            seen.add((readable, prescribed))
    assert seen == {(True, True), (True, False), (False, False)}, seen


def test_arguments_that_are_no_settings_are_errors():
    for keys in ({"grade": "strict"}, {"grade": 1}, {"k_limit": -1}, {"k_limit": 1 << 32}, {"columns": 1 << 32}, {"rows": -1}):
        with pytest.raises(ValueError):
            hayro_ccitt.check(b"", **keys)
    for keys in ({"k_limit": 1.0}, {"columns": "8"}):
        with pytest.raises(TypeError):
            hayro_ccitt.check(b"", **keys)
    with pytest.raises(TypeError):
        hayro_ccitt.check("80", 8)
