"""Checks of data that is cut, or of which one bit is wrong: the results were worked out by an independent model."""
import tempfile
from pathlib import Path

import corpus
from c import c_library, c_library_calls

# for how many bits of each line's data the program itself decodes the flipped data
FLIPS_OF_PROGRAM = 64


def cut_at_each_byte():
    """Each known case, cut at every byte; some of them by the program too."""
    c_library.build()
    cases = cuts = runs = 0
    with tempfile.TemporaryDirectory() as folder:
        library = c_library_calls.Library(folder)
        known, digests = corpus.lines_of("cases.tsv"), corpus.lines_of("cuts.tsv")
        assert len(known) == len(digests)
        for (words, text, _), (count, expected) in zip(known, digests):
            if expected == "-":
                continue
            data, settings = corpus.bytes_of(text), c_library_calls.settings_of(words)
            answers = [library.answer(settings, data[:length]) for length in range(len(data) + 1)]
            assert (str(len(answers)), c_library_calls.digest(answers)) == (count, expected), f"{words} {text}"
            cases += 1
            cuts += len(answers)
            if cases % 50 == 0:
                assert [c_library_calls.run(words, data[:length]) for length in range(len(data) + 1)] == answers, f"{words} {text}"
                runs += len(answers)
    assert cases > 0 and cuts > cases and runs > 0
    print(f"  {cases} cases cut at each byte, {cuts} calls, {runs} of them by the program too")


def each_bit_flipped():
    """Strips of small pictures in each mode with each bit flipped."""
    c_library.build()
    strips = flips = runs = 0
    with tempfile.TemporaryDirectory() as folder:
        library = c_library_calls.Library(folder)
        for words, strip, count, expected in corpus.lines_of("flips.tsv"):
            settings = c_library_calls.settings_of(words)
            if "/" in strip:
                data = Path(f"corpus/{strip}").read_bytes()
            else:
                data = bytes.fromhex(strip)
            answers = [library.answer(settings, corpus.flipped(data, bit)) for bit in range(8 * len(data))]
            assert (str(len(answers)), c_library_calls.digest(answers)) == (count, expected), f"{words} {strip}"
            strips += 1
            flips += len(answers)
            if "/" not in strip:
                front = range(min(8 * len(data), FLIPS_OF_PROGRAM))
                assert [c_library_calls.run(words, corpus.flipped(data, bit)) for bit in front] == answers[: len(front)], f"{words} {strip}"
                runs += len(front)
    assert strips > 0 and flips > strips and runs > 0
    print(f"  {strips} strips with each bit flipped, {flips} calls, {runs} of them by the program too")


CHECKS = [cut_at_each_byte, each_bit_flipped]
