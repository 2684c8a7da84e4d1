"""The C library in this process, its results as the program prints them."""
import ctypes
import hashlib

from c import c_library
from programs import program

COUNTED_HEAP = "checks/c/counted_heap.c"
TEXTS = {status: text for text, status in c_library.ANSWERS.items()}
# the most numbers that the rows of a case need
ROOM = 1 << 20


class Library:
    """The library with an allocator that counts, and may refuse."""

    def __init__(self, folder):
        self.calls = c_library.loaded(folder, COUNTED_HEAP)
        for name in ("requests_seen", "bytes_asked", "largest_asked", "blocks_held"):
            getattr(self.calls, name).restype = ctypes.c_uint64
        self.lists = (ctypes.c_uint32 * ROOM)()

    def refuse(self, number):
        self.calls.refuse_request(ctypes.c_uint64(number))

    def answer(self, settings, data):
        """The result of `hayro_ccitt_decode_changes` as the program's text."""
        outcome = c_library.Outcome()
        status = self.calls.hayro_ccitt_decode_changes(
            ctypes.c_char_p(data), ctypes.c_size_t(len(data)), ctypes.byref(settings), self.lists, ctypes.c_size_t(ROOM), ctypes.byref(outcome)
        )
        numbers = self.lists[: outcome.rows + outcome.changes]
        lines, place = [], 0
        for _ in range(outcome.rows):
            count = numbers[place]
            lines.append(" ".join(["r", *map(str, numbers[place + 1 : place + 1 + count])]))
            place += 1 + count
        assert place == len(numbers), "other changes than told"
        lines.append(TEXTS[status] if status else f"ok {outcome.bytes_read}")
        assert self.calls.blocks_held() == 0, "memory is held"
        return "/".join(lines)


def settings_of(words):
    return c_library.settings_of(*words.split())


def digest(answers):
    return hashlib.sha256("\n".join(answers).encode()).hexdigest()[:16]


def text_of(done):
    """The program's result, as a line of the corpus; fails if the status doesn't match it."""
    text = done.stdout.decode()
    assert text.endswith("\n") and done.stderr == b"", done
    text = text[:-1].replace("\n", "/")
    assert done.returncode == (0 if text.split("/")[-1].startswith("ok ") else 1), done
    return text


def run(words, data):
    return text_of(program.run(words.split(), data))
