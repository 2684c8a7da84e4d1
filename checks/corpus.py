"""The tables of the corpus, and the data in them."""


def lines_of(name):
    """The lines of a table, split at tabs."""
    with open(f"corpus/{name}", encoding="utf-8") as file:
        return [line.rstrip("\n").split("\t") for line in file if not line.startswith("#")]


def bytes_of(text):
    """The bytes that a table writes: pieces in hexadecimal, each so many times, as 00*3+80; or none, as -."""
    data = b""
    for part in [] if text == "-" else text.split("+"):
        piece, _, times = part.partition("*")
        data += bytes.fromhex(piece) * int(times or 1)
    return data


def flipped(data, bit):
    return data[: bit // 8] + bytes([data[bit // 8] ^ 128 >> bit % 8]) + data[bit // 8 + 1 :]
