"""Checks of the reader of PDF files, by the program `test_files`: files of known images, as they are written, written anew by qpdf in
other forms, updated, damaged, encrypted, and with too small an allowance."""
import base64
import random
import subprocess
import tempfile
import zlib

from gate.skipped import leave_out
from pdf import pdf_of, stream_object
from programs.directories import MANY, Numbers, said_of

HEAD = ("pages", "images", "others", "unread")
IMAGE = (
    *("page", "width", "height", "bits", "is_mask", "is_inverted", "is_zero_lighter", "encoding", "EndOfLine", "EncodedByteAlign"),
    *("Columns", "Rows", "EndOfBlock", "BlackIs1", "DamagedRowsBeforeError"),
)
DEFAULTS = {"encoding": 1, "EndOfLine": 0, "EncodedByteAlign": 0, "Columns": 1728, "Rows": 0, "EndOfBlock": 1, "BlackIs1": 0, "DamagedRowsBeforeError": 0}
# Forms in which qpdf writes a file anew.
FORMS = (["--object-streams=generate"], ["--object-streams=disable", "--qdf"], ["--linearize"], ["--object-streams=generate", "--compress-streams=n"])


def answers(files, allowance=MANY):
    """Of each file what it has, its images with their data, and the letter of the answer."""
    numbers, found = Numbers(said_of(((of, allowance) for of in files), "images")), []
    for _ in files:
        head, images = {}, []
        while (letter := numbers.take(1).decode()) in "FAB" or (letter in "besm" and images and "data" not in images[-1]):
            if letter == "F":
                head = {name: numbers.next() for name in HEAD}
            elif letter == "A":
                images.append({name: numbers.next() for name in IMAGE})
            else:
                images[-1]["data"] = numbers.take(numbers.next()) if letter == "B" else letter
        left = numbers.next()
        assert letter in "onxebsm" and left <= allowance and len(images) == head.get("images", 0), (letter, left, head)
        found.append((head, images, letter))
    assert numbers.at == len(numbers.data)
    return found


class Made:
    """A file that is made, object after object, and what is known of its images."""

    def __init__(self, chance):
        self.chance = chance
        self.objects = [b"<< /Type /Catalog /Pages 2 0 R >>", b""]
        self.expected = []

    def add(self, body):
        self.objects.append(body)
        return len(self.objects)

    def value(self, text):
        """A value, or a reference to one."""
        return b"%d 0 R" % self.add(text) if self.chance.random() < 0.2 else text

    def name(self, text):
        """A name, at times with a character as # and two digits."""
        if self.chance.random() < 0.2:
            place = self.chance.randrange(len(text))
            text = text[:place] + b"#%02x" % text[place] + text[place + 1 :]
        return b"/" + text

    def parameters(self):
        """A dictionary of parameters, and what it says."""
        said = {}
        choices = {"K": (-1, 0, 4), "EndOfLine": (0, 1), "EncodedByteAlign": (0, 1), "Columns": (8, 1000), "Rows": (0, 77), "EndOfBlock": (0, 1), "BlackIs1": (0, 1), "DamagedRowsBeforeError": (0, 3)}
        for key, values in choices.items():
            if self.chance.random() < 0.6:
                said[key] = self.chance.choice(values)
        flags = ("EndOfLine", "EncodedByteAlign", "EndOfBlock", "BlackIs1")
        words = [self.name(key.encode()) + b" " + self.value((b"false", b"true")[value] if key in flags else b"%d" % value) for key, value in said.items()]
        if "K" in said:
            said["encoding"] = {-1: 4, 0: 1, 4: 2}[said.pop("K")]
        return b"<< %s >>" % b" ".join(words), {**DEFAULTS, **said}

    def image(self):
        """A fax image: its number, and what is known of it."""
        chance = self.chance
        data = chance.randbytes(chance.choice((1, 30, 700)))
        encodings = [(b"FlateDecode", zlib.compress), (b"ASCIIHexDecode", lambda it: it.hex().encode() + b">"), (b"ASCII85Decode", lambda it: base64.a85encode(it) + b"~>")]
        chain = chance.sample(encodings, chance.choice((0, 0, 0, 1, 2)))
        parameters, said = self.parameters()
        stored = data
        for _, encode in reversed(chain):
            stored = encode(stored)
        names = [self.name(name) for name, _ in chain] + [self.name(b"CCITTFaxDecode")]
        if len(names) == 1 and chance.random() < 0.5:
            filters, all_parameters = names[0], parameters
        else:
            filters, all_parameters = b"[%s]" % b" ".join(names), b"[%s]" % b" ".join([b"null"] * len(chain) + [parameters])
        known = {"width": chance.randrange(1, 5000), "height": chance.randrange(1, 5000), "bits": 1, "is_mask": int(chance.random() < 0.3), "is_inverted": int(chance.random() < 0.3), "is_zero_lighter": 0, **said, "data": data}
        words = [b"/Type /XObject /Subtype /Image /Width %d /Height %d" % (known["width"], known["height"]), b"/Filter " + filters, b"/DecodeParms " + all_parameters]
        words.append(b"/ImageMask true" if known["is_mask"] else b"/ColorSpace /DeviceGray /BitsPerComponent 1")
        if known["is_inverted"]:
            words.append(b"/Decode " + self.value(b"[1 0]"))
        chance.shuffle(words)
        return self.add(stream_object(b" ".join(words), stored)), known

    def page(self, number):
        """A page that shows some images, some of them in a form, and names others."""
        shown, named, contents = [], [], self.chance.choice((b"", b"q Q\n"))
        resources = b""
        for index in range(self.chance.choice((0, 1, 1, 2))):
            image, known = self.image()
            resources += b"/I%d %d 0 R " % (index, image)
            if self.chance.random() < 0.8:
                if self.chance.random() < 0.3:
                    form = self.add(stream_object(b"/Type /XObject /Subtype /Form /BBox [0 0 1 1] /Resources << /XObject << /X %d 0 R >> >>" % image, b"q /X Do Q"))
                    resources += b"/F%d %d 0 R " % (index, form)
                    contents += b"/F%d Do\n" % index
                else:
                    contents += b"q 1 0 0 1 0 0 cm /I%d Do Q\n" % index
                shown.append(known)
            else:
                named.append(known)
        self.expected += [{"page": number, **known} for known in shown + named]
        data, head = (zlib.compress(contents), b"/Filter /FlateDecode") if self.chance.random() < 0.5 else (contents, b"")
        # qpdf says of empty contents that they are deflated
        head = head or b"/Filter /FlateDecode" * (not contents)
        stream = self.add(stream_object(head, data))
        return self.add(b"<< /Type /Page /Parent 2 0 R /MediaBox [0 0 9 9] /Resources << /XObject << %s>> >> /Contents %d 0 R >>" % (resources, stream))

    def file(self):
        pages = [self.page(number) for number in range(1, self.chance.choice((1, 2, 4)) + 1)]
        self.objects[1] = b"<< /Type /Pages /Kids [%s] /Count %d >>" % (b" ".join(b"%d 0 R" % it for it in pages), len(pages))
        return pdf_of(self.objects), len(pages), self.expected


def assert_images(answer, pages, expected, what):
    head, images, letter = answer
    assert (letter, head["pages"], head["unread"]) == ("o", pages, 0), (what, letter, head)
    assert images == expected, (what, [(a, b) for a, b in zip(images, expected) if a != b][:1], len(images), len(expected))


def images_of_made_files(count=300):
    """Each image is found once, in the order of the pages, with its parameters and the bytes before CCITTFaxDecode."""
    made = [Made(random.Random(seed)).file() for seed in range(count)]
    for number, (answer, (_, pages, expected)) in enumerate(zip(answers([data for data, _, _ in made]), made)):
        assert_images(answer, pages, expected, number)
    print(f"  {count} files, {sum(len(expected) for _, _, expected in made)} images")


def written_anew(count=40):
    """What qpdf makes of a file has the same images: object streams, linearized, with other filters on the streams."""
    with tempfile.TemporaryDirectory() as folder:
        for number in range(count):
            data, pages, expected = Made(random.Random(number)).file()
            form = FORMS[number % len(FORMS)]
            with open(f"{folder}/made.pdf", "wb") as file:
                file.write(data)
            try:
                done = subprocess.run(["qpdf", "--decode-level=none", *form, f"{folder}/made.pdf", f"{folder}/anew.pdf"], capture_output=True, check=False)
            except FileNotFoundError:
                leave_out("files that qpdf writes anew", "qpdf")
                return
            assert done.returncode == 0, done.stderr
            with open(f"{folder}/anew.pdf", "rb") as file:
                answer = answers([file.read()])[0]
            assert_images(answer, pages, expected, (number, form))
    print(f"  {count} files")


def updates_and_refusals():
    """Of two objects of one number the later one counts; an encrypted file is refused by name, and one that is no PDF file; a file that
    costs more than the allowance, cut or damaged ends without a crash, with a letter."""
    data, pages, expected = next(made for made in (Made(random.Random(seed)).file() for seed in range(100)) if len(made[2]) == 1 and not made[2][0]["is_mask"])
    number = next(it for it in range(1, 99) if b"\n%d 0 obj\n<<" % it in data and b"/Subtype /Image" in data.split(b"\n%d 0 obj\n" % it)[1].split(b"endobj")[0])
    later = b"%d 0 obj\n%s\nendobj\n" % (number, stream_object(b"/Subtype /Image /Width 5 /Height 6 /Filter /CCF /DecodeParms << /K -1 >>", b"abc"))
    changed = {**expected[0], **DEFAULTS, "encoding": 4, "width": 5, "height": 6, "is_mask": 0, "is_inverted": 0, "data": b"abc"}
    assert_images(answers([data + later])[0], pages, [changed], "updated")
    assert [letter for _, _, letter in answers([b"", b"%PDF-1.7\n", b"GIF89a"])] == ["n", "e", "n"]
    chance, letters = random.Random(7), set()
    for allowance in (0, 1, 10, 100, 1000):
        letters |= {letter for _, _, letter in answers([data], allowance)}
    damaged = []
    for _ in range(300):
        turned = bytearray(data)
        for _ in range(chance.choice((1, 5, 40))):
            turned[chance.randrange(len(turned))] = chance.randrange(256)
        damaged.append(bytes(turned[: chance.choice((len(turned), chance.randrange(len(turned))))]))
    letters |= {letter for _, _, letter in answers(damaged)}
    assert {"o", "s"} <= letters <= set("onesx"), letters


def encrypted_files():
    """An encrypted file is refused by name. What `qpdf --decrypt` makes of it has the images of the file that was encrypted."""
    data, pages, expected = Made(random.Random(3)).file()
    with tempfile.TemporaryDirectory() as folder:
        plain, closed, opened = (f"{folder}/{name}.pdf" for name in ("made", "closed", "opened"))
        with open(plain, "wb") as file:
            file.write(data)
        for bits, more in ((128, ["--use-aes=y"]), (256, [])):
            try:
                subprocess.run(["qpdf", "--encrypt", "", "owner", str(bits), *more, "--", plain, closed], check=True, capture_output=True)
            except FileNotFoundError:
                leave_out("encrypted files", "qpdf")
                return
            subprocess.run(["qpdf", "--decrypt", closed, opened], check=True, capture_output=True)
            with open(closed, "rb") as file, open(opened, "rb") as again:
                refused, read = answers([file.read(), again.read()])
            assert refused[2] == "x"
            assert_images(read, pages, expected, (bits, "decrypted"))


CHECKS = [images_of_made_files, written_anew, updates_and_refusals, encrypted_files]
