"""Checks of examples/clients, where the other libraries are installed: a program is linked with a client and without it, and gives the
same pictures of the same files.

libtiff's codec needs its header tiffiop.h, which is only in its source: LIBTIFF_SOURCE in the environment names that of the libtiff
that is installed."""
import itertools
import os
import shlex
import shutil
import subprocess
import tempfile

from c import c_library
from gate.skipped import leave_out
from pdf import pdf_of, stream_object

PICTURE = "corpus/pictures/page"
COLUMNS, ROWS = 1240, 1754
# Prints of each page of each file its number, whether the codecs are ours, and a sum of the bytes of its strips or tiles.
TIFF = r"""
#include <stdio.h>
#include <stdlib.h>
#include <string.h>
#include <tiffio.h>
#ifdef OURS
int register_fax_codecs(void);
#endif
int main(int count, char **words)
{
#ifdef OURS
    if (!register_fax_codecs())
        return 2;
#endif
    fprintf(stderr, "%s\n", TIFFFindCODEC(4)->name);
    for (int at = 1; at < count; at++) {
        TIFF *file = TIFFOpen(words[at], "r");
        int tiled = TIFFIsTiled(file);
        tmsize_t size = tiled ? TIFFTileSize(file) : TIFFStripSize(file);
        unsigned char *bytes = malloc(size);
        unsigned long long sum = 0;
        for (uint32_t part = 0; part < (tiled ? TIFFNumberOfTiles(file) : TIFFNumberOfStrips(file)); part++) {
            tmsize_t read = tiled ? TIFFReadEncodedTile(file, part, bytes, size) : TIFFReadEncodedStrip(file, part, bytes, size);
            for (tmsize_t byte = 0; byte < read; byte++)
                sum = sum * 31 + bytes[byte] + 1;
        }
        printf("%s %llu\n", words[at], sum);
        free(bytes);
        TIFFClose(file);
    }
    return 0;
}
"""
TIFF_FILES = ["g4", "g4 -r 100", "g4 -f lsb2msb", "g4 -t -w 128 -l 256", "g3:1d", "g3:2d", "g3:2d:fill -r 64", "g3:1d -t -w 64 -l 64 -f lsb2msb"]
# Prints of the first page of each file a digest of it as MuPDF draws it.
MUPDF = r"""
#include <mupdf/fitz.h>
#include <stdio.h>
int main(int count, char **words)
{
    fz_context *ctx = fz_new_context(NULL, NULL, FZ_STORE_DEFAULT);
    fz_register_document_handlers(ctx);
    for (int at = 1; at < count; at++) {
        fz_document *file = fz_open_document(ctx, words[at]);
        fz_pixmap *page = fz_new_pixmap_from_page_number(ctx, file, 0, fz_scale(2, 2), fz_device_gray(ctx), 0);
        unsigned char digest[16];
        fz_md5_pixmap(ctx, page, digest);
        printf("%s ", words[at]);
        for (int byte = 0; byte < 16; byte++)
            printf("%02x", digest[byte]);
        printf("\n");
        fz_drop_pixmap(ctx, page);
        fz_drop_document(ctx, file);
    }
    fz_drop_context(ctx);
    return 0;
}
"""
# Prints the pages of a JBIG2 file on standard input as PBM pictures.
JBIG2 = r"""
#include <stddef.h>
#include <stdint.h>
#include <stdio.h>
#include <jbig2.h>
int main(void)
{
    unsigned char bytes[65536];
    size_t read;
    Jbig2Ctx *ctx = jbig2_ctx_new(NULL, 0, NULL, NULL, NULL);
    while ((read = fread(bytes, 1, sizeof bytes, stdin)) > 0)
        if (jbig2_data_in(ctx, bytes, read) < 0)
            return 1;
    jbig2_complete_page(ctx);
    Jbig2Image *page = jbig2_page_out(ctx);
    if (!page)
        return 1;
    printf("P4\n%u %u\n", page->width, page->height);
    for (uint32_t row = 0; row < page->height; row++)
        fwrite(page->data + row * page->stride, 1, (page->width + 7) / 8, stdout);
    jbig2_release_page(ctx, page);
    jbig2_ctx_free(ctx);
    return 0;
}
"""


def run(words, **more):
    done = subprocess.run(words, capture_output=True, check=False, timeout=300, shell=isinstance(words, str), **more)
    assert done.returncode == 0, f"{words}\n{done.stdout[-500:]}{done.stderr[-2000:].decode(errors='replace')}"
    return done


def library(folder):
    """The static library, built there."""
    c_library.build()
    run(["make", "-s", "RT=true", f"BUILD={folder}/build", f"{folder}/build/libhayro_ccitt.a"])
    return f"{folder}/build/libhayro_ccitt.a"


def built(folder, text, client, ours, links):
    """The program without the client, and with it."""
    with open(f"{folder}/program.c", "w", encoding="utf-8") as file:
        file.write(text)
    flags = ["-std=gnu11", "-O2", "-Wall", "-Wextra", "-Werror", "-Ic"]
    run(["cc", *flags, "-o", f"{folder}/theirs", f"{folder}/program.c", *links])
    run(["cc", *flags, *ours, "-DOURS", "-o", f"{folder}/ours", f"{folder}/program.c", f"examples/clients/{client}.c", library(folder), *links])
    return f"{folder}/theirs", f"{folder}/ours"


def encoded(folder, *words):
    """The page as a strip of these settings, by the program in C."""
    if not os.path.exists(f"{folder}/pbm_to_strip"):
        run(["cc", "-O2", "-Ic", "-o", f"{folder}/pbm_to_strip", "examples/pbm_to_strip.c", library(folder)])
    with open(PICTURE, "rb") as file:
        return run([f"{folder}/pbm_to_strip", *words], input=b"P4\n%d %d\n" % (COLUMNS, ROWS) + file.read()).stdout


def has(header, *words):
    """Whether a header is there."""
    done = subprocess.run(["cc", "-E", *words, "-include", "stdio.h", "-include", header, "-x", "c", "/dev/null"], capture_output=True, check=False)
    return done.returncode == 0


def codec_of_libtiff():
    source = os.environ.get("LIBTIFF_SOURCE", "")
    missing = [tool for tool in ("ppm2tiff", "tiffcp") if not shutil.which(tool)]
    if missing or not os.path.exists(f"{source}/libtiff/tiffiop.h"):
        leave_out("the codec of libtiff", ", ".join(missing) or "libtiff's source", is_listed=bool(missing))
        return
    with tempfile.TemporaryDirectory() as folder:
        # What configuring libtiff writes: nothing in it that is for a codec.
        with open(f"{folder}/tif_config.h", "w", encoding="utf-8") as file:
            file.write("#define SIZEOF_SIZE_T 8\n")
        programs = built(folder, TIFF, "tiff_codec", [f"-I{folder}", f"-I{source}/libtiff"], ["-ltiff"])
        run(f"(printf 'P4\\n{COLUMNS} {ROWS}\\n'; cat {PICTURE}) > {folder}/page.pbm; ppm2tiff -c none {folder}/page.pbm {folder}/page.tif")
        names = []
        for number, words in enumerate(TIFF_FILES):
            names.append(f"{folder}/{number}.tif")
            run(["tiffcp", "-c", *words.split(), f"{folder}/page.tif", names[-1]])
        theirs, ours = [run([program, *names]) for program in programs]
        assert ours.stderr == b"proved fax\n" and theirs.stderr != ours.stderr, ours.stderr
        assert theirs.stdout == ours.stdout and len(ours.stdout.splitlines()) == len(names), (theirs.stdout, ours.stdout)
    print(f"  {len(names)} files")


def pdf_of_image(data, keys):
    """A PDF file with one image."""
    parms = " ".join(f"/{key} {str(value).lower()}" for key, value in keys.items())
    image = f"/Type /XObject /Subtype /Image /Width {COLUMNS} /Height {ROWS} /BitsPerComponent 1 /ColorSpace /DeviceGray"
    return pdf_of([
        b"<< /Type /Catalog /Pages 2 0 R >>",
        b"<< /Type /Pages /Kids [3 0 R] /Count 1 >>",
        b"<< /Type /Page /Parent 2 0 R /MediaBox [0 0 595 842] /Resources << /XObject << /Im0 4 0 R >> >> /Contents 5 0 R >>",
        stream_object(f"{image} /Filter /CCITTFaxDecode /DecodeParms << {parms} >>".encode(), data),
        stream_object(b"", b"q 595 0 0 842 0 0 cm /Im0 Do Q"),
    ])


def filter_of_mupdf():
    links = subprocess.run(["pkg-config", "--static", "--libs", "mupdf"], capture_output=True, text=True, check=False) if shutil.which("pkg-config") else None
    if not has("mupdf/fitz.h") or not links or links.returncode != 0:
        leave_out("the filter of MuPDF", "libmupdf-dev")
        return
    with tempfile.TemporaryDirectory() as folder:
        try:
            programs = built(folder, MUPDF, "mupdf_filter", [], [*shlex.split(links.stdout), "-lharfbuzz"])
        except AssertionError as error:
            if "cannot find -l" not in str(error):
                raise
            leave_out("the filter of MuPDF", "the libraries of libmupdf-dev", is_listed=False)
            return
        names, pictures = [], set()
        kinds = [("g4", "b", -1), ("g4", "-", -1), ("g4", "ba", -1), ("1d", "lb", 0), ("1d", "a", 0), ("1d", "-", 0), ("2d", "lb", 4), ("2d", "-", 4)]
        for (mode, flags, k), black_is_1 in itertools.product(kinds, [False, True]):
            keys = {"K": k, "Columns": COLUMNS, "Rows": ROWS, "BlackIs1": black_is_1, "EndOfBlock": "b" in flags, "EndOfLine": "l" in flags, "EncodedByteAlign": "a" in flags}
            names.append(f"{folder}/{len(names)}.pdf")
            with open(names[-1], "wb") as file:
                words = [mode, flags] + ["4"] * (mode == "2d")
                file.write(pdf_of_image(encoded(folder, *words), keys))
        theirs, ours = [run([program, *names]).stdout.splitlines() for program in programs]
        pictures = {line.split()[1] for line in ours}
        # A page, and its negative.
        assert theirs == ours and len(ours) == len(names) and len(pictures) == 2, (theirs, ours)
    print(f"  {len(names)} files")


def jbig2_of(data):
    """A JBIG2 file whose page is one generic region by MMR (T.88)."""

    def segment(number, kind, body):
        return number.to_bytes(4, "big") + bytes([kind, 0, 1]) + len(body).to_bytes(4, "big") + body

    size = COLUMNS.to_bytes(4, "big") + ROWS.to_bytes(4, "big")
    page = segment(0, 48, size + bytes(8) + b"\0" + b"\0\0")
    region = segment(1, 38, size + bytes(8) + b"\0" + b"\x01" + data)
    head = b"\x97JB2\r\n\x1a\n\x01" + (1).to_bytes(4, "big")
    return head + page + region + segment(2, 49, b"") + segment(3, 51, b"")


def mmr_of_jbig2dec():
    archives = ["/usr/lib/x86_64-linux-gnu/libjbig2dec.a", "/usr/local/lib/libjbig2dec.a"]
    archive = next((path for path in archives if os.path.exists(path)), None)
    if not archive or not has("jbig2.h", "-include", "stddef.h", "-include", "stdint.h"):
        leave_out("MMR of jbig2dec", "libjbig2dec0-dev")
        return
    with open(PICTURE, "rb") as file:
        page = b"P4\n%d %d\n" % (COLUMNS, ROWS) + file.read()
    with tempfile.TemporaryDirectory() as folder:
        programs = built(folder, JBIG2, "jbig2_mmr", [], [archive, "-lm"])
        for flags in ("b", "-"):
            file = jbig2_of(encoded(folder, "g4", flags))
            for program in programs:
                assert run([program], input=file).stdout == page, (program, flags)
        listed = run(["nm", programs[1]]).stdout
        assert b" jbig2_decode_mmr_line" not in listed, "jbig2dec's own MMR is linked too"
    print("  2 files")


CHECKS = [codec_of_libtiff, filter_of_mupdf, mmr_of_jbig2dec]
