"""PDF files for checks."""


def pdf_of(objects):
    """A PDF file of objects with the numbers from 1 on, the first of which is its catalog."""
    text, places = b"%PDF-1.7\n", []
    for number, body in enumerate(objects, 1):
        places.append(len(text))
        text += b"%d 0 obj\n%s\nendobj\n" % (number, body)
    table = b"xref\n0 %d\n0000000000 65535 f \n" % (len(objects) + 1) + b"".join(b"%010d 00000 n \n" % place for place in places)
    return text + table + b"trailer\n<< /Root 1 0 R /Size %d >>\nstartxref\n%d\n%%%%EOF\n" % (len(objects) + 1, len(text))


def stream_object(head, data):
    """An object that is a stream."""
    return b"<< %s /Length %d >>\nstream\n%s\nendstream" % (head, len(data), data)


def pdf_of_images(images):
    """A PDF file with a page that paints images: of each the columns, the rows, the parameters of CCITTFaxDecode, and the strip. That with
    the index n is object n + 4."""
    names = " ".join(f"/I{index} {index + 4} 0 R" for index in range(len(images)))
    page = f"/MediaBox [0 0 100 100] /Contents {len(images) + 4} 0 R /Resources << /XObject << {names} >> >>"
    objects = [b"<< /Type /Catalog /Pages 2 0 R >>", b"<< /Type /Pages /Kids [3 0 R] /Count 1 >>", f"<< /Type /Page /Parent 2 0 R {page} >>".encode()]
    for columns, rows, parameters, strip in images:
        head = f"/Type /XObject /Subtype /Image /Width {columns} /Height {rows} /ColorSpace /DeviceGray /BitsPerComponent 1"
        objects.append(stream_object(f"{head} /Filter /CCITTFaxDecode /DecodeParms << {parameters} >>".encode(), strip))
    painted = "\n".join(f"q 9 0 0 9 0 0 cm /I{index} Do Q" for index in range(len(images)))
    return pdf_of([*objects, stream_object(b"", painted.encode())])
