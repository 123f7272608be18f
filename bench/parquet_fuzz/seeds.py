"""Small Parquet files, written by the rules of the Parquet format alone, for the fuzz driver.

This writer shares nothing with the proved one: values in PLAIN or dictionary pages, OPTIONAL levels as one bit-packed
stretch, several pages and row groups, and a footer in the Thrift compact protocol.
"""

BOOLEAN, INT32, INT64, BYTE_ARRAY = 0, 1, 2, 6
I32, I64, BINARY, LIST, STRUCT = 5, 6, 8, 9, 12
UTF8, DATE = 0, 6


def varint(number):
    out = bytearray()
    while number >= 128:
        out.append(number % 128 + 128)
        number //= 128
    out.append(number)
    return bytes(out)


def zigzag(number):
    return varint(2 * number if number >= 0 else -2 * number - 1)


def struct(*fields):
    """Fields are (id, wire type, bytes of the value); one without bytes is left out."""
    out, last = b"", 0
    for field, wire, value in fields:
        if value is not None:
            out += bytes([16 * (field - last) + wire]) + value
            last = field
    return out + b"\0"


def listed(wire, items):
    head = bytes([16 * len(items) + wire]) if len(items) < 15 else bytes([240 + wire]) + varint(len(items))
    return head + b"".join(items)


def text(value):
    return varint(len(value)) + value


def little(number, size):
    return number.to_bytes(size, "little", signed=True)


def bits(values, width):
    number = sum(value << (place * width) for place, value in enumerate(values))
    return number.to_bytes((len(values) * width + 7) // 8, "little")


def stretch(values, width):
    groups = (len(values) + 7) // 8
    return varint(2 * groups + 1) + bits(values + [0] * (8 * groups - len(values)), width)


def plain(kind, values):
    if kind == BOOLEAN:
        return bits([int(value) for value in values], 1)
    if kind == BYTE_ARRAY:
        return b"".join(little(len(value), 4) + value for value in values)
    return b"".join(little(value, 4 if kind == INT32 else 8) for value in values)


def levels(optional, values):
    if not optional:
        return b""
    hybrid = stretch([int(value is not None) for value in values], 1)
    return little(len(hybrid), 4) + hybrid


def page(kind_of_page, count, encoding, body):
    if kind_of_page == 0:
        head = (5, STRUCT, struct((1, I32, zigzag(count)), (2, I32, zigzag(encoding)), (3, I32, zigzag(3)), (4, I32, zigzag(3))))
    else:
        head = (7, STRUCT, struct((1, I32, zigzag(count)), (2, I32, zigzag(encoding))))
    size = zigzag(len(body))
    return struct((1, I32, zigzag(kind_of_page)), (2, I32, size), (3, I32, size), head) + body


def chunk_pages(kind, optional, values, size, dictionary, encoding):
    """The pages of a chunk, and the length of its dictionary page, which is None where it has none."""
    first, out = None, b""
    distinct = sorted({value for value in values if value is not None})
    if dictionary:
        out = page(2, len(distinct), 0, plain(kind, distinct))
        first = len(out)
    width = max(1, (len(distinct) - 1).bit_length())
    for start in range(0, len(values), size):
        part = values[start:start + size]
        there = [value for value in part if value is not None]
        if dictionary:
            body = bytes([width]) + stretch([distinct.index(value) for value in there], width)
        else:
            body = plain(kind, there)
        out += page(0, len(part), encoding if dictionary else 0, levels(optional, part) + body)
    return first, out


def file(columns, groups, size=4096, dictionary=False, encoding=8):
    """Columns are (name, physical type, converted type or None, optional); a group has a list of values a column."""
    out, group_texts, rows = b"PAR1", [], 0
    for group in groups:
        chunks, count = [], len(group[0])
        for (name, kind, _, optional), values in zip(columns, group):
            at = len(out)
            first, pages = chunk_pages(kind, optional, values, size, dictionary and kind != BOOLEAN, encoding)
            out += pages
            length = zigzag(len(pages))
            meta = struct(
                (1, I32, zigzag(kind)), (2, LIST, listed(I32, [zigzag(0), zigzag(3)])), (3, LIST, listed(BINARY, [text(name)])),
                (4, I32, zigzag(0)), (5, I64, zigzag(count)), (6, I64, length), (7, I64, length),
                (9, I64, zigzag(at + (first or 0))), (11, I64, None if first is None else zigzag(at)))
            chunks.append(struct((2, I64, zigzag(0)), (3, STRUCT, meta)))
        group_texts.append(struct((1, LIST, listed(STRUCT, chunks)), (2, I64, zigzag(0)), (3, I64, zigzag(count))))
        rows += count
    elements = [struct((4, BINARY, text(b"schema")), (5, I32, zigzag(len(columns))))]
    for name, kind, converted, optional in columns:
        elements.append(struct((1, I32, zigzag(kind)), (3, I32, zigzag(int(optional))), (4, BINARY, text(name)),
                               (6, I32, None if converted is None else zigzag(converted))))
    footer = struct((1, I32, zigzag(1)), (2, LIST, listed(STRUCT, elements)), (3, I64, zigzag(rows)), (4, LIST, listed(STRUCT, group_texts)))
    return out + footer + little(len(footer), 4) + b"PAR1"


def seeds():
    """Each file with its number of rows."""
    k = (b"k", INT64, None, False)
    v = (b"v", INT64, None, True)
    word = (b"word", BYTE_ARRAY, UTF8, True)
    flag = (b"flag", BOOLEAN, None, True)
    day = (b"day", INT32, DATE, False)
    number = (b"number", INT32, None, True)
    numbers = list(range(40))
    words = [None if n % 5 == 0 else b"w" * (n % 7) + bytes([97 + n % 3]) for n in numbers]
    flags = [None if n % 4 == 0 else n % 3 == 0 for n in numbers]
    repeated = [n % 3 for n in numbers]
    return [
        (file([k], [[[1]]]), 1),
        (file([k], []), 0),
        (file([k, v], [[numbers, [None if n % 3 == 0 else -n for n in numbers]]], size=16), 40),
        (file([word, flag], [[words, flags], [words[:9], flags[:9]]], size=8), 49),
        (file([day, number], [[[n * 100 for n in numbers], [None] * 40]]), 40),
        (file([k, word], [[repeated, words]], size=12, dictionary=True), 40),
        (file([number, word], [[repeated, words], [[None] * 5, words[:5]]], size=12, dictionary=True, encoding=2), 45),
    ]
