"""The record format, once, for the tools. tests/host/format holds it to crates/records/specs/Format.antt."""

import collections
import itertools

import hour_marks

HEADER_BYTES = 3
LONGEST_VALUE = 32

# low and high are the ends of the range, where it hangs on nothing but the field; otherwise None.
# A field with a default may be left out of a text line. The number of one with marks is the marks of a day.
Field = collections.namedtuple("Field", "name width low high default marks", defaults=(None, None, None, False))


class Kind:
    """One kind of record: its name, its tag and its fields in the order of their bytes."""

    def __init__(self, name, tag, *fields):
        self.name, self.tag, self.fields = name, tag, fields
        self.word = name.lower()
        ends = list(itertools.accumulate((field.width for field in fields), initial=HEADER_BYTES))
        self.places = [slice(*place) for place in itertools.pairwise(ends)]
        self.length = ends[-1] - HEADER_BYTES
        self.header = bytes([tag]) + self.length.to_bytes(2, "big")

    def encode(self, numbers):
        values = (number.to_bytes(field.width, "big") for field, number in zip(self.fields, numbers, strict=True))
        return self.header + b"".join(values)

    def decode(self, record):
        return [int.from_bytes(record[place], "big") for place in self.places]

    def texts(self, record):
        """The numbers of a record as they stand in a text line."""
        return [hour_marks.text_of(number) if field.marks else str(number)
                for field, number in zip(self.fields, self.decode(record))]


KINDS = (
    Kind("Year", 0x01,
         Field("delivery year", 2, 2007, 2099)),
    Kind("Area", 0x02,
         Field("area", 1, 1, 8),
         Field("price", 4, 0, 50_000)),
    Kind("Unit", 0x03,
         Field("unit", 1, 1, 32),
         Field("area", 1, 1, 8),
         Field("I", 4, 1, 5_000_000),
         Field("e", 4, 0, 99_999),
         Field("f", 4, 0, 99_999),
         Field("g", 4, 0, 99_999),
         Field("class", 1, 0, 2)),
    Kind("Commitment", 0x04,
         Field("number", 1, 1, 64),
         Field("unit", 1, 1, 32),
         Field("party", 1, 1, 16),
         Field("first day", 2),
         Field("last day", 2),
         Field("watts", 4, 0, 5_000_000)),
    Kind("Hour", 0x05,
         Field("unit", 1, 1, 32),
         Field("month", 1),
         Field("day", 1),
         Field("hour ending", 1, 1, 24),
         Field("kind", 1, 0, 5),
         Field("derating", 4, default=0)),
    Kind("Load", 0x06,
         Field("area", 1, 1, 8),
         Field("party", 1, 1, 16),
         Field("obligation", 4, 0, 100_000_000)),
    Kind("Post", 0x07,
         Field("area", 1, 1, 8)),
    Kind("Owner", 0x08,
         Field("unit", 1, 1, 32),
         Field("party", 1, 1, 16)),
    Kind("Day", 0x09,
         Field("unit", 1, 1, 32),
         Field("month", 1),
         Field("day", 1),
         Field("marks", 3, marks=True)),
)
KIND_OF_WORD = {kind.word: kind for kind in KINDS}
KIND_OF_TAG = {kind.tag: kind for kind in KINDS}
KIND_OF_HEADER = {kind.header: kind for kind in KINDS}


def stated_length(record):
    return int.from_bytes(record[1:HEADER_BYTES], "big")


def is_too_long(record):
    return len(record) >= HEADER_BYTES and stated_length(record) > LONGEST_VALUE


def is_whole(record):
    """Whether reading goes on after these bytes: the record is not cut, and its length not above the longest."""
    return len(record) == HEADER_BYTES + stated_length(record) and not is_too_long(record)


def kind_of(record):
    """The kind that tag, length and bytes are of; None where they are of none."""
    kind = KIND_OF_HEADER.get(record[:HEADER_BYTES])
    return kind if kind and len(record) == HEADER_BYTES + kind.length else None


def split_records(stream):
    """Gives (offset, bytes) of each record. One that is not whole is the last, and what follows it is not read."""
    offset = 0
    while record := stream.read(HEADER_BYTES):
        if len(record) == HEADER_BYTES and not is_too_long(record):
            record += stream.read(stated_length(record))
        yield offset, record
        if not is_whole(record):
            return
        offset += len(record)
