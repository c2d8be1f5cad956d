"""Words for a record and for why it is refused. The number of the refusal is given; nothing is decided here."""

from record_format import HEADER_BYTES, KIND_OF_TAG, LONGEST_VALUE
from record_format import is_too_long, is_whole, kind_of, stated_length

GENERAL_REASONS = {
    1: "the record is cut, or its length is above 32",
    2: "its tag is not listed",
    3: "its length is not that of its tag",
    4: "no year is entered yet",
    5: "the year is entered already",
    6: "a number is outside its range, or the date is not a date of the delivery year",
    7: "its area or its unit is not entered",
    8: "its unit is entered already",
    9: "its derating is the unit's capacity or more",
    10: "it is not later than the unit's last accepted hour",
    11: "money is left over and the area's obligations add up to 0",
}

# 29 days for February: whether it has them hangs on the year.
MOST_DAYS = {1: 31, 2: 29, 3: 31, 4: 30, 5: 31, 6: 30, 7: 31, 8: 31, 9: 30, 10: 31, 11: 30, 12: 31}


def name_of(record):
    kind = kind_of(record)
    return kind.name if kind else None


def numbers_of(record):
    """The numbers of a record that is of a kind, by the names of their fields."""
    kind = kind_of(record)
    return dict(zip((field.name for field in kind.fields), kind.decode(record)))


def describe(record):
    kind = kind_of(record)
    if kind is None:
        return f"tag 0x{record[0]:02x}"
    words = " ".join(f"{field.name} {text}" for field, text in zip(kind.fields, kind.texts(record)))
    first = kind.fields[0].name
    if first.endswith(kind.word):  # "unit 1", and not "unit unit 1"
        return words.removeprefix(first.removesuffix(kind.word))
    return f"{kind.word} {words}"


def reason(refusal, record):
    """Names the record's own numbers where they show why, and else gives the general reason of the refusal."""
    own = OWN_REASONS[refusal](record) if refusal in OWN_REASONS else None
    return own or GENERAL_REASONS.get(refusal, "a number that docs/RECORDS.md does not list")


# Each gives None, or an empty text, where the record's own bytes do not show the reason.

def why_broken(record):
    if len(record) < HEADER_BYTES:
        return f"the file ends after {len(record)} of the {HEADER_BYTES} bytes of tag and length"
    if is_too_long(record):
        return f"its length is {stated_length(record)}, and the longest is {LONGEST_VALUE}"
    if not is_whole(record):
        return f"the file ends after {len(record) - HEADER_BYTES} of the {stated_length(record)} bytes of its value"
    return None


def why_tag(record):
    return None if record[0] in KIND_OF_TAG else f"tag 0x{record[0]:02x} is not listed"


def why_length(record):
    kind = KIND_OF_TAG.get(record[0])
    if kind and is_whole(record) and stated_length(record) != kind.length:
        return f"its length is {stated_length(record)}, and that of {kind.name} is {kind.length}"
    return None


def outside_own_range(record):
    kind = kind_of(record)
    for field, number in zip(kind.fields, kind.decode(record)):
        if field.low is not None and not field.low <= number <= field.high:
            yield f"{field.name} is {number}, and its range is {field.low} to {field.high}"


def wrong_in_date(month, day):
    if not 1 <= day <= MOST_DAYS.get(month, 0):
        yield f"month {month} day {day} is not a date"


def wrong_in_hour(kind, derating):
    if kind == 1 and derating == 0:
        yield "derating is 0, and for kind 1 it is at least 1"
    if kind in (0, 2, 3, 4, 5) and derating != 0:
        yield f"derating is {derating}, and for kind {kind} it is 0"


def wrong_in_commitment(first, last):
    if first > last:
        yield f"first day {first} is after last day {last}"
    if last > 365:
        yield f"last day {last} is not a day of the delivery year"


def wrong_in_owner(party):
    if party == 0:
        yield "an owner cannot be withdrawn, only replaced"


def left_to_the_year(month=None, day=None, last=None):
    """Days that only some years have: the reason if nothing else in the record is wrong."""
    if (month, day) == (2, 29):
        yield "month 2 day 29 is not a date of the delivery year"
    if last == 365:
        yield "last day 365 is not a day of the delivery year"


def why_value(record):
    name = name_of(record)
    if name is None:
        return None
    numbers = numbers_of(record)
    wrong = list(outside_own_range(record))
    if name in ("Hour", "Day"):
        date = numbers["month"], numbers["day"]
        wrong += wrong_in_date(*date)
        if name == "Hour":
            wrong += wrong_in_hour(numbers["kind"], numbers["derating"])
        wrong = wrong or left_to_the_year(*date)
    if name == "Commitment":
        wrong += wrong_in_commitment(numbers["first day"], numbers["last day"])
        wrong = wrong or left_to_the_year(last=numbers["last day"])
    if name == "Owner":
        wrong += wrong_in_owner(numbers["party"])
    return "; ".join(wrong)


def why_not_entered(record):
    if name_of(record) in ("Unit", "Load", "Post"):
        return f"area {numbers_of(record)['area']} is not entered"
    if name_of(record) in ("Commitment", "Hour", "Owner", "Day"):
        return f"unit {numbers_of(record)['unit']} is not entered"
    return None


def for_kinds(**words):
    """Reasons of these kinds of record only, with their numbers filled in."""
    return lambda record: words[name_of(record)].format_map(numbers_of(record)) if name_of(record) in words else None


OWN_REASONS = {
    1: why_broken,
    2: why_tag,
    3: why_length,
    6: why_value,
    7: why_not_entered,
    8: for_kinds(Unit="unit {unit} is entered already"),
    9: for_kinds(Hour="derating {derating} is the capacity of unit {unit} or more"),
    10: for_kinds(Hour="month {month} day {day} hour ending {hour ending} is not later than the last accepted hour of"
                       " unit {unit}",
                  Day="hour ending 1, the first of its 24 hours that is refused, is not later than the last accepted hour of"
                      " unit {unit}; none of the 24 is taken: if that last hour is on this date, send the hours after it as Hours"),
    11: for_kinds(Post="money is left over and the obligations of area {area} add up to 0"),
}
