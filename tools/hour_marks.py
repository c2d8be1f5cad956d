"""The marks of a day as text: the hours ending that are marked, as in 8-20,23; all, or none."""

import re

HOURS = 24
TAKEN = "hours ending from 1 to 24, each once and in order, as in 8-20,23, or all or none"

MARKS_OF_WORD = {"none": 0, "all": (1 << HOURS) - 1}
WORD_OF_MARKS = {marks: word for word, marks in MARKS_OF_WORD.items()}
SPAN = "[0-9]{1,2}(?:-[0-9]{1,2})?"
LIST = re.compile(f"{SPAN}(?:,{SPAN})*")


def marks_of(text):
    """Bit h - 1 is the hour ending h. None where the text is not of this form.

    A number is an hour and never the marks themselves: 8 marks the hour ending 8.
    """
    if text in MARKS_OF_WORD:
        return MARKS_OF_WORD[text]
    hours = [int(hour) for hour in re.split("[,-]", text)] if LIST.fullmatch(text) else []
    if not hours or hours != sorted(set(hours)) or hours[0] < 1 or hours[-1] > HOURS:
        return None
    spans = [[int(hour) for hour in span.split("-")] for span in text.split(",")]
    return sum((1 << span[-1]) - (1 << span[0] - 1) for span in spans)


def text_of(marks):
    """The one text that is shown for these marks; marks_of takes it back."""
    spans = [(run.start() + 1, run.end()) for run in re.finditer("1+", f"{marks:b}"[::-1])]
    listed = ",".join(str(first) if first == last else f"{first}-{last}" for first, last in spans)
    return WORD_OF_MARKS.get(marks, listed)
