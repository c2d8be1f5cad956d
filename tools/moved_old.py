"""Revisions in the spelling of older Rattles, so that tools/moved can hold today's files against them: names in snake case,
facts in camel case, and what is compared without the signs that only one of the spellings has."""

import re

NAME = re.compile(r"List·Memᴰ|(?<![\w·-])[a-z]\w*(?:-\w+)*")
FACT = re.compile(r"^ *(?:pub |abbrev |unfoldable )*(\w+) :[^\n]*→ Type 0$", re.M)
RESULT = re.compile(r"ensures \{ λ (\w+)\. ([^{}]*)\}")
PLACES = {"now": "entry", "old": "entry", "new": "exit"}
LIBRARY = {"getD": "get_or", "List·Memᴰ": "Memᴰ"}


def is_old(files):
    return any("Rattle·" in text for text in files.values())


def snake(name):
    name = re.sub(r"([a-z0-9])([A-Zℤℕ])", r"\1_\2", name)
    return re.sub(r"_([A-Z])(?=[a-z0-9_-]|$)", lambda found: "_" + found[1].lower(), name).replace("-", "_")


def respelled(files):
    """The texts with the names that today's spelling gives."""
    facts = {name for text in files.values() for name in FACT.findall(text)}

    def of_today(found):
        name = found[0]
        return LIBRARY.get(name) or (name[0].upper() + name[1:] if name in facts else snake(name))
    return {path: NAME.sub(of_today, text) for path, text in files.items()}


def in_common(text):
    """What both spellings have: words in their order, a field apart from what it is of, and no brackets round either."""
    text = RESULT.sub(lambda found: "ensures { " + re.sub(rf"\b{found[1]}\b", "result", found[2]) + "}", text)
    text = re.sub(r"\b(requires|ensures) \w+ \{", r"\1 {", text)
    text = re.sub(r"[«»]", "", re.sub(r"[()⌜⌝]", " ", text))
    text = re.sub(r"(?<=\w)-(?=\w)", "_", re.sub(r"(?<=\S)\.(?=\w)", " .", text))
    text = re.sub(r"(?<= \.)(?:now|old|new)\b", lambda found: PLACES[found[0]], " ".join(text.split()))
    return re.sub(r"(?<!\.)\bnow (\w+)\b(?: \.(entry|exit)\b)?", lambda found: f"{found[1]} .{found[2] or 'entry'}", text)


def tree_in_common(tree):
    """The parts with their texts in common."""
    def part(found):
        if isinstance(found, str):
            return in_common(found)
        return found._replace(text=in_common(found.text))

    kinds = ("definitions", "functions", "types", "laws", "proofs", "lemmas", "edits")
    return tree._replace(**{kind: {key: part(found) for key, found in getattr(tree, kind).items()} for kind in kinds})
