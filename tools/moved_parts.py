"""The parts of the crates by name, as tools/moved compares them: texts without comments, layout, imports and names of
crates in paths."""

import collections
import os
import re

# A part is known by its place, which ends in what stands there before a name, and its name.
Key = collections.namedtuple("Key", "place name")
Definition = collections.namedtuple("Definition", "name text fields")
Item = collections.namedtuple("Item", "key is_function is_public text body")
Tree = collections.namedtuple("Tree", "definitions functions types laws proofs lemmas edits lines")
Times = collections.namedtuple("Times", "checks proved edits gate failed")

STRING = r'"(?:\\.|[^"\\])*"'


def blanked(text):
    return re.sub(r"[^\n]", " ", text)


# Definitions and proofs (.antt)

ANTT_COMMENT = re.compile(rf"({STRING})|\{{-.*?-\}}|(?<![^\s(){{}};,.])--[^\n]*", re.S)
ANTT_WORD = re.compile(rf"{STRING}|[(){{}};,]|[^\s(){{}};,]+")
# Rattle.low.specs.Sums; in older revisions Rattle·low.specs.Sums, or Rattle·low·specs.specs.Sums
CRATE_OF_PATH = re.compile(r"Rattle(?:\.\w+|·\w+(?:·(?:specs|proofs))?)\.")
ALIAS = re.compile(r"^ *(?:pub )?use \S*?([^\s.]+) as (\S+)$", re.M)

NAME = r"[^\s(){};,=]+"
SIGNATURE = re.compile(rf"({NAME}(?: {NAME})*?) :(?=\s|$)")
IMPORT = re.compile(r"(?:pub )?(?:use|mod|open|infix[lr]?|ruleset|syntax)(?=\s|$)")
ENCLOSING = re.compile(r"(?:pub )?(?:module (\S+)|mutual)(?=\s|$)")
NAMED = re.compile(r"(?:(?:pub|abbrev|unfoldable|opaque) )*((?:record|data)(?=\s)|axiom(?=\s))?\s*")


def antt_words(text):
    """The words in one line. The last `;` before a brace is layout."""
    return " ".join(ANTT_WORD.findall(CRATE_OF_PATH.sub("", text))).replace(" ; }", " }")


def antt_lines(text, crates):
    """The lines without comments. A module that is cited by a crate's name is cited by its own."""
    text = ANTT_COMMENT.sub(lambda found: found[1] or blanked(found[0]), text)
    for module, alias in ALIAS.findall(text):
        if alias in crates:
            text = re.sub(rf"(?<![^\s(){{}};,]){re.escape(alias)}\.(?=\S)", f"{module}.", text)
    return [line.rstrip() for line in text.split("\n") if line.strip()]


def indent(line):
    return len(line) - len(line.lstrip())


def starts(line):
    line = line.lstrip()
    prefix = NAMED.match(line)
    return bool(prefix[0] or IMPORT.match(line) or ENCLOSING.match(line) or SIGNATURE.match(line))


def groups(lines):
    """The lines of each declaration: its first, at the indentation of them all, its clauses and what is indented."""
    found = []
    for line in lines:
        if not found or indent(line) == indent(lines[0]) and starts(line):
            found.append([])
        found[-1].append(line)
    return found


def split_where(lines):
    """The lines up to the one that ends in `where`, and the rest."""
    end = next((at for at, line in enumerate(lines, 1) if line.split()[-1] in ("where", "mutual")), len(lines))
    return lines[:end], lines[end:]


def declared(lines, around="", within=""):
    """What the lines define. The parameters of an enclosing module (`around`) are part of every text in it."""
    for group in groups(lines):
        first = group[0].lstrip()
        if IMPORT.match(first):
            continue
        if enclosing := ENCLOSING.match(first):
            header, body = split_where(group)
            name = enclosing[1] or "_"
            parameters = antt_words(" ".join(header)).partition(f"module {name}")[2].removesuffix("where")
            yield from declared(body, around + parameters, within if name == "_" else f"{within}{name}.")
            continue
        prefix = NAMED.match(first)
        text = antt_words("\n".join([first[prefix.end():], *group[1:]]))
        if prefix[1] in ("record", "data"):
            name = text.split()[0]
            yield Definition(within + name, f"{around} {prefix[1]} {text}", tuple(fields(group, name, around)))
        elif signature := SIGNATURE.match(first, prefix.end()):
            for name in signature[1].split():
                yield Definition(within + name, f"{around} {prefix[1] or ''} {text}", ())


def fields(group, name, around):
    """The fields of a record, with its parameters in the text of each."""
    header, body = split_where(group)
    parameters = antt_words(" ".join(header)).partition(f" {name} ")[2]
    for field in declared(body, f"{around} {parameters}"):
        yield field.name, field.text


def definitions(text, crates):
    return list(declared(antt_lines(text, crates)))


# Code (.rt)

RT_HIDDEN = re.compile(rf"(//[^\n]*|/\*.*?\*/)|b?{STRING}|b?'(?:\\.|[^\\'])'", re.S)
RT_WORD = re.compile(rf"b?{STRING}|\w+|[^\w\s]")
ITEM = re.compile(r"""(?P<pub>\bpub(?:\s*\([^)]*\))?\s+)?(?:(?:const\s+|unsafe\s+|extern\s+"[^"]*"\s+)*\bfn\s+(?P<fn>\w+)"""
                  r"""|\b(?:struct|enum|const)\s+(?P<type>\w+))|\bimpl\b(?P<impl>[^{;]*)\{|\b(?:mod|trait)\s+(?P<mod>\w+)[^{;]*\{""")
SIGNATURE_PART = re.compile(r"[(\[]|[)\]]|[{;]|\b(?:requires|ensures|ghost)\b")


def rt_words(text, crates):
    """The words in one line. A comma before a closing bracket is layout."""
    text = re.sub(rf"(?:\b(?:{'|'.join(['crate', 'self', 'super', *sorted(crates)])})\s*::\s*)+", "", text)
    return re.sub(r", (?=[)\]}])", "", " ".join(RT_WORD.findall(text)))


def signature_words(text, crates):
    """Without `pub`, and without the `mut` of a parameter, which is its body's alone."""
    return re.sub(r"(?<=[(,] )mut ", "", rt_words(re.sub(r"^pub(?:\s*\([^)]*\))?\s+", "", text), crates))


def closing(text, at):
    """The place after the brace that closes the first one from `at` on."""
    depth = 0
    for brace in re.compile(r"[{}]").finditer(text, at):
        depth += 1 if brace[0] == "{" else -1
        if depth == 0:
            return brace.end()
    return len(text)


def signature_end(text, at):
    depth = 0
    for part in SIGNATURE_PART.finditer(text, at):
        if part[0] in ("(", "[", ")", "]"):
            depth += 1 if part[0] in ("(", "[") else -1
        elif depth == 0:
            return part.start()
    return len(text)


def type_of(header):
    """The type that an `impl` is of, without its parameters."""
    while header != (header := re.sub(r"<[^<>]*>", " ", header)):
        pass
    return (header.partition(" where ")[0].split() or ["_"])[-1].rpartition("::")[2]


def items(text, place, is_seen, crates):
    """The functions, types and constants of a file; `place` is its module, which other crates see or not."""
    code = RT_HIDDEN.sub(lambda found: blanked(found[0]) if found[1] else found[0], text)
    shape = RT_HIDDEN.sub(lambda found: found[0][0] + blanked(found[0][1:-1]) + found[0][-1], code)

    def clauses_end(at):
        while shape[at:at + 1] not in ("{", ";", ""):
            at = closing(shape, at)
            at += indent(shape[at:])
        return at

    def block_end(at):
        return closing(shape, at) if shape[at:at + 1] == "{" else at + 1

    def inside(at, end, place):
        while item := ITEM.search(shape, at, end):
            is_public = is_seen and (item["pub"] or "").strip() == "pub"
            signature = signature_end(shape, item.end())
            if item["fn"]:
                clauses = clauses_end(signature)
                at = block_end(clauses)
                contract = f"{signature_words(code[item.start():signature], crates)} {antt_words(code[signature:clauses])}"
                yield Item(Key(place, item["fn"]), True, is_public, contract, rt_words(code[clauses:at], crates))
            elif item["type"]:
                at = block_end(signature)
                yield Item(Key(place, item["type"]), False, is_public, signature_words(code[item.start():at], crates), "")
            else:
                at = closing(shape, item.end() - 1)
                yield from inside(item.end(), at, f"{place}{item['mod'] or type_of(item['impl'])}::")

    return list(inside(0, len(shape), place))


def public_files(texts):
    """The files of src/ whose modules other crates see: from lib down."""
    found, ahead = set(), ["lib"]
    while ahead:
        file = ahead.pop()
        if file in texts:
            found.add(file)
            below = "" if file == "lib" else f"{file}/"
            ahead += [below + module for module in re.findall(r"^pub mod (\w+);", texts[file], re.M)]
    return found


STATEMENT_IMPORT = re.compile(r"\bRattle[.·](\w+?)(?:·specs)?\.specs\.([\w./-]+)\.\{([^}]*)\}")


def imported_statements(text):
    """The definitions that the names are imported from."""
    return {name.strip(): Key(f"{crate}/{file.replace('.', '/')}.", name.strip())
            for crate, file, names in STATEMENT_IMPORT.findall(text) for name in names.split(",")}


# The crates

PATH = re.compile(r"crates/([^/]+)/(?:(specs|proofs)/(.+)\.antt|(src)/(.+)\.rt|(must-fail)/(.+)\.edit)")


def crates_of(files):
    return {found[1] for found in map(PATH.fullmatch, files) if found}


def module_of(crate, file):
    """The place of what a file of src/, or a folder of proofs/, is about."""
    return "::".join([crate, *(part for part in file.split("/") if part not in ("", "lib", "main"))]) + "::"


def add_definitions(tree, crate, texts, crates):
    for file, text in texts.items():
        tree.definitions.update((Key(f"{crate}/{file}.", found.name), found) for found in definitions(text, crates))


def add_code(tree, crate, texts, crates):
    seen = public_files(texts)
    for file, text in texts.items():
        for item in items(text, module_of(crate, file), file in seen, crates):
            (tree.functions if item.is_function else tree.types)[item.key] = item


# a function's proof: what it has of these
PROOF_FILES = ("Invariants", "Answers", "Proof")


def add_proofs(tree, crate, texts, crates):
    for file, text in sorted(texts.items()):
        found = definitions(text, crates)
        if "/" in file and os.path.basename(file) in PROOF_FILES:
            place, _, name = module_of(crate, os.path.dirname(file)).removesuffix("::").rpartition("::")
            key = Key(f"{place}::", name)
            tree.proofs[key] = "\n".join([tree.proofs.get(key, ""), *(definition.text for definition in found)])
        else:
            tree.lemmas.update((Key(f"{crate}/{file}.", definition.name), definition) for definition in found)


def add_edits(tree, crate, texts, _):
    """What an edit puts in place of what, in whichever file; its comment does not count."""
    for file, text in texts.items():
        tree.edits[Key(f"{crate}/", file)] = "\n".join(re.findall("^(?:old|new):.*", text, re.M))


def add_laws(tree, crate, texts):
    """The contracts of the functions of laws, and the statements that they name, by field where they have fields."""
    for file, text in texts.items():
        imported = imported_statements(text)
        is_law = file.split("/")[0] == "laws"
        for function in [item for item in tree.functions.values() if is_law and item.key.place == module_of(crate, file)]:
            tree.laws[function.key] = function.text
            for name in imported.keys() & set(function.text.split()):
                statement = tree.definitions.get(imported[name])
                if statement and statement.fields:
                    tree.laws.update((Key(f"{crate}/{name}.", field), field_text) for field, field_text in statement.fields)
                elif statement:
                    tree.laws[Key(f"{crate}/", name)] = statement.text


ADD = {"specs": add_definitions, "src": add_code, "proofs": add_proofs, "must-fail": add_edits}


def parts_of(files, crates):
    """The parts of the files, which are texts by their paths from the project's root."""
    tree = Tree({}, {}, {}, {}, {}, {}, {}, collections.Counter())
    sources = collections.defaultdict(dict)
    for path, text in files.items():
        if found := PATH.fullmatch(path):
            crate, kind, file = filter(None, found.groups())
            sources[crate, kind][file] = text
    for (crate, kind), texts in sources.items():
        tree.lines[crate, kind] = sum(text.count("\n") for text in texts.values())
        ADD[kind](tree, crate, texts, crates)
    for crate in crates:
        add_laws(tree, crate, sources[crate, "src"])
    return tree


# The log of a gate

CRATE_TIME = re.compile(r"^rt: (\S+) proved \((\d+) s\)$", re.M)  # as older Rattles said it
PROVED = re.compile(r"^ci: (\S+) proved after (\d+) s$", re.M)
EDIT = re.compile(r"^rt: must-fail (\S+?)/(\S+?)(?:\.edit)?: refused, as it must be(?: \((?:.*; )?(\d+) s\)$)?", re.M)
GATE_TIME = re.compile(r"^real\s+(?:(\d+)m)?(\d+(?:[.,]\d+)?)s?$", re.M)
COUNT = re.compile(r"^\d+ passed, (\d+) failed$", re.M)


def times(text):
    """Seconds: of the check of each crate, from the start of rt ci until a crate was proved, of the edits of each crate (None
    where the log has no time), and of the whole gate where `time` was before it."""
    edits = collections.defaultdict(dict)
    for crate, edit, seconds in EDIT.findall(text):
        edits[crate][edit] = int(seconds) if seconds else None
    checks, proved = ({crate: int(seconds) for crate, seconds in line.findall(text)} for line in (CRATE_TIME, PROVED))
    gate = [int(minutes or 0) * 60 + round(float(seconds.replace(",", "."))) for minutes, seconds in GATE_TIME.findall(text)]
    return Times(checks, proved, edits, gate[-1] if gate else None, COUNT.findall(text)[-1:] not in ([], ["0"]))
