"""The definitions of specs/ and the types of src/, and which of them rest on which.

A definition is known by its file and its name, and so is a type of src/, which the definitions take from a module
`declared`. What is taken of the standard library is known by its module, as `std.Prelude`, and by its name."""
import functools
import os
import re

HEAD = r"^ *(?:(?:abbrev|unfoldable|pub|data|record) )*{} (?:[^\n=]* )?:(?: |$)"
TYPE = r"^(?:#\[.*\n)*pub (?:struct|enum) {}\b.*\n(?:[^}}].*\n|\n)*(?:^\}}\n)?"
USE = re.compile(r"^(?:ghost )?use Rattle\.(\w+)\.specs\.([\w.]+?)(?:\.\{(.*)\})?(?: as (\w+))?;?$", re.M)
WORD = re.compile(r"[^\W\d][\w']*(?:\.[^\W\d][\w']*)?")


@functools.cache
def text_of(file):
    return open(file, encoding="utf-8").read() if os.path.isfile(file) else ""


def source_of(crate, path):
    """The file of a module, and the name of the type there where it is one of src/."""
    if not os.path.isdir(f"crates/{crate}"):
        return f"{crate}.{path}", None
    parts = path.split(".")
    if parts[0] != "declared":
        return f"crates/{crate}/specs/{parts[0]}.antt", None
    name = next(part for part in parts if part[0].isupper())
    return f"crates/{crate}/src/{'/'.join(parts[1:parts.index(name)])}.rt", name


def taken_by(text):
    """Of each name that the text takes from a module its file and the name there, or none for a whole file."""
    taken = {}
    for crate, path, names, alias in USE.findall(text):
        source, kind = source_of(crate, path)
        for name in names.split(", ") if names else []:
            taken[name.split(" as ")[-1]] = (source, kind or name.split(" as ")[0])
        if not names:
            taken[alias or path.split(".")[-1]] = (source, kind)
    return taken


@functools.cache
def blocks_of(file):
    """Of each definition of the file, by its name, the parts of the file that it stands in, each with the comment before it."""
    blocks = {}
    plain = re.sub(r"^use .*\n", "", text_of(file), flags=re.M)
    # A part that is indented goes on with the one before it.
    for part in re.split(r"\n{2,}(?![ \n])", plain):
        code = re.sub(r"^ *--.*\n", "", part, flags=re.M)
        heads = re.findall(HEAD.format(r"([^\s(:=]+)"), code, re.M)
        for name in heads[:1] if re.match(r"\n*(pub )?record ", code) else heads:
            blocks.setdefault(name, []).append(part.strip("\n"))
    return blocks


def type_of(file, name):
    """The text of a type of src/, with the comment before it."""
    found = re.search(r"(?:^///.*\n)*" + TYPE.format(re.escape(name)), text_of(file), re.M)
    return found[0].strip("\n") if found else ""


def parts_of(place):
    file, name = place
    return [type_of(file, name)] if file.endswith(".rt") else blocks_of(file).get(name, [])


def text_of_one(place):
    return "\n".join(parts_of(place))


@functools.cache
def rests_on(place):
    """The definitions and types that are named in one, and what it takes of the standard library."""
    file, name = place
    if file.endswith(".rt"):
        return {(file, other) for other in WORD.findall(without_comments(text_of_one(place))) if other != name
                and type_of(file, other)}
    return places_in(without_comments(text_of_one(place)), file, taken_by(text_of(file)))


def without_comments(text):
    return re.sub(r"^ *(?:--|///).*\n", "", text, flags=re.M)


def places_in(text, file, taken):
    found = set()
    for word in WORD.findall(text):
        front, _, rest = word.partition(".")
        source, there = taken.get(front, (file, front))
        place = (source, there or rest)
        if not source.startswith("crates/") or text_of_one(place):
            found.add(place)
    return found


def reached_from(places):
    """These places and all that they rest on."""
    seen, left = set(places), list(places)
    while left:
        for place in rests_on(left.pop()) - seen:
            seen.add(place)
            left.append(place)
    return seen


def clauses_of(file, function):
    """Each clause of a function by its name: the definitions that stand in it."""
    text = text_of(file)
    head = re.search(rf"^pub fn {function}\b.*?^\{{", text, re.M | re.S)[0]
    taken = taken_by(text)
    return {name: places_in(body, file, taken)
            for name, body in re.findall(r"^    ensures (\w+) \{ (.*?) \}$", head, re.M | re.S)}


def lines_of(places):
    """How many lines these have in all, with their comments. Definitions that stand in one part of a file are counted once."""
    parts = {(place[0], part) for place in places for part in parts_of(place)}
    return sum(len(part.splitlines()) for _, part in parts)
