"""A plain model of words, rows and edge lines, by docs/FORMATS.md, for tools/hostile_trial. All texts are bytes, and
numbers may have any length.
"""
import re

# the options and flags of each command, and whether it takes SOURCEs
COMMANDS = {
    b"run": ([b"--workers"], [], True),
    b"solve": ([], [b"--unweighted"], True),
    b"classify": ([], [], False),
    b"parts": ([b"--workers"], [b"--unweighted"], False),
}


# ---- words

def small_number(word, greatest=2**32 - 1):
    """The number that the digits write, or None."""
    if not re.fullmatch(rb"[0-9]+", word):
        return None
    digits = word.lstrip(b"0") or b"0"
    return int(digits) if len(digits) <= 10 and int(digits) <= greatest else None


def number_in(word, least, greatest):
    number = small_number(word, greatest) if len(word) <= 20 else None
    return number if number is not None and number >= least else None


def read_items(words, options, flags):
    """The numbers of the options, the flags and the positionals, or None where a word is no part of an item."""
    numbers, given, positionals, at = {}, [], [], 0
    while at < len(words):
        word = words[at]
        name, joined, text = word.partition(b"=")
        if word in options:
            at += 1
            name, joined, text = word, b"=", words[at] if at < len(words) else b""
        if joined and name in options:
            if name in numbers or number_in(text, 1, 64) is None:
                return None
            numbers[name] = number_in(text, 1, 64)
        elif word in flags:
            if word in given:
                return None
            given.append(word)
        elif not word or word.startswith(b"-"):
            return None
        else:
            positionals.append(word)
        at += 1
    return numbers, given, positionals


def read_words(words):
    """The command, its PROGRAM, its SOURCEs, the workers and whether weights are left out; or None."""
    if any(word.decode("utf-8", "replace").encode() != word for word in words) or not words or words[0] not in COMMANDS:
        return None
    options, flags, takes_sources = COMMANDS[words[0]]
    items = read_items(words[1:], options, flags)
    if items is None or not items[2] or (len(items[2]) > 1 and not takes_sources):
        return None
    sources = [number_in(word, 0, 2**32 - 1) for word in items[2][1:]]
    if None in sources:
        return None
    return words[0].decode(), items[2][0], sources, items[0].get(b"--workers", 2), b"--unweighted" in items[1]


# ---- rows

SHAPES = [
    ["given", "back", "simple"],
    ["all", "earlier id", "earlier degree"],
    ["source V V", "each V", "id"],
    ["same", "plus weight", "floor weight", "cap weight", "plus N", "minus N"],
    ["least", "greatest", "mex", "count N"],
    ["keep", "drop"],
]


def read_field(words, shapes):
    """The field with numbers in their shortest form, or the fault of its words."""
    for shape in shapes:
        slots = shape.split()
        if len(slots) == len(words) and all(slot in "NV" or slot.encode() == word for slot, word in zip(slots, words)):
            said = [small_number(word) if slot in "NV" else slot for slot, word in zip(slots, words)]
            said = ["inf" if slot == "V" and word == b"inf" else one for one, slot, word in zip(said, slots, words)]
            return ("bad number", None) if None in said else (None, " ".join(map(str, said)))
    return "unknown word", None


def read_row(row):
    """The fault of the row, or None, and its six fields."""
    fields, program = row.split(b";"), []
    for number, shapes in enumerate(SHAPES, 1):
        words = [word for word in fields[number - 1].split(b" ") if word] if number <= len(fields) else []
        fault, said = read_field(words, shapes) if words else ("missing", None)
        if fault:
            return "row field %d: %s" % (number, fault), None
        program.append(said)
    return ("row: more than six fields" if len(fields) > 6 else None), tuple(program)


NAMES = {
    b"bfs": b"given; all; source 0 inf; plus 1; least; keep",
    b"sssp": b"given; all; source 0 inf; plus weight; least; keep",
    b"widest": b"given; all; source inf 0; cap weight; greatest; keep",
    b"components": b"simple; all; id; same; least; keep",
    b"colour": b"simple; earlier id; each 0; same; mex; drop",
    b"levels": b"simple; earlier id; each 0; plus 1; greatest; drop",
}


def read_program(word):
    """The fault of the word, or None, and the six fields of its program."""
    if b";" in word:
        return read_row(word)
    number = word[6:] if word.startswith(b"kcore:") and len(word) <= 16 else b""
    if small_number(number) is not None:
        return read_row(b"simple; all; each 1; same; count %d; keep" % small_number(number))
    return read_row(NAMES[word]) if word in NAMES else ("unknown program", None)


# ---- edge lines

def read_edges(data, weighted):
    """The fault of the first wrong line, or None, and the edges."""
    lines, edges = data.split(b"\n"), []
    for number, line in enumerate(lines if lines[-1] else lines[:-1], 1):
        fields = [field for field in re.split(rb"[ \t]", line[:-1] if line.endswith(b"\r") else line) if field]
        if line[:1] in (b"#", b"%") or not fields:
            continue
        ids = [small_number(field) for field in fields[:2]]
        weight = small_number(fields[2]) if weighted and len(fields) > 2 else 1
        fault = "bad vertex" if None in ids else "vertex missing" if len(ids) < 2 else "bad weight" if weight is None else ""
        if fault:
            return "line %d: %s" % (number, fault), None
        edges.append((ids[0], ids[1], weight))
    return None, edges
