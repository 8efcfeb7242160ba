"""The lines of `reduce` as people write them: what is expected where, how a line is shown, what is wrong with its words."""
import re

DECIMAL = re.compile(rb"[+-]?([0-9]+\.?[0-9]*|\.[0-9]+)([eE][+-]?[0-9]+)?")
# A word as bits are written.
BITS = re.compile(rb"[0-9a-fA-F]{16}")
MARK = b"\xef\xbb\xbf"
UTF_16 = re.compile(rb"\xff\xfe|\xfe\xff|([^\0]\0){2}|(\0[^\0]){2}")
SHOWN = 40


def lines_of(data):
    lines = data.split(b"\n")
    return lines if lines[-1] else lines[:-1]


def shown(line):
    """The line without control characters, cut to a length that can be read."""
    more = len(line) - SHOWN
    return repr(line[:SHOWN])[1:] + (f" and {more} bytes more" if more > 0 else "")


def count(n, one, more):
    return f"{n} {one if n == 1 else more}"


def without_end(line):
    """The line without a carriage return at its end."""
    return line[:-1] if line.endswith(b"\r") else line


def file_fault(line):
    """What the first line shows of how its file was saved, if that is wrong."""
    if line.startswith(MARK):
        return "a byte order mark stands in front of it; save the file without one"
    if UTF_16.match(line):
        return "its characters have two bytes each (UTF-16); save the file as plain text or UTF-8"
    return None


def return_fault(line):
    """What is wrong with a line that holds several, ended by carriage returns alone."""
    if b"\r" in without_end(line):
        return "carriage returns stand within it, as some systems end lines; a line ends with a line feed"
    return None


def blank_fault(line):
    """What is wrong with a line that has no word."""
    return "it holds nothing but spaces" if line else "it is empty"


def part(place, n):
    """The kind of the line at a place, counted from 1, of an input of n buses, and how many of its kind stand before it."""
    before = place - 1
    for kind, lines in ("buses", 1), ("number", n), ("entry", n * n):
        if before < lines:
            return kind, before
        before -= lines
    return "drop", before


def expected(place, n, limit, entry):
    """What stands at a place of an input of n buses; `entry` is the form of an entry."""
    kind, i = part(place, n)
    if kind == "buses":
        return f"buses N, N the number of buses, at most {limit}, such as: buses 2"
    if kind == "number":
        return f"the number of the bus of row {i}, which no other bus has, such as: 7"
    if kind == "entry":
        return f"the entry of row {i // n}, column {i % n}: {entry}"
    return "drop K, K the number of a bus, such as: drop 1; or the end of the input"


def number_faults(word, most, too_large):
    if not word.isdigit():
        yield f"{shown(word)} is not a whole number in decimal digits"
    elif len(word) > 1 and word.startswith(b"0"):
        yield f"{shown(word)} has spare zeros in front"
    elif int(word[:11]) > most:  # eleven digits are more than any number that is read has
        yield f"{shown(word)} is {too_large}"


def keyword_faults(words, key, most, too_large):
    """What is wrong with the words of a line `key number`, the number at most `most`."""
    if words[0] != key:
        lower = " in lower case" if words[0].lower() == key else ""
        yield f"it starts with {shown(words[0])}, not with {key.decode()}{lower}"
    elif len(words) == 1:
        yield "the number is missing"
    else:
        yield from number_faults(words[1], most, too_large)
    if len(words) > 2:
        yield f"it has {len(words)} words, not 2"


def buses_faults(words, limit):
    return keyword_faults(words, b"buses", limit, f"too many buses: at most {limit} are read")


MOST, TOO_LARGE = 2**32 - 1, "too large: numbers are below 2^32"


def drop_faults(words):
    return keyword_faults(words, b"drop", MOST, TOO_LARGE)


def bus_faults(words, earlier):
    """What is wrong with the words of a number line behind earlier ones."""
    if len(words) > 1:
        yield f"it has {len(words)} words, not 1"
    else:
        yield from number_faults(words[0], MOST, TOO_LARGE)
    if words[0] in earlier:
        yield f"{shown(words[0])} is the number of row {earlier.index(words[0])} already"


def surplus(n):
    """What is wrong with an entry that stands where drops are due."""
    return f"it is one entry more than the {n * n} of {count(n, 'bus', 'buses')}"


def missing(kind, n, before):
    """What is wrong with a line of another kind that stands where numbers or entries are due."""
    one, more, due = {"number": ("number", "numbers", n), "entry": ("entry", "entries", n * n)}[kind]
    have = f"{count(n, 'bus has', 'buses have')} {count(due, one, more)}"
    return f"{more} are missing: {have}, and {count(before, 'stands', 'stand')} before this line"
