"""Turns the text form of a flight card into its bytes, and back.

usage: oracle/card encode < TEXT > CARD
       oracle/card decode < CARD > TEXT
       oracle/card list CARD.. > CARDS      the cards one after the other, each with its length before it (a little-endian u32)

One record a line, in words with spaces or tabs between them; '#' begins a comment. The first line is the header:
  tailsitter SETTINGS       or      quadplane SETTINGS
then
  prime z=N
  step copter|plane dt=N attitude=W,X,Y,Z [z=N] [velocity=X,Y,Z] [acceleration=X,Y] [airspeed=N] [entry_tilt=N] [bank=N] [demand=N]
  cut REASON                by number or name: 11 Unsupported, 12 OnGround, 13 BelowMinAltitude, 14 TransitionTimeout, 15 RollError, 16 BelowPlaneMinAltitude
  settings SETTINGS         as the header's airframe has them
  record KIND OPTION N1 .. N19
SETTINGS are either all numbers in the order of docs/SETTINGS.md, 17 of a tailsitter and 15 of a quadplane, or any of its names in any order, each as NAME=NUMBER: what is not named has its default there, also in a 'settings' line, whatever the lines before it say.
dt is in s, z up in m, velocity north, east and up in m/s, acceleration north and east in m/s², airspeed in m/s, entry_tilt and bank in rad; demand is a throttle from 0 to 1.
A number is decimal, 'nan', 'inf', '-inf', or 'x' and the 8 hexadecimal digits of its bits; a decimal other than 0 that would become 0 or infinity is refused. What is not named is 0; an airspeed that is not named is absent.
A record is followed by the next line's, the last one ends the chain; 'next=I' at the end of a line says otherwise, and 'times=K' makes K such records, each with that next index if there is one. I counts records, not lines, from 0, the header.
A text of encode may have a byte order mark and any line end. docs/CARD.md explains the card itself.
The program of crates/writer takes the same form without what makes odd cards for tests: 'record', 'next=', a header that is not the first line or stands more than once, a reason past 11 to 16, settings of the other airframe's number; nor times above 799 or of more than 3 digits, nor a decimal of more than 9 digits or 9 places behind the point.

Exit status: 0 done, 2 anything else, with a line of words on standard error.
"""
import os
import re
import struct
import sys
from fractions import Fraction

import flight_card as fc
import tool
from tool import Bad

# As many records as a next index can name, though a card has at most 800; and bytes enough for any text of them.
MOST_TEXT_RECORDS = 65536
MOST_CARD = MOST_TEXT_RECORDS * fc.RECORD_BYTES
MOST_TEXT = 1 << 24
NAMED_NUMBERS = {"nan": 0x7FC00000, "inf": 0x7F800000, "-inf": 0xFF800000}
KIND_OF = {name: kind for kind, name in fc.KINDS.items()}
REASON_OF = {name: number for number, name in fc.REPORTS.items()}
SPECIAL = re.compile("x[0-9a-fA-F]{8}")
DECIMAL = re.compile(r"[+-]?([0-9]+\.?[0-9]*|\.[0-9]+)([eE][+-]?[0-9]{1,3})?")
# What a decimal has at most for the program of crates/writer.
MOST_DIGITS = MOST_PLACES = 9
# A decimal at or above this in size rounds to infinity.
TOO_LARGE = Fraction(2**25 - 1) * 2**103


def shown(word):
    """A word of the text in a message, cut if it is long."""
    return ascii(word if len(word) <= 40 else word[:40] + "..")


def nearest(exact):
    """The bits of the binary32 number nearest to a fraction, ties to even."""
    size = abs(exact)
    near = fc.bits_of(float(size))
    around = [bits for bits in (near - 1, near, near + 1) if 0 <= bits <= 0x7F7FFFFF]
    return min(around, key=lambda bits: (abs(Fraction(fc.value_of(bits)) - size), bits % 2))


def bits(word):
    """The bits of a number in the text."""
    if SPECIAL.fullmatch(word):
        return int(word[1:], 16)
    if word in NAMED_NUMBERS:
        return NAMED_NUMBERS[word]
    if not DECIMAL.fullmatch(word) or len(word) > 100:
        raise Bad(f"{shown(word)} is no number; a number is a decimal such as 0.5 or 1e-3, 'nan', 'inf', '-inf', or 'x' and 8 hexadecimal digits")
    exact = Fraction(word)
    if abs(exact) >= TOO_LARGE:
        raise Bad(f"{shown(word)} is too large and would become infinity; the largest number is 3.4028235e38, and infinity is 'inf' or '-inf'")
    found = nearest(exact)
    if found == 0 and exact:
        raise Bad(f"{shown(word)} is too small and would become 0; the smallest number above 0 is 1e-45")
    return found | 0x80000000 * word.startswith("-")


def is_long(word):
    """Whether a word is a decimal that the program of crates/writer does not take: of more than nine digits or nine places behind the point, its exponent worked in."""
    if not DECIMAL.fullmatch(word):
        return False
    size = abs(Fraction(word))
    places = next((k for k in range(MOST_PLACES + 1) if (size * 10**k).denominator == 1), None)
    return places is None or size * 10**places >= 10**MOST_DIGITS


def number_text(number):
    """A number's bits as the text has them: a decimal if one reads back as them that the program takes, else the bits."""
    word = fc.decimal(number)
    return word if bits(word) == number and not is_long(word) else f"x{number:08X}"


def counted(size, what):
    return f"{size} {what}{'s' * (size != 1)}"


def padded(words):
    return [bits(word) for word in words] + [0] * (fc.NUMBERS - len(words))


def step(words):
    """Option and numbers of a step."""
    if not words or words[0] not in ("copter", "plane"):
        raise Bad("a step requests copter or plane, in small letters: 'step copter ..' or 'step plane ..'")
    numbers, named = [0] * fc.NUMBERS, set()
    places = {part.name: part for part in fc.PARTS}
    for word in words[1:]:
        name, equals, values = word.partition("=")
        if name not in places:
            raise Bad(f"a step has no {shown(name)}; it has {', '.join(places)}, each as NAME=NUMBER, and after these next and times")
        if name in named:
            raise Bad(f"'{name}' stands twice")
        part, values = places[name], values.split(",")
        if not equals or values == [""]:
            raise Bad(f"after '{name}' stand '=' and its {counted(part.size, 'number')}, without a space")
        if len(values) != part.size:
            raise Bad(f"'{name}' has {counted(len(values), 'number')}; it takes {part.size}, {'with commas and no space between them' if part.size > 1 else 'with a decimal point and no comma'}")
        numbers[part.first - 1 : part.first - 1 + part.size] = [bits(value) for value in values]
        named.add(name)
    for name in ("dt", "attitude"):
        if name not in named:
            raise Bad(f"a step has a dt and an attitude; {name} is missing")
    return fc.PLANE_REQUESTED * (words[0] == "plane") | fc.AIRSPEED_PRESENT * ("airspeed" in named), numbers


def whole(word, name, most, least=0):
    if not re.fullmatch("[0-9]{1,5}", word) or not least <= int(word) <= most:
        raise Bad(f"{name} is a whole number from {least} to {most}, not {shown(word)}")
    return int(word)


def named_settings(airframe, words):
    """The numbers of settings by name; what is not named has its default."""
    if airframe not in fc.AIRFRAMES:
        raise Bad("settings go by the names of the header's airframe, and the first line is no header: 'tailsitter ..' or 'quadplane ..'")
    places = {setting.name: place for place, setting in enumerate(fc.SETTINGS_OF[airframe])}
    numbers, named = padded([setting.default for setting in fc.SETTINGS_OF[airframe]]), set()
    for word in words:
        name, equals, value = word.partition("=")
        if not equals:
            raise Bad(f"{shown(word)} has no name; settings stand all by position or all as NAME=NUMBER, without a space")
        if name not in places:
            raise Bad(f"a {fc.AIRFRAMES[airframe]} has no setting {shown(name)}; it has {', '.join(places)}")
        if name in named:
            raise Bad(f"'{name}' stands twice")
        numbers[places[name]] = bits(value)
        named.add(name)
    return numbers


def settings(name, words, airframe):
    """The numbers of a header or of a settings call. By position a settings call may be of either airframe."""
    if not words or any("=" in word for word in words):
        return named_settings(airframe, words)
    sizes = {airframe: len(settings) for airframe, settings in fc.SETTINGS_OF.items()}
    most = max(sizes.values())
    kind = KIND_OF[name]
    if len(words) not in ({sizes[kind], most} if kind in sizes else {*sizes.values()}):
        takes = " or ".join(f"{size} of a {fc.AIRFRAMES[airframe]}" for airframe, size in sizes.items() if kind in (airframe, fc.SETTINGS))
        raise Bad(f"'{name}' has {counted(len(words), 'number')}; it takes the {takes}, in the order of docs/SETTINGS.md, or any of them as NAME=NUMBER")
    return padded(words)


def reason(words):
    """The number of a cut's reason."""
    if len(words) == 1 and words[0] in REASON_OF:
        return REASON_OF[words[0]]
    if len(words) != 1 or not re.fullmatch("[0-9]{1,3}", words[0]) or int(words[0]) > 255:
        raise Bad(f"a cut is 'cut REASON', with one of these numbers or names: {', '.join(f'{number} {name}' for number, name in fc.REPORTS.items())}")
    return int(words[0])


def parsed(words, airframe=None):
    """Kind, option and numbers of a line; the airframe is the header's."""
    name, rest = words[0], words[1:]
    if name == "prime":
        if len(rest) != 1 or not rest[0].startswith("z="):
            raise Bad("a prime is 'prime z=NUMBER'")
        return fc.PRIME, 0, padded(["x00000000"] * (fc.PRIME_Z - 1) + [rest[0][2:]])
    if name == "step":
        return (fc.STEP, *step(rest))
    if name == "cut":
        return fc.CUT, reason(rest), [0] * fc.NUMBERS
    if name in KIND_OF:
        kind = KIND_OF[name]
        return kind, 0, settings(name, rest, airframe if kind == fc.SETTINGS else kind)
    if name == "record":
        if not 2 <= len(rest) <= 2 + fc.NUMBERS:
            raise Bad(f"a record is 'record KIND OPTION' and up to {fc.NUMBERS} numbers")
        return whole(rest[0], "a kind", 255), whole(rest[1], "an option", 255), padded(rest[2:])
    raise Bad(f"{shown(name)} begins no record; these do: {', '.join(KIND_OF)}, record")


def words_of(line):
    """The words of a line before its comment."""
    return [word for word in re.split("[ \t]", line.split("#")[0]) if word]


def records_of(line, airframe):
    """The records of a line, each with its next index if the line names one."""
    words = words_of(line)
    if not words:
        return []
    ends = {}
    while words and words[-1].split("=")[0] in ("next", "times"):
        name, _, value = words.pop().partition("=")
        if name in ends:
            raise Bad(f"'{name}' stands twice")
        ends[name] = whole(value, f"'{name}='", 65535) if name == "next" else whole(value, f"'{name}='", fc.MOST_RECORDS, 1)
    if not words:
        raise Bad("a line begins with a record, and 'next' and 'times' stand after it")
    return [(parsed(words, airframe), ends.get("next"))] * ends.get("times", 1)


def lines_of(text):
    """The lines of a text's bytes. A byte order mark and any line end are taken."""
    if text.startswith((b"\xff\xfe", b"\xfe\xff")):
        raise Bad("line 1: the text is UTF-16; save it as UTF-8")
    return [line.decode("utf-8", "replace") for line in text.removeprefix(b"\xef\xbb\xbf").splitlines()]


def read_lines(text):
    """Of each line of a text: its number, its words and its records. The first record's kind is the airframe."""
    airframe = None
    for number, line in enumerate(lines_of(text), 1):
        try:
            records = records_of(line, airframe)
        except Bad as bad:
            raise Bad(f"line {number}: {bad}") from None
        if records and airframe is None:
            airframe = records[0][0][0]
        yield number, words_of(line), records


def encode(text):
    """The card of a text."""
    records = []
    for number, _, more in read_lines(text):
        records += more
        if len(records) > MOST_TEXT_RECORDS:
            raise Bad(f"line {number}: more than {MOST_TEXT_RECORDS} records, which no next index can name; a card has at most {fc.MOST_RECORDS}")
    return card_of(records)


def card_of(records):
    """The bytes of records, each with its next index or None for the one after it."""
    last = len(records) - 1
    packed = []
    for i, ((kind, option, numbers), after) in enumerate(records):
        after = after if after is not None else i + 1 if i < last else 0
        packed.append(fc.pack(fc.Record(kind, option, after, numbers)))
    return b"".join(packed)


def step_words(record):
    words = ["plane" if record.option & fc.PLANE_REQUESTED else "copter"]
    for part in fc.PARTS:
        values = record.numbers[part.first - 1 : part.first - 1 + part.size]
        if any(values) or part.name in ("dt", "attitude") or (part.name == "airspeed" and record.option & fc.AIRSPEED_PRESENT):
            words.append(f"{part.name}=" + ",".join(number_text(value) for value in values))
    return words


def plain(record):
    """The words of a record by its kind, or none if it has no such words."""
    kind, option, numbers = record.kind, record.option, record.numbers
    if kind == fc.CUT:
        return ["cut", str(option)]
    if kind not in fc.KINDS or option not in fc.OPTIONS[kind]:
        return None
    if kind == fc.PRIME:
        return ["prime", f"z={number_text(numbers[fc.PRIME_Z - 1])}"]
    if kind == fc.STEP:
        return ["step", *step_words(record)]
    sizes = [len(settings) for settings in fc.SETTINGS_OF.values()]
    size = max(sizes) if kind == fc.TAILSITTER or any(numbers[min(sizes) :]) else min(sizes)
    return [fc.KINDS[kind], *(number_text(number) for number in numbers[:size])]


def line_of(record):
    """The words of a record: its own by its kind, if they say all that it holds."""
    words = plain(record)
    if words and parsed(words) == (record.kind, record.option, record.numbers):
        return words
    last = max((i for i, number in enumerate(record.numbers, 1) if number), default=0)
    return ["record", str(record.kind), str(record.option), *(number_text(number) for number in record.numbers[:last])]


def decode(card):
    """The text of a card, line by line."""
    if len(card) % fc.RECORD_BYTES:
        raise Bad(f"{fc.length_words(len(card))}; the text form has whole records")
    records = fc.records_of(card)
    last = len(records) - 1
    for i, record in enumerate(records):
        follows = record.next == (i + 1 if i < last else 0)
        yield " ".join(line_of(record) + ([] if follows else [f"next={record.next}"]))


def main():
    words = sys.argv[1:]
    if words == ["encode"]:
        tool.write(encode(tool.read_input(MOST_TEXT)))
    elif words == ["decode"]:
        tool.write("".join(f"{line}\n" for line in decode(tool.read_input(MOST_CARD))).encode())
    elif words[:1] == ["list"]:
        cards = [tool.read(name) for name in words[1:]]
        tool.write(b"".join(struct.pack("<I", len(card)) + card for card in cards))
    elif words in (["--help"], ["-h"]):
        tool.write(__doc__.encode())
    else:
        os.write(2, __doc__.encode())
        return 2
    return 0


if __name__ == "__main__":
    tool.ended("oracle/card", main)
