"""Random texts for the program `writer`: in every spelling that it takes, with lines that it does not take, and with bytes changed."""
import random

import flight_card as fc
from card_text import MOST_DIGITS, MOST_PLACES

MOST_CALLS = fc.MOST_RECORDS - 1
NAMES = {kind: [setting.name for setting in fc.SETTINGS_OF[kind]] for kind in fc.AIRFRAMES}
BLANKS = ["", "", " ", "\t", " \t "]
COMMENTS = ["", "#", "# prime z=1", "#\tæ # x", "# \x00\x0b\x0c\x1c\x85\xa0"]
# A reason may have a zero in front.
REASONS = [*fc.REPORTS.values(), *map(str, fc.REPORTS), "011", "016"]


class Draw:
    """Draws from a seed, all over random(), whose numbers no version of Python changes."""

    def __init__(self, seed):
        self.random = random.Random(seed).random

    def below(self, n):
        return int(self.random() * n)

    def once_in(self, n):
        return self.below(n) == 0

    def pick(self, among):
        return among[self.below(len(among))]

    def mixed(self, among):
        """All of them, in any order."""
        keys = [(self.random(), i) for i in range(len(among))]
        return [among[i] for _, i in sorted(keys)]

    def some(self, among):
        return [one for one in self.mixed(among) if self.once_in(2)]


def spelt(draw, digits, places):
    """A spelling of digits / 10^places."""
    shift = draw.pick([0, 0, 0, 1, 2, 3, 9]) * draw.pick([1, -1])
    word = str(digits)
    point = len(word) - places - shift
    word = "0" * max(0, 1 - point) + word + "0" * max(0, point - len(word))
    point = max(1, point)
    whole, part = word[:point], word[point:]
    whole = draw.pick(["", "0", "00"]) + whole if draw.once_in(4) else whole
    part += draw.pick(["0", "000"]) if part and draw.once_in(4) else ""
    whole = "" if part and whole.strip("0") == "" and draw.once_in(3) else whole
    word = f"{whole}.{part}" if part or draw.once_in(5) else whole
    exponent = draw.pick(["{}", "{:02}", "{:03}"]).format(abs(shift))
    sign = "-" if shift < 0 else draw.pick(["", "+"])
    return word + (draw.pick("eE") + sign + exponent if shift or draw.once_in(8) else "")


def tie(draw):
    """Digits and places of a number halfway between two binary32 numbers: a whole one, or one with a half or a quarter."""
    places = draw.pick([0, 0, 0, 1, 2])
    while True:
        odd = 2 * (2**23 + draw.below(2**23)) + 1
        digits = odd * 5**places if places else odd << draw.below(6)
        if digits < 10**MOST_DIGITS:
            return digits, places


def a_number(draw):
    """A number in any spelling that the program takes."""
    kind = draw.below(12)
    if kind == 0:
        return draw.pick(["nan", "inf", "-inf", "-0", "0", "+0.0", "-.0e9", "0e999"])
    if kind == 1:
        return draw.pick(["x{:08X}", "x{:08x}"]).format(int(draw.random() * 2**32))
    if kind == 2:
        return "x" + draw.pick(["7F800001", "ffc12345", "7fffffff", "80000001", "007FFFFF", "7F800000", "FF800000", "80000000"])
    sign = draw.pick(["", "", "-", "+"])
    if kind == 3:
        return sign + spelt(draw, *tie(draw))
    places = draw.below(MOST_PLACES + 1)
    return sign + spelt(draw, draw.below(10 ** (1 + draw.below(MOST_DIGITS))), places)


def a_setting(draw):
    """A setting's number: mostly above 0 and below 1, which every range has."""
    if draw.once_in(60):
        return draw.pick(["0", "-0", "1", "-1", "2", "nan", "inf", "x3FC90FDB", "x40490FDB", "x00000001", "3.2", "1.5707964"])
    return spelt(draw, 1 + draw.below(999), 3)


def some_settings(draw, airframe, number):
    """The words of settings: by position, by name, or none."""
    names = NAMES[airframe]
    way = draw.below(4)
    if way == 0:
        return [number(draw) for _ in names]
    return [f"{name}={number(draw)}" for name in draw.some(names)] if way < 3 else []


def some_call(draw, airframe):
    """The words of a call."""
    kind = draw.below(8)
    if kind == 0:
        words = ["prime", f"z={a_number(draw)}"]
    elif kind == 1:
        words = ["cut", draw.pick(REASONS)]
    elif kind == 2:
        words = ["settings", *some_settings(draw, airframe, draw.pick([a_number, a_setting]))]
    else:
        needed = [part for part in fc.PARTS if part.name in ("dt", "attitude")]
        parts = needed + draw.some([part for part in fc.PARTS if part not in needed])
        words = ["step", draw.pick(["copter", "plane"])]
        words += [f"{part.name}=" + ",".join(a_number(draw) for _ in range(part.size)) for part in draw.mixed(parts)]
    if draw.once_in(6):
        words.append(f"times={draw.pick(['1', '2', '02', '003', '7', '10'])}")
    return words


# Lines that are not taken; those of the second list oracle/card takes.
BROKEN_LINES = """prime|prime z|prime z=|prime z=1 z=1|prime 1|primes z=1|Prime z=1|prime z=1,2|prime z=++1|prime z=1e|prime z=1e+|prime z=e5|prime z=.|prime z=-
prime z=1e1000|prime z=1_0|prime z=1.2.3|prime z=0x10|prime z=x123|prime z=x123456789|prime z=xG0000000|prime z=X3F800000|prime z=NaN|prime z=+inf|prime z=-nan|prime z=infinity|prime z=1f
step|step dt=1 attitude=1,0,0,0|step Plane dt=1 attitude=1,0,0,0|step plane attitude=1,0,0,0|step plane dt=1|step plane dt=1 attitude=1,0,0|step plane dt=1 attitude=1,0,0,0,0
step plane dt=1 dt=1 attitude=1,0,0,0|step plane dt=1 attitude=1,,0,0|step plane dt=1 attitude=1,0,0,|step plane dt=1 attitude=1, 0,0,0|step plane dt=1 attitude=1,0,0,0 speed=1
step plane dt=1 attitude=1,0,0,0 z|step plane plane dt=1 attitude=1,0,0,0|step plane dt =1 attitude=1,0,0,0|step plane dt=1 attitude=1,0,0,0 times=2 z=1|step plane dt=1 attitude=1,0,0,0 Z=1
cut|cut roll|cut rollerror|cut RollErrors|cut 11 12|cut 256|cut -11|cut 11.0|cut 1e1
settings 1|settings 1 2 timeout_s=3|settings timeout_s=3 1|settings timeout_s|settings timeout_s=|settings timeout_s=1 timeout_s=1|settings Timeout_s=1|settings timeout=1|settings =1
times=2|prime z=1 times=|prime z=1 times=0|prime z=1 times=000|prime z=1 times=-1|prime z=1 times=1.0|prime z=1 times=2 times=2|prime z=1 times=801|prime z=1 times=1000|prime z=1 times|prime z=1 Times=2
next|land|=|x|1|tailsitter 1|quadplane timeout_s""".replace("\n", "|").split("|")
ODD_LINES = """record 1 0 0 1|record 4 0|prime z=1 next=0|prime z=1 times=2 next=1|prime z=1 next=1 times=2|cut 10|cut 17|cut 0|cut 255|cut 16 next=2
prime z=1234567890|prime z=1e9|prime z=1e-10|prime z=0.0000000001|prime z=1.000000001|prime z=3.4028235e38|prime z=1e-45|prime z=100000000.5|prime z=1e-9 next=0|prime z=123456789e1
prime z=1 times=800|prime z=1 times=0002|quadplane|tailsitter|quadplane times=2|tailsitter 1 1 1 1 1 1 1 1 1 1 1 1 1 1 1 1 1""".replace("\n", "|").split("|")


def some_lines(draw):
    """The lines of a text that is taken, header first."""
    airframe = draw.pick(list(fc.AIRFRAMES))
    lines = [[fc.AIRFRAMES[airframe], *some_settings(draw, airframe, a_setting)]]
    return airframe, lines + [some_call(draw, airframe) for _ in range(draw.below(7))]


def dressed(draw, lines):
    """Lines with blanks, comments, empty lines and any line ends."""
    ends = draw.pick([["\n"], ["\r\n"], ["\r"], ["\n", "\r\n", "\r"]])
    text = ""
    for words in lines:
        while draw.once_in(6):
            text += draw.pick(BLANKS) + draw.pick(COMMENTS) + draw.pick(ends)
        text += draw.pick(BLANKS) + "".join(word + draw.pick([" ", draw.pick(BLANKS) + "\t"]) for word in words[:-1])
        text += words[-1] + draw.pick(BLANKS) + (draw.pick(COMMENTS) if draw.once_in(6) else "") + draw.pick(ends)
    text = text.rstrip("\r\n") if draw.once_in(5) else text
    return draw.pick([b"", b"", b"", b"\xef\xbb\xbf"]) + text.encode("utf-8" if draw.once_in(2) else "latin-1", "replace")


def with_line(draw, lines, line, first=1):
    """The lines with one more, after the first so many."""
    at = first + draw.below(len(lines) + 1 - first)
    return lines[:at] + [line] + lines[at:]


def changed(draw, text):
    """A text with some bytes changed, left out or put in."""
    text = bytearray(text)
    for _ in range(1 + draw.below(3)):
        at = draw.below(len(text) + 1)
        text[at : at + draw.below(3)] = bytes(draw.pick([*b"\n\r \t#=,.x-+e019zt\x00\x0b\xff", draw.below(256)]) for _ in range(draw.below(3)))
    return bytes(text)


def other_airframe(draw, airframe):
    """A settings line with the numbers or a name of the other airframe."""
    other = next(kind for kind in fc.AIRFRAMES if kind != airframe)
    own = [name for name in NAMES[other] if name not in NAMES[airframe]]
    return ["settings", *draw.pick([[a_setting(draw) for _ in NAMES[other]], [f"{draw.pick(own)}=1"]])]


def too_many(draw):
    """Calls near the most: 799 or more in few lines."""
    few = draw.below(4)
    rest = MOST_CALLS - few + draw.pick([0, 0, 1, 2])
    lines = [["prime", f"z={a_number(draw)}"] for _ in range(few)]
    while rest > 0:
        part = min(rest, draw.pick([1, 100, 400, MOST_CALLS]))
        lines.append([*draw.pick([["cut", "11"], ["prime", "z=1"]]), f"times={part}"])
        rest -= part
    return lines


def a_text(seed, index):
    """Text number `index` of a seed."""
    draw = Draw(seed * 1000003 + index)
    airframe, lines = some_lines(draw)
    group = index % 16
    if group == 8:
        lines = with_line(draw, lines, draw.pick(BROKEN_LINES).split(" "))
    elif group == 9:
        lines = with_line(draw, lines, draw.pick(BROKEN_LINES + ODD_LINES).split(" "))
    elif group == 10:
        lines = with_line(draw, lines, draw.pick(ODD_LINES).split(" "))
    elif group == 11:
        lines = with_line(draw, lines, other_airframe(draw, airframe))
    elif group == 12:
        lines = draw.pick([lines[1:], lines[:1], [], with_line(draw, lines, lines[0])])
    elif group == 13:
        lines = lines[:1] + too_many(draw)
        if draw.once_in(4):
            lines = with_line(draw, lines, draw.pick(BROKEN_LINES).split(" "))
    text = dressed(draw, lines) if lines or draw.once_in(2) else b""
    if group == 12 and draw.once_in(4):
        return draw.pick([b"\xff\xfe", b"\xfe\xff", b"\xef\xbb", b"\xef\xbb\xbf\xef\xbb\xbf"]) + text
    return changed(draw, text) if group >= 14 else text
