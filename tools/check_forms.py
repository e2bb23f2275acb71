"""Checks of the text form, the table and the picture."""
import math
import pathlib
import random
import re

import card_text
import checks
import flight_card as fc
import some_texts
import writer_texts
from flight import flown
from picture import picture
from table import shown, table_of
from tool import Bad

ROOT = pathlib.Path(__file__).resolve().parent.parent
EXAMPLES = sorted(path.with_suffix("") for path in (ROOT / "examples").glob("*.txt"))
CARDS = 300
TEXTS = 2000
# Texts that are refused: the line, and words of what is said.
BAD_TEXTS = [
    ("quadplane 1 2 3", 1, "has 3 numbers; it takes the 15 of a quadplane"),
    ("tailsitter" + " 1" * 15, 1, "the 17 of a tailsitter"),
    ("prime z=0\nprime 0", 2, "prime z=NUMBER"),
    ("prime z=1e-46", 1, "would become 0"),
    ("prime z=-1e-60", 1, "would become 0"),
    ("prime z=3.4028236e38", 1, "would become infinity"),
    ("prime z=1e999", 1, "would become infinity"),
    ("prime z=1e99999", 1, "is no number"),
    ("prime z=x3F80000", 1, "8 hexadecimal digits"),
    ("prime z=", 1, "is no number"),
    ("prime z=１", 1, "is no number"),
    ("prime z=0 next=65536", 1, "from 0 to 65535"),
    ("prime z=0 times=0", 1, "from 1 to 800"),
    ("prime z=0 next=1 next=1", 1, "stands twice"),
    ("next=1", 1, "begins with a record"),
    ("\r\n# a comment\r\nstep dt=1", 3, "step copter"),
    ("step plane dt=1", 1, "attitude is missing"),
    ("step plane attitude=1,0,0,0", 1, "dt is missing"),
    ("step plane dt=1 attitude=1,0,0", 1, "has 3 numbers; it takes 4"),
    ("step plane dt=1 dt=1 attitude=1,0,0,0", 1, "stands twice"),
    ("step plane speed=1", 1, "has no 'speed'"),
    ("step plane next=1 dt=1", 1, "has no 'next'"),
    ("cut", 1, "cut REASON"),
    ("cut 256", 1, "11 Unsupported"),
    ("cut Rollerror", 1, "15 RollError"),
    ("cut RollError 15", 1, "15 RollError"),
    ("quadplane 9 lift_ramp_s=4", 1, "'9' has no name"),
    ("quadplane lift_ramp_s=4 lift_ramp_s=4", 1, "stands twice"),
    ("quadplane back_done_cosine=1", 1, "a quadplane has no setting 'back_done_cosine'"),
    ("quadplane lift_ramp_s", 1, "has 1 number"),
    ("quadplane lift_ramp_s =4", 1, "has no name"),
    ("tailsitter\nsettings lift_ramp_s=4", 2, "a tailsitter has no setting 'lift_ramp_s'"),
    ("prime z=0\nsettings timeout_s=4", 2, "the first line is no header"),
    ("prime z=0\nsettings", 2, "the first line is no header"),
    ("prime\vz=0", 1, "begins no record"),
    ("prime z=0\u00a0", 1, "is no number"),
    ("step Plane dt=1", 1, "in small letters"),
    ("step plane dt = 1", 1, "without a space"),
    ("step plane dt=1 attitude=1,0,0,0 demand=0,5", 1, "no comma"),
    ("record 1", 1, "record KIND OPTION"),
    ("record 1 0" + " 0" * 20, 1, "up to 19 numbers"),
    ("land now", 1, "begins no record"),
    ("prime z=0 times=800\n" * 82, 82, "more than 65536 records"),
]
# Headers with the default settings.
GOOD = "quadplane 9 5 15 5 0 3 5 10 2 0.1 1 0.33 0.05235988 0.5 0.7853982"
GOOD_TAILSITTER = "tailsitter 0.87266463 0.7853982 1.3962634 0 0.87266463 0.7853982 15 5 0 0.5 0.5 1 0.4 0.5 0.7853982 0.70710677 0.70710677"
# Texts that are taken, and the same in plain words.
SAME_TEXTS = [
    ("\ufeffprime z=1\r\nprime z=2\r\n", "prime z=1\nprime z=2\n"),
    ("prime z=1 # one\n\n\t prime z=2", "prime z=1\nprime z=2\n"),
    ("prime z=+1e0 times=2", "prime z=1\nprime z=1\n"),
    ("prime z=-0", "prime z=x80000000"),
    ("prime z=1e-45", "prime z=x00000001"),
    ("prime z=0.00000e5", "prime z=0"),
    ("prime z=3.4028235677973366e38", "prime z=x7F7FFFFF"),
    ("prime z=-inf", "prime z=xFF800000"),
    ("prime z=nan", "prime z=x7fc00000"),
    ("prime z=1.000000059604644775390625", "prime z=x3F800000"),
    ("prime z=1.000000178813934326171875", "prime z=x3F800002"),
    ("prime z=-1.00000017881393432617187500001", "prime z=xBF800002"),
    ("prime z=1\rprime\tz=2\r", "prime z=1\nprime z=2\n"),
    ("cut RollError\ncut BelowPlaneMinAltitude", "cut 15\ncut 16"),
    ("quadplane", GOOD),
    ("tailsitter\nsettings", f"{GOOD_TAILSITTER}\nsettings{GOOD_TAILSITTER[10:]}"),
    ("quadplane roll_limit_rad=2 min_airspeed_mps=3", GOOD.replace("plane 9", "plane 3").replace("0.7853982", "2")),
    ("quadplane timeout_s=7\nsettings min_airspeed_mps=3 times=2", f"{GOOD.replace(' 15 ', ' 7 ')}\n" + f"settings{GOOD[9:].replace(' 9 ', ' 3 ')}\n" * 2),
    (f"record 6 0{GOOD[9:]}\nsettings", f"{GOOD}\nsettings{GOOD[9:]}"),
]
# Texts of refused cards, and words of why.
REFUSED_CARDS = [
    ("prime z=0", "10: record 0 is of kind 1; the header is of one of these: 5 tailsitter, 6 quadplane"),
    (f"record 6 1 {GOOD[10:]}", "10: record 0, a quadplane, has option 1; it has to be 0"),
    (GOOD.replace("0.7853982", "4"), "3: setting 15 of the quadplane, roll_limit_rad, is 4 rad; it has to be above 0 and at most π"),
    (f"{GOOD}\nprime z=0 next=7", "8: record 1 names record 7 as the next one, and the card has records 0 to 1"),
    (f"{GOOD} next=1", "8: record 0 names record 1 as the next one, and the card has the header alone"),
    (f"{GOOD} next=2\nprime z=0 next=2\nprime z=0 next=1", "9: record 1 names record 2 as the next one, which was passed already"),
    (f"{GOOD}\nprime z=0\nrecord 2 4", "10: record 2, a step, has option 4; it has to be 0 to 3"),
    (f"{GOOD}\nrecord 5 0", "10: record 1 is of kind 5; a call is of one of these: 1 prime, 2 step, 3 cut, 4 settings"),
    ("", "6: the card is empty"),
    (f"{GOOD} times=800\nprime z=0", "6: the card has more than 64000 bytes"),
]
# Numbers of the table, and how they are shown with so many decimals.
SHOWN = [(123.4567, 3, "123.457"), (0.0001, 3, "0.0001"), (-1e-9, 4, "-1e-09"), (-0.0, 4, "0.0000"), (0.00049, 3, "0.00049"), (0.0006, 3, "0.001"), (1e7, 3, "1e+07"), (math.inf, 3, "inf"), (math.nan, 3, "nan")]


def said_of(text):
    """What the text form says of a text: '' if it is taken."""
    try:
        card_text.encode(text)
        return ""
    except Bad as bad:
        return str(bad)


def texts(found):
    """The text form: what it takes, what it refuses and how it says so."""
    for text, line, words in BAD_TEXTS:
        said = said_of(text.encode())
        found.hold(f"text {ascii(text[:40])} is refused in line {line}", said.startswith(f"line {line}: ") and words in said, said or "it is taken")
    for text, plain in SAME_TEXTS:
        found.hold(f"text {ascii(text)} is {ascii(plain)}", card_text.encode(text.encode()) == card_text.encode(plain.encode()))
    found.hold("a text in UTF-16 is told", "UTF-16" in said_of("prime z=0".encode("utf-16")))
    found.hold("a card of 79 bytes has no text", "79 bytes" in decoded(bytes(79)))


def bad_settings(headers):
    """Of each header the bad setting, or 0; 0 where there is no header."""
    return [fc.bad_setting(card[0], fc.records_of(card)[0]) if card else 0 for card in headers]


def written_texts(found, writer):
    """Texts through the writer: its cards, refusals and lines are those of the text form."""
    given = [path.with_suffix(".txt").read_bytes() for path in EXAMPLES] + [text.encode() for text, *_ in BAD_TEXTS + SAME_TEXTS]
    given += [some_texts.a_text(1, index) for index in range(TEXTS)]
    differ = [given[i] for i, *_ in writer_texts.differing(given, bad_settings, [writer])]
    found.hold(f"{len(given)} texts through the writer", not differ, f"{len(differ)} differ, the first is {differ[:1]}")


def refusals(found, runner):
    """The words of refused cards, with the record, by the runner's own refusal."""
    for text, words in REFUSED_CARDS:
        card = card_text.encode(text.encode())
        said = fc.card_words(card, checks.runner_says(runner, card))
        found.hold(f"card {ascii(text[-40:])} is refused in words", said.startswith(f"card refused, {words}"), said)


def decoded(card):
    """The text of a card, or what is said of it."""
    try:
        return "".join(f"{line}\n" for line in card_text.decode(card))
    except Bad as bad:
        return str(bad)


def any_text(found):
    """Any bytes are a card's text or refused with a line."""
    draw, words = random.Random(1), ["step", "plane", "prime", "z=", "dt=1", "attitude=", "1,0,0,0", "nan", "x7F", "=", ",", "#", "\n", "\r", " ", "next=", "times=9", "\ufeff", "1e", "-", "\0", "é", "quadplane", "cut", "record"]
    bad = ""
    for _ in range(TEXTS):
        text = "".join(draw.choice(words) + draw.choice(["", " "]) for _ in range(draw.randrange(20))).encode()
        text += bytes(draw.randrange(256) for _ in range(draw.choice([0, 0, 5])))
        said = said_of(text)
        bad = bad or (repr(text) if said and not said.startswith("line ") else "")
    found.hold(f"{TEXTS} random texts are taken, or refused with a line", not bad, bad)


def rows_agree(transcript, lines):
    """Whether the table's rows hold the transcript's words and numbers; these are taken from the bits once more."""
    rows = [re.split(" {2,}", row.strip()) for row in lines[lines.index("") + 2 : -1] if not row.startswith("(")]
    said = [line.split(" ") for line in transcript.splitlines()]
    return len(rows) == len(said) - 1 and all(shows(row, words) for row, words in zip(rows, said))


def shows(row, words):
    """Whether a row is of a transcript's line."""
    if row[0] != words[0] or words[1] == "refused":
        return row[0] == words[0] and row[3].startswith(f"refused {words[2]}: ")
    mode, *numbers, handoff, report = row[5:11]
    same = all(near(shown, word) for shown, word in zip(numbers, (words[2], words[5], words[6])))
    return same and mode == fc.MODES[words[1]] and handoff == ("handoff" if words[3] == "1" else "-") and report.split(" ")[0] == (words[4] if words[4] != "0" else "-")


def near(shown, word):
    """Whether a number of the table is that of a transcript's bits."""
    if "-" in (shown, word):
        return shown == word
    number = fc.value_of(int(word, 16))
    return math.isnan(number) if shown == "nan" else abs(float(shown) - number) <= max(0.5e-4, abs(number) * 0.01) * 1.001


def drawn(flight, title):
    """Whether a picture is well-formed and has its title, and no coordinate that is no number."""
    svg = picture(flight, title)
    return checks.title_of(svg) == title and not re.search(r'[\s",]-?(nan|inf)[\s",]', svg)


def examples(found, runner):
    """Each example: text, card, transcript and table are of one flight."""
    for path in EXAMPLES:
        name = path.name
        card, transcript = path.with_suffix(".card").read_bytes(), path.with_suffix(".transcript").read_text()
        found.hold(f"{name}: the card is its text's", card_text.encode(path.with_suffix(".txt").read_bytes()) == card)
        found.hold(f"{name}: the runner gives its transcript", checks.runner_says(runner, card) == transcript)
        if not transcript.startswith("card"):
            flight = flown(card, transcript)
            found.hold(f"{name}: the table has the transcript's numbers", rows_agree(transcript, list(table_of(flight))))
            found.hold(f"{name}: the picture is well-formed", drawn(flight, name))


def random_cards(found, runner):
    """Random cards through the text form and back, the check, the table and the picture."""
    bad = {"text": "", "check": "", "table": "", "picture": ""}
    flights = 0
    for seed in range(CARDS):
        card = checks.some_card(seed)
        transcript = checks.runner_says(runner, card)
        if len(card) % fc.RECORD_BYTES == 0 and card_text.encode(decoded(card).encode()) != card:
            bad["text"] = bad["text"] or f"card {seed}"
        if verdict(card) != transcript.splitlines()[0].startswith("card") * transcript.strip():
            bad["check"] = bad["check"] or f"card {seed}: {verdict(card)!r} and {transcript.splitlines()[0]!r}"
        if transcript.startswith("card"):
            fc.card_words(card, transcript)
            continue
        flights += 1
        flight = flown(card, transcript)
        if not rows_agree(transcript, list(table_of(flight))):
            bad["table"] = bad["table"] or f"card {seed}"
        if not drawn(flight, f"card {seed}"):
            bad["picture"] = bad["picture"] or f"card {seed}"
    found.hold(f"{CARDS} random cards: a third or more are flown", flights * 3 >= CARDS, str(flights))
    for what, seen in bad.items():
        found.hold(f"{CARDS} random cards: {what}", not seen, seen)


def verdict(card):
    """What the runner writes of a card that is refused, by this side's check; '' if it is flown."""
    found = fc.checked(card)
    if not isinstance(found, fc.Refusal):
        return ""
    return f"card {found.number}" + f" {found.field}" * (found.number == 3)


def all_forms(found, runner, writer):
    texts(found)
    any_text(found)
    written_texts(found, writer)
    refusals(found, runner)
    for number, places, words in SHOWN:
        found.hold(f"{number} with {places} decimals", shown(number, places) == words, shown(number, places))
    examples(found, runner)
    random_cards(found, runner)
