"""Counts checks, and says of each that fails what it was."""
import random
import struct
import subprocess
from xml.etree import ElementTree

import flight_card as fc

# Numbers that a card's author would not think of: zeros, ends of ranges, infinities, NaNs, the smallest and the largest.
ODD_BITS = [0, 0x80000000, 1, 0x80000001, 0x00800000, 0x3F800000, 0xBF800000, 0x7F7FFFFF, 0xFF7FFFFF, 0x7F800000, 0xFF800000, 0x7FC00000, 0xFFC00001, fc.PI, fc.HALF_PI]


class Checks:
    def __init__(self):
        self.passed = self.failed = 0

    def hold(self, what, good, found=""):
        """Counts one check; a failed one is shown with what was found."""
        if good:
            self.passed += 1
        else:
            self.failed += 1
            print(f"FAILED: {what}" + (f": {found}" if found else ""), flush=True)

    def end(self):
        """Shows the sum; the exit status."""
        print(f"{self.passed} passed, {self.failed} failed", flush=True)
        return 1 if self.failed or not self.passed else 0


def run(words, data=b"", **how):
    """Status, output and errors of a command."""
    done = subprocess.run(words, input=data, capture_output=True, timeout=600, check=False, **how)
    return done.returncode, done.stdout, done.stderr


def title_of(svg):
    """The title of a picture, or None if it is not well-formed."""
    try:
        return ElementTree.fromstring(svg).findtext("{*}title")
    except ElementTree.ParseError:
        return None


def runner_says(runner, card):
    return run([runner], card)[1].decode("ascii")


def some_number(draw):
    """The bits of a number: mostly one that a flight has."""
    if draw.random() < 0.1:
        return draw.choice(ODD_BITS) if draw.random() < 0.8 else draw.getrandbits(32)
    return struct.unpack("<I", struct.pack("<f", round(draw.uniform(-2, 20), draw.randrange(4))))[0]


def some_step(draw):
    numbers = [some_number(draw) for _ in range(fc.NUMBERS)]
    numbers[0] = fc.bits_of(draw.choice([0.005, 0.02, 0.5, 2.0])) if draw.random() < 0.95 else numbers[0]
    numbers[7:11] = [fc.bits_of(value) for value in draw.choice([(1, 0, 0, 0), (0.70710677, 0, 0.70710677, 0)])] if draw.random() < 0.9 else numbers[7:11]
    numbers[12] = fc.bits_of(draw.uniform(0, 3)) if draw.random() < 0.95 else numbers[12]
    numbers[13] = 0 if draw.random() < 0.95 else numbers[13]
    return fc.STEP, draw.choice([0, 1, 1, 2, 3, 3]), numbers


def some_settings(draw, airframe):
    """Settings near the defaults, one of them odd at times."""
    numbers = [fc.bits_of(float(setting.default)) for setting in fc.SETTINGS_OF[airframe]]
    numbers += [0] * (fc.NUMBERS - len(numbers))
    if draw.random() < 0.2:
        numbers[draw.randrange(fc.NUMBERS)] = some_number(draw)
    return numbers


def some_call(draw, airframe):
    kind = draw.choices([fc.PRIME, fc.STEP, fc.CUT, fc.SETTINGS], [1, 20, 1, 1])[0]
    if kind == fc.STEP:
        return some_step(draw)
    if kind == fc.SETTINGS:
        return kind, 0, some_settings(draw, airframe)
    return kind, draw.choice(fc.OPTIONS[kind]), [some_number(draw) for _ in range(fc.NUMBERS)]


def some_card(seed):
    """A random card: most are flown, some have an odd kind, option, link or length."""
    draw = random.Random(seed)
    airframe = draw.choice(list(fc.AIRFRAMES))
    count = draw.choice([1, 2, 5, 20, 60, 200])
    records = [(airframe, 0, some_settings(draw, airframe))] + [some_call(draw, airframe) for _ in range(count - 1)]
    links = list(range(1, count)) + [0]
    if draw.random() < 0.3:
        draw.shuffle(links)
    card = bytearray(b"".join(fc.pack(fc.Record(kind, option, after, numbers)) for (kind, option, numbers), after in zip(records, links)))
    for _ in range(draw.choice([0, 0, 0, 1, 3])):
        card[draw.randrange(len(card))] = draw.randrange(256)
    return bytes(card[: len(card) - draw.choice([0] * 19 + [1])])
