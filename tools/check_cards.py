"""Checks of flight_card.py against the proved runner, by flying cards at each edge of what it takes."""
import glob
import os
import subprocess
import tempfile
from collections import namedtuple
from concurrent.futures import ThreadPoolExecutor
from itertools import zip_longest

import flight_card as fc
import tool
from check_pages import held
from pages import ROOT, TABLES, each_setting, idle_of, setting_name, source
from tool import Bad

# A card, what it is in words, and what the transcript has to be in short.
Try = namedtuple("Try", "what card wanted")


def said_by(runner, cards):
    """The transcripts of cards, two runs at a time."""
    with ThreadPoolExecutor(2) as pool:
        return list(pool.map(lambda card: transcript(runner, card), cards))


def transcript(runner, card):
    """What the runner writes. The card comes from a file, so that a runner that does not read it ends nothing here."""
    with tempfile.TemporaryFile() as file:
        file.write(card)
        file.seek(0)
        try:
            done = subprocess.run([runner], stdin=file, capture_output=True, timeout=60, check=False)
        except subprocess.TimeoutExpired:
            raise Bad(f"{runner} did not end in 60 s") from None
    return done.stdout.decode("ascii", "replace")


def short(text):
    """A transcript in short: the refusal of the card, or the indexes of its calls and its last line."""
    lines = text.splitlines() or ["nothing"]
    return lines[0] if len(lines) == 1 else f"{' '.join(line.split()[0] for line in lines[:-1] if line)} {lines[-1]}"


def first_line(text):
    """Of a transcript whose first call matters: how it was refused, or 'taken'."""
    words = (text.splitlines() or [""])[0].split()
    return " ".join(words[1:]) if words[1:2] == ["refused"] else "taken" if len(words) == 1 + len(fc.Answer._fields) else " ".join(words) or "nothing"


def foreseen(card):
    """What flight_card.checked says of a card, in short."""
    chain = fc.checked(card)
    if isinstance(chain, fc.Refusal):
        return f"card {chain.number}{f' {chain.field}' if chain.number == 3 else ''}"
    return " ".join([*map(str, chain), f"end {len(chain)}"])


def tried(what, card):
    return Try(what, card, foreseen(card))


def hold_tries(found, what, runner, tries, shorten=short, wanted_by=TABLES):
    """The runner says of each card what is wanted; if not, the first that it differs on is named."""
    for attempt, text in zip(tries, said_by(runner, [attempt.card for attempt in tries])):
        if shorten(text) != attempt.wanted:
            said, wanted = (ascii(shortened(words)) for words in parting(shorten(text), attempt.wanted))
            found.hold(what, False, f"with {attempt.what} the runner says {said}, {wanted_by} {wanted}; correct the one that is wrong")
            return
    found.hold(what, bool(tries), "there was no card to try")


def parting(said, wanted):
    """The first lines at which two texts part."""
    lines = zip_longest(said.split("\n"), wanted.split("\n"), fillvalue="nothing")
    return next(pair for pair in lines if pair[0] != pair[1])


def shortened(words):
    return words if len(words) < 60 else f"{words[:25]} .. {words[-25:]}"


def numbers_of(values):
    """The 19 numbers of a record, of places and bits; the others 0."""
    return [values.get(place, 0) for place in range(1, fc.NUMBERS + 1)]


def defaults_of(kind):
    return {place: fc.bits_of(float(setting.default)) for place, setting in enumerate(fc.SETTINGS_OF[kind], 1)}


def header(kind, values=(), after=0, option=0, settings_of=None):
    return fc.pack(fc.Record(kind, option, after, numbers_of({**defaults_of(settings_of or kind), **dict(values)})))


def step_numbers(**values):
    """The numbers of a step: 1 s at 10 m, level and north, entry tilt π/2, with others in the place of these by name."""
    usual = {"dt": [0x3F800000], "z": [fc.bits_of(10)], "attitude": [0x3F800000, 0, 0, 0], "entry_tilt": [fc.HALF_PI], **values}
    return numbers_of({fc.PLACE[name] + i: bits for name, numbers in usual.items() for i, bits in enumerate(numbers)})


def call(kind, option=0, after=0, numbers=None):
    return fc.pack(fc.Record(kind, option, after, numbers or step_numbers()))


def named(bits):
    return f"{bits:08X} ({fc.decimal(bits)})"


def bits_around(written):
    """Bits to try in a range: special numbers, and at each end it and the numbers next to it."""
    low, _, high, _ = fc.ends_of(written)
    tries = [0x7FC00000, 0x7F800001, 0xFFC00001, 0x7F800000, 0xFF800000, fc.bits_of(-1), 0x80000000, 0, 1, 0x7F7FFFFF]
    for end in (fc.bits_of(low), fc.bits_of(high)):
        tries += [end, end + 1, end - 1 if end else 0x80000001]
    return list(dict.fromkeys(tries))


def run_settings(found, runner):
    """Each setting, in a header and in a settings call, is taken or refused as its range says."""
    for kind, place, setting in each_setting():
        tries = [tried(f"it at {named(bits)}", header(kind, {place: bits})) for bits in bits_around(setting.range)]
        hold_tries(found, f"{setting_name(kind, place, setting)}, range {setting.range}", runner, tries)
    for kind, settings in fc.SETTINGS_OF.items():
        tries = []
        for place, setting in enumerate(settings, 1):
            for bits in bits_around(setting.range):
                record = numbers_of({**defaults_of(kind), place: bits})
                wanted = "taken" if fc.within(fc.value_of(bits), setting.range) else f"refused 3 {place}"
                tries.append(Try(f"{setting.name} at {named(bits)}", header(kind, after=1) + call(fc.SETTINGS, numbers=record), wanted))
        hold_tries(found, f"settings calls of the {fc.AIRFRAMES[kind]}", runner, tries, first_line)
        bad = [tried(f"settings {place} and after at NaN", header(kind, {late: 0x7FC00000 for late in range(place, fc.NUMBERS + 1)})) for place in range(1, fc.NUMBERS + 1)]
        hold_tries(found, f"the first bad setting of the {fc.AIRFRAMES[kind]}", runner, bad)


def run_kinds(found, runner):
    """The kinds and options that the runner takes are those of flight_card.py."""
    some = next(iter(fc.AIRFRAMES))
    kinds = [tried(f"kind {kind}", header(kind, settings_of=kind if kind in fc.AIRFRAMES else some)) for kind in range(256)]
    hold_tries(found, "kinds of a header", runner, kinds)
    for kind, name in fc.AIRFRAMES.items():
        hold_tries(found, f"options of kind {kind}, {name}", runner, [tried(f"option {option}", header(kind, option=option)) for option in range(256)])
    first = header(some, after=1)
    calls = [kind for kind in fc.KINDS if kind not in fc.AIRFRAMES]
    hold_tries(found, "kinds of a call", runner, [tried(f"kind {kind}", first + call(kind)) for kind in range(256)])
    for kind in calls:
        hold_tries(found, f"options of kind {kind}, {fc.KINDS[kind]}", runner, [tried(f"option {option}", first + call(kind, option)) for option in range(256)])
    hold_tries(found, "a record that the chain does not reach", runner, [tried(f"one of bytes {byte:02X}", first + call(fc.PRIME) + bytes([byte]) * fc.RECORD_BYTES) for byte in (0, 5, 255)])


def run_lengths(found, runner):
    one, most = fc.RECORD_BYTES, fc.RECORD_BYTES * fc.MOST_RECORDS
    kind = next(iter(fc.AIRFRAMES))
    sizes = [0, 1, one - 1, one, one + 1, 2 * one, 3 * one - 1, most - 1, most, most + 1, most + one, 2 * most]
    hold_tries(found, "lengths of a card", runner, [tried(f"{size} bytes", header(kind).ljust(size, b"\0")[:size]) for size in sizes])


def linked(links):
    """A card whose record i names links[i]: a header and primes."""
    kind = next(iter(fc.AIRFRAMES))
    return header(kind, after=links[0]) + b"".join(call(fc.PRIME, after=link) for link in links[1:])


def run_links(found, runner):
    most = fc.MOST_RECORDS
    groups = {
        "links past the card": [[1], [2, 0], [65535], [1, 2], [1, 2, 3], [1, 65535, 0], [2, 0, 3]],
        "links to a record that was passed": [[1, 1], [1, 2, 1], [1, 2, 2], [1, 2, 3, 2], [2, 2, 1], [*range(1, most), 1]],
        "links that may be followed": [[0], [0, 0], [0, 1], [1, 0], [2, 0, 1], [3, 0, 1, 2], [3, 3, 3, 0], [*range(1, most), 0], [most - 1, 0, *range(1, most - 1)]],
    }
    for what, cards in groups.items():
        hold_tries(found, what, runner, [tried(f"next indexes {shortened(' '.join(map(str, links)))}", linked(links)) for links in cards])
    bad = call(255)
    orders = {
        "a bad option, setting and link of the header": header(fc.TAILSITTER, {1: 0}, 9, option=1),
        "a bad setting and link of the header": header(fc.TAILSITTER, {1: 0}, 9),
        "a bad link and a bad record that is not reached": linked([1, 9]) + bad,
        "a bad record that is reached": linked([1, 2]) + bad,
        "a circle and a bad record that is not reached": linked([1, 1]) + bad,
    }
    hold_tries(found, "the order of a card's checks", runner, [tried(what, card) for what, card in orders.items()])


def run_steps(found, runner):
    """Refusals 1 and 2 of a step, and what its option says."""
    nose = {"a finite nose-up": [0x3F800000, 0, 0, 0], "a NaN in the attitude": [0x7FC00000, 0, 0, 0], "an infinite nose-up": [0x7F800000, 0, 0x3F800000, 0]}
    for kind, name in fc.AIRFRAMES.items():
        first = header(kind, after=1)
        times = [(bits, tilt) for bits in bits_around("(0, ∞)") for tilt in (fc.HALF_PI, 0x7FC00000)]
        tilt_counts = fc.SETTINGS_OF[kind] is fc.TAILSITTER_SETTINGS
        tries = []
        for bits, tilt in times:
            wanted = "refused 1" if not fc.within(fc.value_of(bits), "(0, ∞)") else "refused 2" if tilt_counts and tilt == 0x7FC00000 else "taken"
            tries.append(Try(f"dt {named(bits)}, entry tilt {named(tilt)}", first + call(fc.STEP, numbers=step_numbers(dt=[bits], entry_tilt=[tilt])), wanted))
        hold_tries(found, f"dt of a {name}'s step", runner, tries, first_line)
        tries = []
        for words, attitude in nose.items():
            for bits in bits_around("[0, π]"):
                refused = tilt_counts and words == "a finite nose-up" and not fc.within(fc.value_of(bits), "[0, π]")
                card = first + call(fc.STEP, numbers=step_numbers(entry_tilt=[bits], attitude=attitude))
                tries.append(Try(f"entry tilt {named(bits)} and {words}", card, "refused 2" if refused else "taken"))
        hold_tries(found, f"entry tilt of a {name}'s step", runner, tries, first_line)


def run_options(found, runner):
    """A quadplane in ToPlane, its minimum airspeed in number 12, and a step with each option: it is in Copter after it, or its ramp has begun, or neither."""
    tries = []
    for option in fc.OPTIONS[fc.STEP]:
        flown, low = step_numbers(airspeed=[fc.bits_of(100)]), numbers_of({})
        calls = [(fc.PRIME, 0, 2, low), (fc.STEP, fc.PLANE_REQUESTED, 3, flown), (fc.STEP, option, 4, flown), (fc.STEP, fc.PLANE_REQUESTED, 0, flown)]
        card = header(fc.QUADPLANE, after=1) + b"".join(call(*words) for words in calls)
        wanted = "C" if not option & fc.PLANE_REQUESTED else "the ramp" if option & fc.AIRSPEED_PRESENT else "no ramp"
        tries.append(Try(f"option {option}", card, wanted))
    hold_tries(found, "what a step's option says", runner, tries, ramp_words)


def ramp_words(text):
    """Of a transcript of run_options: what the third call and the one after it show."""
    try:
        answers = [answer for _, answer in fc.lines_of(text)]
        return "C" if answers[2].mode == "C" else "the ramp" if answers[3].share_or_tilt < 1 else "no ramp"
    except (Bad, IndexError, AttributeError):
        return short(text)


def run_idle(found, runner):
    """Numbers that are not looked at, or never matter: with others in their place the examples have the transcripts that are recorded."""
    names = sorted(os.path.basename(path)[:-5] for path in glob.glob(os.path.join(glob.escape(ROOT), "examples/*.card")))
    flown = [(name, tool.read(os.path.join(ROOT, f"examples/{name}.card")), source(f"examples/{name}.transcript")) for name in names]
    for kind, name in fc.KINDS.items():
        tries = [Try(f"{bits:08X} there in {example}", changed(card, kind, bits), text) for example, card, text in flown for bits in (0x7FC00000, 0xC2F6E979)]
        hold_tries(found, f"numbers that are not looked at in kind {kind}, {name}", runner, tries, str, "the recorded transcript")
    for kind, places in fc.IDLE.items():
        own = [flight for flight in flown if flight[1][:1] == bytes([kind])]
        tries = [Try(f"{bits:08X} there in {example}", changed(card, fc.STEP, bits, places), text) for example, card, text in own for bits in (0x3F000000, 0xC2F6E979)]
        hold_tries(found, f"numbers that never matter in a {fc.AIRFRAMES[kind]}'s step", runner, tries, str, "the recorded transcript")


def changed(card, kind, bits, places=None):
    """A card with other bits in the idle numbers of a kind, or in the places that are named."""
    airframe = card[0]
    records = []
    for record in fc.records_of(card):
        idle = places or idle_of(airframe if record.kind == fc.SETTINGS else record.kind)
        idle = idle + [fc.PLACE["airspeed"]] * (record.kind == fc.STEP and not places and not record.option & fc.AIRSPEED_PRESENT)
        numbers = [bits if place in idle else number for place, number in enumerate(record.numbers, 1)]
        records.append(fc.pack(record._replace(numbers=numbers if record.kind == kind else record.numbers)))
    return b"".join(records)


def all_cards(found, runner):
    for check in (run_settings, run_kinds, run_lengths, run_links, run_steps, run_options, run_idle):
        held(found, check, found, runner)
