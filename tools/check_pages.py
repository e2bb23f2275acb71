"""Checks of docs/SETTINGS.md and docs/CARD.md against flight_card.py, and of its tables against the text of the code."""
import glob
import os
import re

import flight_card as fc
import tool
from pages import CARD_PAGE, PARTS, RANGES_CODE, RANGES_DEFINITION, ROOT, SETTINGS_CODE, SETTINGS_PAGE, TABLES, broken_tables, each_setting, mark_words, marked, read_by, row_of, setting_name, settings_page, source, span, with_unit
from tool import Bad

WRITE = "python3 -B tools/pages.py write"
JOINED_SETTINGS_CODE, RECORD_CODE, KINDS_CODE = "crates/joined/src/settings.rt", "crates/card/src/record.rt", "crates/card/src/kind.rt"
CALL_CODE = "crates/joined/src/call.rt"
NAMES_CODE = "crates/writer/src/names.rt"
REASONS_CODE, LETTERS_CODE, REFUSALS_CODE = "crates/machines/src/lib.rt", "crates/joined/src/answer.rt", "crates/card/src/refusal.rt"
# Of each airframe: the struct of its settings, which is made of a record's numbers by From, and the constant of its defaults.
CODE = {fc.TAILSITTER: ("TransitionConfig", "TRANSITION_DEFAULTS"), fc.QUADPLANE: ("LiftTransitionConfig", "LIFT_TRANSITION_DEFAULTS")}
# How record.rt names each kind.
KIND_CODE = {fc.PRIME: "Call::Prime", fc.STEP: "Call::Step", fc.CUT: "cut_for", fc.SETTINGS: "Call::Settings", fc.TAILSITTER: "Airframe::Tailsitter", fc.QUADPLANE: "Airframe::Quadplane"}
# The refusals of the code that no card meets.
NOT_OF_A_CARD = {"HandoffDuration", "Tangent"}
# The units that end a name.
SUFFIXES = {"_mps2": "m/s²", "_radps": "rad/s", "_per_s": "1/s", "_mps": "m/s", "_rad": "rad", "_m": "m", "_s": "s"}
# A row of the table of ranges in the code, and in the definitions, where a word says whether an end counts.
CODE_ROW = re.compile(r"^    Range\((\w+), (\w+), (\w+), (\w+)\), // (\d+) (\w+) (.*)$", re.M)
DEFINED_ROW = re.compile(r"^    (?:∷ )?(\w+) (\w+) (\w+) (\w+)  -- (\d+) (\w+)$", re.M)
END_COUNTS = {"true": True, "false": False, "from": True, "above": False, "to": True, "below": False}
# A table of a line's names in the writer, and a row of it.
NAMED_PARTS = re.compile(r"^const (\w+): \[Part; \d+\] = \[(.*?)\];$", re.M | re.S)
NAMED_PART = re.compile(r'Part\("(\w+)", (\d+), (\d+)\)')
LETTERED = re.compile(r"FlightMode::(\w+) => b'(\w)'")


def check_settings_page(found):
    """docs/SETTINGS.md is as `write` makes it."""
    found.hold(SETTINGS_PAGE, source(SETTINGS_PAGE) == settings_page(), f"it is not what {TABLES} makes of it; change {TABLES} or tools/pages.py, then {WRITE}")


def check_card_page(found):
    """Each marked part of docs/CARD.md is as `write` makes it."""
    parts = marked(source(CARD_PAGE))
    for name, make in PARTS.items():
        texts = [text for part, text in parts if part == name]
        why = f"it is not what {TABLES} makes of it; {WRITE}" if texts else f"it is not there; {mark_words(name)}, then {WRITE}"
        found.hold(f"{CARD_PAGE}, part {name}", texts == [make()], f"it stands {len(texts)} times" if len(texts) > 1 else why)
    strange = [part for part, _ in parts if part not in PARTS]
    found.hold(f"{CARD_PAGE}, its marks", not strange, f"tools/pages.py makes no part {', '.join(strange)}")


def block(text, head, name):
    """What stands in the brackets after a head, up to the bracket that stands where the head begins."""
    body = re.search(rf"^( *){head}.*?\n(.*?)^\1\}}", text, re.M | re.S)
    if not body:
        raise Bad(f"{name}: there is no {head.replace(chr(92), '')}; correct what tools/pages.py looks for")
    return body[2]


def check_settings(found):
    """The settings' names and order, their places in a record, and their defaults."""
    text, joined = source(SETTINGS_CODE), source(JOINED_SETTINGS_CODE)
    for kind, settings in fc.SETTINGS_OF.items():
        struct, constant = CODE[kind]
        names = [setting.name for setting in settings]
        fields = re.findall(r"pub (\w+): f32", block(text, f"pub struct {struct} ", SETTINGS_CODE))
        found.hold(f"{TABLES}, names of the {fc.AIRFRAMES[kind]}'s settings", names == fields, first_difference(names, fields, f"{struct} of {SETTINGS_CODE}"))
        made = re.findall(r"(\w+): settings\.n(\d+),", block(joined, f"impl From<Settings> for {struct} ", JOINED_SETTINGS_CODE))
        placed = [(name, str(place)) for place, name in enumerate(names, 1)]
        found.hold(f"{TABLES}, places of the {fc.AIRFRAMES[kind]}'s settings", placed == made, first_difference(placed, made, f"{struct} of {JOINED_SETTINGS_CODE}"))
        defaults = dict(re.findall(r"(\w+): ([-+.\w]+),", block(text, f"pub const {constant}: ", SETTINGS_CODE)))
        for place, setting in enumerate(settings, 1):
            check_default(found, setting_name(kind, place, setting), setting, defaults.get(setting.name, "none"), constant)


def check_default(found, name, setting, code, constant):
    """A setting's default is the code's, as a binary32 number."""
    try:
        same = fc.bits_of(float(code)) == fc.bits_of(float(setting.default))
    except ValueError:
        same = False
    found.hold(f"{name}, default", same, f"{TABLES} has {setting.default}, {constant} of {SETTINGS_CODE} has {code}")


def check_ranges(found):
    """The table of ranges: numbers, names and rows, and in the code the range written beside each row."""
    ours = [(str(place), setting.name, *map(str, row_of(setting)), setting.range) for _, place, setting in each_setting()]
    code = [(place, name, *row(low, low_counts, high, high_counts), written) for low, low_counts, high, high_counts, place, name, written in CODE_ROW.findall(source(RANGES_CODE))]
    found.hold(f"{TABLES}, rows of the code", ours == code, first_difference(ours, code, f"RANGES of {RANGES_CODE}"))
    ours = [words[:-1] for words in ours]
    defined = [(place, name, *row(low, low_counts, high, high_counts)) for low_counts, low, high_counts, high, place, name in DEFINED_ROW.findall(source(RANGES_DEFINITION))]
    found.hold(f"{TABLES}, rows of the definitions", ours == defined, first_difference(ours, defined, f"table of {RANGES_DEFINITION}"))


def row(low, low_counts, high, high_counts):
    """A row of a table in words: bits as 8 digits, and whether each end counts."""
    return tuple(map(str, (f"{int(low, 0):08X}", END_COUNTS[low_counts], f"{int(high, 0):08X}", END_COUNTS[high_counts])))


def first_difference(ours, code, where):
    """Where two lists part, in words."""
    for place in range(max(len(ours), len(code))):
        mine, other = (" ".join(words) if isinstance(words, tuple) else words for words in (side[place] if place < len(side) else "nothing" for side in (ours, code)))
        if mine != other:
            return f"at {place + 1} {TABLES} has {mine}, {where} has {other}"
    return ""


def unit_of(name):
    """The name without its unit, and the unit that its end says; '' if it says none."""
    return next(((name.removesuffix(suffix), unit) for suffix, unit in SUFFIXES.items() if name.endswith(suffix)), (name, ""))


def check_units(found):
    for kind, place, setting in each_setting():
        unit = unit_of(setting.name)[1]
        found.hold(f"{setting_name(kind, place, setting)}, unit", unit in ("", setting.unit), f"{TABLES} has '{setting.unit}', the name says {unit}")


def functions():
    """Of the crates machines and joined, settings.rt left out: the text of each function by file and name, and the struct of each file's own settings."""
    bodies, owners = {}, {}
    for crate in ("machines", "joined"):
        for path in sorted(glob.glob(os.path.join(glob.escape(ROOT), f"crates/{crate}/src/*.rt"))):
            file = f"{crate}/{os.path.basename(path)[:-3]}"
            text = re.sub("//.*", "", tool.read(path).decode("utf-8", "replace"))
            owners[file] = (re.findall(r"pub config: (\w+)", text) or [""])[0]
            for found in re.finditer(r"^( *)(?:pub(?:\(crate\))? )?fn (\w+).*?^\1\}$", text, re.M | re.S):
                bodies[file, found[2]] = bodies.get((file, found[2]), "") + found[0]
    return {key: body for key, body in bodies.items() if not key[0].endswith("/settings")}, owners


def check_readers(found):
    """The functions that each setting names read it, and no others do."""
    bodies, owners = functions()
    if not bodies:
        raise Bad("crates/machines/src and crates/joined/src: there is no function")
    for kind, place, setting in each_setting():
        code = {key for key, body in bodies.items() if re.search(rf"\bconfig\.{setting.name}\b(?!\()", body)}
        here = read_by(setting)
        together = {key for _, _, other in each_setting() if other.name == setting.name for key in read_by(other)}
        stranger = {(file, name) for file, name in here if owners.get(file) not in ("", CODE[kind][0])}
        why = reader_words(here - code, "does not read it") or reader_words(code - together, "reads it too") or reader_words(stranger, f"is not the {fc.AIRFRAMES[kind]}'s")
        found.hold(f"{setting_name(kind, place, setting)}, read_by", not why, f"{why}; correct it in {TABLES}")


def reader_words(keys, what):
    return f"{' and '.join(f'{file}: {name}' for file, name in sorted(keys))} {what}" if keys else ""


def code_numbers():
    """The numbers of a step in call.rt: of each number its field and, if it is one of several, its component."""
    text, numbers = source(CALL_CODE), {}
    for function in ("vehicle_of", "of"):
        field = ""
        for line in block(text, rf"pub fn {function}<", CALL_CODE).splitlines():
            opened, number = re.fullmatch(r" +(\w+): \w+ \{", line), re.search(r"numbers\.number\((\d+)\)", line)
            field = opened[1] if opened else "" if line.strip() == "}," else field
            if number:
                name = re.match(r" *(\w+)", line)[1]
                numbers[int(number[1])] = (field, name) if field else (name, "")
    return numbers


def check_parts(found):
    """The numbers of a step: their places, order and units."""
    numbers, ours = code_numbers(), set()
    for part in fc.PARTS:
        places = range(part.first, part.first + part.size)
        ours |= set(places)
        fields = [numbers.get(place, ("nothing", "")) for place in places]
        base, unit = unit_of(fields[0][0])
        components = ("wxyz" if part.size == 4 else "xyz"[: part.size]) if part.size > 1 else ""
        same = base == part.name and len({field for field, _ in fields}) == 1 and "".join(last for _, last in fields) == components and unit in ("", part.unit)
        shown = ", ".join(f"{field} {last}".strip() for field, last in fields)
        found.hold(f"number {span(places)} of a step, {with_unit(part.name, part.unit)}", same, f"{CALL_CODE} reads {shown} there; correct it in {TABLES}")
    more = sorted(set(numbers) - ours)
    found.hold("the numbers of a step", not more, f"{CALL_CODE} reads number {span(more)} too, which PARTS of {TABLES} does not have")
    z = re.findall(r"Call::Prime\(Placed\(bytes\)\.number\((\d+)\)\)", source(RECORD_CODE))
    found.hold("the number of a prime", z == [str(fc.PRIME_Z)], f"{TABLES} has {fc.PRIME_Z}, {RECORD_CODE} {' '.join(z)}")


def check_words(found):
    """Kinds, reports, reasons of a cut, mode letters and refusals, by their names in the code."""
    record, reasons, refusals = source(RECORD_CODE), source(REASONS_CODE), source(REFUSALS_CODE)
    numbers = {name: int(number) for name, number in re.findall(r"Kind::(\w+) => (\d+)", source(KINDS_CODE))}
    kinds = {numbers.get(kind, kind): name for kind, name in re.findall(r"^ +Kind::(\w+) => .*?(Call::\w+|cut_for|Airframe::\w+)\(?", record, re.M)}
    same_words(found, "kinds", KIND_CODE, kinds, f"{RECORD_CODE} by {KINDS_CODE}")
    numbered = {int(number): name for name, number in re.findall(r"ModeRefusal::(\w+) => (\d+)", reasons)}
    same_words(found, "REPORTS", fc.REPORTS, numbered, REASONS_CODE)
    cuts = {int(number): name for number, name in re.findall(r"(\d+) => Ok\(ModeRefusal::(\w+)\)", reasons)}
    same_words(found, "the options of a cut", {option: fc.REPORTS.get(option, "no report") for option in fc.OPTIONS[fc.CUT]}, cuts, REASONS_CODE)
    same_words(found, "MODES", fc.MODES, {letter: mode for mode, letter in LETTERED.findall(source(LETTERS_CODE))}, LETTERS_CODE)
    calls = {int(number) for name, number in re.findall(r"InputRefusal::(\w+)(?:\(_\))? => ([1-9]\d*)", reasons) if name not in NOT_OF_A_CARD}
    same_words(found, "the refusals of a call", dict.fromkeys(fc.CALL_REFUSALS, "a refusal"), dict.fromkeys(calls, "a refusal"), REASONS_CODE)
    cards = {int(number) for number in re.findall(r"CardRefusal::\w+ => ([1-9]\d*)", refusals)}
    same_words(found, "the refusals of a card", dict.fromkeys(fc.CARD_REFUSALS, "a refusal"), dict.fromkeys(cards | {3}, "a refusal"), REFUSALS_CODE)
    same_words(found, "REFUSALS", dict.fromkeys(fc.REFUSALS, "words"), dict.fromkeys([*fc.CALL_REFUSALS, *fc.CARD_REFUSALS], "words"), "its two lists of refusals")
    found.hold("the bits of a step's option", sum(fc.OPTION_BITS) == max(fc.OPTIONS[fc.STEP]), f"{TABLES} has options up to {max(fc.OPTIONS[fc.STEP])}, OPTION_BITS has bits up to {sum(fc.OPTION_BITS)}")


def check_names(found):
    """The names that the writer of texts takes, each with its first number and how many it has, and the reasons of a cut."""
    ours = {fc.KINDS[airframe].upper(): [(setting.name, place, 1) for place, setting in enumerate(settings, 1)] for airframe, settings in fc.SETTINGS_OF.items()}
    ours |= {"STEP": [(part.name, part.first, part.size) for part in fc.PARTS], "PRIME": [("z", fc.PRIME_Z, 1)]}
    code = {table: [(name, int(first), int(size)) for name, first, size in NAMED_PART.findall(rows)] for table, rows in NAMED_PARTS.findall(source(NAMES_CODE))}
    same_words(found, "the names of a text", ours, code, NAMES_CODE)
    reasons = {name: reason for name, reason in re.findall(r'^    \("(\w+)", ModeRefusal::(\w+)\),$', source(NAMES_CODE), re.M)}
    same_words(found, "the reasons of a text's cut", {fc.REPORTS[option]: fc.REPORTS[option] for option in fc.OPTIONS[fc.CUT]}, reasons, NAMES_CODE)


def same_words(found, what, ours, code, where):
    """Two tables are the same; if not, the first key at which they part is shown."""
    keys = [key for key in [*ours, *code] if ours.get(key) != code.get(key)]
    why = f"of {keys[0]} {TABLES} has {ours.get(keys[0], 'nothing')}, {where} has {code.get(keys[0], 'nothing')}" if keys else ""
    found.hold(f"{TABLES}, {what}", not keys, why)


def held(found, check, *words):
    """Does a check; a file that cannot be read or holds something else, or a table that does, is a failure of it."""
    try:
        check(*words)
    except Bad as bad:
        found.hold(check.__name__, False, str(bad))
    except OSError as error:
        found.hold(check.__name__, False, f"{os.path.relpath(error.filename, ROOT) if error.filename else 'a file'}: {error.strerror}")
    except (AttributeError, LookupError, TypeError, ValueError) as error:
        found.hold(check.__name__, False, f"it ended in {type(error).__name__}: {error}; {TABLES} or tools/pages.py is wrong")


def all_pages(found):
    """The pages and the tables, or what makes the tables unreadable."""
    broken = broken_tables()
    found.hold(TABLES, not broken, broken)
    if not broken:
        for check in (check_settings_page, check_card_page, check_settings, check_ranges, check_units, check_readers, check_parts, check_words, check_names):
            held(found, check, found)
