"""docs/SETTINGS.md and the marked parts of docs/CARD.md, made of flight_card.py and the examples.

usage: python3 -B tools/pages.py write

./check-tools holds both pages to flight_card.py, and that to the code and to the runner.
"""
import os
import re
import sys

import flight_card as fc
import tool
from tool import Bad

ROOT = os.path.dirname(os.path.dirname(os.path.realpath(__file__)))
SETTINGS_PAGE, CARD_PAGE = "docs/SETTINGS.md", "docs/CARD.md"
TABLES = "tools/flight_card.py"
SETTINGS_CODE, RANGES_CODE = "crates/machines/src/settings.rt", "crates/machines/src/ranges.rt"
RANGES_DEFINITION, SETTINGS_DEFINITION = "crates/machines/specs/RangeTable.antt", "crates/machines/specs/Settings.antt"
COUNTS = {True: "yes", False: "no"}
USEFUL = "0 -0 1 -1 0.5 0.25 0.1 0.005 2 5 9 10 15 0.70710677 0.7853982 1.5707964 3.1415927 1e-45 3.4028235e38 inf -inf nan".split()
USES = {"0.70710677": "the cosine of π/4", "0.7853982": "π/4, 45°", "1.5707964": "π/2, 90°", "3.1415927": "π, 180°", "1e-45": "the smallest above 0", "3.4028235e38": "the largest"}
EXAMPLE, CHAIN_EXAMPLE, WORKED_STEP = "examples/section7", "examples/chain", 3
MARKED = re.compile(r"<!-- made by tools/pages\.py: ([\w-]+) -->\n(.*?)<!-- end of \1 -->", re.S)

SETTINGS_INTRODUCTION = """# The settings of both airframes

Beside this page: [README](../README.md), [the flight card](CARD.md), [claims](CLAIMS.md), [decisions](DECISIONS.md), [differences](DIFFERENCES.md), [the Rust as judge](../oracle/README.md).

<!-- All of this page is made by tools/pages.py of tools/flight_card.py. Change it there, then: python3 -B tools/pages.py write -->

A setting is a number that fits the controller to an airframe: a time, a speed, a height, an angle, a thrust. {counts} Each is a binary32 number.

Where settings stand ([CARD.md](CARD.md) has the whole card):

- In the header of a flight card: {headers}.
- In a settings call, a record of kind {call}. It replaces all settings at once, while the card is flown. The other state stays: the mode, the clock of a running transition, and a running handoff with its duration.
- Setting K is number K of the record. Its four bytes begin at byte 4·K of the record, the lowest byte first. The column "Byte" says where; "Bits" is the default, the highest digit first: 3F5F66F3 stands in the file as F3 66 5F 3F. Numbers after the last setting are not looked at.
- A card has no defaults of its own: each setting has to stand in the record. A number that is left 0 is a setting of 0.

How a range is written:

- `[0, 1]` is 0 to 1, and both ends count. `(0, 1]` is above 0 up to 1: the round bracket's end does not count.
- `∞` means that every finite number up from the low end counts. Infinity itself is in no range.
- NaN is in no range. -0 counts as 0: it is in `[0, 1]` and not in `(0, 1]`.
- π is the binary32 number {pi}, which is {pi_decimal}, and π/2 is {half_pi}, which is {half_pi_decimal}.

What is checked:

- Each setting against its row of [the table of ranges](#the-ranges-in-one-table), from 1 on, by `validate` in [{code}](../{code}). The first that is out of its range is named by its position; those after it are not.
- A bad header refuses the card: the transcript is `card 3 K`, and nothing is flown. A bad settings call is refused alone: its line is `INDEX refused 3 K`, the old settings stay, and the flight goes on.
- Nothing is checked across settings. Above all: settings {forward_cosine} and {back_cosine} of the tailsitter are the cosines of its settings {forward_angle} and {back_angle}. The caller works them out and supplies them, and nobody checks that they belong together. The machine goes by the cosines.

The defaults are those of the Rust (stable-flight's transition core), as binary32 numbers; the two cosines are those of its default angles. The examples `examples/tailsitter.txt` and `examples/quadplane.txt` begin with them.

Where a setting is of a mode, tests go by the mode before a step, and thrust and pitch by the mode after it ([CARD.md](CARD.md#what-a-call-does)).

"Read by" names the functions that use a setting after it was checked. Where it says "nothing", the setting is checked and then not used by the machine.
"""

RANGES_INTRODUCTION = """## The ranges in one table

The ranges of both airframes as [{code}](../{code}) has them: a row for each setting, with the low end and whether that end counts, then the high end. An infinite end does not count, so that infinity itself is out.

A changed range is changed in four places: the row there and in [{definition}](../{definition}), the setting's line in [{section}](../{section}), and its range in tools/flight_card.py, of which `python3 -B tools/pages.py write` makes this page. The gate refuses a row of the code that is not the definition's, and one that does not let through exactly what the setting's line says; `./check-tools` refuses a page with other rows than the code's. The recorded answers are the Rust's, which keeps its own ranges.
"""


def source(name):
    return tool.read(os.path.join(ROOT, name)).decode("utf-8", "replace")


def table(heads, rows):
    """A table of the page."""
    return "".join(f"| {' | '.join(str(word) for word in row)} |\n" for row in [heads, ["---"] * len(heads), *rows])


def stretches(numbers):
    """The first and the last of each stretch of rising numbers without a gap."""
    firsts = [number for number in numbers if number - 1 not in numbers]
    lasts = [number for number in numbers if number + 1 not in numbers]
    return list(zip(firsts, lasts))


def span(numbers):
    """Rising numbers in words: 1, 3 to 19."""
    return ", ".join(str(first) if first == last else f"{first} to {last}" for first, last in stretches(numbers)) or "none"


def hexadecimal(data):
    """Bytes in hexadecimal, a run of more than four zeros folded."""
    words = re.sub("(?:00 ){5,}", lambda run: f"00 × {len(run[0]) // 3}, ", data.hex(" ").upper() + " ")
    return words.strip(" ,")


def with_unit(words, unit):
    return f"{words} {unit}" if unit else words


# What the numbers of a record are.


def parts_of(kind):
    """The numbers that are looked at in a record of a kind, in order."""
    if kind == fc.STEP:
        return fc.PARTS
    if kind == fc.PRIME:
        return [fc.Part("z", fc.PRIME_Z, 1, "m", "")]
    return [fc.Part(setting.name, place, 1, setting.unit, setting.does) for place, setting in enumerate(fc.SETTINGS_OF.get(kind, []), 1)]


def places_of(kind):
    return [part.first + i for part in parts_of(kind) for i in range(part.size)]


def idle_of(kind):
    return [place for place in range(1, fc.NUMBERS + 1) if place not in places_of(kind)]


def component(part, i):
    """The name of a part's number i, as the part's words have it after the colon."""
    return part.name if part.size == 1 else f"{part.name} {part.does.split(': ')[1].split(';')[0].split(', ')[i]}"


def name_at(kind, place):
    """The name of a number of a kind, or ''."""
    return next((component(part, place - part.first) for part in parts_of(kind) if part.first <= place < part.first + part.size), "")


def broken_tables():
    """What of flight_card.py this file cannot read, or ''."""
    for kind, place, setting in each_setting():
        try:
            if not fc.within(fc.value_of(fc.bits_of(float(setting.default))), setting.range):
                return f"{setting_name(kind, place, setting)}: the default {setting.default} is not in the range {setting.range}"
        except (KeyError, ValueError, IndexError):
            return f"{setting_name(kind, place, setting)}: the range {setting.range} or the default {setting.default} cannot be read"
    for part in fc.PARTS:
        if part.size > 1 and len(part.does.partition(": ")[2].split(";")[0].split(", ")) != part.size:
            return f"{part.name} of a step has {part.size} numbers, and its words do not name as many after a colon"
    for what, known, words in [("kind", fc.KINDS, fc.KIND_WORDS), ("report", fc.REPORTS, fc.REPORT_WORDS), ("column", fc.Answer._fields, fc.COLUMNS)]:
        missing = [key for key in known if key not in words]
        if missing:
            return f"{TABLES} has no words for {what} {missing[0]}; give it some"
    return ""


def each_setting():
    return [(kind, place, setting) for kind, settings in fc.SETTINGS_OF.items() for place, setting in enumerate(settings, 1)]


def setting_name(kind, place, setting):
    return f"setting {place} of the {fc.AIRFRAMES[kind]}, {setting.name}"


# docs/SETTINGS.md.


def listed(words):
    """Words as a list in a sentence."""
    return " and ".join(", ".join(words).rsplit(", ", 1))


def readers_of(setting):
    """The functions that a setting says it is read by, of each file such as machines/lift."""
    groups = (group.partition(": ") for group in setting.read_by.split("; ") if group)
    return {file: names.split(", ") for file, _, names in groups}


def read_by(setting):
    """The same as pairs of file and function."""
    return {(file, name) for file, names in readers_of(setting).items() for name in names}


def readers_words(setting):
    files = {f"crates/{file.replace('/', '/src/')}.rt": names for file, names in readers_of(setting).items()}
    return "; ".join(f"{listed([f'`{name}`' for name in names])} in [{file}](../{file})" for file, names in files.items()) or "nothing"


def settings_table(settings):
    rows = [
        [place, 4 * place, f"`{setting.name}`", setting.unit or "none", f"`{setting.range}` {fc.range_words(setting.range)}", setting.default, f"{fc.bits_of(float(setting.default)):08X}", setting.does, readers_words(setting)]
        for place, setting in enumerate(settings, 1)
    ]
    return table(["Setting", "Byte", "Name", "Unit", "Range", "Default", "Bits", "What it does", "Read by"], rows)


def row_of(setting):
    """A setting's row of the code's table: the low end's bits and whether it counts, then the high end's."""
    low, low_counts, high, high_counts = fc.ends_of(setting.range)
    return f"{fc.bits_of(low):08X}", low_counts, f"{fc.bits_of(high):08X}", high_counts


def range_table():
    rows = []
    for kind, place, setting in each_setting():
        low, low_counts, high, high_counts = row_of(setting)
        low_words, high_words = fc.end_words(setting.range)
        rows.append([fc.AIRFRAMES[kind], place, f"`{setting.name}`", low_words, low, COUNTS[low_counts], high_words, high, COUNTS[high_counts]])
    return table(["Airframe", "Setting", "Name", "Low", "Low's bits", "Low counts", "High", "High's bits", "High counts"], rows)


def settings_page():
    """All of docs/SETTINGS.md."""
    names = [setting.name for setting in fc.TAILSITTER_SETTINGS]
    places = {word: names.index(name) + 1 for word, name in [("forward_cosine", "forward_done_cosine"), ("back_cosine", "back_done_cosine"), ("forward_angle", "forward_done_rad"), ("back_angle", "back_done_rad")]}
    page = SETTINGS_INTRODUCTION.format(
        counts=" ".join(f"The {fc.AIRFRAMES[kind]} has {len(settings)}." for kind, settings in fc.SETTINGS_OF.items()),
        headers=listed([f"kind {kind} for a {name}" for kind, name in fc.AIRFRAMES.items()]),
        call=fc.SETTINGS,
        pi=f"{fc.PI:08X}",
        pi_decimal=fc.decimal(fc.PI),
        half_pi=f"{fc.HALF_PI:08X}",
        half_pi_decimal=fc.decimal(fc.HALF_PI),
        code=SETTINGS_CODE,
        **places,
    )
    for kind, settings in fc.SETTINGS_OF.items():
        page += f"\n## {fc.AIRFRAMES[kind].capitalize()}\n\n{settings_table(settings)}"
    return f"{page}\n{RANGES_INTRODUCTION.format(code=RANGES_CODE, definition=RANGES_DEFINITION, section=SETTINGS_DEFINITION)}\n{range_table()}"


# The marked parts of docs/CARD.md.


def limits():
    most = fc.MOST_RECORDS
    rows = [
        ["Bytes of a record", fc.RECORD_BYTES],
        ["Records of a card", f"1 to {most}, the header among them"],
        ["Bytes of a card", f"{fc.RECORD_BYTES} to {most * fc.RECORD_BYTES:,}, whole records"],
        ["Numbers of a record", fc.NUMBERS],
        ["Calls of a chain", f"0 to {most - 1}, each record at most once"],
    ]
    return table(["What", "How many"], rows)


def byte_table():
    columns = [fc.STEP, fc.PRIME, *fc.SETTINGS_OF]
    rows = [["0", "kind", *columns], ["1", "option", *(span(fc.OPTIONS[kind]) for kind in columns)], ["2 to 3", "next index", *["any"] * len(columns)]]
    for place in range(1, fc.NUMBERS + 1):
        rows.append([f"{4 * place} to {4 * place + 3}", f"number {place}", *(name_at(kind, place) or "-" for kind in columns)])
    return table(["Bytes", "Hold", *(f"{fc.KINDS[kind].capitalize()}" for kind in columns)], rows)


def of_kind(kind, numbers):
    """Numbers of a kind in words; a settings call has those of the card's airframe."""
    if kind != fc.SETTINGS:
        return span(numbers(kind))
    return ", ".join(f"{fc.AIRFRAMES[airframe]} {span(numbers(airframe))}" for airframe in fc.SETTINGS_OF)


def kind_table():
    place = {True: "record 0, the header", False: "a call: any other record"}
    rows = [[kind, name, place[kind in fc.AIRFRAMES], span(fc.OPTIONS[kind]), of_kind(kind, places_of), of_kind(kind, idle_of), fc.KIND_WORDS[kind]] for kind, name in sorted(fc.KINDS.items())]
    return table(["Kind", "Name", "Stands as", "Option", "Numbers", "Not looked at", "What it is"], rows)


def option_table():
    rows = [[option, f"{fc.STEP:02X} {option:02X}", "; ".join(words[bool(option & bit)] for bit, words in fc.OPTION_BITS.items())] for option in fc.OPTIONS[fc.STEP]]
    return table(["Option", "Bytes 0 and 1", "Says"], rows)


def step_table():
    rows = [[span(range(part.first, part.first + part.size)), f"`{part.name}`", part.unit or "none", part.does] for part in fc.PARTS]
    return table(["Numbers", "Name", "Unit", "What it is"], rows)


def idle_table():
    rows = [[fc.AIRFRAMES[kind], ", ".join(f"{place} ({name_at(fc.STEP, place)})" for place in places)] for kind, places in fc.IDLE.items()]
    return table(["Airframe", "Numbers of a step that never matter"], rows)


def chain_table():
    """The links of an example, and the order of its calls."""
    card = tool.read(os.path.join(ROOT, f"{CHAIN_EXAMPLE}.card"))
    rows = [[i, fc.KINDS[record.kind], record.next] for i, record in enumerate(fc.records_of(card))]
    order = ", ".join(str(i) for i in fc.checked(card))
    return f"{table(['Record', 'Kind', 'Next index'], rows)}\nThe calls are made in this order: {order}.\n"


def chain_transcript():
    return f"```text\n{source(f'{CHAIN_EXAMPLE}.transcript')}```\n"


def refusal_table():
    rows = []
    for number, (wrong, mend) in fc.REFUSALS.items():
        lines = ["`INDEX refused {}`"] * (number in fc.CALL_REFUSALS) + ["`card {}`"] * (number in fc.CARD_REFUSALS)
        shown = " or ".join(lines).replace("{}", f"{number} K" if number == 3 else str(number))
        rows.append([number, shown, wrong, mend.replace("docs/SETTINGS.md", "[SETTINGS.md](SETTINGS.md)")])
    return table(["Refusal", "Line", "What is wrong", "How to mend it"], rows)


def column_table():
    rows = [[1, "index", "the index of the record in the file, from 1; the header has no line"]]
    rows += [[place, name.replace("_", " "), fc.COLUMNS[name]] for place, name in enumerate(fc.Answer._fields, 2)]
    return table(["Word", "Name", "What it is"], rows)


def mode_table():
    return table(["Letter", "Mode"], fc.MODES.items())


def report_table():
    return table(["Report", "Name", "Comes with"], [[number, name, fc.REPORT_WORDS[number]] for number, name in fc.REPORTS.items()])


def number_table():
    rows = []
    for word in USEFUL:
        bits = fc.bits_of(float(word))
        rows.append([word, f"{bits:08X}", hexadecimal(bits.to_bytes(4, "little")), USES.get(word, "")])
    return table(["Number", "Bits", "Bytes in the file", "Note"], rows)


def record_table(card, index):
    """One record byte by byte."""
    record, at = fc.records_of(card)[index], index * fc.RECORD_BYTES
    data = card[at : at + fc.RECORD_BYTES]
    bits = [words[bool(record.option & bit)] for bit, words in fc.OPTION_BITS.items()] if record.kind == fc.STEP else []
    pieces = [(0, 1, f"kind {record.kind}, {fc.KINDS[record.kind]}"), (1, 1, "; ".join([f"option {record.option}", *bits])), (2, 2, f"next index {record.next}")]
    for part in parts_of(record.kind):
        values = ", ".join(fc.decimal(bits) for bits in record.numbers[part.first - 1 : part.first - 1 + part.size])
        pieces.append((4 * part.first, 4 * part.size, f"{part.name}: {with_unit(values, part.unit)}"))
    for first, last in stretches(idle_of(record.kind)):
        pieces.append((4 * first, 4 * (last - first + 1), f"number{'s' * (first < last)} {span(range(first, last + 1))}: not looked at"))
    rows = [[at + start, f"{at + start:03X}", hexadecimal(data[start : start + size]), what] for start, size, what in sorted(pieces)]
    return f"Record {index}, bytes {at} to {at + fc.RECORD_BYTES - 1}:\n\n{table(['Offset', 'Hex', 'Bytes', 'What they are'], rows)}"


def worked_card():
    card = tool.read(os.path.join(ROOT, f"{EXAMPLE}.card"))
    return "\n".join(record_table(card, index) for index in (0, 1, WORKED_STEP))


def worked_line():
    """The transcript of the worked card, and the words of the worked step's line."""
    text = source(f"{EXAMPLE}.transcript")
    words = next(line for line in text.splitlines() if line.startswith(f"{WORKED_STEP} ")).split()
    answer = fc.answer_of(words[1:])
    shown = [f"record {words[0]}", fc.MODES[answer.mode], f"share {fc.decimal_of(answer.share_or_tilt)}", "a handoff" if answer.handoff else "no handoff"]
    shown += [f"report {answer.report}, {fc.REPORTS[answer.report]}" if answer.report else "no report", f"thrust {fc.decimal_of(answer.thrust)}", f"pitch {fc.decimal_of(answer.pitch)} rad"]
    rows = [[f"`{word}`", meaning] for word, meaning in zip(words, shown)]
    return f"```text\n{text}```\n\nThe line of record {WORKED_STEP}:\n\n{table(['Word', 'Says'], rows)}"


PARTS = {
    "limits": limits,
    "bytes": byte_table,
    "kinds": kind_table,
    "options": option_table,
    "step": step_table,
    "idle": idle_table,
    "chain": chain_table,
    "refusals": refusal_table,
    "columns": column_table,
    "modes": mode_table,
    "reports": report_table,
    "chain-transcript": chain_transcript,
    "numbers": number_table,
    "worked-card": worked_card,
    "worked-line": worked_line,
}


def write_pages():
    """Writes docs/SETTINGS.md and the marked parts of docs/CARD.md."""
    broken = broken_tables()
    if broken:
        raise Bad(broken)
    page = source(CARD_PAGE)
    missing = PARTS.keys() - dict(marked(page)).keys()
    if missing:
        raise Bad(f"{CARD_PAGE} has no part {min(missing)}; {mark_words(min(missing))}")
    page = MARKED.sub(lambda part: part[0].replace(f"-->\n{part[2]}<!--", f"-->\n{PARTS[part[1]]()}<!--") if part[1] in PARTS else part[0], page)
    for name, text in [(SETTINGS_PAGE, settings_page()), (CARD_PAGE, page)]:
        with open(os.path.join(ROOT, name), "wb") as file:
            file.write(text.encode())
    return 0


def mark_words(name):
    return f"put '<!-- made by tools/pages.py: {name} -->' and '<!-- end of {name} -->' on lines of their own"


def marked(page):
    """The marked parts of a page: name and text."""
    return [(found[1], found[2]) for found in MARKED.finditer(page)]


def main():
    if sys.argv[1:] == ["write"]:
        return write_pages()
    raise Bad(__doc__.strip())


if __name__ == "__main__":
    tool.ended("pages", main)
