"""The table of a flown card: one line a record, in decimals and words.

usage: python3 tools/table.py CARD TRANSCRIPT      files of the card's bytes and of the runner's transcript of it
"""
import math
import sys
import textwrap

import flight_card as fc
import tool
from flight import flown, is_valid
from tool import Bad

HEADS = ["record", "time s", "call, request", "height m", "airspeed m/s", "mode", None, "thrust", "pitch rad", "handoff", "report"]
SHARE_OR_TILT = {fc.TAILSITTER: "tilt rad", fc.QUADPLANE: "share"}
# A space at which no line ends.
KEPT = "\u00a0"
LEFT = {"call, request", "mode", "handoff", "report"}


def shown(value, places):
    """A number with so many decimals, or short with an exponent where these would hide it."""
    if not math.isfinite(value):
        return fc.decimal_of(value)
    if value == 0 or 0.5 * 10.0**-places <= abs(value) < 1e7:
        return f"{value + 0.0:.{places}f}"
    return f"{value:.3g}"


def call_words(call):
    """The call of a record."""
    kind, option = call.record.kind, call.record.option
    if kind == fc.STEP:
        return "step, Plane" if option & fc.PLANE_REQUESTED else "step, Copter"
    if kind == fc.CUT:
        return f"cut, {option} {fc.REPORTS[option]}"
    return fc.KINDS[kind]


def airspeed_words(airspeed):
    """An airspeed, in brackets where the machine does not use it."""
    if airspeed is None:
        return "-"
    return shown(airspeed, 3) if is_valid(airspeed) else f"({shown(airspeed, 3)})"


def report_words(report):
    return f"{report} {fc.REPORTS[report]}" if report else "-"


def answered(call):
    """The words of a record that was accepted, from the height on."""
    answer = call.answer
    return [
        "-" if call.height is None else shown(call.height, 3),
        airspeed_words(call.airspeed),
        fc.MODES[answer.mode],
        "-" if answer.share_or_tilt is None else shown(answer.share_or_tilt, 4),
        shown(answer.thrust, 4),
        shown(answer.pitch, 4),
        "handoff" if answer.handoff else "-",
        report_words(answer.report),
    ]


def settings_words(flight, record, before=None):
    """Each setting of a record in words; with those before, the ones that changed alone."""
    words = []
    for place, setting in enumerate(fc.SETTINGS_OF[flight.airframe]):
        bits = record.numbers[place]
        if before is None or before.numbers[place] != bits:
            was = "" if before is None else f" (was {fc.decimal(before.numbers[place])})"
            words.append(f"{setting.name} {fc.decimal(bits)}{was}")
    return words


def rows(flight):
    """The table's lines as words, the heads first; a refused record's last word is why."""
    table, before = [[SHARE_OR_TILT[flight.airframe] if head is None else head for head in HEADS]], flight.header
    for call in flight.calls:
        row = [str(call.index), shown(call.time, 3), call_words(call)]
        row += [f"refused {call.refused}"] if call.refused else answered(call)
        if call.settings is not before:
            row[-1] += f"   now {', '.join(settings_words(flight, call.settings, before)) or 'as before'}"
            before = call.settings
        table.append(row)
    return table


def aligned(table):
    """The lines of a table, each column as wide as its widest word; what follows the last column stands free."""
    heads = table[0]
    full = [row for row in table if len(row) == len(heads)]
    widths = [max(len(row[column]) for row in (full if column > 2 else table)) for column in range(len(heads))]
    for row in table:
        last = len(row) - 1
        words = [word if i == last else word.ljust(widths[i]) if heads[i] in LEFT else word.rjust(widths[i]) for i, word in enumerate(row)]
        yield "  ".join(words).rstrip()


def table_of(flight):
    """The lines of the table, with the header's settings above and the sum below."""
    title = f"{fc.AIRFRAMES[flight.airframe]}: " + ", ".join(settings_words(flight, flight.header)).replace(" ", KEPT).replace(f",{KEPT}", ", ")
    yield from (line.replace(KEPT, " ") for line in textwrap.wrap(title, 110, subsequent_indent="  "))
    yield ""
    yield from aligned(rows(flight))
    if any(call.answer and call.airspeed is not None and not is_valid(call.airspeed) for call in flight.calls):
        yield "(an airspeed in brackets is negative or NaN, and is not used)"
    refused = sum(bool(call.refused) for call in flight.calls)
    time = shown(flight.calls[-1].time, 3) if flight.calls else "0.000"
    yield f"end: calls {len(flight.calls)}, refused {refused}, time {time} s"


def main():
    if len(sys.argv) != 3:
        raise Bad(__doc__.strip())
    card, transcript = tool.read(sys.argv[1]), tool.read(sys.argv[2]).decode("ascii", "replace")
    if transcript.startswith("card "):
        tool.write(f"{fc.card_words(card, transcript)}\n".encode())
        return 1
    tool.write("".join(f"{line}\n" for line in table_of(flown(card, transcript))).encode())
    return 0


if __name__ == "__main__":
    tool.ended("fly", main)
