"""The picture of a flown card: modes, outputs and readings over time, as an SVG that can be read when printed in grey.

usage: python3 tools/picture.py CARD TRANSCRIPT FILE.svg TITLE      files of the card's bytes and of the runner's transcript of it
"""
import html
import math
import os
import sys
from collections import namedtuple

import flight_card as fc
import tool
from flight import abandonments, flown, is_valid, setting
from tool import Bad

# Lengths are in px. LETTER is the width of a letter by its height; INSET lies between a panel's frame and the ends of its range.
WIDTH, LEFT, RIGHT = 1100, 92, 1040
TITLE_Y, SUBTITLE_Y, LANES_Y = 28, 47, 60
LANE_HEIGHT, BAND_HEIGHT, PANEL_HEIGHT, TITLE_ROW, LEGEND_ROW = 16, 24, 96, 30, 20
TITLE_SIZE, SIZE, SMALL, LETTER = 17, 11, 10, 0.58
INSET, GAP, KEY, KEY_GAP = 6, 8, 26, 22
LEAST_STRETCH = 1.6  # of a mode in the band
APART = 9  # marks nearer than this share a label

AFTER = 0.06  # the part of the flight's time that is drawn past its end
MOST_X_TICKS, MOST_Y_TICKS = 12, 5
PLAIN_STEPS = 1e-4, 1e6  # ticks of a smaller or larger distance are written with an exponent
MARGIN = 1e-9  # of a tick's distance, for rounding

Axis = namedtuple("Axis", "low high start end")
Panel = namedtuple("Panel", "title unit low high in_degrees curves bad_times")
Curve = namedtuple("Curve", "label style runs")
Stretch = namedtuple("Stretch", "mode start end")
Mark = namedtuple("Mark", "kind time label")

DEFINITIONS = """<defs>
<pattern id="forward" width="7" height="7" patternUnits="userSpaceOnUse"><path d="M-1 8L8 -1" stroke="#c4c4c4"/></pattern>
<pattern id="back" width="7" height="7" patternUnits="userSpaceOnUse"><path d="M-1 -1L8 8" stroke="#c4c4c4"/></pattern>
<marker id="dot" viewBox="-2 -2 4 4" markerWidth="4" markerHeight="4" markerUnits="userSpaceOnUse"><circle r="1.9"/></marker>
</defs>
<rect width="100%" height="100%" fill="#fff"/>"""
FILLS = {"C": "#fff", "F": "url(#forward)", "P": "#dde5ee", "B": "url(#back)"}

# Lines are told apart by width and dashes; a broad pale one shows behind a thin one where both run together.
OUTPUT = 'stroke="#000" stroke-width="1.6" stroke-linejoin="round"'
READING = OUTPUT + ' marker-start="url(#dot)" marker-mid="url(#dot)" marker-end="url(#dot)"'
DEMAND = 'stroke="#a3a3a3" stroke-width="5"'
MINIMUM = 'stroke="#8a1c1c" stroke-width="1.5" stroke-dasharray="8 4"'
FLOOR = 'stroke="#8a8a8a" stroke-width="5" stroke-dasharray="2 2.5"'
GRID, FRAME, MARK = 'stroke="#ccc" stroke-width="0.7"', 'stroke="#000" stroke-width="0.8"', 'stroke="#000" stroke-width="1.3"'
BOLD, ITALIC = ' font-weight="bold"', ' font-style="italic"'
HALO = BOLD + ' stroke="#fff" stroke-width="3" paint-order="stroke"'

# The marks, each kind in a lane of its own, from above: the words of the legend, the shape from its middle, the fill.
LANES = {
    "prime": ("prime, with the record's number: heights count from here", "m-4 0a4 4 0 1 0 8 0a4 4 0 1 0-8 0", "#fff"),
    "settings": ("new settings, with the record's number", "m-3.5-3.5h7v7h-7z", "#fff"),
    "cut": ("cut, with its reason", "m-2-5v10m4 0v-10", "none"),
    "refused": ("refused call, with the record's number", "m-4-4l8 8m0-8l-8 8", "none"),
    "held back": ("Plane is held back from here, with the report", "m-4.5-4h9l-4.5 8z", "#fff"),
    "abandoned": ("Plane, or the way to it, is given up (dashed line), with the report", "m-5-4.5h10l-5 9z", "#000"),
    "handoff": ("handoff to the mode named (dotted line)", "m0-5l4 5l-4 5l-4-5z", "#000"),
}
LINES = {"abandoned": 'stroke="#444" stroke-width="1.2" stroke-dasharray="7 3"', "handoff": 'stroke="#444" stroke-dasharray="1 3"'}
BAD = ("NaN, infinite or an airspeed below 0: not drawn", "m-3-3l6 6m0-6l-6 6", "none")
NOTE = "Mode, share or tilt, thrust, demand and pitch hold from a call to the next one, the last ones a little past the end. Height is read at primes and steps, airspeed at steps (dots)."


def px(length):
    return f"{length:.1f}".removesuffix(".0")


def width(words, size=SIZE):
    """About how wide words are; letters of the far east count twice."""
    return size * LETTER * sum(2 if letter >= "\u2e80" else 1 for letter in words)


def fitted(words, room, size):
    """Words that XML can hold, and that fit."""
    words = "".join(letter if letter.isprintable() else "\ufffd" for letter in words)
    if width(words, size) <= room:
        return words
    while width(words + "…", size) > room:
        words = words[:-1]
    return words + "…"


def text(x, y, words, anchor="start", size=SIZE, more=""):
    return f'<text x="{px(x)}" y="{px(y)}" text-anchor="{anchor}" font-size="{size}"{more}>{html.escape(words)}</text>'


def path(d, style, fill="none"):
    return f'<path d="{d}" fill="{fill}" {style}/>' if d else ""


def at(axis, value):
    """Where a value of an axis stands, in px."""
    return axis.start + (value - axis.low) / (axis.high - axis.low) * (axis.end - axis.start)


def step_of(low, high, most):
    """The distance of round ticks: 1, 2 or 5 times a power of 10."""
    least = (high - low) / most
    power = 10.0 ** math.floor(math.log10(least))
    return next(times * power for times in (1, 2, 5, 10, 20) if times * power >= least * (1 - MARGIN))


def ticks(axis, most):
    """Round values of an axis: where each stands, and its words."""
    step = step_of(axis.low, axis.high, most)
    places = max(0, -math.floor(math.log10(step) + MARGIN))
    form = f".{places}f" if PLAIN_STEPS[0] <= step <= PLAIN_STEPS[1] else "g"
    values = [i * step for i in range(math.ceil(axis.low / step - MARGIN), math.floor(axis.high / step + MARGIN) + 1)]
    return [(at(axis, value), f"{value:{form}}") for value in values]


def timed(flight):
    """Each call with its time; a time that is not finite counts as the one before."""
    time, found = 0.0, []
    for call in flight.calls:
        time = max(time, call.time) if math.isfinite(call.time) else time
        found.append((time, call))
    return found


def held(samples, end):
    """The runs of points of values that hold until the next one; None is a gap, and so is what is not finite."""
    runs, last = [], None
    for time, value in samples + [(end, None)]:
        value = value if value is not None and math.isfinite(value) else None
        if value == last:
            continue
        if last is None:
            runs.append([])
        else:
            runs[-1].append((time, last))
        if value is not None:
            runs[-1].append((time, value))
        last = value
    return runs


def stretches(calls, end):
    """The modes, each with the time from which and until which it holds."""
    found = []
    for time, call in calls:
        if call.answer and not (found and found[-1][0] == call.answer.mode):
            found.append((call.answer.mode, time))
    return [Stretch(mode, start, after) for (mode, start), (_, after) in zip(found, found[1:] + [("", end)])]


def outputs(calls, name, end):
    return held([(time, getattr(call.answer, name)) for time, call in calls if call.answer], end)


def demands(calls, end):
    """The demand of each step as the machine counts it, within 0 to 1; none from a prime to the next step."""
    samples = []
    for time, call in calls:
        if call.answer and call.record.kind == fc.STEP:
            demand = fc.number(call.record, fc.PLACE["demand"])
            samples.append((time, 0.0 if math.isnan(demand) else min(max(demand, 0.0), 1.0)))
        elif call.answer and call.record.kind == fc.PRIME:
            samples.append((time, None))
    return held(samples, end)


def limit(flight, calls, name, unit, style, end, off_at_0=False):
    """The curve of a setting that is a limit, with its value in the label."""
    samples = [(time, setting(flight, record, name)) for time, record in [(0.0, flight.header)] + [(time, call.settings) for time, call in calls]]
    values = [value for i, (_, value) in enumerate(samples) if i == 0 or value != samples[i - 1][1]]
    said = ["off" if off_at_0 and value == 0 else f"{value:.4g} {unit}" for value in values]
    words = ", then ".join(said) if len(said) <= 2 else f"{said[0]}, then {len(said) - 1} others"
    return Curve(f"{name}: {words}", style, held([(time, None if off_at_0 and value == 0 else value) for time, value in samples], end))


def readings(calls, name, is_usable):
    """The runs of points of what was read, to be joined by lines, and the times of what cannot be drawn; a prime begins a new run."""
    runs, bad = [[]], []
    for time, call in calls:
        if not call.answer or call.record.kind not in (fc.PRIME, fc.STEP):
            continue
        value = getattr(call, name)
        is_drawn = value is not None and math.isfinite(value) and is_usable(value)
        if call.record.kind == fc.PRIME or not is_drawn:
            runs.append([])
        if is_drawn:
            runs[-1].append((time, value))
        elif value is not None:
            bad.append(time)
    return [run for run in runs if run], bad


def panels(flight, calls, end):
    """The panels from above, each with the range that it shows at least, and its curves from behind."""
    first = Panel("Rotors' share of the lift", "0 to 1", 0, 1, False, [Curve("share", OUTPUT, outputs(calls, "share_or_tilt", end))], [])
    if flight.airframe == fc.TAILSITTER:
        first = Panel("Tilt that the nose is to have, from straight up, in a transition", "rad", 0, 1, True, [first.curves[0]._replace(label="tilt")], [])
    thrust = [Curve("demand", DEMAND, demands(calls, end)), Curve("thrust", OUTPUT, outputs(calls, "thrust", end))]
    pitch = [Curve("pitch", OUTPUT, outputs(calls, "pitch", end))]
    floor = limit(flight, calls, "plane_min_height_m", "m", FLOOR, end, off_at_0=True)
    (height, no_height), (airspeed, no_airspeed) = readings(calls, "height", math.isfinite), readings(calls, "airspeed", is_valid)
    height = [floor, limit(flight, calls, "min_height_m", "m", MINIMUM, end), Curve("height", READING, height)]
    airspeed = [limit(flight, calls, "min_airspeed_mps", "m/s", MINIMUM, end), Curve("airspeed", READING, airspeed)]
    return [
        first,
        Panel("Thrust", "0 to 1", 0, 1, False, thrust, []),
        Panel("Pitch", "rad", 0, 0.1, True, pitch, []),
        Panel("Height", "m", 0, 1, False, height, no_height),
        Panel("Airspeed", "m/s", 0, 1, False, airspeed, no_airspeed),
    ]


def marks(flight, calls):
    """The marks in the order of time."""
    abandoned, found, held_by = {call.index for call in abandonments(flight)}, [], 0
    for time, call in calls:
        if call.refused:
            found.append(Mark("refused", time, str(call.index)))
            continue
        kind, report = fc.KINDS[call.record.kind], call.answer.report
        if kind in LANES:
            found.append(Mark(kind, time, fc.REPORTS[call.record.option] if call.record.kind == fc.CUT else str(call.index)))
        if call.answer.handoff:
            found.append(Mark("handoff", time, fc.MODES[call.answer.mode]))
        if call.index in abandoned:
            found.append(Mark("abandoned", time, fc.REPORTS.get(report, str(report))))
            held_by = 0
        elif call.record.kind == fc.STEP:
            found += [Mark("held back", time, fc.REPORTS.get(report, str(report)))] if report not in (0, held_by) else []
            held_by = report
    return found


def tints(found, axis, top, bottom, style="", least=0.0):
    """The stretches of each mode as a path of boxes."""
    boxes = dict.fromkeys(FILLS, "")
    for mode, start, end in found:
        left, right = px(at(axis, start)), px(max(at(axis, end), at(axis, start) + least))
        boxes[mode] += f"M{left} {px(top)}H{right}V{px(bottom)}H{left}Z" if left != right else ""
    return [path(boxes[mode], style, fill) for mode, fill in FILLS.items()]


def band(found, axis, top):
    """The band of the modes: each by its name, or else its letter, where there is room."""
    parts = [text(LEFT - 12, top + 16, "mode", "end", more=BOLD)] + tints(found, axis, top, top + BAND_HEIGHT, FRAME, LEAST_STRETCH)
    for mode, start, end in found:
        room = at(axis, end) - at(axis, start) - GAP
        words = next((words for words in (fc.MODES[mode], mode) if width(words) <= room), "")
        parts += [text((at(axis, start) + at(axis, end)) / 2, top + 16, words, "middle", more=HALO)] if words else []
    return parts


def shapes(places, y, shape):
    """A path of one shape at many places."""
    return "".join(f"M{place} {px(y)}{shape}" for place in dict.fromkeys(px(x) for x in places))


def common_label(labels):
    """One label for marks that stand close together."""
    known = list(dict.fromkeys(labels))
    if len(known) == 1:
        return known[0] + (f" ×{len(labels)}" if len(labels) > 1 else "")
    return ", ".join(known) if len(known) <= 3 else f"{known[0]} … {known[-1]} ({len(labels)})"


def lane_labels(placed, y):
    """The labels of a lane's marks, right of them or else left; none where there is no room."""
    groups = []
    for x, label in placed:
        if not groups or x - groups[-1][1] >= APART:
            groups.append([x, x, []])
        groups[-1][1] = x
        groups[-1][2].append(label)
    parts, free = [], LEFT
    for (first, last, labels), (after, *_) in zip(groups, groups[1:] + [[WIDTH]]):
        words = common_label(labels)
        room = width(words, SMALL)
        if last + GAP + room <= after - APART:
            parts.append(text(last + GAP, y + 3.5, words, size=SMALL))
            last += GAP + room
        elif first - GAP - room >= free:
            parts.append(text(first - GAP, y + 3.5, words, "end", SMALL))
        free = last + APART
    return parts


def lanes(found, axis, top):
    """The lanes that have marks, from `top` down, and where they end."""
    parts = []
    for kind, (_, shape, fill) in LANES.items():
        placed = [(at(axis, mark.time), mark.label) for mark in found if mark.kind == kind]
        if placed:
            y = top + LANE_HEIGHT / 2
            parts += [text(LEFT - 12, y + 3.5, kind, "end", SMALL), path(f"M{LEFT} {px(y)}H{RIGHT}", GRID)]
            parts += [path(shapes([x for x, _ in placed], y, shape), MARK, fill)] + lane_labels(placed, y)
            top += LANE_HEIGHT
    return parts, top


def range_of(panel):
    """The range of a panel, from a tick to a tick."""
    values = [value for curve in panel.curves for run in curve.runs for _, value in run]
    low, high = min([panel.low] + values), max([panel.high] + values)
    step = step_of(low, high, MOST_Y_TICKS)
    return math.floor(low / step + MARGIN) * step, math.ceil(high / step - MARGIN) * step


def y_axis(panel, axis, top, bottom):
    """Frame, ticks and unit on the left, and where it is an angle, degrees on the right."""
    places = ticks(axis, MOST_Y_TICKS)
    parts = [path("".join(f"M{LEFT} {px(y)}H{RIGHT}" for y, _ in places), GRID), path(f"M{LEFT} {px(top)}H{RIGHT}V{px(bottom)}H{LEFT}Z", FRAME)]
    parts += [text(LEFT - GAP, y + 3.5, words, "end", SMALL) for y, words in places] + [text(LEFT - GAP, top - 8, panel.unit, "end", SMALL, ITALIC)]
    if panel.in_degrees:
        places = ticks(axis._replace(low=math.degrees(axis.low), high=math.degrees(axis.high)), MOST_Y_TICKS)
        parts.append(path("".join(f"M{RIGHT} {px(y)}h4" for y, _ in places), FRAME))
        parts += [text(RIGHT + GAP, y + 3.5, words, size=SMALL) for y, words in places] + [text(RIGHT + GAP, top - 8, "degrees", size=SMALL, more=ITALIC)]
    return parts


def keys(panel, y):
    """The panel's title, and beside it what its lines are."""
    parts, x = [text(LEFT, y, panel.title, size=SIZE + 1, more=BOLD)], LEFT + width(panel.title, SIZE + 1) + KEY_GAP
    for curve in reversed(panel.curves if len(panel.curves) > 1 else []):
        if curve.runs:
            parts.append(path(f"M{px(x)} {px(y - 4)}h{KEY}", curve.style))
            x += KEY + GAP
        parts.append(text(x, y, curve.label, size=SMALL))
        x += width(curve.label, SMALL) + KEY_GAP
    return parts


def curve_lines(curve, x_axis, axis):
    """A curve, a path for each of its runs; a run of one point is a dot."""
    runs = ["L".join(f"{px(at(x_axis, time))} {px(at(axis, value))}" for time, value in run) + "h0" * (len(run) == 1) for run in curve.runs]
    return [f'<g fill="none" {curve.style}>'] + [f'<path d="M{run}"/>' for run in runs] + ["</g>"]


def drawn(panel, top, x_axis, found, marked):
    """A panel, whose frame begins at `top`."""
    bottom = top + PANEL_HEIGHT
    axis = Axis(*range_of(panel), bottom - INSET, top + INSET)
    parts = tints(found, x_axis, top, bottom)
    parts.append(path(shapes([x for x, _ in ticks(x_axis, MOST_X_TICKS)], top, f"v{PANEL_HEIGHT}"), GRID))
    parts += y_axis(panel, axis, top, bottom) + keys(panel, top - 8)
    for kind, style in LINES.items():
        parts.append(path(shapes([at(x_axis, mark.time) for mark in marked if mark.kind == kind], top, f"v{PANEL_HEIGHT}"), style))
    for curve in panel.curves:
        parts += curve_lines(curve, x_axis, axis)
    parts.append(path(shapes([at(x_axis, time) for time in panel.bad_times], axis.start, BAD[1]), MARK))
    if not panel.curves[-1].runs:
        parts.append(text((LEFT + RIGHT) / 2, (top + bottom) / 2 + 4, f"no {panel.curves[-1].label}", "middle", more=ITALIC))
    return parts


def time_axis(axis, top):
    """The ticks below the lowest panel."""
    parts = [text(x, top + 17, words, "middle", SMALL) for x, words in ticks(axis, MOST_X_TICKS)]
    return parts + [path(shapes([x for x, _ in ticks(axis, MOST_X_TICKS)], top, "v5"), FRAME), text((LEFT + RIGHT) / 2, top + 33, "time, s", "middle")]


def legend(entries, y):
    """Entries in rows from y down, and where they end; a shape of None is a box."""
    parts, x = [], LEFT
    for words, shape, fill in entries:
        if x > LEFT and x + KEY + GAP + width(words) > WIDTH:
            x, y = LEFT, y + LEGEND_ROW
        d = f"M{px(x + KEY / 2)} {px(y - 4)}{shape}" if shape else f"M{px(x)} {px(y - 10)}h{KEY}v12h-{KEY}z"
        parts += [path(d, MARK, fill), text(x + KEY + GAP, y, words)]
        x += KEY + GAP + width(words) + KEY_GAP
    return parts, y + LEGEND_ROW * bool(parts)


def head(flight, title, time):
    """The title, and below it the airframe and how much was flown."""
    refused, title = sum(bool(call.refused) for call in flight.calls), fitted(title, RIGHT - LEFT, TITLE_SIZE)
    words = f"{fc.AIRFRAMES[flight.airframe]}, calls {len(flight.calls)}, refused {refused}, time {time:.6g} s"
    return [f"<title>{html.escape(title)}</title>", text(LEFT, TITLE_Y, title, size=TITLE_SIZE, more=BOLD), text(LEFT, SUBTITLE_Y, words)]


def picture(flight, title):
    """The SVG of a flight."""
    calls = timed(flight)
    last = calls[-1][0] if calls else 0.0
    end = last + AFTER * (last or 1.0)
    axis = Axis(0.0, end if last else 1.0, LEFT, RIGHT)
    found, marked, shown = stretches(calls, end), marks(flight, calls), panels(flight, calls, end)
    parts, top = lanes(marked, axis, LANES_Y)
    parts = [DEFINITIONS] + head(flight, title, last) + parts + band(found, axis, top + 4)
    top += 4 + BAND_HEIGHT
    for panel in shown:
        parts += drawn(panel, top + TITLE_ROW, axis, found, marked)
        top += TITLE_ROW + PANEL_HEIGHT
    modes, below = legend([(f"{fc.MODES[mode]} ({mode})", None, fill) for mode, fill in FILLS.items()], top + 60)
    kinds = {mark.kind for mark in marked}
    entries, below = legend([entry for kind, entry in LANES.items() if kind in kinds] + [BAD] * any(panel.bad_times for panel in shown), below)
    parts += time_axis(axis, top) + modes + entries + [text(LEFT, below, NOTE, size=SMALL)]
    size = f'width="{WIDTH}" height="{below + 16}" viewBox="0 0 {WIDTH} {below + 16}"'
    first = f'<?xml version="1.0" encoding="UTF-8"?>\n<svg xmlns="http://www.w3.org/2000/svg" {size} font-family="Helvetica, Arial, sans-serif">'
    return "\n".join([first] + [part for part in parts if part] + ["</svg>", ""])


def replace_file(target, data):
    """Writes a regular file whole, or leaves what was there."""
    if os.path.exists(target):
        open(target, "r+b").close()  # one that may not be written is not replaced either
    beside = os.path.join(os.path.dirname(target), f".{os.urandom(8).hex()}.svg")
    try:
        with open(beside, "xb") as out:
            out.write(data)
        if os.path.exists(target):
            os.chmod(beside, os.stat(target).st_mode & 0o777)
        os.replace(beside, target)
    except BaseException:
        if os.path.exists(beside):
            os.unlink(beside)
        raise


def write_file(name, data):
    """Writes a file; what is not a regular one, such as /dev/stdout, directly."""
    try:
        if not name.startswith("/dev/") and (os.path.isfile(name) or not os.path.lexists(name)):
            replace_file(os.path.realpath(name), data)
        else:
            with open(name, "wb") as out:
                out.write(data)
    except OSError as error:
        raise OSError(error.errno, error.strerror, name) from None


def main():
    if len(sys.argv) != 5:
        raise Bad(__doc__.strip())
    card, transcript = tool.read(sys.argv[1]), tool.read(sys.argv[2]).decode("ascii", "replace")
    write_file(sys.argv[3], picture(flown(card, transcript), sys.argv[4]).encode())
    return 0


if __name__ == "__main__":
    tool.ended("fly", main)
