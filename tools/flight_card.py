"""The flight card and its transcript: what every tool here knows of the format.

The text form (oracle/card), the table, the picture and the check of docs/CARD.md and docs/SETTINGS.md take it from here.
What a card means is document 01, sections 2, 7, 9 and 10; what is proved is crates/card. `./check-tools` holds this file to both.
"""
import math
import struct
from collections import namedtuple

from tool import Bad

RECORD_BYTES = 80
MOST_RECORDS = 800
NUMBERS = 19
RECORD = struct.Struct("<BBH19I")

Record = namedtuple("Record", "kind option next numbers")
Setting = namedtuple("Setting", "name unit range default does read_by")
Part = namedtuple("Part", "name first size unit does")
Refusal = namedtuple("Refusal", "number field record why")
Answer = namedtuple("Answer", "mode share_or_tilt handoff report thrust pitch")

PRIME, STEP, CUT, SETTINGS, TAILSITTER, QUADPLANE = 1, 2, 3, 4, 5, 6
KINDS = {PRIME: "prime", STEP: "step", CUT: "cut", SETTINGS: "settings", TAILSITTER: "tailsitter", QUADPLANE: "quadplane"}
AIRFRAMES = {TAILSITTER: "tailsitter", QUADPLANE: "quadplane"}
# The options that a record of a kind may have. A step's: 1 if Plane is requested, plus 2 if the airspeed is present.
OPTIONS = {PRIME: range(1), STEP: range(4), CUT: range(11, 17), SETTINGS: range(1), TAILSITTER: range(1), QUADPLANE: range(1)}
PLANE_REQUESTED, AIRSPEED_PRESENT = 1, 2
# What a record of a kind does.
KIND_WORDS = {
    PRIME: "a start: Copter, thrust and pitch 0, no report and no abandonment; heights count from its z",
    STEP: "a time step with what is requested, the state of the vehicle and the demand",
    CUT: "a transition is cut short; the option is the reason",
    SETTINGS: "new settings, all of them at once; no other state changes, but share or tilt is worked out by them and may jump",
    TAILSITTER: "the card is a tailsitter's, with these settings",
    QUADPLANE: "the card is a quadplane's, with these settings",
}

# The numbers of a step.
PARTS = [
    Part("dt", 1, 1, "s", "the time step; above 0 and finite, else the step is refused with 1"),
    Part("z", 2, 1, "m", "z, up, from any zero; the height is z less the z of the last prime, and NaN before any prime"),
    Part("velocity", 3, 3, "m/s", "the velocity: north, east, up"),
    Part("acceleration", 6, 2, "m/s²", "the horizontal acceleration: north, east"),
    Part("attitude", 8, 4, "", "the attitude as a quaternion: w, x, y, z; level and north is 1 0 0 0"),
    Part("airspeed", 12, 1, "m/s", "the airspeed; read only if the option says that it is there, and used only if it is 0 or above"),
    Part("entry_tilt", 13, 1, "rad", "the angle of the tailsitter's nose from straight up; 0 to π, else its step is refused with 2 (unless nose-up is not finite); not looked at on the quadplane"),
    Part("bank", 14, 1, "rad", "the bank; past roll_limit_rad on either side, a transition is cut; NaN never is"),
    Part("demand", 15, 1, "", "the throttle that is demanded, 0 to 1; less counts as 0, more as 1, NaN as 0; not looked at where a step ends in a tailsitter's transition or a quadplane's ToPlane"),
]
PRIME_Z = 2
PLACE = {part.name: part.first for part in PARTS}
# What each bit of a step's option says: where it is not set, and where it is.
OPTION_BITS = {
    PLANE_REQUESTED: ("Copter is requested", "Plane is requested"),
    AIRSPEED_PRESENT: (f"there is no airspeed, and number {PLACE['airspeed']} is not looked at", f"number {PLACE['airspeed']} is the airspeed"),
}
# Numbers of a step that an airframe's answers never depend on.
IDLE = {TAILSITTER: [3, 4, 6, 7], QUADPLANE: [13]}

MODES = {"C": "Copter", "F": "ToPlane", "P": "Plane", "B": "ToCopter"}
REPORTS = {11: "Unsupported", 12: "OnGround", 13: "BelowMinAltitude", 14: "TransitionTimeout", 15: "RollError", 16: "BelowPlaneMinAltitude"}
# When a report comes.
CUT_REASON = "a cut with this option in ToPlane"
REPORT_WORDS = {
    11: CUT_REASON,
    12: CUT_REASON,
    13: f"Plane is requested in Copter, and the height is below `min_height_m` or `plane_min_height_m` or is not finite, as it is before any prime; or {CUT_REASON}",
    14: f"ToPlane took longer than `timeout_s`, a quadplane's without beginning its ramp; or {CUT_REASON}",
    15: f"in ToPlane the bank is past `roll_limit_rad`; or {CUT_REASON}",
    16: f"Plane is requested in Plane, and the height is below `plane_min_height_m`, if that is above 0; or {CUT_REASON}",
}
# What the words of an accepted call's line are, after the index.
COLUMNS = {
    "mode": "one of the letters below",
    "share_or_tilt": "quadplane: the rotors' share of the lift, 0 to 1. Tailsitter: the tilt, which is the angle from straight up that the nose is to have, in rad, in ToPlane and ToCopter; `-` in Copter and Plane",
    "handoff": "`1` if with this call ToPlane has completed or ToCopter has ended in Copter, else `0`; ToCopter back to Plane shows `0`, although the thrust is handed over there too",
    "report": "the number of a report below, or `0`",
    "thrust": "the thrust, 0 to 1; a cut and a settings call show the last step's, or 0 if there was none since the prime",
    "pitch": "the nose-up pitch of the quadplane's ToCopter in rad, 0 to 0.3; it stays after that until ToCopter is entered again or a prime; a tailsitter's is 0",
}

PI, HALF_PI = 0x40490FDB, 0x3FC90FDB


def value_of(bits):
    """The number that 32 bits are."""
    return struct.unpack("<f", struct.pack("<I", bits))[0]


def rounded(value):
    """The binary32 number nearest to a float."""
    try:
        return struct.unpack("<f", struct.pack("<f", value))[0]
    except OverflowError:
        return math.copysign(math.inf, value)


def bits_of(value):
    """The bits of the binary32 number nearest to a float."""
    return struct.unpack("<I", struct.pack("<f", rounded(value)))[0]


ENDS = {"0": 0.0, "1": 1.0, "π/2": value_of(HALF_PI), "π": value_of(PI), "∞": math.inf}


def end_words(written):
    """Of a range such as (0, π/2]: its low and its high end as written."""
    return written[1:-1].split(", ")


def ends_of(written):
    """Of a range as written: low, whether it counts, high, whether it counts."""
    low, high = end_words(written)
    return ENDS[low], written[0] == "[", ENDS[high], written[-1] == "]"


def within(value, written):
    """Whether a number is in a range; NaN is in none, and -0 counts as 0."""
    low, low_counts, high, high_counts = ends_of(written)
    return (value > low or (low_counts and value == low)) and (value < high or (high_counts and value == high))


def range_words(written):
    """A range in words."""
    low, high = end_words(written)
    if written[0] == "[" and written[-1] == "]":
        return f"{low} to {high}"
    above = f"{low} or above" if written[0] == "[" else f"above {low}"
    if high == "∞":
        return f"{above} and finite"
    return f"{above} and at most {high}" if written[-1] == "]" else f"{above} and below {high}"


TAILSITTER_SETTINGS = [
    Setting("forward_rate_radps", "rad/s", "(0, ∞)", "0.87266463", "how fast the tilt grows in ToPlane", "machines/vtol: tilt_target_rad"),
    Setting("forward_done_rad", "rad", "(0, π/2)", "0.7853982", "the nose's angle from straight up at which ToPlane may complete; only checked: its cosine, setting 16, is what the machine compares with", ""),
    Setting("forward_max_tilt_rad", "rad", "(0, π/2]", "1.3962634", "the largest tilt in ToPlane, or the entry tilt if that is larger; a nose that follows one below setting 2 never completes ToPlane", "machines/vtol: tilt_target_rad"),
    Setting("min_airspeed_mps", "m/s", "[0, ∞)", "0", "with the nose far enough down (setting 16) ToPlane completes at this airspeed or above, or where there is no valid airspeed", "machines/vtol: forward_done"),
    Setting("back_rate_radps", "rad/s", "(0, ∞)", "0.87266463", "how fast the tilt falls in ToCopter", "machines/vtol: tilt_target_rad"),
    Setting("back_done_rad", "rad", "(0, π/2)", "0.7853982", "the nose's angle from straight up at which ToCopter is done; only checked: its cosine, setting 17, is what the machine compares with", ""),
    Setting("timeout_s", "s", "(0, ∞)", "15", "after more than this ToPlane is given up (report 14) and ToCopter ends in Copter", "machines/vtol: moved"),
    Setting("min_height_m", "m", "[0, ∞)", "5", "ToPlane is entered at this height or above, and at the height of setting 9 or above (else report 13)", "machines/vtol: moved"),
    Setting("plane_min_height_m", "m", "[0, ∞)", "0", "the floor: below it Plane is given up (report 16); also a minimum for entering ToPlane; 0 is off", "machines/vtol: moved"),
    Setting("forward_thrust", "", "[0, 1]", "0.5", "the thrust in ToPlane", "joined/thrust: tailsitter_thrust"),
    Setting("back_thrust", "", "[0, 1]", "0.5", "the thrust in ToCopter, before the sink guard", "joined/thrust: back_thrust"),
    Setting("back_sink_limit_mps", "m/s", "[0, ∞)", "1", "sinking faster than this in ToCopter raises the thrust; 0 is off", "joined/thrust: back_thrust"),
    Setting("back_sink_gain", "s/m", "[0, ∞)", "0.4", "thrust added for each m/s of sinking faster than setting 12; the sum is at most 1", "joined/thrust: back_thrust"),
    Setting("handoff_s", "s", "[0, ∞)", "0.5", "how long a handoff takes from the thrust before it to the demand, from the beginning of the step that starts it; 0 is at once", "joined/machine: handoff_s"),
    Setting("roll_limit_rad", "rad", "(0, π]", "0.7853982", "banked further than this in ToPlane or ToCopter, the transition is cut (in ToPlane report 15)", "joined/machine: roll_limit_rad"),
    Setting("forward_done_cosine", "", "(0, 1]", "0.70710677", "the cosine of setting 2: ToPlane may complete where nose-up, the cosine of the nose's angle from straight up, is this or less", "machines/vtol: forward_done"),
    Setting("back_done_cosine", "", "(0, 1]", "0.70710677", "the cosine of setting 6: ToCopter is done where nose-up is this or more", "machines/vtol: moved"),
]
QUADPLANE_SETTINGS = [
    Setting("min_airspeed_mps", "m/s", "[0, ∞)", "9", "the first step after the one that entered ToPlane with a valid airspeed at or above this begins the ramp; without a reading none begins, at 0 neither", "machines/lift: ramp"),
    Setting("lift_ramp_s", "s", "(0, ∞)", "5", "how long the ramp takes the rotors' share from 1 to 0; Plane after it", "machines/lift: forward_share, ramp_done"),
    Setting("timeout_s", "s", "(0, ∞)", "15", "after more than this without a ramp ToPlane is given up (report 14)", "machines/lift: ramp_timed_out"),
    Setting("min_height_m", "m", "[0, ∞)", "5", "ToPlane is entered at this height or above, and at the height of setting 5 or above (else report 13)", "machines/lift: moved"),
    Setting("plane_min_height_m", "m", "[0, ∞)", "0", "the floor: below it Plane is given up (report 16); also a minimum for entering ToPlane; 0 is off", "machines/lift: moved"),
    Setting("back_ramp_s", "s", "(0, ∞)", "3", "how long the rotors' share takes from 0 to 1 in ToCopter; where Plane was given up it is 1 at once", "machines/lift: back_share"),
    Setting("back_speed_mps", "m/s", "[0, ∞)", "5", "ToCopter is done below this forward speed; where the forward speed is not finite, the valid airspeed counts; at 0 only flying backwards or setting 8 ends ToCopter", "machines/lift: slowed"),
    Setting("back_timeout_s", "s", "(0, ∞)", "10", "after more than this ToCopter ends in Copter", "machines/lift: moved"),
    Setting("back_decel_mps2", "m/s²", "[0, ∞)", "2", "the deceleration that ToCopter aims at", "joined/thrust: decelerated"),
    Setting("back_decel_i", "rad·s/m", "[0, ∞)", "0.1", "how fast the pitch grows by what the deceleration lacks; at 0 it does not change", "joined/thrust: decelerated"),
    Setting("forward_thrust", "", "[0, 1]", "1", "the largest thrust in ToPlane; the demand is not looked at there", "joined/thrust: run_up"),
    Setting("pusher_slew_per_s", "1/s", "(0, ∞)", "0.33", "how fast the thrust rises in ToPlane up to setting 11, from 0 at the step that enters it", "joined/thrust: run_up"),
    Setting("forward_pitch_max_rad", "rad", "(0, π/2)", "0.05235988", "only checked; a caller of the helper forward_pitch_limit_rad gives it this number", ""),
    Setting("handoff_s", "s", "[0, ∞)", "0.5", "how long a handoff takes from the thrust before it to the demand, from the beginning of the step that starts it; 0 is at once", "joined/machine: handoff_s"),
    Setting("roll_limit_rad", "rad", "(0, π]", "0.7853982", "banked further than this in ToPlane or ToCopter, the transition is cut (in ToPlane report 15)", "joined/machine: roll_limit_rad"),
]
SETTINGS_OF = {TAILSITTER: TAILSITTER_SETTINGS, QUADPLANE: QUADPLANE_SETTINGS}

# The refusals that a call on a card, and a card, can meet: what is wrong, and how it is mended.
CALL_REFUSALS, CARD_REFUSALS = (1, 2, 3), (3, 6, 7, 8, 9, 10)
REFUSALS = {
    1: ("the time step is not above 0 and finite", "give the step a dt above 0; 0.005 is usual"),
    2: ("the entry tilt is NaN or not in 0 to π, while the attitude's nose-up is finite (tailsitter, every step)", "give the step the angle of the nose from straight up, the arc cosine of nose-up, in every mode"),
    3: ("a setting is out of its range", "docs/SETTINGS.md has the ranges; the number after the 3 is the setting's position"),
    6: ("the card is not 1 to 800 whole records of 80 bytes", "look for a byte too few or too many, or another file; a text form is flown from a file whose name ends in .txt"),
    7: ("fewer marks were lent than the card has records", "the runner lends 800, so none of its cards meets this; another caller of crates/card has to lend a mark for each record"),
    8: ("a record names a next record that the card does not have", "the last record's next index is 0; indexes count from 0, the header"),
    9: ("a record is met that was passed already", "the chain goes in a circle: end it with 0, or name a record that was not passed"),
    10: ("a record's kind or option is none that its place may have", "record 0 is of kind 5 or 6, every other that the chain reaches of kind 1 to 4, each with an option of its kind"),
}


def pack(record):
    return RECORD.pack(record.kind, record.option, record.next, *record.numbers)


def records_of(card):
    """The whole records of a card's bytes."""
    return [Record(kind, option, after, numbers) for kind, option, after, *numbers in RECORD.iter_unpack(card[: len(card) // RECORD_BYTES * RECORD_BYTES])]


def number(record, place):
    """Number `place` of a record, counted from 1."""
    return value_of(record.numbers[place - 1])


def decimal(bits):
    """The shortest decimal that reads back as these bits; a NaN and an infinity by name."""
    return decimal_of(value_of(bits))


def decimal_of(value):
    """The same of a number."""
    if not math.isfinite(value):
        return "nan" if math.isnan(value) else "inf" if value > 0 else "-inf"
    for digits in range(1, 10):
        word = f"{value:.{digits}g}"
        if rounded(float(word)) == value:
            break
    return repr(float(word)).removesuffix(".0")


def bad_setting(airframe, record):
    """The first setting of a record that is out of its range, counted from 1, or 0."""
    for place, setting in enumerate(SETTINGS_OF[airframe], 1):
        if not within(number(record, place), setting.range):
            return place
    return 0


def setting_words(airframe, record, place):
    """What is wrong with a setting."""
    setting = SETTINGS_OF[airframe][place - 1]
    unit = f" {setting.unit}" if setting.unit else ""
    return f"setting {place} of the {AIRFRAMES[airframe]}, {setting.name}, is {decimal(record.numbers[place - 1])}{unit}; it has to be {range_words(setting.range)}"


def kind_words(i, record):
    """What is wrong with a kind or option, or '' if nothing is."""
    known = AIRFRAMES if i == 0 else [kind for kind in KINDS if kind not in AIRFRAMES]
    if record.kind not in known:
        names = ", ".join(f"{kind} {KINDS[kind]}" for kind in known)
        return f"record {i} is of kind {record.kind}; {'the header' if i == 0 else 'a call'} is of one of these: {names}"
    allowed = OPTIONS[record.kind]
    if record.option not in allowed:
        options = f"{allowed[0]} to {allowed[-1]}" if len(allowed) > 1 else str(allowed[0])
        return f"record {i}, a {KINDS[record.kind]}, has option {record.option}; it has to be {options}"
    return ""


def checked(card):
    """The indexes of the chain after the header, or the Refusal of the card (document 01, section 9)."""
    if not RECORD_BYTES <= len(card) <= MOST_RECORDS * RECORD_BYTES or len(card) % RECORD_BYTES:
        return Refusal(6, 0, None, length_words(len(card)))
    records = records_of(card)
    if kind_words(0, records[0]):
        return Refusal(10, 0, 0, kind_words(0, records[0]))
    field = bad_setting(records[0].kind, records[0])
    if field:
        return Refusal(3, field, 0, setting_words(records[0].kind, records[0], field))
    chain, at = [], 0
    while records[at].next:
        after = records[at].next
        why = link_words(at, after, len(records), chain)
        if why:
            return Refusal(*why)
        if kind_words(after, records[after]):
            return Refusal(10, 0, after, kind_words(after, records[after]))
        chain.append(after)
        at = after
    return chain


def link_words(at, after, count, passed):
    """What a Refusal of a link holds, or nothing if it may be followed."""
    if after >= count:
        last = "the header alone" if count == 1 else f"records 0 to {count - 1}"
        return 8, 0, at, f"record {at} names record {after} as the next one, and the card has {last}"
    if after in passed:
        return 9, 0, at, f"record {at} names record {after} as the next one, which was passed already"
    return None


def length_words(size):
    """What is wrong with a card's length."""
    if size > MOST_RECORDS * RECORD_BYTES:
        return f"the card has more than {MOST_RECORDS * RECORD_BYTES} bytes, which {MOST_RECORDS} records have"
    if size == 0:
        return f"the card is empty; it has 1 to {MOST_RECORDS} records of {RECORD_BYTES} bytes"
    return f"the card has {size} bytes: {size // RECORD_BYTES} records of {RECORD_BYTES} and {size % RECORD_BYTES} bytes more"


def card_words(card, transcript):
    """Why the runner refused a card with 'card n' or 'card 3 f', in words."""
    try:
        said = [int(word) for word in transcript.split()[1:]]
        what, mend = REFUSALS[said[0]]
    except (ValueError, IndexError, KeyError):
        raise Bad("this is no transcript of a refused card") from None
    found = checked(card)
    same = isinstance(found, Refusal) and said == [found.number] + [found.field] * (found.number == 3)
    return f"card refused, {said[0]}: {found.why if same else what} ({mend})"


def call_words(airframe, record, said):
    """Why a call was refused, in words: `said` is the refusal's number, and after 3 the setting's position."""
    if said[0] == 1:
        return f"dt is {decimal(record.numbers[PLACE['dt'] - 1])} s; it has to be above 0 and finite"
    if said[0] == 2:
        return f"the entry tilt is {decimal(record.numbers[PLACE['entry_tilt'] - 1])} rad; it has to be 0 to π"
    if said[0] == 3 and len(said) > 1 and said[1] <= len(SETTINGS_OF[airframe]):
        return setting_words(airframe, record, said[1])
    return REFUSALS[said[0]][0] if said[0] in REFUSALS else f"refusal {said[0]}"


def lines_of(transcript):
    """The lines of a flown card's transcript: index, and an Answer or the refusal's numbers."""
    rows = [line.split(" ") for line in transcript.splitlines()]
    try:
        if rows.pop() != ["end", str(len(rows))]:
            raise ValueError
        return [(int(index), [int(word) for word in rest[1:]] if rest[0] == "refused" else answer_of(rest)) for index, *rest in rows]
    except (ValueError, IndexError):
        raise Bad("this is no transcript of a flown card") from None


def answer_of(words):
    mode, share_or_tilt, handoff, report, thrust, pitch = words
    if mode not in MODES:
        raise ValueError
    shown = None if share_or_tilt == "-" else value_of(int(share_or_tilt, 16))
    return Answer(mode, shown, handoff == "1", int(report), value_of(int(thrust, 16)), value_of(int(pitch, 16)))
