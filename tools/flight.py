"""A flown card: each call with its answer, the time, the height and the settings in force."""
import math
from collections import namedtuple

import flight_card as fc
from tool import Bad

# `time` is the seconds of the accepted steps up to and with this call; `height` what the machine made of z, None where the call has none;
# `airspeed` None where it is absent; `settings` the record whose settings are in force after the call; `refused` the words of a refusal, or ''.
Call = namedtuple("Call", "index record answer refused time height airspeed settings")
Flight = namedtuple("Flight", "airframe header calls")


def flown(card, transcript):
    """The flight of a card that the runner has flown."""
    lines = fc.lines_of(transcript)
    if [index for index, _ in lines] != fc.checked(card):
        raise Bad("this is no transcript of this card")
    records = fc.records_of(card)
    airframe, settings, time, home, calls = records[0].kind, records[0], 0.0, math.nan, []
    for index, said in lines:
        record = records[index]
        refused = "" if isinstance(said, fc.Answer) else fc.call_words(airframe, record, said)
        if not refused:
            time += fc.number(record, fc.PLACE["dt"]) if record.kind == fc.STEP else 0.0
            home = fc.number(record, fc.PRIME_Z) if record.kind == fc.PRIME else home
            settings = record if record.kind == fc.SETTINGS else settings
        height = fc.rounded(fc.number(record, fc.PLACE["z"]) - home) if record.kind in (fc.PRIME, fc.STEP) else None
        airspeed = fc.number(record, fc.PLACE["airspeed"]) if record.kind == fc.STEP and record.option & fc.AIRSPEED_PRESENT else None
        calls.append(Call(index, record, None if refused else said, refused and f"{said[0]}: {refused}", time, height, airspeed, settings))
    return Flight(airframe, records[0], calls)


def setting(flight, record, name):
    """A setting by its name, in the settings of a record; None where the airframe has none."""
    names = [setting.name for setting in fc.SETTINGS_OF[flight.airframe]]
    return fc.number(record, names.index(name) + 1) if name in names else None


def is_valid(airspeed):
    """Whether an airspeed is one that the machine uses."""
    return airspeed is not None and airspeed >= 0


def abandonments(flight):
    """The calls at which Plane, or the way to it, was given up."""
    mode, found = "C", []
    for call in flight.calls:
        if call.answer:
            if call.answer.report and (mode, call.answer.mode) in (("F", "C"), ("P", "B")):
                found.append(call)
            mode = call.answer.mode
    return found
