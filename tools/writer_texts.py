"""Texts for the program `writer`, and what it has to answer to each by the text form of oracle/card and the Rust reference.

usage: writer_texts.py make SEED N EXAMPLE.. > TEXTS        the examples that the program takes, and N texts of a seed
       writer_texts.py answers REFERENCE < TEXTS > ANSWERS  what `writer list` has to write for them
       writer_texts.py compare N SEED REFERENCE WRITER..    N texts through `WRITER.. list`, each held to that

TEXTS has each text with its length before it, a little-endian u32. An answer is the card with its length before it in the same way; or a length of 0 and a line:
'line N' for a line that the program does not take, 'line N refused 3 K' for a header's setting and 'line N refused 21' for call 800.
The first line that is not taken counts, then 21, then 3. REFERENCE is oracle's, and says which header is refused.
"""
import os
import pathlib
import re
import struct
import subprocess
import sys

import card_text
import flight_card as fc
import tool
from some_texts import a_text
from tool import Bad

KEPT = pathlib.Path("target/differ")
AT_ONCE = 200
MOST_CALLS = fc.MOST_RECORDS - 1
SIZE = struct.Struct("<I")


def is_odd(words, airframe):
    """Whether a line that oracle/card takes is not the program's. The airframe is None before the header."""
    name, *rest = words
    header = name in fc.AIRFRAMES.values()
    if header != (airframe is None) or name == "record":
        return True
    if any(word.startswith("next=") for word in rest):
        return True
    if rest and rest[-1].startswith("times="):
        times = rest.pop()[6:]
        if header or len(times) > 3 or int(times) > MOST_CALLS:
            return True
    if name == "cut":
        return rest[0] not in card_text.REASON_OF and int(rest[0]) not in fc.REPORTS
    if name in ("settings", *fc.AIRFRAMES.values()) and rest and "=" not in rest[0]:
        kind = card_text.KIND_OF[name] if header else airframe
        if len(rest) != len(fc.SETTINGS_OF[kind]):
            return True
    return any(card_text.is_long(value) for word in rest for value in word.rpartition("=")[2].split(","))


class Judged:
    """What the program makes of a text: the first line that it does not take, if any; else its records, with the lines of the header and of call 800."""

    def __init__(self, text):
        self.bad, self.records, self.header, self.late = 0, [], 0, 0
        try:
            for number, words, records in card_text.read_lines(text):
                self.line(number, words, records)
        except Bad as bad:
            self.bad = self.bad or int(re.match("line ([0-9]+): ", str(bad))[1])
        if not self.bad and not self.records:
            self.bad = max(1, len(card_text.lines_of(text)))

    def line(self, number, words, records):
        if self.bad or not words:
            return
        self.header = self.header or number
        if is_odd(words, self.records[0][0][0] if self.records else None):
            self.bad = number
            return
        self.records += records
        if len(self.records) > fc.MOST_RECORDS:
            self.late = self.late or number

    def answer(self, field):
        """The program's answer; `field` is the header's bad setting, or 0."""
        if self.bad:
            return said(f"line {self.bad}")
        if self.late:
            return said(f"line {self.late} refused 21")
        if field:
            return said(f"line {self.header} refused 3 {field}")
        card = plain_nans(card_text.card_of(self.records))
        return SIZE.pack(len(card)) + card


def said(line):
    return SIZE.pack(0) + f"{line}\n".encode()


def plain_nans(card):
    """The card with each NaN as 7FC00000."""
    records = [record._replace(numbers=[plain_nan(number) for number in record.numbers]) for record in fc.records_of(card)]
    return b"".join(fc.pack(record) for record in records)


def plain_nan(number):
    return 0x7FC00000 if number & 0x7FFFFFFF > 0x7F800000 else number


def by_reference(reference):
    """The reference's verdicts on headers."""

    def verdicts(headers):
        done = subprocess.run([reference, "transcripts"], input=listed(headers), capture_output=True, check=True)
        lines = done.stdout.decode().splitlines()
        if len(lines) != len(headers):
            raise Bad("the reference has not answered for each header")
        return [int(line.split()[2]) if line.startswith("card 3 ") else 0 for line in lines]

    return verdicts


def answers(texts, verdicts):
    """The program's answers; `verdicts` gives of each header the bad setting or 0."""
    judged = [Judged(text) for text in texts]
    headers = [b"" if text.bad else card_text.card_of(text.records[:1]) for text in judged]
    return [text.answer(field) for text, field in zip(judged, verdicts(headers))]


def texts_of(listed):
    texts = []
    while listed:
        size = SIZE.unpack(listed[: SIZE.size])[0] + SIZE.size
        texts.append(listed[SIZE.size : size])
        listed = listed[size:]
    return texts


def listed(texts):
    return b"".join(SIZE.pack(len(text)) + text for text in texts)


def first_answer(written):
    """The length of the first answer in what the program wrote."""
    if len(written) < SIZE.size:
        return len(written)
    size = SIZE.unpack(written[: SIZE.size])[0]
    return SIZE.size + size if size else written.find(b"\n") + 1 or len(written)


def in_words(answer):
    """An answer in words: its line, or its length."""
    if answer[: SIZE.size] == SIZE.pack(0):
        return ascii(answer[SIZE.size :].decode("latin-1"))
    return f"a card of {len(answer) - SIZE.size} bytes" if len(answer) > SIZE.size else "nothing"


def differing(texts, verdicts, program):
    """Of each text that the program answers otherwise: its place, the answer that it has to give, and the one that it gives."""
    written = subprocess.run([*program, "list"], input=listed(texts), capture_output=True, check=False).stdout
    for i, expected in enumerate(answers(texts, verdicts)):
        size = first_answer(written) if i + 1 < len(texts) else len(written)
        answer, written = written[:size], written[size:]
        if answer != expected:
            yield i, expected, answer


def compare(count, seed, reference, program):
    """Each text through the program; shows and keeps what differs."""
    differ = 0
    for first in range(0, count, AT_ONCE):
        texts = [a_text(seed, index) for index in range(first, min(count, first + AT_ONCE))]
        for i, expected, answer in differing(texts, by_reference(reference), program):
            differ += 1
            KEPT.mkdir(parents=True, exist_ok=True)
            kept = KEPT / f"{seed}-{first + i}.text"
            kept.write_bytes(texts[i])
            at = next((at for at, (a, b) in enumerate(zip(expected, answer)) if a != b), min(len(expected), len(answer)))
            print(f"text {first + i} of seed {seed}, byte {at} of the answer:\n  oracle/card {in_words(expected)}\n  program     {in_words(answer)}\n  kept in {kept}")
    print(f"{count} texts, {differ} differ")
    return 1 if differ else 0


def main():
    words = sys.argv[1:]
    if len(words) >= 3 and words[0] == "make":
        examples = [text for text in map(tool.read, words[3:]) if not Judged(text).bad]
        tool.write(listed(examples + [a_text(int(words[1]), index) for index in range(int(words[2]))]))
    elif len(words) == 2 and words[0] == "answers":
        tool.write(b"".join(answers(texts_of(tool.read_input(1 << 30)), by_reference(words[1]))))
    elif len(words) >= 5 and words[0] == "compare":
        return compare(int(words[1]), int(words[2]), words[3], words[4:])
    else:
        os.write(2, __doc__.encode())
        return 2
    return 0


if __name__ == "__main__":
    sys.dont_write_bytecode = True
    tool.ended("writer_texts", main)
