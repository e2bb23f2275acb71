"""Checks of ./fly and oracle/card as commands: what they write, their status and words, and how runner and writer are built, alone and sixteen at once."""
import os
import pathlib
import shutil
import signal
import struct
import subprocess
import tempfile
import time

import checks

ROOT = pathlib.Path(__file__).resolve().parent.parent
FLY, TEXT_FORM = ROOT / "fly", ROOT / "oracle/card"
CARD = ROOT / "examples/section7.card"
TEXT = CARD.with_suffix(".txt")
# Its records are out of order, so that the writer does not take it.
ODD_TEXT = ROOT / "examples/chain.txt"
AT_ONCE = 16
ODD_NAME = "a b&<'\"$(touch x)\x01.card"
# Stands in for the kit's `rt run` in the crate's folder: counts its calls, takes a second, leaves files of its own in out/, puts the program in its place and runs it, or fails; or a source changes meanwhile.
# What it ends with is the program's status, 7 here, and rt's own words are on standard error.
FAKE_RT = """#!/bin/sh
echo called >>"$FAKE/calls"
name=${PWD##*/}
[ "$*" = run ] && [ -f ../../crates.txt ] && [ /dev/stdin -ef /dev/null ] || { echo "rt: called otherwise" >&2; exit 2; }
mkdir -p out && date +%N >out/kept.antt && date +%N >out/kept.rt
[ ! -e "$FAKE/waits" ] || echo "rt: waiting for another rt to finish in $PWD" >&2
printf 'crate %s: modules loaded=1 checked=1\\nlogic=proved functions=1\\n' numbers >&2
sleep 1
[ ! -e "$FAKE/changes" ] || { echo "// changed" >>../numbers/src/lib.rt; rm "$FAKE/changes"; }
[ ! -e "$FAKE/fails" ] || { printf 'crate %s: modules loaded=1 checked=1\\nlogic=not-proved\\n' "$name" >&2; exit 1; }
cp "$FAKE/$name" "out/$name"
printf 'crate %s: modules loaded=1 checked=1\\nlogic=proved functions=1\\nrt: running out/%s; to give it other input, run that file yourself\\n' "$name" "$name" >&2
"out/$name"
exit 7
"""


class Clone:
    """A folder with fly in it, a crate to change, and an rt of its own on the PATH."""

    def __init__(self, place, runner, writer):
        self.root, self.fake = place / "clone", place / "fake"
        for crate in ("numbers/src", "runner", "writer"):
            (self.root / "crates" / crate).mkdir(parents=True)
        self.fake.mkdir()
        self.change("crates.txt", "numbers:\n")
        self.change("crates/numbers/src/lib.rt", "// one\n")
        shutil.copy(FLY, self.root)
        shutil.copy(runner, self.fake / "runner")
        shutil.copy(writer, self.fake / "writer")
        for name in ("tools", "oracle"):
            (self.root / name).symlink_to(ROOT / name)
        (self.fake / "rt").write_text(FAKE_RT)
        (self.fake / "rt").chmod(0o755)
        self.env = {**os.environ, "PATH": f"{self.fake}:{os.environ['PATH']}", "FAKE": str(self.fake)}

    def change(self, name, text):
        (self.root / name).write_text(text)

    def calls(self):
        counted = self.fake / "calls"
        return len(counted.read_text().split()) if counted.exists() else 0

    def fly(self, given=CARD):
        return checks.run([self.root / "fly", given], env=self.env)

    def start(self, given=CARD, **ends):
        return subprocess.Popen([self.root / "fly", given], env=self.env, **ends)


def right():
    return CARD.with_suffix(".transcript").read_bytes()


def together(clone, given=CARD):
    """As many flights at once as are asked for: output and status of each."""
    started = [clone.start(given, stdout=subprocess.PIPE, stderr=subprocess.DEVNULL) for _ in range(AT_ONCE)]
    return [(flight.communicate()[0], flight.returncode) for flight in started]


def seconds_between(clone):
    """How long before its end a flight that builds has said of the first crate that it is proved."""
    with clone.start(stdout=subprocess.DEVNULL, stderr=subprocess.PIPE) as flight:
        while (line := flight.stderr.readline()) and b"numbers proved" not in line:
            pass
        said = time.monotonic()
        flight.wait()
        return time.monotonic() - said if line else 0


def unheard(clone):
    """Output and status of a flight whose reader of words leaves before it has any."""
    with clone.start(stdout=subprocess.PIPE, stderr=subprocess.PIPE) as flight:
        flight.stderr.close()
        return flight.stdout.read(), flight.wait()


def building(found, clone):
    """What is built is right, once, and told."""
    found.hold(f"{AT_ONCE} flights at once from nothing are right", together(clone) == [(right(), 0)] * AT_ONCE)
    found.hold("and the runner was built once", clone.calls() == 1, str(clone.calls()))
    found.hold("what is built is flown without rt and without a word", clone.fly() == (0, right(), b"") and clone.calls() == 1)
    found.hold(f"{AT_ONCE} flights at once of what is built are right", together(clone) == [(right(), 0)] * AT_ONCE)
    clone.change("crates/numbers/src/lib.rt", "// two\n")
    found.hold("each crate is told as soon as it is proved", seconds_between(clone) > 0.5)
    with open(clone.root / "target/fly/runner", "ab") as built:
        built.write(b"x")
    found.hold("a runner that was changed is built again", clone.fly()[:2] == (0, right()) and clone.calls() == 3, str(clone.calls()))
    shutil.rmtree(clone.root / "target/fly")
    status, said, words = clone.fly()
    found.hold("where rt has the runner still, the first flight speaks of no minutes", (status, said) == (0, right()) and b"minutes" not in words, words.decode())
    clone.change("crates/numbers/src/lib.rt", "// three\n")
    (clone.fake / "waits").touch()
    status, said, words = clone.fly()
    found.hold("and else of them, of a wait for another rt and of each crate", (status, said) == (0, right()) and all(told in words for told in (b"minutes", b"fly: waiting for another rt ", b"fly: numbers proved\n", b"fly: runner proved\n")), words.decode())
    (clone.fake / "waits").unlink()


def texts(found, clone):
    """A text has the writer built, once, and its card is flown."""
    built, before = clone.root / "target/fly/writer", clone.calls()
    found.hold("a card has no writer built", not built.exists())
    found.hold(f"{AT_ONCE} texts at once are right", together(clone, TEXT) == [(right(), 0)] * AT_ONCE)
    found.hold("and the writer was built once", clone.calls() == before + 1, str(clone.calls() - before))
    found.hold("what is built writes a text's card without rt and without a word", clone.fly(TEXT) == (0, right(), b"") and clone.calls() == before + 1)
    built.write_bytes(b"#!/bin/sh\n")
    found.hold("a writer that was changed is built again", clone.fly(TEXT)[:2] == (0, right()) and clone.calls() == before + 2, str(clone.calls() - before))
    clone.change("crates.txt", "# and a text that is wrong\n")
    clone.change("bad.txt", "quadplane 9\n")
    status, said, words = clone.fly(clone.root / "bad.txt")
    found.hold("what is wrong with a text is told before anything is built", (status, said) == (2, b"") and b"bad.txt: line 1: " in words and clone.calls() == before + 2, words.decode())
    other = ROOT / "examples/quadplane.card"
    (clone.fake / "writer").write_text(f"#!/bin/sh\ncat '{other}'\n")
    clone.change("crates.txt", "# another writer\n")
    found.hold("the card that is flown is the writer's", clone.fly(TEXT)[:2] == (0, other.with_suffix(".transcript").read_bytes()))
    (clone.fake / "writer").write_text("#!/bin/sh\necho 'writer: line 1: odd' >&2\n")
    clone.change("crates.txt", "# one that takes nothing\n")
    status, said, words = clone.fly(TEXT)
    found.hold("a text that the writer does not take is not flown", (status, said) == (2, b"") and words.endswith(f"fly: {TEXT}: line 1: odd\n".encode()), words.decode())
    status, said, words = clone.fly(ODD_TEXT)
    found.hold("unless its records are out of order: then oracle/card makes its card, and that is said", (status, said) == (0, ODD_TEXT.with_suffix(".transcript").read_bytes()) and b"oracle/card makes this card" in words, words.decode())


def rebuilding(found, clone):
    """What has changed is built, and what is not proved is not flown."""
    for name in ("crates/numbers/src/lib.rt", "crates/numbers/src/more.antt", "crates.txt"):
        before = clone.calls()
        clone.change(name, "# changed\n")
        found.hold(f"a change of {name} is built", clone.fly()[:2] == (0, right()) and clone.calls() == before + 1)
    before = clone.calls()
    clone.change("crates.txt", "# changed again\n")
    (clone.fake / "changes").touch()
    clone.fly()
    found.hold("a change while it is proved is built the next time", clone.fly()[:2] == (0, right()) and clone.calls() == before + 2, str(clone.calls() - before))
    (clone.fake / "runner").write_text("#!/bin/sh\necho 'runner: standard input: odd' >&2\n")
    clone.change("crates.txt", "# another runner\n")
    found.hold("what the runner says on standard error is a failure", clone.fly()[:2] == (2, b""))
    (clone.fake / "fails").touch()
    clone.change("crates.txt", "# one that is not proved\n")
    found.hold("what is not proved is not flown, also where nobody hears why", unheard(clone)[0] == b"")
    status, said, words = clone.fly()
    found.hold("nor afterwards", (status, said) == (2, b"") and b"not proved and built" in words and b"runner proved" not in words, words.decode())


def drawn(path):
    """The picture in a file, or None where there is none."""
    return path.read_bytes() if path.exists() else None


def flights(found, place):
    """What fly writes, and its status."""
    for card in sorted((ROOT / "examples").glob("*.card")):
        transcript, table = card.with_suffix(".transcript").read_bytes(), card.with_suffix(".table").read_bytes()
        status = 1 if transcript.startswith(b"card") else 0
        for words, data in (([card], b""), ([], card.read_bytes())):
            found.hold(f"fly {card.stem}: transcript and status", checks.run([FLY, *words], data)[:2] == (status, transcript))
        told = b"" if card.stem == "bad_setting" else transcript
        found.hold(f"fly {card.stem}.txt: transcript and status", checks.run([FLY, card.with_suffix(".txt")])[:2] == (status, told))
        found.hold(f"fly --table {card.stem}", checks.run([FLY, "--table", card])[:2] == (status, table))
        svg = place / f"{card.stem}.svg"
        done = checks.run([FLY, "--picture", svg, card.relative_to(ROOT)], cwd=ROOT)
        found.hold(f"fly --picture {card.stem}", done[:2] == (status, b"") and drawn(svg) == drawn(card.with_suffix(".svg")), done[2].decode())
    for words in ([], ["--picture", place / "no.svg"]):
        said = checks.run([FLY, *words, ROOT / "examples/loop.card"])[2]
        found.hold("a refused card is told in words, with the record", said.endswith(b"\n") and b"loop.card: card refused, 9: record 3 names record 2" in said, said.decode())
    long = (ROOT / "examples/quadplane.card").read_bytes().ljust(64001, b"\0")
    found.hold("a byte more than the longest card is refused with 6", checks.run([FLY], long)[:2] == (1, b"card 6\n"))


def writes(found, place):
    """The cards that fly --write makes, and what it leaves where it makes none."""
    for name in ("section7", "quadplane", "tailsitter", "edges"):
        card = ROOT / f"examples/{name}.card"
        done = checks.run([FLY, "--write", place / f"{name}.card", card.with_suffix(".txt")])
        found.hold(f"fly --write {name}", done == (0, b"", b"") and drawn(place / f"{name}.card") == card.read_bytes(), done[2].decode())
    found.hold("and from standard input", checks.run([FLY, "--write", place / "in.card"], TEXT.read_bytes()) == (0, b"", b"") and drawn(place / "in.card") == CARD.read_bytes())
    text, old = place / "mine.txt", place / "in.card"
    (place / "folder.card").mkdir()
    tries = [
        ("quadplane lift_ramp_s=0\n", old, 1, b"line 1: refused 3 2: "),
        ("quadplane\n" + "prime z=0 times=400\n" * 2, old, 1, b"line 3: refused 21: "),
        ("quadplane\nprime z=0 next=0\n", old, 2, b"line 2: 'next=0' "),
        ("quadplane\ncut a: refused 3\n", old, 2, b"line 2: "),
        ("quadplane\n", place / "folder.card", 2, b"is a folder"),
        ("quadplane\n", place / "no/x.card", 2, b"cannot be written"),
        ("quadplane\n", place / "x.txt", 2, b"does not end in .card"),
    ]
    for words, card, status, told in tries:
        text.write_text(words)
        done = checks.run([FLY, "--write", card, text])
        found.hold(f"fly --write: {told.decode()}", done[:2] == (status, b"") and told in done[2] and old.read_bytes() == CARD.read_bytes(), done[2].decode())
    found.hold("and nothing else is left", not list(place.glob("*.card.*")) and not list((place / "folder.card").iterdir()))


def odd_places(found, place):
    """An odd name, a symbolic link, and a PATH without python3."""
    shutil.copy(CARD, place / ODD_NAME)
    (place / "link").symlink_to(FLY)
    found.hold("a card with an odd name, through a link", checks.run([place / "link", "--", ODD_NAME], cwd=place) == (0, right(), b""))
    checks.run([FLY, "--picture", "odd.svg", ODD_NAME], cwd=place)
    title = checks.title_of(drawn(place / "odd.svg") or b"")
    found.hold("its picture has its name", title == ODD_NAME.replace("\x01", "\ufffd"), str(title))
    (place / "bin").mkdir()
    for name in "cat cp dirname find grep head mkdir mktemp mv readlink rm sed sh sha256sum sort tail".split():
        (place / "bin" / name).symlink_to(shutil.which(name))
    bare = {"PATH": str(place / "bin")}
    found.hold("without python3 a card is flown", checks.run([FLY, CARD], env=bare) == (0, right(), b""))
    found.hold("and one refused", checks.run([FLY, ROOT / "examples/loop.card"], env=bare) == (1, b"card 9\n", b""))
    found.hold("and a text", checks.run([FLY, TEXT], env=bare) == (0, right(), b""))
    for name, text, told in (("bad", "quadplane\nprime\n", b"line 2: "), ("odd", "quadplane\nprime z=0 next=0\n", b"oracle/card")):
        (place / f"{name}.txt").write_text(text)
        status, said, words = checks.run([FLY, place / f"{name}.txt"], env=bare)
        found.hold(f"and what is wrong with one that is {name} is told by the writer", (status, said) == (2, b"") and told in words, words.decode())
    status, said, words = checks.run([FLY, "--table", CARD], env=bare)
    found.hold("and a table asks for it", (status, said) == (2, b"") and b"needs python3" in words, words.decode())


def left_behind(found, place):
    """No folder stays: after a flight, and after one that is stopped while it reads."""
    room = place / "room"
    room.mkdir()
    env = {**os.environ, "TMPDIR": str(room)}
    for words in ([], ["--table"], ["--picture", place / "left.svg"]):
        checks.run([FLY, *words, CARD], env=env)
    found.hold("a flight leaves nothing behind", not list(room.iterdir()))
    for kind in (signal.SIGTERM, signal.SIGINT, signal.SIGHUP):
        with subprocess.Popen([FLY], env=env, stdin=subprocess.PIPE, stdout=subprocess.DEVNULL, stderr=subprocess.PIPE) as flight:
            while not list(room.iterdir()):
                time.sleep(0.01)
            time.sleep(0.1)
            flight.send_signal(kind)
            words = flight.communicate()[1]
        found.hold(f"nor one that got {kind.name}", flight.returncode == 128 + kind and not words and not list(room.iterdir()), f"{flight.returncode} {words.decode()}")


def misuse(found, place):
    """What is no flight: status 2 and a line of words, and nothing on standard output."""
    (place / "bad.txt").write_text("quadplane 9\n")
    shutil.copy(CARD, place / "card.svg")
    tries = [[CARD, "--table"], ["--picture", CARD], ["--picture", "x.png", CARD], ["--tables", CARD], [CARD, CARD], [place / "none"], [place], [place / "bad.txt"], ["--picture", place / "no/x.svg", CARD], ["--picture", place / "card.svg", place / "card.svg"], [""]]
    for words in tries:
        status, said, why = checks.run([FLY, *words])
        found.hold(f"fly {' '.join(pathlib.Path(str(word)).name for word in words)} fails with words", status == 2 and not said and why and b"Traceback" not in why, f"{status} {why.decode()}")
    (place / "full.svg").symlink_to("/dev/full")
    for form in ("", "--table", f"--picture {place}/full.svg"):
        for ends in ("<&- >&-", "<&-", f"<{CARD} >/dev/full", f"<{CARD} >&-", f"<{CARD} >&- 2>&-"):
            status, _, why = checks.run(["sh", "-c", f'"{FLY}" {form} {ends}'])
            found.hold(f"fly {form.replace(str(place), '')} {ends.replace(str(CARD), 'CARD')}: a line of words at most", status == 2 and why.count(b"\n") <= 1 and b"Traceback" not in why, f"{status} {why.decode()}")
    for form in ("", "--table"):
        status, said, why = checks.run(["sh", "-c", f'{{ "{FLY}" {form} {ROOT}/examples/quadplane.card; echo $? >&2; }} | true'])
        found.hold(f"fly {form} into a reader that leaves", why in (b"0\n", b"2\n"), why.decode())


def text_form(found):
    """oracle/card as a command."""
    card, text = CARD.read_bytes(), CARD.with_suffix(".txt").read_bytes()
    status, decoded, _ = checks.run([TEXT_FORM, "decode"], card)
    found.hold("oracle/card decode and encode", status == 0 and decoded != text and checks.run([TEXT_FORM, "encode"], decoded) == checks.run([TEXT_FORM, "encode"], text) == (0, card, b""))
    listed = struct.pack("<I", len(card)) + card
    found.hold("oracle/card list", checks.run([TEXT_FORM, "list", CARD, CARD]) == (0, listed + listed, b""))
    for words, data in ((["encode"], b"quadplane 1"), (["decode"], b"x"), (["list", "none"], b""), (["encoded"], b""), ([], b"")):
        status, said, why = checks.run([TEXT_FORM, *words], data)
        found.hold(f"oracle/card {' '.join(words)} fails with words", (status, said) == (2, b"") and why and b"Traceback" not in why, f"{status} {why.decode()}")
    for words in ("encode <&-", "decode <&-", "encode </ ", f"encode <{CARD.with_suffix('.txt')} >&-", f"decode <{CARD} >/dev/full", "encode <&- >&- 2>&-", "--help >&-"):
        status, _, why = checks.run(["sh", "-c", f'"{TEXT_FORM}" {words}'])
        found.hold(f"oracle/card {words.replace(str(ROOT), '')}: a line of words at most", status == 2 and why.count(b"\n") <= 1, f"{status} {why.decode()}")
    with subprocess.Popen([TEXT_FORM, "encode"], stdin=subprocess.PIPE, stdout=subprocess.PIPE, stderr=subprocess.PIPE) as waits:
        time.sleep(0.5)
        waits.send_signal(signal.SIGINT)
        found.hold("oracle/card stopped by Ctrl-C says nothing", waits.communicate() == (b"", b"") and waits.returncode == 130)


def all_commands(found, runner, writer):
    # Signals that whoever started this ignores are not to be ignored by the flights.
    signal.signal(signal.SIGINT, signal.default_int_handler)
    for kind in (signal.SIGTERM, signal.SIGHUP):
        signal.signal(kind, signal.SIG_DFL)
    with tempfile.TemporaryDirectory() as place:
        place = pathlib.Path(place)
        clone = Clone(place, runner, writer)
        building(found, clone)
        texts(found, clone)
        rebuilding(found, clone)
        flights(found, place)
        writes(found, place)
        odd_places(found, place)
        left_behind(found, place)
        misuse(found, place)
    text_form(found)
