"""Drills of the built program, whose line, status and error line have to be those of a plain model of drills.

    drill.py PROGRAM [--many COUNT [FIRST] | --seeds FIRST LAST]
"""

import concurrent.futures
import itertools
import os
import random
import subprocess
import sys
import time

import drill_model
from gateways import done, fail, refused, told, want

PROGRAM = os.path.abspath(sys.argv[1])
WORKERS = os.cpu_count()
MOST_NUMBER = drill_model.MOST_NUMBER
TRANSFER = "start A 1 gold 250 ann bob"
# Of so many random schedules, and rounds of so many numbers, the plain run consists.
FEW_SCHEDULES, FEW_SEEDS, FEW_ROUNDS = 400, 200, 12
# A transfer has so many events and calls at A, and at B.
EVENTS = {"A": 58, "B": 54}


def drill(words, given=b"", **streams):
    if "stdin" not in streams:
        streams["input"] = given
    streams = {"stdout": subprocess.PIPE, "stderr": subprocess.PIPE, **streams}
    ended = subprocess.run([PROGRAM, "drill", *words], **streams)
    return ended.returncode, ended.stdout, ended.stderr


def drill_of(text):
    return drill(["--seed=0"], text)


def due(text):
    """What the model says of a schedule's text."""
    try:
        return done(drill_model.report_line(0, drill_model.drilled(text)))
    except drill_model.Refused as refusal:
        return refused(5, str(refusal))
    except drill_model.Impossible as fault:
        # No program ends so, and the schedule is told.
        return "impossible", str(fault)


def due_of_seed(seed):
    return done(drill_model.report_line(seed, drill_model.drilled(text_of(drill_model.generated(seed)))))


def text_of(lines):
    return "".join(line + "\n" for line in lines).encode()


# Schedules.


class Drawn:
    """The random schedule of a number. It has few sessions and few amounts, and hands over texts that were just sent, so that lines concern one another."""

    SESSIONS = ["alpha.1", "alpha.2", "alpha.3", "beta.1", "beta.2", "beta.3"]
    COMMANDS = ["start"] * 4 + ["resume", "recover", "abort"] + ["deliver"] * 5

    def __init__(self, number):
        self.random = random.Random(number)
        # What was sent by the lines that are drawn so far.
        self.drill = drill_model.Drill()

    def mostly(self, usual, others):
        return self.random.choice(usual) if self.random.random() < 0.93 else self.random.choice(others)

    def side(self):
        return self.random.choice("AB")

    def session(self):
        return self.mostly(self.SESSIONS, ["alpha.9", f"beta.{MOST_NUMBER}", "gamma.1"])

    def number(self, most):
        return self.mostly([self.random.randint(1, most)], [MOST_NUMBER, 1, 2, 3])

    def start(self):
        side = self.side()
        owner, receiver = ("ann", "bob") if side == "A" else ("bob", "ann")
        number = self.mostly([1, 2, 3], [4, MOST_NUMBER])
        amount = self.mostly([1, 250, 1_000, 5_000, 10_000], [10_001, 9_750, drill_model.MOST_AMOUNT])
        owner, receiver = self.mostly([owner], [receiver, "eve"]), self.mostly([receiver], [owner, "eve"])
        return f"start {side} {number} {self.mostly(['gold'], ['silver'])} {amount} {owner} {receiver}"

    def command(self):
        word = self.random.choice(self.COMMANDS)
        if word == "start":
            return self.start()
        if word == "deliver":
            return self.deliver()
        return f"{word} {self.side()} {self.session()}"

    def deliver(self):
        sent = self.drill.sent
        if not sent or self.random.random() < 0.3:
            return f"deliver {self.side()} {self.number(40)}"
        number = self.random.randint(max(1, len(sent) - 3), len(sent))
        receiver = "B" if sent[number - 1].sender() == "alpha" else "A"
        return f"deliver {self.mostly([receiver], ['A', 'B'])} {number}"

    def trouble(self):
        word = self.random.choice(["stop", "stop", "fail", "lose", "twice", "twice"])
        if word == "stop":
            pick = self.mostly([0, 1, 7], [2, 255, 256, 257, MOST_NUMBER])
            return f"stop {self.side()} {self.number(60)} {pick}"
        if word == "fail":
            return f"fail {self.side()} {self.number(60)}"
        # Whether a transfer commits is decided in the middle.
        return f"{word} {self.mostly([4, 5, 6, 7, 8], range(1, 17))}"

    def line(self, line):
        self.drill.line(*drill_model.read_line(line))
        return line

    def lines(self):
        found = [self.line(self.start())] if self.random.random() < 0.8 else []
        for _ in range(self.random.choice([1, 2, 3, 4, 5, 6, 14])):
            found += [self.line(self.trouble()) for _ in range(self.random.choice([0, 0, 1, 1, 1, 2]))]
            found.append(self.line(self.command()))
        return found

    def families(self):
        """Families of schedules that differ from that of the number in the number of one event, call or text."""
        lines = self.lines()
        numbers = {"stop": (2, 60), "fail": (2, 60), "lose": (1, 16), "twice": (1, 16), "deliver": (2, len(self.drill.sent) + 1)}
        places = [place for place, line in enumerate(lines) if line.split()[0] in numbers]
        for place in self.random.sample(places, min(3, len(places))):
            fields = lines[place].split()
            at, most = numbers[fields[0]]
            yield [lines[:place] + [" ".join([*fields[:at], str(number), *fields[at + 1 :]])] + lines[place + 1 :] for number in range(1, most + 1)]


def disturbed_transfers():
    """A transfer that stops at each of its events, or one of whose calls fails."""
    found = []
    for side, events in EVENTS.items():
        for event in range(1, events + 1):
            found += [[f"stop {side} {event} {pick}", TRANSFER] for pick in (0, 1, 7)]
            found.append([f"fail {side} {event}", TRANSFER])
    return found


def disturbed_recoveries():
    """A transfer that ends after each of its messages, and its recovery from either side, in which a side stops or a call fails."""
    found = []
    for lost in range(1, 12):
        for driver, side in itertools.product("AB", repeat=2):
            for trouble in [f"stop {side} 3 1", f"stop {side} 4 0", f"stop {side} 9 0", f"stop {side} 13 7", f"fail {side} 5", f"fail {side} 8"]:
                found.append([f"lose {lost}", TRANSFER, trouble, f"recover {driver} alpha.1"])
    return found


def edges(families):
    """Of the schedules of each family, which differ by one number, those between which the report changes. They show whether the program counts as the model does."""
    found = []
    for family in families:
        reports = [drill_model.drilled(text_of(lines)) for lines in family]
        changes = [place for place in range(1, len(family)) if reports[place] != reports[place - 1]]
        found += [family[place] for place in sorted({it - step for it in changes for step in (0, 1)})]
    return found


def families():
    """Schedules whose report hangs on the number of an event, of a call or of a text."""
    second = "start A 2 gold 250 ann bob"
    for side, more in itertools.product("AB", [" 257", " 256", " 1"]):
        yield [[f"stop {side} {event}{more}", TRANSFER] for event in range(1, 60)]
    # A side stops, so that what it did may not be recorded, and stops or fails again while it goes on.
    for side, event in itertools.product("AB", range(3, 58, 2)):
        yield [[f"stop {side} {event} 0", TRANSFER, f"stop {side} {again} 0", "resume A alpha.1"] for again in range(1, 40)]
        yield [[f"stop {side} {event} 1", TRANSFER, f"fail {side} {again}", "resume A alpha.1"] for again in range(1, 40)]
    # An answer is handed over once more to a side that stopped over it, or a message is both lost and doubled.
    for twice in range(1, 12):
        yield [[f"twice {twice}", f"stop A {event} 0", TRANSFER] for event in range(1, 60)]
        yield [[f"twice {twice}", f"lose {lost}", TRANSFER] for lost in range(1, 12)]
        yield [[f"twice {twice}", f"lose {lost}", TRANSFER, f"deliver A {lost + 1}"] for lost in range(1, 12)]
    # The text that lets a transfer go on has a number, which comes later where others were sent before.
    for lost, twice in itertools.product([4, 5, 6, 8], range(1, 12)):
        for start in ([TRANSFER], ["lose 3", f"twice {twice}", TRANSFER, f"deliver B {twice}"]):
            yield [[f"twice {twice}", *start, f"lose {lost}", second, f"deliver A {text}", f"deliver B {text}", f"deliver A {text + 1}"] for text in range(1, 32)]


def refused_texts():
    """Texts that are no schedule, and some that barely are."""
    name, long_name = "n" * 32, "n" * 33
    lines = [
        "",
        " ",
        "start",
        "Start A 1 gold 250 ann bob",
        "begin A 1 gold 250 ann bob",
        " start A 1 gold 250 ann bob",
        "start A 1 gold 250 ann bob ",
        "start  A 1 gold 250 ann bob",
        "start\tA 1 gold 250 ann bob",
        "start A 1 gold 250 ann bob\r",
        "start A 1 gold 250 ann bob\0",
        "start A 1 gold 250 ann",
        "start A 1 gold 250 ann bob eve",
        "start a 1 gold 250 ann bob",
        "start C 1 gold 250 ann bob",
        "start AB 1 gold 250 ann bob",
        "start A 0 gold 250 ann bob",
        "start A 01 gold 250 ann bob",
        "start A +1 gold 250 ann bob",
        "start A -1 gold 250 ann bob",
        "start A 1.0 gold 250 ann bob",
        "start A 4294967296 gold 250 ann bob",
        "start A 18446744073709551617 gold 250 ann bob",
        "start A 1 gold 0 ann bob",
        "start A 1 gold 0250 ann bob",
        "start A 1 gold 9007199254740992 ann bob",
        "start A 1 gold 18446744073709551866 ann bob",
        "start A 1 Gold 250 ann bob",
        "start A 1 go_ld 250 ann bob",
        f"start A 1 {long_name} 250 ann bob",
        f"start A 1 gold 250 {long_name} bob",
        f"start A 1 gold 250 ann {long_name}",
        "start A 1  250 ann bob",
        "start A 1 gold 250 ann b\u00f6b",
        "resume A",
        "resume A alpha",
        "resume A alpha.",
        "resume A .1",
        "resume A alpha.0",
        "resume A alpha.01",
        "resume A alpha.1.2",
        "resume A alpha.4294967296",
        "resume alpha.1",
        "recover A alpha,1",
        "recover A Alpha.1",
        "abort A alpha.1 beta.1",
        f"abort A {long_name}.1",
        "deliver A 0",
        "deliver A",
        "deliver 1",
        "deliver A 4294967296",
        "stop A 0 0",
        "stop A 1",
        "stop A 1 00",
        "stop A 1 4294967296",
        "stop A 4294967296 1",
        "stop 1 1",
        "fail A 0",
        "fail A",
        "fail A 1 1",
        "lose 0",
        "lose A 1",
        "lose",
        "twice 0",
        "twice 1 2",
        "twice 4294967296",
        "clear",
        "# nothing",
    ]
    before = text_of(["deliver A 1", "lose 1"])
    found = [before + line.encode("latin-1") + b"\n" for line in lines]
    # Each of these is read; without its line end it is refused.
    for line in ["lose 1", "stop A 4294967295 4294967295", "stop B 1 0", "fail B 4294967295", f"abort B {name}.4294967295", f"start B 4294967295 {name} 9007199254740991 {name} {name}"]:
        found += [before + line.encode() + end for end in (b"\n", b"", b"\n\n", b"\r\n", b"\n ", b"\n\0")]
    found += [b"", b"\n", b"\xff\n", b"lose 1\nlose 2\nlose 0\nlose 0\n", b"\xef\xbb\xbflose 1\n"]
    # So many lines of 64 bytes are as many bytes as there may be.
    most, line = drill_model.MOST_LINES, text_of([f"start A 1 gold 1 {'a' * 20} {'b' * 25}"])
    found += [b"lose 1\n" * most, b"lose 1\n" * (most + 1), b"lose 1\n" * most + b"lose 1", b"lose 1\n" * most + b"x\n" * 3, b"x\n" + b"lose 1\n" * most]
    found += [line * most, line * most + b"\n", b"x" + line * most, line * (most - 1) + b"x" * (len(line) - 1) + b"\n", b"x" * drill_model.MOST_BYTES, b"x" * (drill_model.MOST_BYTES + 1)]
    return found


def spoilt(number):
    """A random schedule in which a byte or two were changed."""
    drawn = Drawn(number)
    text = bytearray(text_of(drawn.lines()[:4]))
    for _ in range(drawn.random.choice([1, 1, 2])):
        at = drawn.random.randrange(len(text) + 1)
        byte = drawn.random.choice(b"0129 \n.ABab-\r\0\xc3,")
        how = drawn.random.randrange(3)
        text[at : at + (how > 0)] = bytes([byte] if how < 2 else [])
    return bytes(text)


# The program beside the model.


def shrunk(lines):
    """Fewer of these lines, over which the program and the model still differ."""
    place = 0
    while place < len(lines):
        fewer = lines[:place] + lines[place + 1 :]
        if drill_of(text_of(fewer)) == due(text_of(fewer)):
            place += 1
        else:
            lines = fewer
    return lines


def compare(schedules):
    """Each schedule with what it is called. How many there are."""
    count = 0
    with concurrent.futures.ThreadPoolExecutor(WORKERS) as pool:
        named = [(name, lines, pool.submit(drill_of, text_of(lines))) for name, lines in schedules]
        for name, lines, found in named:
            count += 1
            if found.result() != due(text_of(lines)):
                pool.shutdown(cancel_futures=True)
                lines = shrunk(lines)
                text = text_of(lines)
                fail(f"{name}: {drill_of(text)}, and not {due(text)}, of these lines:\n{text.decode()}")
    return count


def compare_texts(texts):
    with concurrent.futures.ThreadPoolExecutor(WORKERS) as pool:
        for text, found in zip(texts, pool.map(drill_of, texts)):
            want(f"the schedule {told(text)}", found, due(text))
    return len(texts)


def compare_seeds(seeds):
    with concurrent.futures.ThreadPoolExecutor(WORKERS) as pool:
        for seed, found in zip(seeds, pool.map(lambda seed: drill([f"--seed={seed}"]), seeds)):
            want(f"the drill of the number {seed}", found, due_of_seed(seed))
    return len(seeds)


def drawn_schedules(numbers):
    return [(f"the random schedule {number}", Drawn(number).lines()) for number in numbers]


def drawn_edges(numbers):
    """The random schedules, and those in which a number is another one and the report then changes."""
    for number in numbers:
        for lines in [Drawn(number).lines(), *edges(Drawn(number).families())]:
            yield f"the random schedule {number} (again by --many 1 {number})", lines


def first_rounds(seed):
    """The lines of a seed's first rounds, the last of which is a `start`."""
    lines = drill_model.generated(seed)
    starts = [place for place, line in enumerate(lines) if line.startswith("start")]
    return lines[: starts[FEW_ROUNDS - 1] + 1]


# Worked rows, words and streams.


def worked_rows():
    want("one transfer", drill_of(text_of([TRANSFER])), done("drill 0: sessions 1, committed 1, rolled back 0, not begun 0, free gold 20000"))
    none_begun = done("drill 0: sessions 1, committed 0, rolled back 0, not begun 1, free gold 20000")
    want("a first call that fails", drill_of(text_of(["fail A 1", TRANSFER])), none_begun)
    rolled_back = done("drill 0: sessions 1, committed 0, rolled back 1, not begun 0, free gold 20000")
    want("a gate that fails", drill_of(text_of(["fail A 3", TRANSFER])), rolled_back)
    want("no lines", drill_of(b""), done("drill 0: sessions 0, committed 0, rolled back 0, not begun 0, free gold 20000"))
    for lines in disturbed_transfers() + disturbed_recoveries():
        report = drill_model.drilled(text_of(lines))
        want(f"the sessions of {lines}", (report.sessions, sum(report[1:4]), report.free_gold), (1, 1, 20_000))


def seed_7():
    """Twice, the second time with an input that can't be read, since none is."""
    found = drill(["--seed=7"])
    want("the drill of the number 7", found, due_of_seed(7))
    here = os.open(".", os.O_RDONLY)
    want("the drill of the number 7 once more", drill(["--seed", "7"], stdin=here), found)
    want("a schedule that can't be read", drill(["--seed=0"], stdin=here), refused(11, "input failed"))
    os.close(here)


def words():
    for words in [
        [],
        ["--seed"],
        ["--seed="],
        ["--seed=00"],
        ["--seed=07"],
        ["--seed=+7"],
        ["--seed=-7"],
        ["--seed=7x"],
        ["--seed=4294967296"],
        ["--seed=7", "--seed=7"],
        ["--seed=7", "7"],
        ["7"],
        ["--seed=7", "--dir=."],
        ["--help"],
    ]:
        want(f"the words {words}", drill(words, b"x"), refused(2, "words refused"))
    if os.path.exists("/dev/full"):
        with open("/dev/full", "wb") as full:
            want("a full output", drill(["--seed=0"], b"", stdout=full), (11, None, b"satp: output failed\n"))


def plain():
    worked_rows()
    words()
    seed_7()
    compare((f"the lines {lines}", lines) for lines in disturbed_transfers() + disturbed_recoveries())
    counted = compare((f"the lines {lines}", lines) for lines in edges(families()))
    texts = compare_texts(refused_texts() + [spoilt(number) for number in range(1, FEW_SCHEDULES // 2 + 1)])
    random_ones = compare(drawn_schedules(range(1, FEW_SCHEDULES + 1)))
    seeds = compare((f"the first rounds of the number {seed}", first_rounds(seed)) for seed in range(1, FEW_SEEDS + 1))
    return f"{random_ones} random schedules, {counted} that hang on one number, the first {FEW_ROUNDS} rounds of {seeds} numbers, {texts} texts that are refused or barely read"


def many(count, first=None):
    """Random schedules, a hundred numbers at a time. That of the first is printed, from which all can be had again."""
    first = time.time_ns() % 2**32 if first is None else first
    print(f"drill: the random schedules from {first} on", flush=True)
    numbers = range(first, first + count)
    compared = sum(compare(drawn_edges(numbers[begin : begin + 100])) for begin in range(0, count, 100))
    return f"{count} random schedules from {first} on, and {compared - count} that differ from them in one number"


def seeds(first, last):
    return f"the numbers {first} to {last}, {compare_seeds(range(first, last + 1))} in all"


def main(mode=None, *numbers):
    run = {None: plain, "--many": many, "--seeds": seeds}.get(mode)
    if run is None:
        fail(f"there is no {mode}")
    print(f"drill: passed, {run(*map(int, numbers))}")


main(*sys.argv[2:])
