"""Two gateways of the built program, alpha with accounts and beta with outputs, in directories of their own, and what they leave there."""

import atexit
import copy
import os
import select
import shutil
import socket
import subprocess
import sys

import formats

KEY = bytes(range(32))
ALPHA_GENESIS = b"asset gold 1000000\nhold gold ann 1000\n"
BETA_GENESIS = b"asset gold 1000000\nhold gold bob 100\nhold gold bob 200\nhold gold bob 50\n"
CHECK = os.path.splitext(os.path.basename(sys.argv[0]))[0]


def fail(what):
    print(f"{CHECK}: {what}")
    sys.exit(1)


def told(value):
    text = repr(value)
    return text if len(text) <= 1000 else f"{text[:1000]} .. of {len(text)} characters"


def want(what, found, wanted):
    if found == wanted:
        return
    if isinstance(found, list) and isinstance(wanted, list):
        # The first that differs says enough.
        for place, (one, other) in enumerate(zip(found, wanted)):
            if one != other:
                fail(f"{what}, at {place}: {told(one)}, and not {told(other)}")
        fail(f"{what}: {len(found)} and not {len(wanted)}, and at the end {told(found[len(wanted) :])}, and not {told(wanted[len(found) :])}")
    fail(f"{what}: {told(found)}, and not {told(wanted)}")


def free_ports(count):
    """Ports that nothing listens at."""
    sockets = [socket.create_server(("127.0.0.1", 0)) for _ in range(count)]
    ports = [it.getsockname()[1] for it in sockets]
    for it in sockets:
        it.close()
    return ports


def read(path):
    """The bytes of a file. One that is missing reads as empty."""
    try:
        with open(path, "rb") as file:
            return file.read()
    except FileNotFoundError:
        return b""


def line(text):
    return text.encode() + b"\n"


def done(text):
    """A command that prints a line and ends with 0."""
    return 0, line(text), b""


def refused(status, text):
    """A command that prints nothing and ends with this status, and this line on standard error."""
    return status, b"", line(f"satp: {text}")


def committed(session, messages):
    return done(f"{session} committed in {messages} messages")


def rolled_back(session, messages):
    return 12, line(f"{session} rolled back in {messages} messages"), b""


def shown(session, role, entry, decision, state, kinds, terms="250 gold from ann to bob"):
    """What `show` prints."""
    head = [f"session {session}", f"role {role}", f"terms {terms}", f"entry {entry}", f"decision {decision}"]
    places = [f"{place} {kind}" for place, kind in enumerate(kinds, 1)]
    return done("\n".join([*head, *places, f"state {state}"]))


def served(connections, requests, faults=0):
    """What `serve` prints."""
    return done(f"listening\nserved {connections} connections, {requests} requests, {faults} faults")


class Running:
    """A command that runs. It is killed where the check ends before it."""

    def __init__(self, words, **streams):
        self.process = subprocess.Popen(words, **{"stdin": subprocess.DEVNULL, "stdout": subprocess.PIPE, "stderr": subprocess.PIPE, **streams})
        self.out = b""
        atexit.register(self.kill)

    def kill(self):
        self.process.kill()
        self.process.communicate()
        atexit.unregister(self.kill)

    def wait_for_line(self):
        """Waits for a line on standard output, or for its end."""
        while not self.out.endswith(b"\n"):
            if not select.select([self.process.stdout], [], [], 60)[0]:
                fail(f"{self.process.args} printed no line")
            byte = os.read(self.process.stdout.fileno(), 1)
            if not byte:
                return
            self.out += byte

    def end(self, seconds=60):
        """The status, and what was printed."""
        try:
            out, err = self.process.communicate(timeout=seconds)
        except subprocess.TimeoutExpired:
            fail(f"{self.process.args} doesn't end")
        atexit.unregister(self.kill)
        return self.process.returncode, self.out + (out or b""), err


class Gateway:
    """A gateway in a directory."""

    def __init__(self, program, directory, name, peer, kind, genesis, listens, dials):
        self.program, self.directory = program, directory
        self.name, self.peer, self.key, self.kind, self.genesis = name, peer, KEY, kind, genesis
        self.listens, self.dials = f"127.0.0.1:{listens}", f"127.0.0.1:{dials}"

    def at(self, *names):
        return os.path.join(self.directory, *names)

    def words(self, command, **options):
        return [self.program, command, f"--dir={self.directory}", *(f"--{name}={value}" for name, value in options.items())]

    def run(self, command, options, **streams):
        """The status of a command, and what it printed."""
        return self.words_as_they_are(self.words(command, **options)[1:], **streams)

    def words_as_they_are(self, words, **streams):
        streams = {"stdin": subprocess.DEVNULL, "stdout": subprocess.PIPE, "stderr": subprocess.PIPE, **streams}
        if "input" in streams:
            del streams["stdin"]
        ended = subprocess.run([self.program, *words], timeout=120, **streams)
        return ended.returncode, ended.stdout, ended.stderr

    def init(self):
        options = {"name": self.name, "peer": self.peer, "at": self.dials, "key": formats.encoded(self.key), "ledger": self.kind}
        want(f"init of {self.name}", self.run("init", options, input=self.genesis), done(f"{self.name} ready"))

    def start(self, number=1, amount=250, owner="ann", receiver="bob", **streams):
        return self.run("start", self.started(number, amount, owner, receiver), **streams)

    @staticmethod
    def started(number=1, amount=250, owner="ann", receiver="bob", asset="gold"):
        """The options of `start`."""
        return {"number": number, "amount": amount, "asset": asset, "from": owner, "to": receiver}

    def on(self, command, session="alpha.1", **streams):
        """`show`, `abort`, `resume` or `recover`."""
        return self.run(command, {"session": session}, **streams)

    def replay(self, image=None, **streams):
        """`replay` of the gateway's journal, or of these bytes."""
        return self.words_as_they_are(["replay"], **({"input": read(self.at("journal-a")) if image is None else image} | streams))

    def begin(self, command, **options):
        """A command that runs meanwhile."""
        return Running(self.words(command, **options))

    def serve(self, connections=1):
        """Serves, from where it listens on."""
        running = self.begin("serve", listen=self.listens, connections=connections)
        running.wait_for_line()
        if running.out != b"listening\n":
            fail(f"serve of {self.name} ended at once: {running.end()!r}")
        return running

    def payloads(self):
        return formats.payloads(read(self.at("journal-a")))

    def records(self):
        return [formats.record(payload) for payload in self.payloads()]

    def ledger_payloads(self):
        return formats.payloads(read(self.at("ledger")))

    def ledger(self):
        return formats.Ledger(self.ledger_payloads())

    def put(self, file, content):
        with open(self.at(file), "wb") as opened:
            opened.write(content)


class Pairs:
    """Pairs of gateways, each in fresh directories."""

    def __init__(self, program, folder):
        self.program, self.folder, self.count = os.path.abspath(program), os.path.abspath(folder), 0
        self.ports = free_ports(2)
        self.set_up = {}

    def gateways(self, name, genesis):
        ports = self.ports
        return (
            Gateway(self.program, os.path.join(self.folder, name, "alpha"), "alpha", "beta", "accounts", ALPHA_GENESIS, ports[0], ports[1]),
            Gateway(self.program, os.path.join(self.folder, name, "beta"), "beta", "alpha", "outputs", genesis, ports[1], ports[0]),
        )

    def fresh(self, genesis=BETA_GENESIS):
        """Alpha and beta as `init` leaves them, beta with this genesis."""
        if genesis not in self.set_up:
            self.set_up[genesis] = f"set-up-{len(self.set_up)}"
            for gateway in self.gateways(self.set_up[genesis], genesis):
                gateway.init()
        self.count += 1
        name = f"pair-{self.count}"
        shutil.copytree(os.path.join(self.folder, self.set_up[genesis]), os.path.join(self.folder, name))
        return self.gateways(name, genesis)


    def set_up_alone(self, gateway, **further):
        """A gateway like this one in a directory of its own, set up with what further says."""
        other = copy.copy(gateway)
        other.directory = gateway.at("alone")
        vars(other).update(further)
        other.init()
        return other


class History:
    """The appends of one whole session of alpha's in the order of time: at each the side, the file and the payload."""

    def __init__(self, alpha, beta, session="alpha.1"):
        self.begun, self.appends = {}, []
        # For each side what its journal has after the Setup, and what its ledger has after the genesis.
        left = []
        for side in (alpha, beta):
            records, acts = side.payloads(), side.ledger_payloads()
            first = next(place for place, it in enumerate(acts + [b"\x13"]) if it[0] == 0x13)
            self.begun[side.name] = {"journal-a": records[:1], "ledger": acts[:first]}
            left.append((side.name, records[1:], acts[first:]))
        place = 0
        while left[place % 2][1]:
            maker, taker = left[place % 2], left[1 - place % 2]
            kind = self.move(maker, ("began", "made"))
            self.move(taker, ("began", "took"))
            place += 1
        want("the appends of the other side that nothing accounts for", left[1 - place % 2][1], [])
        self.length = place

    def move(self, side, last):
        """Moves records up to the next of these kinds, each operation of the ledger before the record that says it was done."""
        name, records, acts = side
        while records:
            kind = formats.record(records[0])[0]
            if kind == "did":
                self.appends.append((name, "ledger", acts.pop(0)))
            self.appends.append((name, "journal-a", records.pop(0)))
            if kind in last:
                return

    def files(self, count):
        """The payloads of each file after so many appends."""
        found = {name: {file: list(payloads) for file, payloads in files.items()} for name, files in self.begun.items()}
        for name, file, payload in self.appends[:count]:
            found[name][file].append(payload)
        return found

    def before(self, name, wanted):
        """How many appends stand before the first of this side whose record begins so."""
        for count, (side, file, payload) in enumerate(self.appends):
            if side == name and file == "journal-a" and formats.record(payload)[: len(wanted)] == wanted:
                return count
        fail(f"{name} has no record {wanted}")

    def put(self, count, sides):
        """Makes both sides' files as they were after so many appends."""
        files = self.files(count)
        for side in sides:
            for file, payloads in files[side.name].items():
                side.put(file, formats.journal(payloads))


def message_length(held):
    """How many of the held bytes are one whole request or answer, or none where it isn't whole."""
    end = held.find(b"\r\n\r\n") + 4
    if end < 4:
        return None
    lines = [it.partition(b":") for it in held[:end].lower().split(b"\r\n")]
    lengths = [int(value) for name, _, value in lines if name == b"content-length"]
    whole = end + (lengths[0] if lengths else 0)
    return whole if len(held) >= whole else None


class Messages:
    """A connection, from which whole requests or answers are read."""

    def __init__(self, connection):
        connection.settimeout(60)
        connection.setsockopt(socket.IPPROTO_TCP, socket.TCP_NODELAY, 1)
        self.connection, self.held = connection, b""

    def next(self):
        """The bytes of the next one, or those that are left at the end."""
        while (length := message_length(self.held)) is None:
            more = self.connection.recv(65536)
            if not more:
                length = len(self.held)
                break
            self.held += more
        found, self.held = self.held[:length], self.held[length:]
        return found

    def send(self, content):
        self.connection.sendall(content)

    def close(self):
        self.connection.close()


def port_of(address):
    return int(address.rsplit(":", 1)[1])
