"""Compares the driver's `sign` and `verify` with Python's hmac, and with joserfc where it can be imported."""

import random
import subprocess
import sys

from formats import decoded, encoded, signed

try:
    from joserfc import jws as joserfc_jws
    from joserfc.jwk import OctKey
except ImportError:
    joserfc_jws = None

PROGRAM = sys.argv[1]
COUNT = 300
HEADERS = [
    b'{"alg":"HS256"}',
    b'{"typ":"JWT",\r\n "alg":"HS256"}',
    b'{"kid":"\xc3\xa4","alg":"HS256","x":[1,{"crit":2}]}',
    b' { "alg" : "HS\\u003256" } ',
]
REFUSED_HEADERS = [
    b'{"alg":"none"}',
    b'{"alg":"HS384"}',
    b'{"alg":"HS256","crit":["x"]}',
    b'{"alg":1}',
    b'{}',
    b'["alg","HS256"]',
    b'{"alg":"HS256"',
]


def drive(mode, lines):
    """The lines that the driver answers."""
    done = subprocess.run(
        [PROGRAM, mode],
        input="".join(line + "\n" for line in lines),
        capture_output=True,
        text=True,
    )
    if done.returncode != 0:
        sys.exit(f"signatures: the driver ended with {done.returncode}\n{done.stderr}")
    answers = done.stdout.split("\n")[:-1]
    if len(answers) != len(lines):
        sys.exit(f"signatures: {len(answers)} answers to {len(lines)} lines of {mode}")
    return answers


def tampered(draw, key, payload):
    """Texts that are no JWS of the payload under the key."""
    text = signed(key, payload, HEADERS[0])
    header, body, signature = text.split(".")
    place = draw.randrange(32)
    changed = bytearray(decoded(signature))
    changed[place] ^= 1 << draw.randrange(8)
    other_key = bytearray(key)
    other_key[draw.randrange(len(key))] ^= 1 << draw.randrange(8)
    symbols = "ABCDEFGHIJKLMNOPQRSTUVWXYZabcdefghijklmnopqrstuvwxyz0123456789-_"
    trailing = symbols[symbols.index(signature[-1]) + 1]
    return [
        f"{header}.{body}.{encoded(bytes(changed))}",
        f"{header}.{encoded(payload + b'x')}.{signature}",
        f"{encoded(HEADERS[1])}.{body}.{signature}",
        signed(bytes(other_key), payload, HEADERS[0]),
        signed(key, payload, draw.choice(REFUSED_HEADERS)),
        f"{header}.{body}.{signature[:-1]}{trailing}",
        f"{text}=",
        f"{header}.{body}.",
        f"{header}.{body}",
        f"{text}.",
        f"{header}.{body}.{encoded(decoded(signature)[:31])}",
    ]


def main():
    draw = random.Random(7515)
    cases = [
        (draw.randbytes(draw.randint(32, 64)), draw.randbytes(draw.randint(0, 600)))
        for _ in range(COUNT)
    ]
    faults = 0

    def check(holds, what):
        nonlocal faults
        if not holds:
            faults += 1
            print(f"signatures: {what}")

    ours = drive("sign", [f"{encoded(key)} {encoded(payload)}" for key, payload in cases])
    for (key, payload), text in zip(cases, ours):
        check(text == signed(key, payload, HEADERS[0]), f"signed otherwise: {text}")

    accepted, refused = [], []
    for key, payload in cases:
        for header in HEADERS:
            accepted.append((key, payload, signed(key, payload, header)))
        refused += [(key, text) for text in tampered(draw, key, payload)]
    answers = drive("verify", [f"{encoded(key)} {text}" for key, _, text in accepted])
    for (_, payload, text), answer in zip(accepted, answers):
        check(answer == f"ok {encoded(payload)}", f"not accepted: {text}")
    answers = drive("verify", [f"{encoded(key)} {text}" for key, text in refused])
    for (_, text), answer in zip(refused, answers):
        check(answer == "refused", f"not refused: {text}")

    beside = "hmac"
    if joserfc_jws is not None:
        beside = "hmac and joserfc"
        theirs = []
        for (key, payload), text in zip(cases, ours):
            oct_key = OctKey.import_key(key)
            theirs.append(joserfc_jws.serialize_compact({"alg": "HS256"}, payload, oct_key))
            found = joserfc_jws.deserialize_compact(text, oct_key).payload
            check(found == payload, f"joserfc reads otherwise: {text}")
        answers = drive("verify", [f"{encoded(key)} {text}" for (key, _), text in zip(cases, theirs)])
        for (_, payload), text, answer in zip(cases, theirs, answers):
            check(answer == f"ok {encoded(payload)}", f"joserfc's is not accepted: {text}")

    print(
        f"signatures: {len(ours)} signed, {len(accepted)} accepted and {len(refused)} refused"
        f" beside {beside}, {faults} faults"
    )
    return 1 if faults else 0


sys.exit(main())
