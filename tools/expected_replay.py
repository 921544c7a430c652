#!/usr/bin/env python3
"""Prints what the program replay has to print for a script, by another implementation of the two ends:
docs/PROTOCOL.md read anew, over Python's `cryptography` package (OpenSSL's SM3, HMAC and SM4 in CBC and GCM mode).

  python3 tools/expected_replay.py < crates/replay/stdin > crates/replay/stdout
"""
import hashlib
import struct
import sys

from cryptography.exceptions import InvalidTag
from cryptography.hazmat.primitives.ciphers import Cipher, algorithms, modes

from other_prf import mac, prf

CBC, GCM = (0xE013, 0xE019), (0xE053, 0xE059)
ALERTS = {0, 10, 20, 21, 22, 30, 40, 42, 43, 44, 45, 46, 47, 48, 49, 50, 51, 70, 71, 80, 90, 100, 200, 201, 202, 203, 204, 205}
QUESTIONS = {1: 1, 22: 2, 4: 3, 6: 4, 8: 5, 24: 6}
AWAITED = {2: 2, 3: 11, 5: 12, 7: 14, 10: 20, 21: 1, 23: 16, 26: 20}
OPEN, CLOSED, DEAD = 11, 12, 13


def two(n):
    return struct.pack(">H", n)


def three(n):
    return struct.pack(">I", n)[1:]


class Fault(Exception):
    def __init__(self, alert, layer):
        self.alert, self.layer = alert, layer


class Refused(Exception):
    pass


class Keys:
    """The protection of one end, keyed; None stands for a no."""

    def __init__(self, suite, client, material):
        m, side = material, 0 if client else 1
        self.cbc = suite in CBC
        if self.cbc:
            macs, keys = (m[:32], m[32:64]), (m[64:80], m[80:96])
            self.own, self.peer = (macs[side], keys[side]), (macs[1 - side], keys[1 - side])
        else:
            keys, ivs = (m[:16], m[16:32]), (m[32:36], m[36:40])
            self.own, self.peer = (keys[side], ivs[side]), (keys[1 - side], ivs[1 - side])

    @staticmethod
    def heading(number, kind, size):
        return struct.pack(">QB2sH", number, kind, b"\1\1", size)

    def seal(self, number, kind, content, fresh):
        head = self.heading(number, kind, len(content))
        if self.cbc:
            text = content + mac(self.own[0], head + content)
            p = 15 - len(text) % 16
            e = Cipher(algorithms.SM4(self.own[1]), modes.CBC(fresh)).encryptor()
            return fresh + e.update(text + bytes([p]) * (p + 1)) + e.finalize()
        first = struct.pack(">Q", number)
        e = Cipher(algorithms.SM4(self.own[0]), modes.GCM(self.own[1] + first)).encryptor()
        e.authenticate_additional_data(head)
        return first + e.update(content) + e.finalize() + e.tag

    def open(self, number, kind, octets):
        if self.cbc:
            if len(octets) < 64 or len(octets) % 16:
                return None
            d = Cipher(algorithms.SM4(self.peer[1]), modes.CBC(octets[:16])).decryptor()
            text = d.update(octets[16:]) + d.finalize()
            p = text[-1]
            if p + 33 > len(text) or text[-(p + 1):] != bytes([p]) * (p + 1):
                return None
            content, tag = text[: len(text) - p - 33], text[len(text) - p - 33: len(text) - p - 1]
            return content if tag == mac(self.peer[0], self.heading(number, kind, len(content)) + content) else None
        if len(octets) < 24:
            return None
        d = Cipher(algorithms.SM4(self.peer[0]), modes.GCM(self.peer[1] + octets[:8], octets[-16:])).decryptor()
        d.authenticate_additional_data(self.heading(number, kind, len(octets) - 24))
        try:
            return d.update(octets[8:-16]) + d.finalize()
        except InvalidTag:
            return None


class Reader:
    """Parts of a body; what does not fit is alert 50."""

    def __init__(self, octets):
        self.octets, self.at = octets, 0

    def take(self, n):
        if self.at + n > len(self.octets):
            raise Fault(50, "message")
        self.at += n
        return self.octets[self.at - n: self.at]

    def part(self, width):
        return self.take(int.from_bytes(self.take(width), "big"))

    def must(self, good):
        if not good:
            raise Fault(50, "message")

    def done(self):
        self.must(self.at == len(self.octets))


def pairs(octets):
    return [int.from_bytes(octets[i: i + 2], "big") for i in range(0, len(octets), 2)]


def read_hello(body):
    r = Reader(body)
    r.must(r.take(2) == b"\1\1")
    random = r.take(32)
    r.must(len(r.part(1)) <= 32)
    return r, random


def read_certificates(body):
    r = Reader(body)
    inner = Reader(r.part(3))
    r.done()
    found = []
    while inner.at < len(inner.octets):
        one = inner.part(3)
        inner.must(len(one) >= 1)
        found.append(one)
    return found


def read_carried(body):
    r = Reader(body)
    x = r.part(2)
    r.must(len(x) >= 1)
    r.done()
    return x


def message(kind, body):
    return bytes([kind]) + three(len(body)) + body


class End:
    def __init__(self, client, suites):
        self.client, self.suites = client, suites
        self.stage = 1 if client else 21
        self.client_random = self.server_random = bytes(32)
        self.suite, self.master, self.keys = 0, b"", None
        self.transcript = hashlib.new("sm3")
        self.reads = self.writes = 0
        self.reads_protected = self.writes_protected = False
        self.buffer = b""

    # -- what is written
    def record(self, kind, content, fresh):
        if self.writes_protected:
            content = self.keys.seal(self.writes, kind, content, fresh)
            self.writes += 1
        return bytes([kind, 1, 1]) + two(len(content)) + content

    def say(self, kind, body, fresh):
        m = message(kind, body)
        self.transcript.update(m)
        return self.record(22, m, fresh)

    def over(self, stage):
        self.stage, self.buffer, self.master = stage, b"", b""

    def raise_alert(self, fault, fresh):
        out = self.record(21, bytes([2, fault.alert]), fresh)
        self.over(DEAD)
        return out

    def goodbye(self, fresh):
        out = self.record(21, b"\1\0", fresh)
        self.over(CLOSED)
        return out

    # -- the buffer
    def ready(self):
        b = self.buffer
        return len(b) >= 4 and (int.from_bytes(b[1:4], "big") > 4092 or len(b) >= 4 + int.from_bytes(b[1:4], "big"))

    def first(self):
        n = 4 + int.from_bytes(self.buffer[1:4], "big")
        return self.buffer[:n]

    def join_first(self):
        m = self.first()
        self.transcript.update(m)
        self.buffer = self.buffer[len(m):]

    def check_value(self, client):
        label = b"client finished" if client else b"server finished"
        return prf(self.master, label, self.transcript.copy().digest(), 12)

    def make_keys(self, premaster):
        self.master = prf(premaster, b"master secret", self.client_random + self.server_random, 48)
        n = 96 if self.suite in CBC else 40
        material = prf(self.master, b"key expansion", self.server_random + self.client_random, n)
        self.keys = Keys(self.suite, self.client, material)

    # -- the calls; each yields what is written first, then what the call adds
    def refuse(self, *grounds):
        for number, holds in grounds:
            if holds:
                raise Refused(number)

    def hand_in(self, octets, fresh, out, place):
        self.refuse((1, self.stage in (CLOSED, DEAD)), (2, self.stage in QUESTIONS), (4, self.ready()), (7, len(fresh) != 16), (8, out < 4096 or place < 18432))
        done = {"consumed": 0, "released": b"", "more": 0}
        try:
            return self.receive(octets, fresh, done), done, None
        except Fault as fault:
            return self.raise_alert(fault, fresh), done, fault

    def receive(self, octets, fresh, done):
        if len(octets) < 5:
            done["more"] = 1
            return b""
        kind, size = octets[0], int.from_bytes(octets[3:5], "big")
        if octets[1:3] != b"\1\1":
            raise Fault(70, "record")
        if size > (18432 if self.reads_protected else 16384):
            raise Fault(22, "record")
        if len(octets) < 5 + size:
            done["more"] = 1
            return b""
        done["consumed"] = 5 + size
        content = octets[5: 5 + size]
        if kind not in (20, 21, 22, 23):
            return b""
        if self.reads_protected:
            if self.reads == 16777216:
                raise Fault(10, "record")
            content = self.keys.open(self.reads, kind, content)
            if content is None:
                raise Fault(20, "record")
            self.reads += 1
        if not content:
            raise Fault(50, "record")
        if len(content) > 16384:
            raise Fault(22, "record")
        return self.judge(kind, content, fresh, done)

    def judge(self, kind, content, fresh, done):
        if kind == 20:
            if content != b"\1":
                raise Fault(50, "content")
            if self.buffer or self.stage not in (9, 25):
                raise Fault(10, "content")
            self.reads_protected, self.reads, self.stage = True, 0, self.stage + 1
        elif kind == 21:
            if len(content) != 2:
                raise Fault(50, "content")
            level, number = content
            if level not in (1, 2) or number not in ALERTS:
                raise Fault(47, "content")
            if level == 2:
                self.over(DEAD)
            elif number not in (90, 100):
                return self.goodbye(fresh)
        elif kind == 22:
            if self.stage == OPEN:
                raise Fault(10, "content")
            self.buffer += content
        else:
            if self.stage != OPEN:
                raise Fault(10, "content")
            done["released"] = content
        return b""

    def turn(self, fresh, out):
        self.refuse((1, self.stage in (CLOSED, DEAD)), (2, self.stage in QUESTIONS), (5, not self.ready()), (7, len(fresh) != 16), (8, out < 4096))
        try:
            return self.turn_first(fresh), None
        except Fault as fault:
            return self.raise_alert(fault, fresh), fault

    def turn_first(self, fresh):
        if int.from_bytes(self.buffer[1:4], "big") > 4092:
            raise Fault(47, "message")
        kind, body = self.buffer[0], self.first()[4:]
        if AWAITED.get(self.stage) != kind:
            raise Fault(10, "stage")
        if kind in (1, 2) and len(body) >= 2 and body[:2] != b"\1\1":
            raise Fault(70, "message")
        return {1: self.on_client_hello, 2: self.on_server_hello, 11: self.on_certificate, 12: self.on_carried, 14: self.on_done, 16: self.on_carried, 20: self.on_finished}[kind](body, fresh)

    def on_client_hello(self, body, fresh):
        r, random = read_hello(body)
        suites, ways = r.part(2), r.part(1)
        r.must(len(suites) >= 2 and len(suites) % 2 == 0 and len(ways) >= 1)
        r.done()
        if 0 not in ways:
            raise Fault(47, "message")
        shared = [s for s in pairs(suites) if s in self.suites]
        if not shared:
            raise Fault(40, "stage")
        self.client_random, self.suite, self.stage = random, shared[0], 22
        self.join_first()
        return b""

    def on_server_hello(self, body, fresh):
        r, random = read_hello(body)
        suite, way = int.from_bytes(r.take(2), "big"), r.take(1)
        r.done()
        if suite not in self.suites or way != b"\0":
            raise Fault(47, "message")
        self.server_random, self.suite, self.stage = random, suite, 3
        self.join_first()
        return b""

    def on_certificate(self, body, fresh):
        if len(read_certificates(body)) != 2:
            raise Fault(42, "message")
        self.stage = 4
        return b""

    def on_carried(self, body, fresh):
        read_carried(body)
        self.stage += 1
        return b""

    def on_done(self, body, fresh):
        if body:
            raise Fault(50, "message")
        self.stage = 8
        self.join_first()
        return b""

    def on_finished(self, body, fresh):
        if len(body) != 12:
            raise Fault(50, "message")
        if len(self.buffer) > 16:
            raise Fault(10, "stage")
        if body != self.check_value(not self.client):
            raise Fault(51, "stage")
        self.join_first()
        out = b""
        if not self.client:
            out = self.change() + self.say(20, self.check_value(False), fresh)
        self.stage, self.master = OPEN, b""
        return out

    def change(self):
        out = self.record(20, b"\1", b"")
        self.writes_protected, self.writes = True, 0
        return out

    def look(self, question):
        self.refuse((1, self.stage in (CLOSED, DEAD)), (3, QUESTIONS.get(self.stage) != question))
        parts = []
        if question == 3:
            at = 10
            for c in read_certificates(self.first()[4:]):
                parts.append((at, c))
                at += 3 + len(c)
        elif question in (4, 6):
            parts.append((6, read_carried(self.first()[4:])))
        return parts

    def answer(self, question, yes, p, fresh, out):
        number, certs = p["number"], p["cert"]
        fits = yes is False or {
            1: len(p["random"]) == 32,
            2: len(p["random"]) == 32 and len(p["id"]) == 32 and len(certs) == 2 and all(1 <= len(c) <= 1500 for c in certs) and 1 <= len(p["sig"]) <= 512,
            3: True,
            4: True,
            5: len(p["premaster"]) == 48 and p["premaster"][:2] == b"\1\1" and 1 <= len(p["wrap"]) <= 512,
            6: len(p["premaster"]) == 48,
        }[question]
        taken = yes or {1: False, 3: number in (42, 43, 44, 45, 46, 48), 4: number == 51}.get(question, True)
        self.refuse((1, self.stage in (CLOSED, DEAD)), (3, QUESTIONS.get(self.stage) != question), (7, len(fresh) != 16 or not fits), (8, out < 4096), (10, not taken))
        try:
            if not yes:
                raise Fault({2: 80, 3: number, 4: number, 5: 80, 6: 40}[question], "card")
            return [self.greet, self.offer, self.trust, self.trust, self.wrap, self.unwrap][question - 1](p, fresh), None
        except Fault as fault:
            return self.raise_alert(fault, fresh), fault

    def greet(self, p, fresh):
        self.client_random, self.stage = p["random"], 2
        suites = b"".join(two(s) for s in self.suites)
        return self.say(1, b"\1\1" + p["random"] + b"\0" + two(len(suites)) + suites + b"\1\0", fresh)

    def offer(self, p, fresh):
        self.server_random, self.stage = p["random"], 23
        chain = b"".join(three(len(c)) + c for c in p["cert"])
        out = self.say(2, b"\1\1" + p["random"] + b"\x20" + p["id"] + two(self.suite) + b"\0", fresh)
        out += self.say(11, three(len(chain)) + chain, fresh)
        out += self.say(12, two(len(p["sig"])) + p["sig"], fresh)
        return out + self.say(14, b"", fresh)

    def trust(self, p, fresh):
        self.join_first()
        self.stage += 1
        return b""

    def wrap(self, p, fresh):
        self.make_keys(p["premaster"])
        out = self.say(16, two(len(p["wrap"])) + p["wrap"], fresh) + self.change()
        self.stage = 9
        return out + self.say(20, self.check_value(True), fresh)

    def unwrap(self, p, fresh):
        if p["premaster"][:2] != b"\1\1":
            raise Fault(40, "card")
        self.make_keys(p["premaster"])
        self.join_first()
        self.stage = 25
        return b""

    def send(self, reading, fresh, out):
        self.refuse((1, self.stage in (CLOSED, DEAD)), (6, self.stage != OPEN), (7, len(fresh) != 16 or not 1 <= len(reading) <= 16384), (8, out < len(reading) + 2053), (9, self.writes == 16777215))
        return self.record(23, reading, fresh), None

    def close(self, fresh, out):
        self.refuse((1, self.stage in (CLOSED, DEAD)), (7, len(fresh) != 16), (8, out < 4096))
        return self.goodbye(fresh), None


# -- scripts
def octets(text):
    found = b""
    for part in [] if text == "-" else text.split("+"):
        one, _, times = part.partition("*")
        found += bytes.fromhex(one) * (int(times) if times else 1)
    return found


def shown(x):
    return x.hex() or "-"


FRESH = bytes(range(0xA0, 0xB0))
OTHER = {"gauge": "office", "office": "gauge"}


def run(line, ends, waiting):
    name, call, *words = line.split()
    given = [w.split("=", 1) for w in words if "=" in w]
    plain = [w for w in words if "=" not in w]
    option = lambda key, default, read: next((read(v) for k, v in reversed(given) if k == key), default)
    if call == "setup":
        suites = [] if plain[1] == "-" else [int(s, 16) for s in plain[1].split(",")]
        served = {"cbc": CBC, "gcm": GCM, "pair": CBC + GCM}[plain[0]]
        if not 1 <= len(suites) <= 8 or len(set(suites)) != len(suites) or not set(suites) <= set(served):
            return f"{name} setup refusal=11 stage=0 written=0 fault=-"
        ends[name], waiting[name] = End(name == "gauge", suites), b""
        return f"{name} setup refusal=0 stage={ends[name].stage} written=0 fault=-"
    end = ends[name]
    if call == "look":
        question = option("q", QUESTIONS.get(end.stage, 1), int)
        try:
            parts = end.look(question)
        except Refused as no:
            return f"{name} look refusal={no.args[0]} stage={end.stage} question=0"
        parts = ",".join(f"{at}:{shown(x)}" for at, x in parts) or "-"
        return f"{name} look refusal=0 stage={end.stage} question={question} gauge={shown(end.client_random)} office={shown(end.server_random)} suite={end.suite:04x} parts={parts}"
    fresh, out, place = option("fresh", FRESH, octets), option("out", 18437 if call == "send" else 4096, int), option("place", 18432, int)
    done, fault, refusal, written, source = None, None, 0, b"", None
    try:
        if call == "hand-in":
            done = {"consumed": 0, "released": b"", "more": 0}
            source = plain[0].startswith("@")
            came = waiting[OTHER[name]] if source else octets(plain[0])
            if source and ":" in plain[0]:
                came = came[: int(plain[0].split(":")[1])]
            written, done, fault = end.hand_in(came, fresh, out, place)
        elif call == "turn":
            written, fault = end.turn(fresh, out)
        elif call == "answer":
            p = {k: option(k, b"", octets) for k in ("random", "id", "sig", "premaster", "wrap")}
            p["cert"], p["number"] = [octets(v) for k, v in given if k == "cert"], option("number", 0, int)
            written, fault = end.answer(int(plain[0]), plain[1] == "yes", p, fresh, out)
        elif call == "send":
            written, fault = end.send(octets(plain[0]), fresh, out)
        else:
            written, fault = end.close(fresh, out)
    except Refused as no:
        refusal = no.args[0]
    waiting[name] += written
    told = f"{name} {call} refusal={refusal} stage={end.stage} written={len(written)} fault=" + (f"{fault.alert}/{fault.layer}" if fault else "-")
    if done is None:
        return told + f" out={shown(written)} rest=kept"
    if source:
        waiting[OTHER[name]] = waiting[OTHER[name]][done["consumed"]:]
    tail = "kept" if refusal and place else "zero"
    return told + f" consumed={done['consumed']} released={len(done['released'])} more={done['more']} out={shown(written)} rest=kept place={shown(done['released'])} tail={tail}"


def main():
    ends, waiting = {}, {"gauge": b"", "office": b""}
    for line in sys.stdin:
        line = line.split("#")[0].strip()
        if line:
            print(run(line, ends, waiting))


main()
