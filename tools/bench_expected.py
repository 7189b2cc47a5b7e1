#!/usr/bin/env python3
"""What `bench` must print for a session script, from the rules in docs/RULES.md.

Written apart from the Rattle sources and sharing nothing with them: values are
Python integers and IEEE single floats (by struct), a sensor is a dictionary of
plain Python values, and each call is a chain of checks in the order of the rules.

    python3 tools/bench_expected.py < SCRIPT          the expected output
    python3 tools/bench_expected.py --changes < SCRIPT
                                                      that of `bench --changes`
    python3 tools/bench_expected.py --gather          writes crates/bench/stdin and
                                                      crates/bench/stdout from sessions/*.session
    python3 tools/bench_expected.py --check           fails unless both are as gathered

With `--changes` the line of each call is followed by a line for each channel that differs from what it was before, with
the fields that changed as `show` prints them; all of them where the channel is new, `gone` where it is no longer there.
And a day, which runs from an accepted set-up to the next one, the next `sensor` or the end, is followed by its
timeline: for each channel a character for each accepted sample, `#` where its signal was 1 after it, `_` where it was
0.

A script is read up to its end, or to the first line that cannot be read. Such a line is told on standard error by its
number, without what was expected there, and the exit status is then 1.
"""
import glob
import os
import re
import struct
import sys

LAYER = {}
for _layer, _numbers in {
    "device": range(1, 7),
    "frame": [7, 8, 9, 10, 27],
    "access": range(11, 16),
    "value": range(17, 20),
    "teach": [20, 21],
    "keypad": [16, 22, 23, 24, 25, 26],
}.items():
    for _n in _numbers:
        LAYER[_n] = _layer


class Int:
    def __init__(self, width, limit):
        self.width, self.top, self.limit = width, 256 ** width // 2, limit
        top = self.top
        self.subs = {
            "below": (top + 8).to_bytes(width, "big"),
            "above": (top - 8).to_bytes(width, "big"),
            "nodata": (top - 4).to_bytes(width, "big"),
        }

    def read(self, b):
        return int.from_bytes(b, "big", signed=True) if len(b) == self.width else None

    def octets(self, v):
        return v.to_bytes(self.width, "big", signed=True)

    def clip(self, v):
        return max(-self.top, min(self.top - 1, v))

    def raised(self, v, n):
        return self.clip(v + n)

    def lowered(self, v, n):
        return self.clip(v - n)

    def middle(self, a, b):
        return (a + b) // 2


def f32(x):
    """x, a double or an exact sum of two singles, rounded to a single."""
    return struct.unpack(">f", struct.pack(">f", x))[0]


class Float:
    width, limit = 4, 1000000.0
    subs = {"below": bytes.fromhex("FF800000"), "above": bytes.fromhex("7F800000"), "nodata": bytes.fromhex("7FC00000")}

    def read(self, b):
        if len(b) != 4 or b[0] & 0x7F == 0x7F and b[1] & 0x80:
            return None
        return struct.unpack(">f", b)[0] + 0.0

    def octets(self, v):
        return struct.pack(">f", v)

    # A sum of two singles as doubles, rounded to a single, is the sum rounded once.
    def raised(self, v, n):
        return f32(v + n / 1024)

    def lowered(self, v, n):
        return f32(v - n / 1024)

    def middle(self, a, b):
        m = f32(f32(a / 2) + f32(b / 2))
        return max(min(a, b), min(max(a, b), m)) + 0.0


KINDS = {"int16": Int(2, 32000), "int32": Int(4, 2000000000), "float32": Float()}


class Denied(Exception):
    def __init__(self, number, code=None, index=0, subindex=0):
        self.number, self.code, self.index, self.subindex = number, code, index, subindex


COMMANDS = {0x40: ("apply",), 0x4F: ("cancel",)}
for _sp in (0, 1):
    COMMANDS[0x41 + _sp] = ("single", _sp)
    COMMANDS[0x43 + 2 * _sp] = ("tp", _sp, 0)
    COMMANDS[0x44 + 2 * _sp] = ("tp", _sp, 1)
    COMMANDS[0x47 + 2 * _sp] = ("start", _sp)
    COMMANDS[0x48 + 2 * _sp] = ("stop", _sp)


def xor(b):
    x = 0
    for o in b:
        x ^= o
    return x


def sealed(b):
    return b + bytes([xor(b)])


class Sensor:
    def __init__(self, kind):
        self.k, self.set = kind, False
        self.keypad = False

    # ---- set-up and samples
    def setup(self, p):
        if self.keypad:
            raise Denied(1)
        if not 1 <= p["channels"] <= 8:
            raise Denied(2)
        low, high = self.k.read(p["low"]), self.k.read(p["high"])
        if low is None or high is None:
            raise Denied(17)
        if not low < high or max(abs(low), abs(high)) > self.k.limit:
            raise Denied(3)
        if not 1 <= p["capture"] <= 64:
            raise Denied(4)
        self.set, self.low, self.high = True, low, high
        self.serial, self.scale = p["serial"], p["scale"]
        self.capture, self.spread, self.distance = p["capture"], p["spread"], p["distance"]
        self.rows = [dict(sp=[low, high], logic=0, mode=1, h=0, on=False) for _ in range(p["channels"])]
        self.select(0)

    def select(self, k):
        self.sel, self.state = k, ("idle",)
        self.flags, self.taught, self.failed = [[False, False], [False, False]], 0, False

    def blank_check(self):
        if not self.set:
            raise Denied(5)

    def signal(self, r):
        return r["mode"] != 0 and r["on"] != (r["logic"] == 1)

    def judge(self, r, v):
        k, h, (a, b) = self.k, r["h"], r["sp"]
        lo, hi = min(a, b), max(a, b)
        on, off = {
            0: (False, True),
            1: (v >= a, v < k.lowered(a, h)),
            2: (lo <= v <= hi, v < k.lowered(lo, h) or v > k.raised(hi, h)),
            3: (v >= hi, v <= lo and v < hi),
        }[r["mode"]]
        r["on"] = True if on else False if off else r["on"]

    def sample(self, reading, room):
        self.blank_check()
        if isinstance(reading, bytes):
            v = self.k.read(reading)
            if v is None:
                raise Denied(17)
        else:
            v = reading
        if room < self.k.width + 2:
            raise Denied(6)
        if not isinstance(v, str):
            v = "below" if v < self.low else "above" if v > self.high else v
        if isinstance(v, str):
            shown = self.k.subs[v]
        else:
            shown = self.k.octets(v)
            for r in self.rows:
                self.judge(r, v)
            bits = self.bits()
            self.feed(v)
            return shown + bytes([self.scale & 0xFF, bits])
        return shown + bytes([self.scale & 0xFF, self.bits()])

    def bits(self):
        return sum(1 << i for i, r in enumerate(self.rows) if self.signal(r))

    # ---- the teach: states idle, single, two, waittwo, dynstart, waitdyn
    def end(self, sp, value):
        self.state = ("idle",)
        if value is None:
            self.failed = True
        else:
            self.rows[self.sel]["sp"][sp] = value
            self.taught |= 1 << sp
            self.failed = False

    def tp_of(self, values):
        return self.k.middle(min(values), max(values))

    def feed(self, v):
        s = self.state
        if s[0] == "single":
            values = s[2] + [v]
            if len(values) < self.capture:
                self.state = ("single", s[1], values)
            else:
                bad = max(values) > self.k.raised(min(values), self.spread)
                self.end(s[1], None if bad else self.tp_of(values))
        elif s[0] == "two":
            _, sp, tp, values, points = s
            values = values + [v]
            if len(values) < self.capture:
                self.state = ("two", sp, tp, values, points)
            else:
                self.flags[sp][tp] = True
                self.state = ("waittwo", sp, {**points, tp: self.tp_of(values)})
        elif s[0] == "dynstart":
            self.state = ("waitdyn", s[1], [v])
        elif s[0] == "waitdyn":
            self.state = ("waitdyn", s[1], s[2] + [v])

    def command(self, code):
        if code not in COMMANDS:
            raise Denied(20)
        c, s = COMMANDS[code], self.state
        what, sp = c[0], c[1] if len(c) > 1 else None
        if s[0] == "idle" and what in ("single", "tp", "start"):
            self.flags[sp], self.failed = [False, False], False
            self.state = {
                "single": ("single", sp, []),
                "tp": ("two", sp, c[2] if what == "tp" else 0, [], {}),
                "start": ("dynstart", sp),
            }[what]
        elif s[0] == "waittwo" and what == "tp" and sp == s[1]:
            self.state = ("two", sp, c[2], [], s[2])
        elif s[0] == "waittwo" and what == "apply" and all(self.flags[s[1]]):
            a, b = s[2][0], s[2][1]
            bad = max(a, b) < self.k.raised(min(a, b), self.distance)
            self.end(s[1], None if bad else self.k.middle(a, b))
        elif s[0] == "waitdyn" and what == "start" and sp == s[1]:
            self.state = ("dynstart", sp)
        elif s[0] == "waitdyn" and what == "stop" and sp == s[1]:
            bad = max(s[2]) < self.k.raised(min(s[2]), self.distance)
            self.end(s[1], None if bad else self.tp_of(s[2]))
        elif s[0] in ("waittwo", "waitdyn") and what == "cancel":
            self.flags[s[1]] = [False, False]
            self.state = ("idle",)
        else:
            raise Denied(21)

    def teach_result(self):
        state = {"single": 5, "two": 5, "dynstart": 5, "waittwo": 4, "waitdyn": 4}.get(self.state[0])
        if state is None:
            state = 7 if self.failed else self.taught
        bits = [self.flags[0][0], self.flags[0][1], self.flags[1][0], self.flags[1][1]]
        return state | sum(16 << i for i, b in enumerate(bits) if b)

    # ---- requests
    def decode(self, f):
        if not f:
            raise Denied(8)
        digit = f[0] & 15
        long = digit == 1
        if long:
            if len(f) < 2 or not 17 <= f[1] <= 238 or f[1] != len(f):
                raise Denied(8)
        elif digit < 2 or digit != len(f):
            raise Denied(8)
        if xor(f):
            raise Denied(9)
        inner, s = f[2 if long else 1:-1], f[0] >> 4
        fields = {1: 1, 2: 2, 3: 3}.get(s & 7) if s in (1, 2, 3, 9, 10, 11) else None
        if fields is None or len(inner) < fields:
            raise Denied(10)
        read, data = s >= 8, inner[fields:]
        if (read and (data or long)) or (not read and not data):
            raise Denied(10)
        index = inner[0] * 256 + inner[1] if fields == 3 else inner[0]
        sub = inner[fields - 1] if fields > 1 else 0
        return read, index, sub, data

    def place(self, index):
        """('command' | 'select' | 'result') or (object, row)."""
        if index in (2, 58, 59):
            return {2: "command", 58: "select", 59: "result"}[index], None
        for k in range(len(self.rows)):
            base = 60 + 2 * k if k < 2 else 0x4000 + 2 * (k - 2)
            if index == base:
                return "setpoints", k
            if index == base + 1:
                return "config", k
        return None, None

    def request(self, frame, room):
        self.blank_check()
        if room < 16:
            raise Denied(7)
        read, index, sub, data = self.decode(frame)
        try:
            answer = self.access(read, index, sub, data)
        except Denied as d:
            code = {11: 0x8011, 12: 0x8012, 13: 0x8023, 14: 0x8033, 15: 0x8034, 16: 0x8021, 17: 0x8030,
                    18: 0x8031, 19: 0x8032, 20: 0x8035, 21: 0x8036}[d.number]
            d.octets = sealed(bytes([0xC4 if read else 0x44]) + code.to_bytes(2, "big"))
            d.index, d.subindex = index, d.subindex or sub
            raise
        return sealed(bytes([0xD2 + len(answer)]) + answer) if read else bytes([0x52, 0x52])

    def access(self, read, index, sub, data):
        what, k = self.place(index)
        if what is None:
            raise Denied(11)
        parts = {"setpoints": 2, "config": 3}.get(what, 0)
        if sub > parts:
            raise Denied(12)
        if read and what == "command" or not read and what == "result":
            raise Denied(13)
        widths = {"setpoints": [self.k.width] * 2, "config": [1, 1, 2]}.get(what, [1])
        chosen = list(range(len(widths))) if sub == 0 else [sub - 1]
        if read:
            if what == "select":
                return bytes([self.sel + 1])
            if what == "result":
                return bytes([self.teach_result()])
            r = self.rows[k]
            whole = [self.k.octets(v) for v in r["sp"]] if what == "setpoints" else [
                bytes([r["logic"]]), bytes([r["mode"]]), r["h"].to_bytes(2, "big")]
            return b"".join(whole[i] for i in chosen)
        need = sum(widths[i] for i in chosen)
        if len(data) > need:
            raise Denied(14)
        if len(data) < need:
            raise Denied(15)
        if self.keypad:
            raise Denied(16)
        if what == "command":
            return self.command(data[0])
        if what == "select":
            if data[0] > len(self.rows):
                raise Denied(17)
            return self.select(max(data[0], 1) - 1)
        new = {}
        for i in chosen:
            part, data = data[:widths[i]], data[widths[i]:]
            new[i] = self.part(what, i, part)
        r = self.rows[k]
        for i, v in new.items():
            if what == "setpoints":
                r["sp"][i] = v
            else:
                r[["logic", "mode", "h"][i]] = v

    def part(self, what, i, b):
        if what == "setpoints":
            return self.setpoint(b, i + 1)
        v = int.from_bytes(b, "big")
        if v > [1, 3, 65535][i]:
            raise Denied(17, subindex=i + 1)
        return v

    def setpoint(self, b, sub):
        v = self.k.read(b)
        if v is None:
            raise Denied(17, subindex=sub)
        if v > self.high:
            raise Denied(18, subindex=sub)
        if v < self.low:
            raise Denied(19, subindex=sub)
        return v

    # ---- keypad and restart
    def open(self):
        self.blank_check()
        if self.keypad:
            raise Denied(22)
        if self.state[0] != "idle":
            raise Denied(23)
        self.keypad = True
        return self.serial

    def ticket(self, serial):
        self.blank_check()
        if serial != self.serial:
            raise Denied(24)
        if not self.keypad:
            raise Denied(25)

    def write(self, serial, channel, sp, b):
        self.ticket(serial)
        if not 1 <= channel <= len(self.rows) or sp not in (1, 2):
            raise Denied(26)
        v = self.setpoint(b, 0)
        self.rows[channel - 1]["sp"][sp - 1] = v

    def close(self, serial):
        self.ticket(serial)
        self.keypad = False

    def restart(self):
        self.blank_check()
        for r in self.rows:
            r["on"] = False
        self.select(0)


def spaced(b):
    return " ".join("%02X" % x for x in b)


class Unreadable(Exception):
    """A line of a script that cannot be read."""


# The characters with the property White_Space.
WHITE_SPACE = "[\t-\r \x85\xa0\u1680\u2000-\u200a\u2028\u2029\u202f\u205f\u3000]+"


def octets(t):
    if t == "-":
        return b""
    if not re.fullmatch("([0-9A-Fa-f]{2})+", t):
        raise Unreadable
    return bytes.fromhex(t)


def number(low, high):
    """What reads a number from low to high."""
    def read(t):
        if not re.fullmatch("-?[0-9]+" if low < 0 else "[0-9]+", t) or not low <= int(t) <= high:
            raise Unreadable
        return int(t)
    return read


U8, U16, U32 = number(0, 255), number(0, 65535), number(0, 4294967295)
FIELDS = dict(serial=U32, channels=U8, low=octets, high=octets, scale=number(-128, 127), capture=U8, spread=U16,
              distance=U16)
# The calls that have the same number of words each time.
FIXED = {"open": [], "write": [U32, U8, U8, octets], "close": [U32], "restart": []}


def field(w):
    key, _, value = w.partition("=")
    if key not in FIELDS:
        raise Unreadable
    return key, FIELDS[key](value)


def read_call(word, rest):
    """The arguments of a call."""
    if word == "setup":
        fields = dict(field(w) for w in rest)
        if len(fields) < len(FIELDS):
            raise Unreadable
        return [fields]
    if word in FIXED:
        if len(rest) != len(FIXED[word]):
            raise Unreadable
        return [read(t) for read, t in zip(FIXED[word], rest)]
    if word not in ("sample", "request"):
        raise Unreadable
    room = 16
    if len(rest) >= 2 and rest[-2] == "into":
        room, rest = U16(rest[-1]), rest[:-2]
    # `-` stands alone, and a sample has one word.
    if not rest or len(rest) > 1 and (word == "sample" or "-" in rest):
        raise Unreadable
    if word == "sample" and rest[0] in ("below", "above", "nodata"):
        return [rest[0], room]
    return [b"".join(octets(t) for t in rest), room]


def read_line(line):
    """The word of a line, which is octets, and its arguments; None for a line that asks for nothing."""
    try:
        text = line.decode("utf-8")
    except UnicodeDecodeError:
        raise Unreadable
    words = [w for w in re.split(WHITE_SPACE, text.split("#")[0]) if w]
    if not words:
        return None
    word, rest = words[0], words[1:]
    if word == "show" and not rest:
        return word, []
    if word == "sensor":
        if len(rest) != 1 or rest[0] not in KINDS:
            raise Unreadable
        return word, [KINDS[rest[0]]]
    return word, read_call(word, rest)


def call(sensor, word, arguments):
    """The text of an accepted call's reply."""
    reply = getattr(sensor, word)(*arguments)
    if word == "open":
        return "ticket %d" % reply
    return spaced(reply) if word in ("sample", "request") else "accepted"


def refusal(d):
    text = "denied %d %s" % (d.number, LAYER[d.number])
    if getattr(d, "octets", None):
        text += " %d.%d: %s" % (d.index, d.subindex, spaced(d.octets))
    return text


def shown(sensor):
    """The fields of each channel; a blank sensor has no channels."""
    return [[
        "sp1=" + sensor.k.octets(r["sp"][0]).hex().upper(),
        "sp2=" + sensor.k.octets(r["sp"][1]).hex().upper(),
        "logic=%d" % r["logic"],
        "mode=%d" % r["mode"],
        "hysteresis=%d" % r["h"],
        "active=%d" % r["on"],
        "signal=%d" % sensor.signal(r),
    ] for r in (sensor.rows if sensor.set else [])]


def changed(before, after):
    """A line for each channel that differs."""
    lines = []
    for i in range(max(len(before), len(after))):
        old, new = before[i:i + 1], after[i:i + 1]
        if not new:
            lines.append("  channel %d: gone" % (i + 1))
        elif old != new:
            fields = [f for f in new[0] if not old or f not in old[0]]
            lines.append("  channel %d: %s" % (i + 1, " ".join(fields)))
    return lines


def timeline(day):
    """The lines of a day, which is a list of the signals after each accepted sample."""
    if not day:
        return []
    lines = ["timeline of %d sample%s" % (len(day), "" if len(day) == 1 else "s")]
    for i in range(len(day[0])):
        lines.append("  channel %d %s" % (i + 1, "".join("#" if signals[i] else "_" for signals in day)))
    return lines


def run(script, changes=False):
    """What is printed for a script, which is octets, and the number of the line that cannot be read, or None."""
    out, accepted, denied, sensor, day, unreadable = [], 0, 0, None, [], None
    for n, line in enumerate(script.removeprefix(b"\xef\xbb\xbf").split(b"\n"), 1):
        try:
            asked = read_line(line)
            if asked and sensor is None and asked[0] != "sensor":
                raise Unreadable
        except Unreadable:
            unreadable = n
            break
        if asked is None:
            continue
        word, arguments = asked
        if word == "sensor":
            if changes:
                out += timeline(day)
            sensor, day = Sensor(*arguments), []
            continue
        before = shown(sensor)
        if word == "show":
            out += ["channel %d %s" % (i + 1, " ".join(fields)) for i, fields in enumerate(before)]
            continue
        ended = []
        try:
            text = call(sensor, word, arguments)
            accepted += 1
            if word == "setup":
                ended, day = day, []
            elif word == "sample":
                day.append([sensor.signal(r) for r in sensor.rows])
        except Denied as d:
            text = refusal(d)
            denied += 1
        if changes:
            out += timeline(ended)
        out.append("%s: %s" % (word, text))
        if changes:
            out += changed(before, shown(sensor))
    if changes:
        out += timeline(day)
    if unreadable is None:
        out.append("%d calls: %d accepted, %d denied" % (accepted + denied, accepted, denied))
    return "".join(t + "\n" for t in out), unreadable


def gathered():
    top = os.path.dirname(os.path.dirname(os.path.abspath(__file__)))
    script = b"".join(open(p, "rb").read() for p in sorted(glob.glob(os.path.join(top, "sessions", "*.session"))))
    text, unreadable = run(script)
    if unreadable is not None:
        raise SystemExit("sessions/: line %d of all of them cannot be read" % unreadable)
    return {os.path.join(top, "crates/bench/stdin"): script, os.path.join(top, "crates/bench/stdout"): text.encode()}


def main():
    if sys.argv[1:] == ["--gather"]:
        for path, content in gathered().items():
            open(path, "wb").write(content)
    elif sys.argv[1:] == ["--check"]:
        for path, content in gathered().items():
            if open(path, "rb").read() != content:
                raise SystemExit(path + " is not what sessions/ gives: run tools/bench_expected.py --gather")
    else:
        text, unreadable = run(sys.stdin.buffer.read(), changes=sys.argv[1:] == ["--changes"])
        sys.stdout.write(text)
        if unreadable is not None:
            raise SystemExit("line %d cannot be read" % unreadable)


if __name__ == "__main__":
    main()
