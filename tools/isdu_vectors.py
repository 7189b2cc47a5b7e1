#!/usr/bin/env python3
"""ISDU request frames, good and damaged, with what each asks for or is denied with, and what a sensor answers.

The frames are written from their layout alone, as a second opinion on the crate `isdu`. What a sensor answers comes from
the sensor in `bench_expected`, which is taken through the same requests. Always the same output.
To make the files of the program `vectors` again:

    python3 tools/isdu_vectors.py > crates/vectors/stdin
    python3 tools/isdu_vectors.py --summary > crates/vectors/stdout

Octets stand without spaces; `-` stands for no octets. A line of a frame is octets, `=` and an outcome:

    263C0103E8F0 = write 60.1 03E8           the octets ask for this, and are its shortest frame
    A43B009F = read 59.0 | 933BA8            they ask for this, and after the bar is its shortest frame
    933BA9 = denied 9                        they are denied with this number

A line of requests is one or more frames, `>` and the answer that each of them has from the sensor, in this order:

    263C0103E8F0 > 5252                      the whole response to an accepted request
    9363F0 9364F7 > denied 11 C4801155       the denial and the whole response
    933BA9 > denied 9                        the denial; nothing is written

A new sensor is set up by a line of this form; before the first the sensor is blank:

    sensor int16 serial=7 channels=8 low=FF9C high=2710 scale=-1 capture=1 spread=0 distance=10
"""

import sys

import bench_expected

LENGTH, CHECK, SERVICE = 8, 9, 10

WRITES = {"index8": 0x1, "index8_sub": 0x2, "index16_sub": 0x3}
READS = {"index8": 0x9, "index8_sub": 0xA, "index16_sub": 0xB}


def exclusive_or(octets):
    total = 0
    for octet in octets:
        total ^= octet
    return total


def checked(octets):
    """The octets with their check octet."""
    return octets + [exclusive_or(octets)]


def frame(digit, body):
    """A frame of a service digit around a body; its length takes a second octet from 17 octets on."""
    if len(body) <= 13:
        return checked([digit << 4 | len(body) + 2] + body)
    return checked([digit << 4 | 1, len(body) + 3] + body)


def address(form, index, subindex):
    if form == "index8":
        return [index]
    if form == "index8_sub":
        return [index, subindex]
    return [index >> 8, index & 0xFF, subindex]


def shortest_form(index, subindex):
    if index > 0xFF:
        return "index16_sub"
    return "index8" if subindex == 0 else "index8_sub"


def request_frame(form, index, subindex, data):
    digits = WRITES if data else READS
    return frame(digits[form], address(form, index, subindex) + data)


def hexadecimal(octets):
    return bytes(octets).hex().upper() or "-"


class Vectors:
    def __init__(self):
        self.lines = []
        self.frames = []
        self.counts = {"read": 0, "write": 0, "itself": 0, "shorter": 0, LENGTH: 0, CHECK: 0, SERVICE: 0}

    def denied(self, octets, number):
        self.lines.append(f"{hexadecimal(octets)} = denied {number}")
        self.frames.append(octets)
        self.counts[number] += 1

    def asks(self, form, index, subindex, data):
        """The frame of a request in this form, which has to hold index and subindex."""
        octets = request_frame(form, index, subindex, data)
        shortest = request_frame(shortest_form(index, subindex), index, subindex, data)
        kind = "write" if data else "read"
        line = f"{hexadecimal(octets)} = {kind} {index}.{subindex}"
        if data:
            line += " " + hexadecimal(data)
        if octets != shortest:
            line += " | " + hexadecimal(shortest)
        self.lines.append(line)
        self.frames.append(octets)
        self.counts[kind] += 1
        self.counts["itself" if octets == shortest else "shorter"] += 1
        return octets

    def summary(self):
        counts = self.counts
        return [
            f"frames: {len(self.lines)}",
            f"decoded: {counts['read']} reads, {counts['write']} writes",
            f"composed: {counts['itself']} as they were, {counts['shorter']} in a shorter form",
            f"denied: {counts[LENGTH]} with 8, {counts[CHECK]} with 9, {counts[SERVICE]} with 10",
        ]


def pattern(count, seed):
    """Octets that look like data, always the same ones."""
    octets = []
    state = seed
    for _ in range(count):
        state = (state * 1103515245 + 12345) % 2**31
        octets.append(state >> 16 & 0xFF)
    return octets


def worked(vectors):
    vectors.asks("index8_sub", 60, 1, [0x03, 0xE8])
    vectors.asks("index8_sub", 60, 1, [0x27, 0x10])
    vectors.asks("index8_sub", 60, 1, [0x27, 0x11])
    vectors.asks("index8_sub", 60, 1, [0x7F, 0xC0, 0x00, 0x00])
    vectors.asks("index8", 2, 0, [0x41])
    vectors.asks("index8", 2, 0, [0x48])
    vectors.asks("index8", 59, 0, [])
    vectors.asks("index8", 99, 0, [])
    vectors.asks("index16_sub", 0x4000, 0, [])


def addresses(vectors):
    """Every form at the ends of index and subindex, so also forms that are not the shortest."""
    for data in ([], [0xA5]):
        for index in (0, 1, 60, 127, 128, 254, 255):
            vectors.asks("index8", index, 0, data)
            for subindex in (0, 1, 2, 128, 255):
                vectors.asks("index8_sub", index, subindex, data)
                vectors.asks("index16_sub", index, subindex, data)
        for index in (256, 257, 511, 0x3FFF, 0x4000, 0x400B, 0xFF00, 0xFFFF):
            for subindex in (0, 3, 255):
                vectors.asks("index16_sub", index, subindex, data)


def lengths(vectors):
    """Writes of every length up to 20 and near the longest, in each form."""
    for form, index, subindex in (("index8", 24, 0), ("index8_sub", 60, 2), ("index16_sub", 0x4001, 1)):
        fields = len(address(form, index, subindex))
        longest = 238 - 3 - fields
        for count in [*range(1, 18), 100, 200, longest - 1, longest]:
            octets = vectors.asks(form, index, subindex, pattern(count, count))
            assert len(octets) != 16
        # one data octet more: 239 is no length
        body = address(form, index, subindex) + pattern(longest + 1, 7)
        vectors.denied(checked([WRITES[form] << 4 | 1, 239] + body), LENGTH)
        # 16 octets, with the second length octet and without
        vectors.denied(checked([WRITES[form] << 4 | 1, 16] + (address(form, index, subindex) + pattern(16, 3))[:13]), LENGTH)
        vectors.denied(checked([WRITES[form] << 4 | 0] + (address(form, index, subindex) + pattern(16, 3))[:14]), LENGTH)
    # a long frame in a form that is not the shortest, up to where the shortest needs no second length octet
    for count in (8, 9, 10, 11, 12, 13, 14, 232):
        vectors.asks("index16_sub", 60, 0, pattern(count, count))


def stated_lengths(vectors):
    """Octets whose stated length is no length, or not theirs."""
    vectors.denied([], LENGTH)
    for octet in (0x00, 0x01, 0x10, 0x11, 0x12, 0x21, 0x91, 0x92, 0xB1, 0xFF):
        vectors.denied([octet], LENGTH)
    good = request_frame("index8_sub", 60, 1, [0x03, 0xE8])
    for digit in range(16):
        if digit != len(good):
            vectors.denied(checked([0x20 | digit] + good[1:-1]), LENGTH)
    for second in [*range(0, 17), 18, 237, 238, 239, 254, 255]:
        vectors.denied(checked([0x11, second, 24] + pattern(13, 5)), LENGTH)
    for octets in (good, request_frame("index8", 24, 0, pattern(40, 2))):
        for cut in range(1, len(octets)):
            vectors.denied(octets[:cut], LENGTH)
        vectors.denied(octets + [0x00], LENGTH)
        vectors.denied(octets + octets, LENGTH)


def services(vectors):
    """Every service digit with bodies of no to four octets, and with a second length octet."""
    fields = {0x1: 1, 0x2: 2, 0x3: 3, 0x9: 1, 0xA: 2, 0xB: 3}
    forms = {1: "index8", 2: "index8_sub", 3: "index16_sub"}
    for digit in range(16):
        for count in range(5):
            body = [0x3C, 0x01, 0x02, 0x07][:count]
            need = fields.get(digit)
            writes = digit in (0x1, 0x2, 0x3)
            if need is None or count < need or (writes and count == need) or (not writes and count > need):
                vectors.denied(frame(digit, body), SERVICE)
                continue
            index = {1: 0x3C, 2: 0x3C, 3: 0x3C01}[need]
            subindex = {1: 0, 2: 0x01, 3: 0x02}[need]
            assert vectors.asks(forms[need], index, subindex, body[need:]) == frame(digit, body)
        if digit not in (0x1, 0x2, 0x3):
            vectors.denied(frame(digit, pattern(14, digit)), SERVICE)
            vectors.denied(frame(digit, pattern(235, digit)), SERVICE)


def damages(vectors):
    """One octet changed: denied for the length where it tells the length, else for the check octet."""
    for octets in (
        request_frame("index8_sub", 60, 1, [0x03, 0xE8]),
        request_frame("index8", 59, 0, []),
        request_frame("index16_sub", 0x4002, 3, [0x00, 0x05]),
        request_frame("index8", 24, 0, pattern(14, 9)),
    ):
        second = octets[0] & 0x0F == 1
        for place in range(len(octets)):
            for mask in (0x01, 0x08, 0x10, 0x80, 0xFF):
                damaged = list(octets)
                damaged[place] ^= mask
                tells_length = (place == 0 and mask & 0x0F) or (place == 1 and second)
                vectors.denied(damaged, LENGTH if tells_length else CHECK)


def all_vectors():
    vectors = Vectors()
    for part in (worked, addresses, lengths, stated_lengths, services, damages):
        part(vectors)
    return vectors


COMMAND, SELECT, RESULT = 2, 58, 59
SETPOINTS = [60, 62, 0x4000, 0x4002, 0x4004, 0x4006, 0x4008, 0x400A]
CONFIGURATIONS = [index + 1 for index in SETPOINTS]
OBJECTS = [COMMAND, SELECT, RESULT, *sorted(SETPOINTS + CONFIGURATIONS)]
SUBINDICES = (0, 1, 2, 3, 4, 0xFF)

# Of each kind the ends of the range, setpoints within it, and octets that are refused: above, below, no value.
RANGES = {"int16": ("FF9C", "2710"), "int32": ("FFF0BDC0", "000F4240"), "float32": ("BFC00000", "447A0000")}
TAKEN = {"int16": "03E8 0000 FFFF", "int32": "000003E8 00000000 FFFFFFFF", "float32": "41200000 80000000 00000001"}
REFUSED = {
    "int16": "2711 7FFC 7FFF FF9B 8008 8000",
    "int32": "000F4241 7FFFFFFC 7FFFFFFF FFF0BDBF 80000008 80000000",
    "float32": "447A0001 BFC00001 7FC00000 7F800000 FF800000 7F800001",
}


class Requests:
    """Requests to sensors of `bench_expected`, one after the other. Those in a row with the same answer share a line."""

    LONGEST = 256

    def __init__(self):
        self.lines = []
        self.sensor = bench_expected.Sensor(bench_expected.KINDS["int16"])
        self.frames, self.answer = [], None
        self.accepted, self.denied = 0, {}

    def end_line(self):
        if self.frames:
            self.lines.append(f"{' '.join(self.frames)} > {self.answer}")
        self.frames = []

    def set_up(self, kind, channels):
        self.end_line()
        low, high = RANGES[kind]
        fields = {"serial": 7, "channels": channels, "low": low, "high": high, "scale": -1}
        fields |= {"capture": 1, "spread": 0, "distance": 10}
        self.lines.append(f"sensor {kind} " + " ".join(f"{key}={value}" for key, value in fields.items()))
        self.sensor = bench_expected.Sensor(bench_expected.KINDS[kind])
        self.sensor.setup(fields | {"low": bytes.fromhex(low), "high": bytes.fromhex(high)})
        self.taken = [bytes.fromhex(text) for text in (low, *TAKEN[kind].split(), high)]
        self.refused = [bytes.fromhex(text) for text in REFUSED[kind].split()]

    def answer_to(self, octets):
        try:
            response = self.sensor.request(bytes(octets), 16)
            self.accepted += 1
            return hexadecimal(response)
        except bench_expected.Denied as denied:
            self.denied[denied.number] = self.denied.get(denied.number, 0) + 1
            response = f" {hexadecimal(denied.octets)}" if hasattr(denied, "octets") else ""
            return f"denied {denied.number}{response}"

    def send(self, octets):
        """Sends a frame, and tells whether it is accepted."""
        answer = self.answer_to(octets)
        if answer != self.answer or len(self.frames) == self.LONGEST:
            self.end_line()
        self.frames.append(hexadecimal(octets))
        self.answer = answer
        return not answer.startswith("denied")

    def read(self, index, subindex=0):
        self.send(request_frame(shortest_form(index, subindex), index, subindex, []))

    def write(self, index, subindex, octets):
        """Writes an object, and if that is accepted reads it whole; after a command the result of the teach."""
        accepted = self.send(request_frame(shortest_form(index, subindex), index, subindex, list(octets)))
        if accepted:
            self.read(RESULT if index == COMMAND else index)
        return accepted

    def summary(self):
        return [
            f"requests: {self.accepted + sum(self.denied.values())}",
            f"accepted: {self.accepted}",
            *(f"denied with {number}: {count}" for number, count in sorted(self.denied.items())),
        ]


def every_part(requests):
    """Reads of every part of every object, and of subindices that it does not have."""
    for index in OBJECTS:
        for subindex in SUBINDICES:
            requests.read(index, subindex)


def fitting(requests, index, subindex, turn):
    """Ten octets, of which the first are taken where they are as many as the object or the part has."""
    if index in SETPOINTS:
        first, second = requests.taken[turn % 5], requests.taken[(turn + 1) % 5]
        return ((second if subindex == 2 else first + second) * 5)[:10]
    if index in CONFIGURATIONS:
        whole = [1, turn % 4, turn, 0xFF]
        return ((whole[subindex - 1 :] if subindex in (1, 2, 3) else whole) * 10)[:10]
    return [0x41 if index == COMMAND else 2] * 10


def every_length(requests):
    """Writes of 1 to 10 octets to every part of every object, and to subindices that it does not have."""
    for turn, index in enumerate(OBJECTS):
        for subindex in SUBINDICES:
            octets = fitting(requests, index, subindex, turn)
            for count in range(1, 11):
                requests.write(index, subindex, octets[:count])


def setpoints(requests):
    """Every pair of setpoints, taken and refused, to channel 1, and each of them alone to every channel."""
    values = requests.taken + requests.refused
    for first in values:
        for second in values:
            requests.write(SETPOINTS[0], 0, first + second)
    for index in SETPOINTS:
        for value in values:
            requests.write(index, 1, value)
            requests.write(index, 2, value)


def configurations(requests):
    logics, modes = (0, 1, 2, 0xFF), (0, 1, 2, 3, 4, 0xFF)
    for index in CONFIGURATIONS:
        for logic in logics:
            requests.write(index, 1, [logic])
            for mode in modes:
                requests.write(index, 0, [logic, mode, index & 0xFF, mode])
        for mode in modes:
            requests.write(index, 2, [mode])
        for hysteresis in ([0x00, 0x00], [0x00, 0xFF], [0x12, 0x34], [0xFF, 0xFF]):
            requests.write(index, 3, hysteresis)


def selects(requests):
    for channel in (*range(11), 0xFF):
        requests.write(SELECT, 0, [channel])


def commands(requests):
    """Every command with the teach idle, and after each that is accepted those of the table again."""
    for code in range(0x100):
        if requests.write(COMMAND, 0, [code]):
            for after in range(0x3F, 0x51):
                requests.write(COMMAND, 0, [after])
            requests.write(SELECT, 0, [code % 9])


def written_over(requests, kind, channels):
    """A new sensor is written to all over; a channel is selected and its teach begun. It is read before and after."""
    requests.set_up(kind, channels)
    every_part(requests)
    for part in (selects, commands, setpoints, configurations, every_length):
        part(requests)
    requests.write(SELECT, 0, [3])
    requests.write(COMMAND, 0, [0x45])
    every_part(requests)


def all_requests(frames):
    requests = Requests()
    requests.read(RESULT)
    written_over(requests, "int16", 8)
    for octets in frames:
        requests.send(octets)
    for index in range(0x10000):
        requests.read(index)
    written_over(requests, "int32", 8)
    written_over(requests, "float32", 8)
    written_over(requests, "int16", 3)
    requests.end_line()
    return requests


def main():
    vectors = all_vectors()
    requests = all_requests(vectors.frames)
    if sys.argv[1:] == ["--summary"]:
        lines = [*vectors.summary(), *requests.summary(), "mismatches: 0"]
    else:
        lines = vectors.lines + requests.lines
    sys.stdout.write("\n".join(lines) + "\n")


if __name__ == "__main__":
    main()
