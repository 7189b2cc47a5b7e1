#!/usr/bin/env python3
"""Measures the proved core beside the same rules by hand in C and in Rust, and prints the tables of docs/PERFORMANCE.md.

usage: perf/run.py [FOLDER]     FOLDER keeps what is built; without it a new one is made and removed again

It needs rt, gcc, rustc and valgrind. A call is a row of 64 octets: what is called, the number of its octets, the length of
the buffer that it lends, the octets (perf/core/lib.rt.txt).
"""
import random
import re
import shutil
import struct
import subprocess
import sys
import tempfile
from concurrent.futures import ThreadPoolExecutor
from pathlib import Path

TOP = Path(__file__).resolve().parent.parent
PERF = TOP / "perf"
CRATES = ["octets", "numbers", "faults", "isdu", "kinds", "channels", "teach", "keypad", "objects", "sensor"]
EXPORTS = "perf_{} staticlib: octets faults kinds channels teach sensor"
CPU = "x86-64-v2"  # what rt builds for
KINDS = ["IntegerT16", "IntegerT32", "Float32T"]
MODULES = ["integer_t16", "integer_t32", "float32_t"]
MAKERS = ["core", "c", "rust"]
RUN, ROUNDS = 20_000, 40  # calls of a run that is timed, and how many runs
SETUP, SAMPLE, BELOW, ABOVE, NO_DATA, REQUEST = range(1, 7)


def told(command, **more):
    done = subprocess.run([str(word) for word in command], stdout=subprocess.PIPE, stderr=subprocess.PIPE, **more)
    if done.returncode != 0:
        sys.exit(f"{' '.join(map(str, command))}: status {done.returncode}\n{done.stdout.decode()}{done.stderr.decode()}")
    return done


# For each kind the three are built into one program.


def copy_crates(work):
    for name in CRATES:
        target = work / "crates" / name
        for part in ("src", "specs", "proofs"):
            shutil.rmtree(target / part, ignore_errors=True)
            if (TOP / "crates" / name / part).is_dir():
                shutil.copytree(TOP / "crates" / name / part, target / part)
    lines = (TOP / "crates.txt").read_text().splitlines()
    kept = [line for line in lines if line.split(":")[0] in CRATES]
    (work / "crates.txt").write_text("\n".join(kept + [EXPORTS.format(module) for module in MODULES]) + "\n")
    text = (PERF / "core" / "lib.rt.txt").read_text()
    for kind, module in zip(KINDS, MODULES):
        source = work / "crates" / f"perf_{module}" / "src"
        source.mkdir(parents=True, exist_ok=True)
        (source / "lib.rt").write_text(text.replace("IntegerT16 as Measured", f"{kind} as Measured"))


def build_core(work, kind):
    """The archive of the exporting crate of one kind."""
    name = f"perf_{MODULES[kind]}"
    told(["rt", "lib"], cwd=work / "crates" / name)
    return work / "crates" / name / "out" / f"lib{name}.a"


def build(work, kind):
    core = build_core(work, kind)
    by_hand, rust, main, bench = (work / name for name in (f"hand{kind}.o", f"libhand{kind}.a", "main.o", f"bench{kind}"))
    gcc = ["gcc", "-std=gnu11", "-O3", f"-march={CPU}", "-ffp-contract=off", "-Wall", "-Wextra", "-c"]
    told(gcc + [f"-DKIND={kind}", PERF / "hand.c", "-o", by_hand])
    told(gcc + [PERF / "main.c", "-o", main])
    told(["rustc", "--edition=2024", "-Copt-level=3", "-Ccodegen-units=1", "-Cpanic=abort", f"-Ctarget-cpu={CPU}",
          "--cfg", f'kind="{kind}"', PERF / "hand.rs", "-o", rust])
    told(["gcc", main, by_hand, core, rust, "-lpthread", "-ldl", "-lm", "-o", bench])
    return bench


# Rows of calls.


def row(what, octets=b"", room=16):
    return (bytes([what, len(octets), room]) + octets).ljust(64, b"\0")


def value(kind, number):
    return struct.pack((">h", ">i", ">f")[kind], number)


def setup(kind, channels, capture=1, spread=20, distance=10):
    low = value(kind, -100)
    fixed = struct.pack(">IBbBHHB", 7, channels, -1, capture, spread, distance, len(low))
    return row(SETUP, fixed + low + value(kind, 10_000))


def framed(service, body):
    """A frame with its check octet, its length in the first octet or in the second."""
    total = len(body) + 2
    head = bytes([service << 4 | total]) if total <= 15 else bytes([service << 4 | 1, total + 1])
    check = 0
    for octet in head + body:
        check ^= octet
    return head + body + bytes([check])


def address(index, subindex):
    if index > 255:
        return 2, struct.pack(">HB", index, subindex)
    return (1, bytes([index, subindex])) if subindex else (0, bytes([index]))


def write(index, subindex, data):
    form, place = address(index, subindex)
    return row(REQUEST, framed(0x1 + form, place + data))


def read(index, subindex=0):
    form, place = address(index, subindex)
    return row(REQUEST, framed(0x9 + form, place))


def command(code):
    return write(2, 0, bytes([code]))


def setpoints_index(channel):
    return 58 + 2 * channel if channel <= 2 else 0x4000 + 2 * (channel - 3)


def sensor(kind, channels, mode, **more):
    """A sensor that is set up, each channel with SP1 2000, SP2 1000, the mode, and a hysteresis of 5."""
    rows = setup(kind, channels, **more)
    for channel in range(1, channels + 1):
        index = setpoints_index(channel)
        rows += write(index, 0, value(kind, 2000) + value(kind, 1000)) + write(index + 1, 0, bytes([0, mode, 0, 5]))
    return rows


def cases(kind):
    """Each with its name, the rows made once, and those that are measured, with the number that they count as."""
    samples = [row(SAMPLE, value(kind, n)) for n in (999, 1000, 994, 2000, 2005, 2006, 1500, 500)]
    for channels in (1, 8):
        for mode, name in enumerate(("Deactivated", "Single Point", "Window", "Two Point")):
            yield f"sample, {channels} channel{'s' * (channels > 1)}, {name}", sensor(kind, channels, mode), b"".join(samples), 8
    eight = sensor(kind, 8, 1)
    bad_check = bytearray(write(60, 1, value(kind, 1500)))
    bad_check[2 + bad_check[1]] ^= 1
    yield "write of a setpoint", eight, write(60, 1, value(kind, 1500)) + write(60, 1, value(kind, 1600)), 2
    yield "read of both setpoints", eight, read(60), 1
    yield "frame refused: check octet", eight, bytes(bad_check), 1
    yield "write refused: above the range", eight, write(60, 1, value(kind, 10_001)), 1
    taught = b"".join(row(SAMPLE, value(kind, n)) for n in (1500, 1504, 1498, 1502))
    yield "teach of one value", sensor(kind, 1, 1, capture=4), command(0x41) + taught, 1
    higher = b"".join(row(SAMPLE, value(kind, n)) for n in (1700, 1704, 1698, 1702))
    two = command(0x43) + taught + command(0x44) + higher + command(0x40)
    yield "teach of two values", sensor(kind, 1, 1, capture=4), two, 1


# Calls that all three must answer alike, octet for octet.


def octets_of(word):
    return b"" if word == "-" else bytes.fromhex(word)


def session_row(words):
    """The row of a line of a session script, if it is a call that fits into a row."""
    room = 16
    if "into" in words:
        room = int(words[-1])
        words = words[: words.index("into")]
    if words[0] == "setup":
        field = dict(word.split("=") for word in words[1:])
        low, high = octets_of(field["low"]), octets_of(field["high"])
        numbers = (int(field[name]) for name in ("serial", "channels", "scale", "capture", "spread", "distance"))
        return row(SETUP, struct.pack(">IBbBHHB", *numbers, len(low)) + low + high)
    if words[0] == "sample":
        what = {"below": BELOW, "above": ABOVE, "nodata": NO_DATA}.get(words[1])
        made = row(what, room=min(room, 64)) if what else row(SAMPLE, octets_of(words[1]), min(room, 64))
    elif words[0] == "request":
        frame = octets_of("".join(words[1:]))
        made = row(REQUEST, frame, min(room, 64)) if len(frame) <= 61 else b""
    else:
        return b""
    return made if len(made) == 64 else b""


def sessions():
    """The scripts of sessions/, as pairs of a kind and rows."""
    for script in sorted((TOP / "sessions").glob("*.session")):
        kind, rows = 0, b""
        for line in script.read_text().splitlines():
            words = line.split("#")[0].split()
            if words and words[0] == "sensor":
                if rows:
                    yield kind, rows
                kind, rows = ["int16", "int32", "float32"].index(words[1]), b""
            elif words:
                rows += session_row(words)
        yield kind, rows


def any_octets(random, kind):
    """Octets of a value, mostly within the range, or of none."""
    if random.random() < 0.1:
        return random.randbytes(random.choice([0, 1, 2, 3, 4, 4, 5]))
    if random.random() < 0.1:
        return random.choice([b"\x7f\xf8\0\0", b"\x80\0\0\0", b"\xff\x80\0\0", b"\x7f\xff\xff\xff"])[: (2, 4, 4)[kind]]
    return value(kind, random.choice([random.randint(-200, 10_200), random.randint(990, 1010), -100, 10_000]))


def any_request(random, kind):
    index = random.choice([2, 2, 2, 58, 59, 59, 60, 61, 62, 63, 0x4000, 0x4001, 0x4009, 0x400A, 0x400B, 99, 0x400C])
    subindex = random.choice([0, 0, 0, 1, 1, 2, 3, 4])
    if index in (2, 58, 59):
        subindex = random.choice([0] * 9 + [1])
    if random.random() < 0.4:
        return read(index, subindex)
    data = {2: bytes([random.choice([*range(0x40, 0x4B), 0x4F, 0x4B, 0x10])]), 58: bytes([random.randint(0, 9)])}.get(index)
    if data is None and index % 2 == 0:
        data = any_octets(random, kind) + (any_octets(random, kind) if subindex == 0 else b"")
    elif data is None:
        data = bytes([random.choice([0, 1, 1, 2]), random.choice([0, 1, 2, 3, 4]), 0, random.randint(0, 60)])
        data = [data, data[:1], data[1:2], data[2:], data][subindex]
    data = data or b"\0"
    if random.random() < 0.05:
        data += random.randbytes(random.choice([1, 2, 20]))
    made = bytearray(write(index, subindex, data))
    if random.random() < 0.05:
        made[random.randrange(3, 3 + made[1])] ^= 1 << random.randrange(8)
    return bytes(made)


def any_calls(random, kind, count):
    """Calls of every sort; most are accepted."""
    rows = b""
    for _ in range(count):
        sort = random.random()
        if sort < 0.01:
            rows += setup(kind, random.choice([*range(1, 9), 0, 9, 8]), random.choice([0, 1, 1, 2, 3, 65]), random.randint(0, 40), random.randint(0, 40))
        elif sort < 0.45:
            rows += row(SAMPLE, any_octets(random, kind), random.choice([16] * 20 + [3, 4, 5, 6]))
        elif sort < 0.5:
            rows += row(random.choice([BELOW, ABOVE, NO_DATA]))
        else:
            made = bytearray(any_request(random, kind))
            made[2] = random.choice([16] * 30 + [64, 15, 0])
            rows += bytes(made)
    return rows


def compare(benches, work):
    """Makes the same calls on all three, and stops at the first that differs."""
    seeded = random.Random(1)
    runs = list(sessions()) + [(kind, any_calls(seeded, kind, 30_000)) for kind in range(3)]
    calls = accepted = 0
    for kind, rows in runs:
        (work / "rows").write_bytes(rows)
        logs = [told([benches[kind], maker, "trace", work / "rows"]).stdout for maker in MAKERS]
        for at in range(0, len(logs[0]), 68):
            seen = [log[at : at + 68] for log in logs]
            if seen[0] != seen[1] or seen[0] != seen[2]:
                call = rows[at // 68 * 64 :][:64]
                shown = "\n".join(f"{maker}: {log.hex(' ')}" for maker, log in zip(MAKERS, seen))
                sys.exit(f"{KINDS[kind]}: call {at // 68} differs: {call.hex(' ')}\n{shown}")
            calls += 1
            accepted += seen[0][0] == 0
    print(f"{calls} calls, {accepted} of them accepted: all three gave the same replies and buffers.\n", flush=True)


# Counts and times.


class Case:
    """One case of one kind, with the files of its rows."""

    def __init__(self, bench, work, kind, number, name, first, rows, count):
        self.bench, self.kind, self.name, self.count = bench, KINDS[kind], name, count
        self.calls = len(rows) // 64
        self.first, self.rows, self.empty = (work / f"{part}{kind}-{number}" for part in ("first", "rows", "empty"))
        self.first.write_bytes(first)
        self.rows.write_bytes(rows)
        self.empty.write_bytes(bytes(octet if at % 64 else 0 for at, octet in enumerate(rows)))

    def collected(self, maker, times):
        """The instructions of all calls, and the sum of what they gave."""
        done = told(["valgrind", "--tool=callgrind", "--callgrind-out-file=/dev/null", "--toggle-collect=*timed_*",
                     self.bench, maker, "run", self.first, self.rows, times])
        return int(re.search(rb"Collected : (\d+)", done.stderr).group(1)), done.stdout.split()[0]

    def instructions(self):
        counts, sums = {}, set()
        for maker in MAKERS:
            few, _ = self.collected(maker, 10)
            many, total = self.collected(maker, 110)
            counts[maker] = (many - few) / 100 / self.count
            sums.add(total)
        if len(sums) != 1:
            sys.exit(f"{self.kind}, {self.name}: the sums differ: {sums}")
        return counts

    def time(self, best):
        """Runs each of the three, and the same rows without their calls, and keeps the least time of each."""
        for maker in MAKERS:
            for rows in (self.rows, self.empty):
                took = float(told([self.bench, maker, "run", self.first, rows, RUN // self.calls]).stdout.split()[1])
                best[maker, rows] = min(best.get((maker, rows), took), took)

    def nanoseconds(self, best):
        return {maker: (best[maker, self.rows] - best[maker, self.empty]) / (RUN // self.calls) / self.count for maker in MAKERS}


def times(cases):
    """The nanoseconds of each case. Its runs are spread over those of all cases, as a machine is slower at times."""
    best = [{} for _ in cases]
    for _ in range(ROUNDS):
        for case, least in zip(cases, best):
            case.time(least)
    return [case.nanoseconds(least) for case, least in zip(cases, best)]


def table(benches, work):
    by_kind = [[Case(benches[kind], work, kind, number, *case) for number, case in enumerate(cases(kind))] for kind in range(3)]
    all_cases = [case for alike in zip(*by_kind) for case in alike]
    with ThreadPoolExecutor(6) as pool:
        counts = list(pool.map(Case.instructions, all_cases))
    print("| case | kind | core | C | Rust | core / C | core / Rust | ns core | ns C | ns Rust |")
    print("|---|---|--:|--:|--:|--:|--:|--:|--:|--:|")
    for case, n, ns in zip(all_cases, counts, times(all_cases)):
        print(f"| {case.name} | {case.kind} | {n['core']:.0f} | {n['c']:.0f} | {n['rust']:.0f} | {n['core'] / n['c']:.2f} "
              f"| {n['core'] / n['rust']:.2f} | {ns['core']:.1f} | {ns['c']:.1f} | {ns['rust']:.1f} |", flush=True)
    print(f"\nHighest ratio of instructions, core to C: {max(n['core'] / n['c'] for n in counts):.2f}\n")


def sizes(benches):
    print("| size of a sensor in octets | core | C | Rust |")
    print("|---|--:|--:|--:|")
    for kind, bench in zip(KINDS, benches):
        print(f"| {kind} | " + " | ".join(told([bench, maker, "size"]).stdout.decode().strip() for maker in MAKERS) + " |")


def main():
    work = Path(sys.argv[1] if len(sys.argv) > 1 else tempfile.mkdtemp(prefix="perf-")).resolve()
    work.mkdir(parents=True, exist_ok=True)
    try:
        copy_crates(work)
        benches = [build(work, kind) for kind in range(3)]
        compare(benches, work)
        table(benches, work)
        sizes(benches)
    finally:
        if len(sys.argv) == 1:
            shutil.rmtree(work)


if __name__ == "__main__":
    main()
