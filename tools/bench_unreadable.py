#!/usr/bin/env python3
"""Gives the program `bench` lines that it cannot read, and compares what it says of each with docs/RULES.md.

usage: tools/bench_unreadable.py PROGRAM

Each line stands in a script behind a sensor, a set-up and a sample, and before another sample. The calls before it must
be made and printed, those after it must not be; standard error must name the line and what was expected there, and the
exit status must be 1. Lines that need a sensor, and lines that are no text, also stand at the head of a script.
`tools/bench_expected.py` must refuse the same line, and print the same up to it. Lines that are close to these and can
be read must be answered as that tool answers them, and a byte order mark at the start must change nothing.
Then `--help` must tell of every word, and an unknown argument must be refused.
"""

import subprocess
import sys

import bench_expected

SETUP = "setup serial=7 channels=1 low=FF9C high=2710 scale=0 capture=1 spread=0 distance=10"
BEFORE = "# a script\nsensor int16\n\n" + SETUP + "\nsample 05DC\n"
PRINTED = "setup: accepted\nsample: 05 DC 00 01\n"

WORDS = ["sensor", "setup", "sample", "request", "open", "write", "close", "restart", "show"]
TEXT = "text in UTF-8"
WORD = "sensor, setup, sample, request, open, write, close, restart or show"
KIND = "sensor int16, int32 or float32"
FIRST = "sensor int16, int32 or float32 as the first line"
FIELDS = "setup serial= channels= low= high= scale= capture= spread= distance="
# the fields, each with its form
FORMS = {
    "serial=7": "serial=N, N from 0 to 4294967295",
    "channels=1": "channels=N, N from 0 to 255",
    "low=FF9C": "low=OCTETS, octets of two hexadecimal digits, or -",
    "high=2710": "high=OCTETS, octets of two hexadecimal digits, or -",
    "scale=0": "scale=N, N from -128 to 127",
    "capture=1": "capture=N, N from 0 to 255",
    "spread=0": "spread=N, N from 0 to 65535",
    "distance=10": "distance=N, N from 0 to 65535",
}
OCTETS = "octets of two hexadecimal digits, or -"
SAMPLE = "sample OCTETS, below, above or nodata, then nothing or: into LENGTH"
REQUEST = "request OCTETS, or -, then nothing or: into LENGTH"
LENGTH = "a buffer length from 0 to 65535"
WRITE = "write SERIAL CHANNEL SETPOINT OCTETS"
CLOSE = "close SERIAL"
SERIAL = "a serial number from 0 to 4294967295"
NUMBER = "a channel and a setpoint from 0 to 255"


def fields():
    """Set-ups with one field that is missing or cannot be read, and the form of that field."""
    for field, form in FORMS.items():
        key, value = field.split("=")
        if key in ("low", "high"):
            wrong = ["", "--", "+" + value, "-" + value, value + "-", value[1:], "0x" + value]
        else:
            low, high = (int(form.split()[k]) for k in (-3, -1))
            wrong = ["", "-", "+", "+" + value, str(low - 1), str(high + 1), "--1", "+-1", "0x1", "1.0", "1_0", "ten"]
            wrong += ["\u0661"] + ["-0"] * (low == 0)
        yield SETUP.replace(" " + field, ""), form
        for text in [key] + [key + "=" + value for value in wrong]:
            yield SETUP.replace(field, text), form


# each a line, as text or as octets, and what was expected in its place
UNREADABLE = [
    (b"open # caf\xe9", TEXT),
    (b"# \x80", TEXT),
    (b"\xff", TEXT),
    (b"sample 05\xc3DC", TEXT),
    (b"request 933BA8 # \xed\xa0\x80", TEXT),
    (b"\xef\xbb", TEXT),
    ("\ufeffopen", WORD),
    ("teach 1", WORD),
    ("Sample 05DC", WORD),
    ("sensor", KIND),
    ("sensor int8", KIND),
    ("sensor int16 int32", KIND),
    ("setup", FIELDS),
    ("setup 12", FIELDS),
    ("setup serial=7", FORMS["channels=1"]),
    (SETUP + " more=1", FIELDS),
    (SETUP + " =1", FIELDS),
    (SETUP + " 12", FIELDS),
    *fields(),
    ("sample", SAMPLE),
    ("sample 05 DC", SAMPLE),
    ("sample 05 -", SAMPLE),
    ("sample 05D", OCTETS),
    ("sample 0G", OCTETS),
    ("sample -05DC", OCTETS),
    ("sample +05D", OCTETS),
    ("sample belows", OCTETS),
    ("sample 05DC into", LENGTH),
    ("sample 05DC into 65536", LENGTH),
    ("sample 05DC into +4", LENGTH),
    ("sample 05DC into 4 4", LENGTH),
    ("sample 05DCinto 4", SAMPLE),
    ("sample 05DC into4", SAMPLE),
    ("request", REQUEST),
    ("request into 4", REQUEST),
    ("request 26 3", OCTETS),
    ("request 2 63C", OCTETS),
    ("request 93-3BA8", OCTETS),
    ("request 93 -3BA8", OCTETS),
    ("request 93 - 3B A8", REQUEST),
    ("request - 93 3B A8", REQUEST),
    ("request 93 3B A8 -", REQUEST),
    ("request - - into 16", REQUEST),
    ("request 263C into -1", LENGTH),
    ("request 263C into +16", LENGTH),
    ("open now", "open alone"),
    ("write 7 1 2", WRITE),
    ("write 7 1 2 03E8 03E8", WRITE),
    ("write -1 1 2 03E8", SERIAL),
    ("write +7 1 2 03E8", SERIAL),
    ("write 7 256 2 03E8", NUMBER),
    ("write 7 +1 2 03E8", NUMBER),
    ("write 7 1 x 03E8", NUMBER),
    ("write 7 1 +2 03E8", NUMBER),
    ("write 7 1 2 03E", OCTETS),
    ("write 7 1 2 -03E8", OCTETS),
    ("close", CLOSE),
    ("close 7 7", CLOSE),
    ("close seven", SERIAL),
    ("close +7", SERIAL),
    ("restart now", "restart alone"),
    ("show 1", "show alone"),
]

# lines that are close to those, and can be read
READABLE = [
    "open # caf\u00e9",
    "sample\u00a005DC",
    "sample -",
    "sample 05dc into 004",
    "request -",
    "request - into 16",
    "request 93 3b A8",
    "request 933BA8 into 16\r",
    SETUP.replace("scale=0", "scale=-128"),
    SETUP.replace("scale=0", "scale=-0"),
    SETUP.replace("serial=7", "serial=0004294967295"),
    SETUP.replace("low=FF9C", "low=-"),
    SETUP.replace("serial=7", "serial=8 serial=7"),
    "write 007 01 2 -",
]

MARK = b"\xef\xbb\xbf"


def run(program, script, *arguments):
    done = subprocess.run([program, *arguments], input=script, capture_output=True)
    return done.returncode, done.stdout.decode(), done.stderr.decode()


def compare(what, seen, wanted):
    if seen != wanted:
        raise SystemExit(f"{what!r}:\nseen     {seen!r}\nexpected {wanted!r}")


def refused(program, script, printed, number, expected):
    """The line of this number is refused, after what is printed."""
    trouble = f"line {number}: expected {expected}\nError: the script was not read to its end\n"
    compare(script, run(program, script), (1, printed, trouble))
    compare(script, bench_expected.run(script), (printed, number))
    told, _ = bench_expected.run(script, changes=True)
    compare(script, run(program, script, "--changes"), (1, told, trouble))


def read(program, script):
    """The script is read to its end."""
    told, number = bench_expected.run(script)
    compare(script, (number, run(program, script)), (None, (0, told, "")))


def main():
    program = sys.argv[1]
    before = BEFORE.encode()
    for line, expected in UNREADABLE:
        line = line if isinstance(line, bytes) else line.encode()
        refused(program, before + line + b"\nsample 05DC\n", PRINTED, 6, expected)
        # the last line, with no end
        refused(program, before + line, PRINTED, 6, expected)
        if expected == TEXT:
            refused(program, line + b"\n" + before, "", 1, TEXT)
            refused(program, MARK + line + b"\n" + before, "", 1, TEXT)
    for word in ("setup", "sample", "open", "show"):
        line = {"setup": SETUP, "sample": "sample 05DC"}.get(word, word)
        refused(program, f"\n{line}\nsensor int16\n".encode(), "", 2, FIRST)
    for line in READABLE:
        read(program, before + line.encode() + b"\nsample 05DC\n")
    for script in (before, before.replace(b"\n", b"\r\n"), before[before.index(b"sensor"):], before[:-1], b""):
        read(program, script)
        compare(MARK + script, run(program, MARK + script), run(program, script))
        compare(MARK + script, bench_expected.run(MARK + script), bench_expected.run(script))
    refused(program, MARK + MARK + before[before.index(b"sensor"):], "", 1, WORD)
    status, told, trouble = run(program, b"", "--help")
    compare("--help", (status, trouble), (0, ""))
    for word in WORDS:
        if f"\n    {word}" not in told:
            raise SystemExit(f"--help does not tell of {word}")
    status, told, trouble = run(program, b"", "--change")
    compare("--change", (status, told, "--changes or --help" in trouble), (1, "", True))


if __name__ == "__main__":
    main()
