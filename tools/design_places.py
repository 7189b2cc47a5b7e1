"""Lists the places in crates/*/src that a pass over the design looks at, and counts them.

    python3 tools/design_places.py [COMMIT]

Without a commit it reads the working tree. Each line is a place to look at, not a verdict: docs/DESIGN-PASS.md says of
each what was done.
"""
import re
import subprocess
import sys

# What each point looks for, one line of the source at a time.
LINES = {
    1: [
        ("own enum", r"^\s*(pub(\([a-z]+\))? )?enum \w+"),
        ("number in place of a kind or a refusal", r"^\s*(pub )?(mode|logic|code|number|kind|digit|setpoint)\??: u(8|16|32)\b"),
        ("number in a case or an answer", r"\b(Denied|ComposeDenied)\(u\d+\)|-> u8\b"),
        ("field that is a flag", r"^\s*(pub(\([a-z]+\))? )?\w+: bool,$"),
        ("case that stands for none", r"^\s*_ => 0,$|else \{ 0 \}"),
        ("`let .. else` that answers an Err or None", r"^\s*let (Some|Ok|\[|\().* else \{$"),
        ("match that rewraps", r"^\s*(Some\(\w+\)|Ok\(\w+\)) => (Some|Ok)\(|^\s*(None|Err\(_\w*\)|Err\(\w+\)) => (None|Err)\b"),
    ],
    3: [
        ("loop over a range of indices", r"\bfor \w+ in \d+\.\."),
        ("loop", r"^\s*(loop|while)\b"),
        ("loop over a slice that finds or folds", r"^\s*for \S+ in [^.]+(\.iter\(\))? \{$"),
        ("count kept by hand", r"^\s*\w+ = \w+\.saturating_add\(1\);$|^\s*\w+ \+= 1;$"),
    ],
    4: [
        ("equality or order by hand", r"\bfn (is|same_\w+|eq|at_most|is_under)\("),
        ("conversion by hand", r"\bfn (\w+_of|digit_of|number\w*|octets?|kind|find|known_command|name_setpoint|place|word|single|from_two|from_four|none|new|idle|blank)\b[(<]"),
        ("conversion by arithmetic or a cast", r"\bas (u8|u16|u32|usize|i16|i32)\b|/ 256|% 256|256 \* "),
        ("impl of a trait that could be derived or is a conversion", r"^impl.*\b(From|TryFrom|FromStr|Default|Display|PartialEq|PartialOrd|Debug)\b.* for "),
        ("own printing", r"\bfn fmt<"),
    ],
    5: [
        ("the ends of the range side by side", r"low: K, high: K|low: K,$|self\.low, self\.high"),
        ("room of the response buffer", r"16 ≤ length"),
        ("eight rows", r"length \S+rows ≡ 8"),
        ("device after a write", r"ensures device \{ self\.new ≡ device_or"),
        ("runtime, sensor and tally side by side", r"^\s*tally: &mut Tally"),
    ],
    6: [
        ("fixed array", r"\[\w+; \d+\]|\[\w+<\w+>; \d+\]"),
        ("length beside a buffer", r"^\s*(pub )?count: u8,$|unwrap_or\(0\)\.min\("),
        ("place in a buffer", r"\bat: usize\b"),
    ],
    7: [
        ("call chosen by a match", r"^\s*[\w:]+(\([^)]*\))? => (self\.)?\w+\((rt|self|heap|sensor|text|&mut|request|place|octets|rest)"),
        ("function pointer, closure or dyn", r"\bfn\(|\bdyn\b|: F\b|\bimpl Fn"),
    ],
}


def sources(commit):
    if commit:
        names = subprocess.run(["git", "ls-tree", "-r", "--name-only", commit, "crates"], capture_output=True, text=True, check=True)
    else:
        names = subprocess.run(["git", "ls-files", "crates"], capture_output=True, text=True, check=True)
    for name in sorted(names.stdout.split("\n")):
        if re.fullmatch(r"crates/\w+/src/.*\.rt", name):
            if commit:
                text = subprocess.run(["git", "show", f"{commit}:{name}"], capture_output=True, text=True, check=True).stdout
            else:
                try:
                    text = open(name).read()
                except FileNotFoundError:
                    continue
            yield name[len("crates/"):], text


def code(text):
    """The lines of a source, comments and tests left blank."""
    lines = text.split("\n")
    for i, line in enumerate(lines):
        if line.startswith("#[cfg(test)]"):
            lines = lines[:i]
            break
    return ["" if re.match(r"\s*//", line) else line for line in lines]


def functions(name, lines):
    """Each function's place, name and body, the body with its names, types and numbers left out."""
    i = 0
    while i < len(lines):
        m = re.match(r"(\s*)(pub(\([a-z]+\))? )?(const )?fn (\w+)", lines[i])
        if m and not lines[i].rstrip().endswith(";"):
            j = i
            while j < len(lines) and lines[j] != m.group(1) + "}" and not re.search(r"\{\}$|\{ .* \}$", lines[j] if j == i else ""):
                j += 1
            body = "\n".join(line for line in lines[i:j + 1] if not re.search(r"\b(ensures|requires)\b", line))
            shape = re.sub(r"\b(0x[0-9A-Fa-f]+|\d+)\b", "0", body)
            shape = re.sub(r"\b(?!fn|pub|let|match|if|else|return|for|in|mut|self|Some|None|Ok|Err|Self|as)[A-Za-z_]\w*", "n", shape)
            yield i + 1, m.group(5), shape, j - i + 1
            i = j
        i += 1


def main():
    commit = sys.argv[1] if len(sys.argv) > 1 else None
    files = [(name, code(text)) for name, text in sources(commit)]
    for point, kinds in sorted(LINES.items()):
        total = 0
        print(f"point {point}")
        for what, pattern in kinds:
            found = [(name, i + 1, line) for name, lines in files for i, line in enumerate(lines) if re.search(pattern, line)]
            total += len(found)
            print(f"  {what}: {len(found)}")
            for name, i, line in found:
                print(f"    {name}:{i}: {line.strip()[:110]}")
        print(f"  point {point}: {total} places to look at")
    print("point 2")
    shapes = {}
    for name, lines in files:
        for i, fn, shape, size in functions(name, lines):
            if size >= 4:
                shapes.setdefault(shape, []).append(f"{name}:{i} {fn}")
    groups = [places for places in shapes.values() if len(places) > 1]
    for places in groups:
        print("    " + ", ".join(places))
    print(f"  point 2: {len(groups)} groups of functions of one shape, {sum(map(len, groups))} functions")


main()
