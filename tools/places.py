"""The places in src/ that a design of an older language leaves, by point of docs/DESIGN-PASS.md.

`python3 tools/places.py` at the top prints how many each pattern finds, and with `-v` where. A pattern finds more than
is amiss: which of its lines is a place, and why one stays, is said in docs/DESIGN-PASS.md and beside the line.
"""
import glob
import re
import sys

PATTERNS = {
    "1 an answer's arms written out": r"None => (return )?(Err|None|false)|Err\(\(?(fault|error|refusal)\b[^)]*\)\)? => (return )?Err\(|Err\(_\) => Err\(|Err\(refusal\) => \{|Some\(\w+\) => (Ok|Some)\(",
    "1 a number or a sentinel for none": r"-> u8\b|: u8,|\.number\(\) ==|^\s+\w+\.len\(\)$|(<|>|>=|==) (pages|rest)\.len\(\)|place < open|\[0; (DRUMS|SLIPS)\]|_ => 0,",
    "1 want of memory written out": r"is_err\(\) \{",
    "2 runs of five lines that stand twice": None,
    "2 one name for several constants": None,
    "3 an index or a count by hand": r"for \w+ in [^{]*\.\.|\.enumerate\(\)|\w+ \+= 1\b|times = times|count = count|\[i( - 1)?\]",
    "4 a range by two comparisons": r"[\w.*]+ <= [\w.*]+ && [\w.*]+ <=? ?\w|< \w[\w']* \|\| \*?[\w.()]+ > ",
    "4 printing by hand": r"=> println!|fn (verdict|expectation|print_verdict|print_refusal|print_end|print_not_yet)\b|\.number\(\);|\.entry\(\);",
    "4 comparing and converting by hand": r"fn (same|numbers|worse|is_on_limit|lower|is_yes|to_natural|within|planned|word)\b|<0 |name as u32|n as u32;",
    "5 a clause of three functions or more": None,
    "6 a buffer or a list handled by its index": r"\[\w+; (SLIPS|DRUMS|N)\]|sheet\[i|found\[|pages\[i|drums\[|slips\[|text\[0\]|&text\[1",
    "7 a switch on which step to run": r"match (self|call|plan) \{|match chance\.below\(\d+\) \{",
}


def sources():
    for path in sorted(glob.glob("crates/*/src/**/*.rt", recursive=True)):
        with open(path, encoding="utf-8") as f:
            yield path, f.read().split("\n")


# What stands at two places or more, once, with the number of its places.
def repeated(items, least):
    seen = {}
    for path, number, text in items:
        seen.setdefault(text, []).append((path, number))
    return [(*at[0], f"{len(at)} times: {text}") for text, at in sorted(seen.items()) if len(at) >= least]


# Every run of lines that stands twice, told once and as far as it goes.
def runs(length):
    texts = []
    for path, lines in sources():
        kept = [(n, line.strip()) for n, line in enumerate(lines, 1)]
        texts.append((path, [(n, t) for n, t in kept if len(t) > 3 and not re.match(r"(ghost )?use |//|#\[|type |\}", t)]))
    seen = {}
    for path, lines in texts:
        for i in range(len(lines) - length + 1):
            seen.setdefault("\n".join(t for _, t in lines[i : i + length]), []).append((path, i))
    for path, lines in texts:
        last = -length
        for i in range(len(lines) - length + 1):
            at = seen["\n".join(t for _, t in lines[i : i + length])]
            if at[0] != (path, i):
                if last != i - 1:
                    yield path, lines[i][0], f"as {at[0][0]}: {lines[i][1]}"
                last = i


def constants():
    for path, lines in sources():
        for number, line in enumerate(lines, 1):
            found = re.match(r"\s*(?:pub(?:\(crate\))? )?const (\w+)", line)
            if found:
                yield path, number, found.group(1)


def clauses():
    for path, lines in sources():
        for number, line in enumerate(lines, 1):
            found = re.match(r"\s+(requires|ensures) (?:\w+ )?(\{.*)", line)
            if found:
                yield path, number, found.group(1) + " " + found.group(2)


def places(name):
    if "runs of five" in name:
        return list(runs(5))
    if "one name" in name:
        return repeated(constants(), 2)
    if "a clause of" in name:
        return repeated(clauses(), 3)
    return [(path, number, line.strip()) for path, lines in sources() for number, line in enumerate(lines, 1) if re.search(PATTERNS[name], line)]


for name in PATTERNS:
    found = places(name)
    print(f"{len(found):4}  {name}")
    if "-v" in sys.argv:
        for path, number, text in found:
            print(f"        {path}:{number}: {text[:150]}")
