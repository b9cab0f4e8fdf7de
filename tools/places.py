#!/usr/bin/env python3
"""Lists the places of src/ that the design pass looks at, point by point.

    tools/places.py              the counts
    tools/places.py POINT        the places of one point, 1 to 8
    tools/places.py --rev REV    the same of another commit

A row is a place to read, not a verdict: docs/DESIGN-PASS.md says what became of each.
"""
import collections, re, subprocess, sys


def files(rev, pattern):
    names = subprocess.run(["git", "ls-tree", "-r", "--name-only", rev], capture_output=True, text=True, check=True)
    for name in names.stdout.split("\n"):
        if re.fullmatch(pattern, name):
            text = subprocess.run(["git", "show", f"{rev}:{name}"], capture_output=True, text=True, check=True)
            yield name, text.stdout.split("\n")


def block(lines, at):
    """The lines of the block that begins at a line, by its indentation."""
    indent = len(lines[at]) - len(lines[at].lstrip())
    out = []
    for line in lines[at + 1:]:
        if line.strip() and len(line) - len(line.lstrip()) <= indent:
            break
        out.append(line)
    return out


def functions(lines):
    """Each function: its line, name, head (with clauses) and body."""
    for at, line in enumerate(lines):
        m = re.match(r" *(?:pub(?:\(crate\))? )?(?:final )?fn (\w+)", line)
        if not m:
            continue
        indent = len(line) - len(line.lstrip())
        end, brace = at, None
        while end < len(lines):
            text = lines[end]
            if end > at and text.strip() and len(text) - len(text.lstrip()) <= indent and not text.strip().startswith((")", "where", "{")):
                break
            if brace is None and (text.strip() == "{" or (text.rstrip().endswith("{") and "ensures" not in text and "requires" not in text)):
                brace = end
            end += 1
            if brace is not None and end < len(lines) and lines[end].rstrip() == " " * indent + "}":
                break
            if text.rstrip().endswith(";") and brace is None:
                break
        head = lines[at:(brace if brace is not None else end)]
        body = lines[brace + 1:end] if brace is not None else []
        yield at, m.group(1), head, body


def point_1(src):
    for name, lines in src:
        for at, line in enumerate(lines):
            if re.match(r" *(pub(\(crate\))? )?enum ", line):
                cases = [x.strip() for x in block(lines, at) if re.match(r"^[A-Z]", x.strip())]
                plain = [x for x in cases if "(" not in x]
                if len(cases) == 2 and len(plain) == 1 or any(x.startswith(("Refused", "Unlawful", "SchemaRefused")) for x in cases):
                    yield name, at, "enum like Option or Result: " + line.strip()
            if re.match(r" +(pub(\(crate\))? )?\w+: bool,", line):
                yield name, at, "flag beside a value: " + line.strip()
            if re.search(r"-> \(.*bool\)", line):
                yield name, at, "flag beside a value: " + line.strip()
            if re.search(r"\bmatch .*\{$", line) and any(re.match(r" +\d+ (if .*)?=>", x) for x in block(lines, at)):
                if not re.search(r"below\(|byte\(| % |\.len\(\)", line):
                    yield name, at, "number for a kind: " + line.strip()
        for at, fn, head, body in functions(lines):
            text = "\n".join(head)
            above = "\n".join(lines[max(0, at - 4):at])
            if "-> bool" in text and re.search(r"nswers (false|whether they were)|Does nothing if|No call is made", above):
                yield name, at, "bool for a refusal: fn " + fn


def point_2(src):
    seen = collections.defaultdict(list)
    for name, lines in src:
        for at, fn, head, body in functions(lines):
            code = [x.split("//")[0].strip() for x in body]
            code = [x for x in code if x]
            if len(code) < 3:
                continue
            shape = re.sub(r"\b[A-Z]\w*\b", "T", " ".join(code))
            shape = re.sub(r"\b\d+\w*\b", "N", shape)
            shape = re.sub(r"\"[^\"]*\"", "S", shape)
            words = {}
            shape = re.sub(r"\b[a-z_]\w*\b", lambda m: words.setdefault(m.group(0), f"x{len(words)}"), shape)
            seen[shape].append((name, at, fn))
    for places in seen.values():
        if len(places) > 1:
            for name, at, fn in places:
                others = ", ".join(f"{n.split('/')[1]}/{f}" for n, a, f in places if (n, a) != (name, at))
                yield name, at, f"fn {fn} like {others}"


def point_3(src):
    for name, lines in src:
        for at, line in enumerate(lines):
            m = re.match(r" *for (\w+) in .*\.\.", line)
            if m and m.group(1) != "_" and not re.search(r"\.iter|\.skip|\.enumerate|\.chars|&\w+\[", line):
                i = m.group(1)
                body = " ".join(block(lines, at))
                if re.search(r"\[[^\]]*\b" + i + r"\b", body) or re.search(r"\.get\(\W*(usize::from\()?" + i + r"\b", body):
                    yield name, at, "index loop: " + line.strip()
            if re.match(r" *(while (?!let)|loop \{)", line):
                yield name, at, "loop counted by hand: " + line.strip()


def point_4(src):
    by_hand = r" *impl(<.*>)? (fmt::Display|fmt::Debug|PartialEq|Eq|Ord|PartialOrd|Clone|Copy|Default|From<.*>|TryFrom<.*>|Hash) for"
    for name, lines in src:
        for at, line in enumerate(lines):
            if re.match(by_hand, line):
                yield name, at, "by hand: " + line.strip()
            if re.search(r" as (usize|u16|u32|u64|i32)\b", line) and not re.search(r"ghost|use ", line):
                yield name, at, "cast: " + line.strip()
            if re.search(r"\* 256\b|% 256\) as u8|/ 256\) as u8", line):
                yield name, at, "bytes of a number by hand: " + line.strip()


def point_5(src):
    facts, params = collections.defaultdict(list), collections.defaultdict(set)
    for name, lines in src:
        crate = name.split("/")[1]
        for at, fn, head, body in functions(lines):
            text = " ".join(x.strip() for x in head)
            for clause in re.findall(r"(?:requires|ensures)(?: \w+)? \{ (.*?) \}(?= (?:requires|ensures)|$)", text):
                fact = re.sub(r"\.(now|old|new|entry)\b", "", clause)
                facts[crate, fact].append((name, at, fn))
            m = re.search(r"fn \w+(?:<.*?>)?\((.*?)\)(?: ->|$| where| requires| ensures)", text)
            names = frozenset(re.findall(r"(\w+): ", m.group(1))) if m else frozenset()
            if len(names) >= 3:
                params[crate].add((name, at, fn, names))
    for (crate, fact), places in facts.items():
        if len({p[:2] for p in places}) >= 3:
            yield places[0][0], places[0][1], f"fact in {len(places)} contracts: {fact[:110]}"
    for crate, fns in params.items():
        shared = {a[3] & b[3] for a in fns for b in fns if a != b}
        shared = {x for x in shared if len(x) >= 3 and sum(x <= f[3] for f in fns) >= 3}
        for names in shared:
            if not any(names < other for other in shared):
                places = sorted(f for f in fns if names <= f[3])
                yield places[0][0], places[0][1], f"parameters of {len(places)} functions: {', '.join(sorted(names))}"


def point_6(src):
    for name, lines in src:
        for at, line in enumerate(lines):
            if not re.match(r" *(pub(\(crate\))? )?struct \w+.*\{", line):
                continue
            fields = [x.strip() for x in block(lines, at) if re.match(r" +(pub(\(crate\))? )?\w+: ", x) and "ghost" not in x]
            arrays = [x for x in fields if re.search(r": (&.*)?\[|: Vec<", x)]
            counts = [x for x in fields if re.search(r": (usize|u8|u16),", x)]
            sizes = collections.Counter(re.search(r"; (\w+)\]", x).group(1) for x in arrays if re.search(r"; (\w+)\]", x))
            if arrays and counts:
                yield name, at, "buffer with a number beside it: " + line.strip()
            if any(n > 1 for n in sizes.values()):
                yield name, at, "arrays of one length: " + line.strip()
            if re.search(r"\(\[\w+; \d+\], usize\)", " ".join(fields)):
                yield name, at, "buffer with a length: " + line.strip()
        for at, line in enumerate(lines):
            if re.search(r"\(\[\w+; \d+\], usize\)", line):
                yield name, at, "buffer with a length: " + line.strip()


def point_7(src):
    for name, lines in src:
        for at, line in enumerate(lines):
            if re.search(r"\bfn\(|\[fn|dyn |: u8, // (step|which)", line) and "ghost" not in line:
                yield name, at, line.strip()


def point_8(rev):
    crates = collections.Counter()
    for name, lines in files(rev, r"crates/.*/proofs/.*\.antt"):
        crates[name.split("/")[1]] += len([x for x in lines if x.strip()])
    for crate, count in sorted(crates.items()):
        yield f"crates/{crate}/proofs", 0, f"{count} lines"


def main():
    args = sys.argv[1:]
    rev = "HEAD"
    if "--rev" in args:
        at = args.index("--rev")
        rev = args[at + 1]
        del args[at:at + 2]
    src = list(files(rev, r"crates/.*/src/.*\.rt"))
    points = [point_1, point_2, point_3, point_4, point_5, point_6, point_7]
    for number, point in enumerate(points, 1):
        places = sorted(set(point(src)))
        if not args:
            crates = collections.Counter(p[0].split("/")[1] for p in places)
            print(f"{number}: {len(places)} ({', '.join(f'{c} {n}' for c, n in sorted(crates.items()))})")
        elif args[0] == str(number):
            for name, at, what in places:
                print(f"{name}:{at + 1}: {what}")
    places = list(point_8(rev))
    if not args:
        print(f"8: {sum(int(p[2].split()[0]) for p in places)} lines of proofs")
    elif args[0] == "8":
        for name, _, what in places:
            print(f"{name}: {what}")


if __name__ == "__main__":
    main()
