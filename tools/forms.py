#!/usr/bin/env python3
"""Counts the places in crates/*/src that read like the older language: docs/DESIGN-PASS.md has the points.

python3 tools/forms.py [--list] [COMMIT]   of the files as they stand, or of a commit; --list prints each place
"""
import collections
import difflib
import itertools
import re
import subprocess
import sys

# an enum of one to three variants, of which one has no value, or of two of which one is a refusal
UNIT = re.compile(r"^[A-Z]\w*$")


def files(commit):
    if commit:
        names = subprocess.run(["git", "ls-tree", "-r", "--name-only", commit, "crates"], capture_output=True, text=True, check=True).stdout.split()
        for name in names:
            if re.match(r"crates/\w+/src/.*\.rt$", name):
                yield name, subprocess.run(["git", "show", f"{commit}:{name}"], capture_output=True, text=True, check=True).stdout
    else:
        names = subprocess.run(["git", "ls-files", "crates"], capture_output=True, text=True, check=True).stdout.split()
        for name in names:
            if re.match(r"crates/\w+/src/.*\.rt$", name):
                yield name, open(name).read()


def bare(text):
    """The text with comments blanked, so that places keep their lines."""
    return re.sub(r"//[^\n]*", "", text)


def body_from(text, at):
    """The end of the braces that open at or behind a place."""
    at = text.index("{", at)
    depth = 0
    for i in range(at, len(text)):
        depth += {"{": 1, "}": -1}.get(text[i], 0)
        if depth == 0:
            return at, i + 1
    return at, len(text)


def items(text, word):
    for m in re.finditer(rf"^[ ]*(?:pub )?{word} (\w+)[^\n;]*\{{", text, re.M):
        a, b = body_from(text, m.start())
        yield m.group(1), m.start(), text[a + 1:b - 1]


def variants(body):
    out, depth, one = [], 0, ""
    for ch in body:
        depth += {"{": 1, "(": 1, "}": -1, ")": -1}.get(ch, 0)
        if ch == "," and depth == 0:
            out.append(one.strip())
            one = ""
        else:
            one += ch
    out.append(one.strip())
    return [re.sub(r"\s+", " ", v) for v in out if v]


def functions(text):
    """Name, place, parameters and body of each function."""
    for m in re.finditer(r"^[ ]*(?:#\[[^\n]*\n[ ]*)*(?:pub )?(?:extern \"C\" )?fn (\w+)", text, re.M):
        i = text.index("(", m.end())
        depth, j = 0, i
        while True:
            depth += {"(": 1, ")": -1}.get(text[j], 0)
            j += 1
            if depth == 0:
                break
        params = text[i + 1:j - 1]
        rest = re.compile(r"\n[ ]*\{\n|\{\n").search(text, j)
        # the body begins at a line that is a brace alone, or at the end of the signature
        k = j
        alone = re.compile(r"^[ ]*\{$", re.M).search(text, j)
        signature = text.find("{", j)
        line = text[j:text.find("\n", j)]
        k = signature if line.rstrip().endswith("{") else (alone.start() if alone else signature)
        if k < 0:
            continue
        a, b = body_from(text, k)
        yield m.group(1), m.start(), params, text[a:b]


def line_of(text, at):
    while at < len(text) and text[at] in " \n":
        at += 1
    return text.count("\n", 0, at) + 1


def split_params(params):
    out = []
    for p in variants(params):
        p = re.sub(r"'\w+ ", "", p.strip())
        if ":" in p:
            out.append(re.sub(r"\bmut ", "", p, count=1) if p.startswith("mut ") else p)
    return out


TOKEN = re.compile(r"\w+|[^\s\w]")


def shape(body):
    out = []
    for t in TOKEN.findall(body):
        if re.match(r"^(0x)?[0-9]", t):
            out.append("0")
        elif t in ("u8", "u16", "u32", "u64", "usize"):
            out.append("T")
        elif re.match(r"^[A-Z][A-Z0-9_]*$", t):
            out.append("K")
        else:
            out.append(t)
    return out


def places(commit):
    found = collections.OrderedDict((p, []) for p in ("1 own enums", "1 flags", "1 numbers", "2 twins", "3 loops", "4 by hand", "5 parameters", "6 arrays", "7 switches"))
    sigs, shapes = [], []
    for name, text in files(commit):
        code = bare(text)
        for e, at, body in items(code, "enum"):
            vs = variants(re.sub(r"#\[[^\]]*\]", "", body))
            units = [v for v in vs if UNIT.match(v)]
            if (len(vs) == 2 and (len(units) == 1 or any(v.startswith("Refused") for v in vs))) or (len(vs) == 3 and len(units) >= 1 and any(re.match(r"(Refused|Fault|Scalar|Undefined|Leads)", v) for v in vs)):
                found["1 own enums"].append((name, line_of(code, at), e))
        for s, at, body in items(code, "struct"):
            fields = variants(body)
            if len(fields) > 1 and any(re.search(r": bool$", f) for f in fields) and not s in ("Core", "Invoked", "Task", "Goal"):
                found["1 flags"].append((name, line_of(code, at), s))
            arrays = [re.search(r"\[\w+; (\w+)\]", f) for f in fields]
            lens = [a.group(1) for a in arrays if a]
            if any(n > 1 for n in collections.Counter(lens).values()) or (lens and any(re.match(r"(pub )?(len|count): ", f) for f in fields)):
                found["6 arrays"].append((name, line_of(code, at), s))
        for m in re.finditer(r"^[ ]*///?[^\n]*(\b0 (for (none|any)|where)|\bor `NONE`|7 for a row|number of the refusal|16 for any other|1 where|count where none|how many nodes there are)[^\n]*", text, re.M):
            found["1 numbers"].append((name, text.count("\n", 0, m.start()) + 1, m.group(0).strip()[:100]))
        for f, at, params, body in functions(code):
            ps = split_params(params)
            sigs.append((name, line_of(code, at), f, ps))
            sh = shape(body)
            if len(sh) > 28 and not re.search(r"src/tables\.rt$", name):
                shapes.append((name, line_of(code, at), f, sh))
            for m in re.finditer(r"\b(while|loop)\b", body):
                a, b = body_from(body, m.start())
                inner = body[a:b]
                head = body[m.start():a]
                if re.search(r"\b\w+ [+-]= (1|\w+\.len\(\)|[A-Z0-9]+|\w+\.used|size|n|32)\b", inner) or "while" in head:
                    found["3 loops"].append((name, line_of(code, at) + body[:m.start()].count("\n"), f))
            if re.match(r"(same|equal|alike|wide|value)$", f) and len(ps) <= 4:
                found["4 by hand"].append((name, line_of(code, at), f))
            arms = re.findall(r"=>\s*\{?\s*(?:return )?(\w+(?:::\w+)*)\(([^()]*)\)", body)
            for first, group in itertools.groupby(sorted(arms, key=lambda a: a[1]), key=lambda a: a[1]):
                group = list(group)
                if len(group) >= 3 and first.count(",") >= 1 and len({g[0] for g in group}) >= 3:
                    found["7 switches"].append((name, line_of(code, at), f))
        for e, at, body in list(items(code, "enum")) + list(items(code, "struct")):
            before = code[:at].rstrip().split("\n")[-1]
            if "derive" in before and "PartialEq" not in before:
                found["4 by hand"].append((name, line_of(code, at), e + ": no ==, no Debug"))
    for name, line, f, ps in sigs:
        if len(ps) > 6:
            found["5 parameters"].append((name, line, f"{f}: {len(ps)}"))
    for (n1, l1, f1, s1), (n2, l2, f2, s2) in itertools.combinations(shapes, 2):
        if abs(len(s1) - len(s2)) > 0.2 * max(len(s1), len(s2)):
            continue
        m = difflib.SequenceMatcher(None, s1, s2, autojunk=False)
        if m.real_quick_ratio() > 0.9 and m.quick_ratio() > 0.9 and m.ratio() > 0.92:
            found["2 twins"].append((n1, l1, f"{f1} and {f2} of {n2}:{l2}"))
    return found


def main():
    args = [a for a in sys.argv[1:] if a != "--list"]
    for point, where in places(args[0] if args else None).items():
        print(f"{point}: {len(where)}")
        if "--list" in sys.argv:
            for name, line, what in where:
                print(f"    {name}:{line} {what}")


main()
