"""Lists the places in src/ that could be written in a newer form, by point, with how many there are.

    python3 tools/places.py [COMMIT]

Without a commit it reads the files as they stand. It goes by text: what it finds is a place to look at, not a fault. A place
with `// Kept:` in the lines above it, or in its body, is listed as kept.
"""
import collections
import os
import re
import subprocess
import sys

ROOT = os.path.dirname(os.path.dirname(os.path.abspath(__file__)))
COMMIT = sys.argv[1] if len(sys.argv) > 1 else None


def git(*words):
    return subprocess.run(["git", "-C", ROOT, *words], capture_output=True, text=True, check=True).stdout


def files(ending, folder):
    if COMMIT:
        names = git("ls-tree", "-r", "--name-only", COMMIT).split("\n")
    else:
        names = git("ls-files", "-co", "--exclude-standard").split("\n")
    for name in sorted(names):
        parts = name.split("/")
        if name.endswith(ending) and len(parts) > 3 and parts[0] == "crates" and parts[2] == folder:
            if COMMIT:
                yield name, git("show", f"{COMMIT}:{name}")
            elif os.path.exists(os.path.join(ROOT, name)):
                yield name, open(os.path.join(ROOT, name), encoding="utf-8").read()


def comments_above(lines, n):
    above = n
    while above > 0 and lines[above - 1].strip().startswith(("//", "#[")):
        above -= 1
    return "\n".join(lines[above:n])


class Function:
    """A function: its file, name, parameters, result, clauses and body, and whether a reason to keep it stands beside it."""

    def __init__(self, path, line, name, head, clauses, body, before):
        self.path, self.line, self.name, self.head, self.clauses, self.body = path, line, name, head, clauses, body
        self.kept = "// Kept:" in before or "// Kept:" in body
        self.code = re.sub(r'"(\\.|[^"\\])*"', '""', re.sub(r"//.*", "", body))
        inside = head[head.index("(", head.index("fn " + name)) + 1:]
        depth, at = 1, 0
        while depth and at < len(inside):
            depth += {"(": 1, ")": -1}.get(inside[at], 0)
            at += 1
        self.parameters = [p.strip() for p in re.split(r",(?![^<\[(]*[>\])])", inside[:at - 1]) if p.strip()]
        self.result = inside[at:].split("->", 1)[1].strip() if "->" in inside[at:] else ""

    def calls_itself(self):
        return re.search(r"(?<![\w.:])" + self.name + r"\(", self.code)

    def place(self):
        return f"{self.path.removeprefix('crates/')}:{self.line} {self.name}"


def functions(path, text):
    lines = text.split("\n")
    at = 0
    while at < len(lines):
        found = re.match(r"(\s*)(?:pub(?:\(crate\))? )?(?:const )?fn (\w+)", lines[at])
        if not found or lines[at].rstrip().endswith(";"):
            at += 1
            continue
        indent, name = found.groups()
        begin = at
        while at < len(lines) and not (lines[at].rstrip() == indent + "{" or lines[at].rstrip().endswith(" {")
                                       or lines[at].rstrip().endswith("{}") or lines[at].rstrip().endswith(";")):
            at += 1
        opening = at
        while at < len(lines) and lines[at] != indent + "}" and not lines[opening].rstrip().endswith(("{}", ";")):
            at += 1
        head, clauses = [], []
        for line in lines[begin:opening + 1]:
            (clauses if re.match(r"\s*(requires|ensures)\b", line) else head).append(line.strip())
        body = "\n".join(lines[opening + 1:at])
        block = begin
        while indent and block > 0 and not lines[block].startswith(("impl", "trait", "pub trait")):
            block -= 1
        if not lines[opening].rstrip().endswith(";"):
            above = comments_above(lines, begin) + (comments_above(lines, block) if indent else "")
            yield Function(path, begin + 1, name, " ".join(head), clauses, body, above)
        at += 1


SOURCES = list(files(".rt", "src"))
FUNCTIONS = [f for path, text in SOURCES for f in functions(path, re.sub(r"#\[cfg\(test\)\].*", "", text, flags=re.S))]


def crate(path):
    return path.split("/")[1]


def lines_with(pattern, beside=""):
    """Lines that hold a pattern, of files with what stands beside it. A reason may stand above the line, its item or the file."""
    for path, text in SOURCES:
        if not re.search(beside, text):
            continue
        lines = text.split("\n")
        for n, line in enumerate(lines):
            if re.search(pattern, line.split("//")[0]):
                item = n
                while item > 0 and not re.match(r"(pub(\(crate\))? )?(struct|enum|fn|impl|trait|const)\b", lines[item]):
                    item -= 1
                head = re.match(r"(//.*\n)*", text).group()
                kept = "// Kept:" in comments_above(lines, n) + comments_above(lines, item) + head
                yield f"{path.removeprefix('crates/')}:{n + 1} {line.strip()}", kept


def bodies_with(pattern):
    for f in FUNCTIONS:
        if re.search(pattern, f.code):
            yield f.place(), f.kept


def heads_with(test):
    for f in FUNCTIONS:
        if test(f):
            yield f.place(), f.kept


def acts(f):
    return any("&mut" in p or p.startswith("rt:") for p in f.parameters)


NUMBERED = r"\b(kind|number\(\)|tag)\b[^=<>!\n]{0,3}(==|!=|<=|>=|<|>) *\d|\d+ *<= *[\w.]*(kind|number|tag)\b|byte\(.*\) [=!]= 1\b(?!.*==)"


def own_options():
    yield from lines_with(r"^\s+(Nothing|Empty|Made)\b|^\s+Refused\(")
    yield from heads_with(lambda f: re.fullmatch(r"(io::Result<)?bool>?( \{)?", f.result) and acts(f))
    yield from heads_with(lambda f: "Option<Finding<" in f.result or f.result.startswith("io::Result<Option<&'static str>"))
    yield from bodies_with(NUMBERED)
    yield from bodies_with(r"=> \d+,\n.*=> \d+,")


def shape(f):
    """The text of a function without its names of types, cases and constants, strings and numbers."""
    text = re.sub(r"//.*", "", f.head.split("fn " + f.name, 1)[1] + "\n".join(f.clauses) + f.body)
    text = re.sub(r'b?"[^"]*"', '"', text)
    text = re.sub(r"\b\d[\d_]*\b|\b[A-Z]\w*\b(::[A-Z]\w*)?", "#", text)
    return re.sub(r"\s+", " ", re.sub(r"\bu8\b|\bu16\b|\bu32\b|\bu64\b|\bi32\b|\bi64\b|\busize\b", "#", text))


def types():
    """Structs and enums: their place and their text without comments and names of their own."""
    for path, text in SOURCES:
        for found in re.finditer(r"^(?:pub )?(?:struct|enum) (\w+)(.*?\n)\}", text, flags=re.S | re.M):
            line = text[:found.start()].count("\n") + 1
            body = re.sub(r"\s+", " ", re.sub(r"//.*", "", found.group(2)))
            yield f"{path.removeprefix('crates/')}:{line} {found.group(1)}", body


def twins():
    groups = collections.defaultdict(list)
    for f in FUNCTIONS:
        if len(re.sub(r"\s", "", f.body)) >= 24:
            groups[shape(f)].append(f)
    for group in groups.values():
        for f in group[1:]:
            yield f"{f.place()} like {group[0].place()}", f.kept or group[0].kept
    near = collections.defaultdict(list)
    for f in FUNCTIONS:
        near[f.path, re.sub(r"\b[a-z]\w*\b", "x", shape(f))].append(f)
    for group in near.values():
        for f in group[1:]:
            if shape(f) not in [shape(g) for g in group if g.line < f.line]:
                yield f"{f.place()} much like {group[0].place()}", f.kept or group[0].kept
    seen = {}
    for place, body in types():
        if len(body) > 24 and body in seen:
            yield f"{place} like {seen[body]}", False
        seen.setdefault(body, place)


def index_loops():
    yield from bodies_with(r"\bwhile\b(?! let Some\(.*next\(\))")
    yield from bodies_with(r"\bfor \w+ in [^{]*\.\.")
    yield from heads_with(lambda f: f.calls_itself() and any(": usize" in p for p in f.parameters))


def by_hand():
    yield from bodies_with(r"^\s*(\w+(\.\w+\(\))? == \w+(\.\w+\(\))?|equal\(a, b\))\s*$")
    yield from bodies_with(r"\d+ => Some\(")
    yield from bodies_with(r"match \(?\w+[\w, ]*\)? \{\n\s*(\w+::\w+|_?\(?\w*,? ?\w*::?\w*.*) => (true|false),")
    yield from bodies_with(r"\b(None|Err\(_\)) => (true|false|None|0),|Some\(\w+\) => Some\(")
    yield from bodies_with(r"(\w+::\w+(\(_\))? => \d+,\n\s*){2}|(\d+ => \"\",\n\s*){3}|(?<!\*)\bself as u\d")
    yield from heads_with(lambda f: f.code.count("println!") > 2)
    for path, text in SOURCES:
        for found in re.finditer(r"((?: *//.*\n)*)#\[derive\(Clone, Copy\)\]\n(?:pub )?(?:struct|enum) (\w+)(<\w+>)? ?\{", text):
            line = text[:found.start(2)].count("\n") + 1
            yield f"{path.removeprefix('crates/')}:{line} {found.group(2)} derives no more than copying", "// Kept:" in found.group(1)


def facts(f):
    for clause in f.clauses:
        for fact in re.split(r" × ", clause.split("{", 1)[-1].rsplit("}", 1)[0]):
            fact = re.sub(r"\.(now|old|new|entry)\b", "", fact).strip(" ()")
            if "result" not in fact and len(fact) > 6:
                yield fact


def travelling():
    """A reason may stand at the head of the file, at the functions or at what comes before them."""
    seen = collections.defaultdict(list)
    for f in FUNCTIONS:
        for fact in set(facts(f)):
            seen[crate(f.path), f"the fact {fact}"].append(f)
        names = [re.sub(r"^mut ", "", p) for p in f.parameters if ":" in p]
        for a, b in zip(names, names[1:]):
            seen[crate(f.path), f"the parameters {a}, {b}"].append(f)
    heads = {path: re.match(r"(//.*\n)*", text).group() for path, text in SOURCES}
    for (where, what), users in sorted(seen.items(), key=lambda x: x[0]):
        if len({f.name for f in users}) >= 3:
            kept = any(f.kept or "// Kept:" in heads[f.path] for f in users)
            yield f"{where}: {what} in {len({f.name for f in users})} functions", kept


def buffers():
    yield from lines_with(r"^(?!\s*const)(.*: |.*mut \w+ = |.*mut \w+: )\[[^\]]+; \w+\]")
    yield from lines_with(r"^\s*(pub )?(used|last|top): (usize|u16|u32),|^    pub count: usize,|used: &mut usize", "; MOST_NODES]|&mut usize")


def steps():
    yield from lines_with(r"^struct \w+;")
    yield from lines_with(r"^trait \w+")
    yield from bodies_with(r"\bCommand::\w+ => println")


def proofs():
    counts = collections.Counter()
    for path, text in files(".antt", "proofs"):
        counts[crate(path), "files"] += 1
        counts[crate(path), "lines"] += text.count("\n")
    for where in sorted({w for w, _ in counts}):
        yield f"{where}: {counts[where, 'files']} files, {counts[where, 'lines']} lines", False


POINTS = [
    ("1 own Option or Result, flags, numbers for kinds and refusals", own_options),
    ("2 twins", twins),
    ("3 loops over an index", index_loops),
    ("4 equality, conversion and printing by hand, derives", by_hand),
    ("5 facts and parameters that travel together", travelling),
    ("6 buffers with a length beside them, parallel arrays", buffers),
    ("7 a switch on steps, structs that stand for functions", steps),
    ("8 proofs", proofs),
]

for name, find in POINTS:
    places = list(dict.fromkeys(find()))
    kept = sum(1 for _, is_kept in places if is_kept)
    print(f"# {name}: {len(places)}" + (f", of which {kept} say why" if kept else ""))
    for place, is_kept in places:
        print(("  kept  " if is_kept else "        ") + place)
