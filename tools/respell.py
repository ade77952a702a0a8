#!/usr/bin/env python3
"""respell.py [--check] REPO : gives the repository's own names the spelling of today (CONTRACT_STYLE.md, "Names").

It gathers what specs/ and proofs/ declare (definitions, lemmas, constructors, record fields, rulesets), and turns
  camelCase           -> camel_case
  a-b (a lemma)       -> a_b, but the dash stays between two names of functions (length-append, written-append)
and last the names of the table BY_HAND, which the rules above leave (parameters, local names, names that meet another).
as whole words in specs/*.antt, proofs/**/*.antt, clauses and 'ghost use' and attributes of src/**/*.rt, 'old:'/'new:' lines of must-fail/*.edit,
and in code spans of README.md, docs/*.md and comments. Names with a capital first stay (types, facts, modules), so do names that Rattle makes
(goal.X, loop-i-preserved, .. in Answers and Invariants).
A line 'meets:' is a name whose new spelling stands already in a file where the old one stands: a lemma then gets _lem, anything else stays as it is.
A line 'look:' is a new name that is also a field, a parameter or a function of some src/.
"""
import collections, glob, os, re, subprocess, sys

args = [a for a in sys.argv[1:] if not a.startswith("--")]
CHECK = "--check" in sys.argv
repo = args[0].rstrip("/")
TOKEN = re.compile(r"[^\s(){}.;,@\"«»\[\]|`‵∷⊛!]+")
DECL = re.compile(r"^\s*(?:abbrev |pub |unfoldable |axiom )*([a-z][^\s(){}.;,@\"«»]*)(?: \{[^}]*\})*(?: \([^)]*\))* :(?=\s)")
RULES = re.compile(r"^\s*(?:pub )?ruleset (\S+) =")
BY_HAND = {
    "goesOn": "goes_on", "handedOut": "handed_out", "setUp": "set_up", "noneLeft": "none_left", "toCome": "to_come", "failingOn": "failing_on",
    "pairFrom": "pair_from", "enqueueEntry": "enqueue_entry", "dequeueEntry": "dequeue_entry", "notOf": "not_of",
}
# where both stand in one file, the lemma gives way
GIVES_WAY = {"goesOn": ("goes_on", "goes_on_lem")}
STD = set()
KIT = os.path.dirname(subprocess.run(["rt", "doc"], capture_output=True, text=True).stdout.split()[0])
for p in (KIT + "/rattle/std/specs/Prelude.antt", KIT + "/rattle/std/proofs/Common.antt"):
    if os.path.exists(p):
        STD |= {t for t in TOKEN.findall(open(p).read())}
STD_FUNCTIONS = set("length append take drop set map get_or reverse replicate cond max min sum fold filter add sub mul div mod suc zero nil cons slice_index slice_set".split())

antt = [f for f in glob.glob(repo + "/crates/*/specs/**/*.antt", recursive=True) + glob.glob(repo + "/crates/*/proofs/**/*.antt", recursive=True) if "/out/" not in f]
rts = [f for f in glob.glob(repo + "/crates/*/src/**/*.rt", recursive=True)]
edits = glob.glob(repo + "/crates/*/must-fail/*.edit")
pages = [repo + "/README.md"] + glob.glob(repo + "/docs/*.md")

def made(f):
    return re.search(r"/proofs/.*/(Answers|Invariants|Proof)\.antt$", f)

def snake(s):
    s = re.sub(r"([a-z0-9])([A-Z])", lambda m: m[1] + "_" + m[2].lower(), s)
    return re.sub(r"([a-z0-9])([A-Z])", lambda m: m[1] + "_" + m[2].lower(), s)

declared, functions = collections.defaultdict(set), set()
for f in antt:
    if f.endswith("/Proof.antt"):
        continue  # an older walk: it goes
    for line in open(f):
        m = DECL.match(line) or RULES.match(line)
        if not m or line.lstrip().startswith(("--", "|", "let ")):
            continue
        name = m[1]
        if made(f) and re.search(r": (goal|tie|lts)\.", line):
            continue
        declared[name].add(f)
        if "/specs/" in f and "-" not in name:
            functions.add(snake(name))
functions |= STD_FUNCTIONS

def keeps_capital(p):
    return p[:1].isupper()

def spell(name):
    parts = name.split("-")
    # joined by dashes where both sides are functions; a run of parts may be one function's name (written-at -> written_at)
    out, i, words = [], 0, [p if keeps_capital(p) else snake(p) for p in parts]
    runs = []
    while i < len(words):
        for j in range(len(words), i, -1):
            w = "_".join(words[i:j])
            if w in functions or j == i + 1:
                runs.append(w)
                i = j
                break
    s = runs[0]
    for k in range(1, len(runs)):
        a, b = runs[k - 1], runs[k]
        dash = a in STD_FUNCTIONS and b in functions and len(runs) == 2
        s += ("-" if dash else "_") + b
    return s

table = {}
for name in declared:
    if re.search(r"[a-z0-9][A-Z]", name) or "-" in name:
        new = spell(name)
        if new != name:
            table[name] = new

texts = {f: open(f).read() for f in antt + rts + edits}
tokens = {f: set(TOKEN.findall(t)) for f, t in texts.items()}
by_new = collections.defaultdict(list)
for o, n in table.items():
    by_new[n].append(o)
problems = []
def lemma(o):
    return all("/proofs/" in f for f in declared[o])
def meets(o, n):
    return [f for f in tokens if o in tokens[f] and n in tokens[f] and f.endswith(".antt") and not f.endswith("/Proof.antt")]
for n, os_ in list(by_new.items()):
    for o in os_:
        # a lemma gives way to a definition, and a-b to aB
        rivals = [x for x in os_ if x != o and (not lemma(x) or ("-" in o and "-" not in x))]
        hit = meets(o, n)
        std = n in STD and any(re.search(r"[{,] ?%s[,}]" % re.escape(n), texts[f]) for f in declared[o] if f in texts)
        same_module = any(n in declared and f in declared[n] for f in declared[o])
        if hit or same_module or std or rivals:
            if lemma(o):
                table[o] = n + "_lem"
                problems.append(f"meets: {o} -> {table[o]} ({n}: {'beside ' + rivals[0] if rivals else (hit or list(declared[o]))[0][len(repo)+1:]})")
            else:
                problems.append(f"meets: {o} stays ({n}: {'beside ' + rivals[0] if rivals else (hit or list(declared[o]))[0][len(repo)+1:]})")
                del table[o]
rust_names = set()
for f in rts:
    t = texts[f]
    rust_names |= {("field or parameter", x) for x in re.findall(r"(?m)[(,\s](\w+): ", t)}
    rust_names |= {("function", x) for x in re.findall(r"\bfn (\w+)", t)}
new_words = {n: o for o, n in table.items()}
in_rt = {o for f in rts for o in tokens[f]}
for kind, x in sorted(rust_names):
    if x in new_words and new_words[x] in in_rt:
        problems.append(f"look: {new_words[x]} -> {x} is also a {kind} of src/")

def turn(text):
    return TOKEN.sub(lambda m: table.get(m[0], m[0]), text)

def turn_spans(text):
    return re.sub(r"`[^`\n]*`", lambda m: turn(m[0]), text)

def turn_rt(text):
    out = []
    for line in text.split("\n"):
        code, sep, comment = line, "", ""
        m = re.match(r"^(.*?)(//.*)$", line)
        if m and '"' not in m[1]:
            code, comment = m[1], m[2]
        # a string of the program stays
        code = "".join(p if p.startswith('"') else turn_code(p) for p in re.split(r'("(?:[^"\\]|\\.)*")', code))
        out.append(code + turn_spans(comment))
    return "\n".join(out)

def turn_code(text):
    # the tactic's paths stand between '::' and ')'
    text = turn(text)
    return re.sub(r"(?<=::)\w+", lambda m: table.get(m[0], m[0]), text)

def turn_antt(text):
    out = []
    for line in text.split("\n"):
        m = re.match(r"^(.*?)((?:^|\s)--(?:\s.*)?)$", line)
        out.append(turn(m[1]) + turn_spans(m[2]) if m else turn(line))
    return "\n".join(out)

changed = 0
for f in antt:
    new = turn_antt(texts[f])
    # `use M.{a as b}` that has become `b as b`
    new = re.sub(r"\b(\w+) as \1(?=[,}])", r"\1", new)
    if new != texts[f]:
        changed += 1
        CHECK or open(f, "w").write(new)
for f in rts:
    new = turn_rt(texts[f])
    if new != texts[f]:
        changed += 1
        CHECK or open(f, "w").write(new)
for f in edits:
    out = []
    kind = ""
    for line in texts[f].split("\n"):
        if line.startswith("file: "):
            kind = line[-5:]
        if line.startswith(("old: ", "new: ")):
            line = line[:5] + (turn_code(line[5:]) if kind.endswith(".rt") else turn(line[5:]))
        elif line.startswith("#"):
            line = turn_spans(line)
        out.append(line)
    new = "\n".join(out)
    if new != texts[f]:
        changed += 1
        CHECK or open(f, "w").write(new)
for f in pages:
    if os.path.exists(f):
        t = open(f).read()
        new = turn_spans(t)
        if new != t:
            changed += 1
            CHECK or open(f, "w").write(new)
for f in antt + rts + edits + pages:
    if not os.path.exists(f) or f.endswith("/Proof.antt"):
        continue
    old = new = open(f).read()
    for name, (rival, other) in GIVES_WAY.items():
        if f.endswith(".antt") and name in TOKEN.findall(old):
            new = re.sub(r"(?<![\w.-])%s(?![\w-])" % rival, other, new)
    for name, to in BY_HAND.items():
        word = r"(?<![\w-])%s(?![\w-])" % name
        new = re.sub(r"`[^`\n]*`", lambda m: re.sub(word, to, m[0]), new) if f in pages else re.sub(word, to, new)
    if new != old:
        changed += 1
        CHECK or open(f, "w").write(new)
for p in problems:
    print(p)
print(f"{len(table)} names, {changed} files")
if CHECK:
    for o, n in sorted(table.items()):
        print("   ", o, "->", n)
