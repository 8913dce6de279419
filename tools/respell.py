#!/usr/bin/env python3
"""Brings the repository's own names to today's spelling, wherever they stand: .antt files, clauses and ghost use lines of .rt files, must-fail edits.
First the names that specs/ and proofs/ declare in camel case, to snake case; then those that specs/ declare with a dash (fields, definitions), to an
underscore: a dash stays where it joins names in a lemma. Run once at the top of the repository, after port.py, everything committed.
`respell.py --say` changes nothing and lists the first kind, with what each falls together with."""
import pathlib, re, sys

say = '--say' in sys.argv
top = pathlib.Path('crates')
antt = sorted(p for p in top.rglob('*.antt') if 'out' not in p.parts)
rt = sorted(p for p in top.rglob('*.rt') if 'out' not in p.parts)
edits = sorted(top.glob('*/must-fail/*.edit'))

WORD = r"[^\s(){}\[\]⟨⟩,.;:λ]+"          # antt's names: anything but spaces and brackets
TOKEN = re.compile(r"[A-Za-z_◌][A-Za-z0-9_'′₀-₉\-◌≤<≡+*/%^&|]*")
DECL = re.compile(r"^\s*(?:(?:pub|abbrev|unfoldable|data|record|opaque)\s+)*([A-Za-z_][A-Za-z0-9_'′₀-₉\-]*)(?:\s+\{[^}]*\})*\s+:\s", re.M)
DECL2 = re.compile(r"^\s*(?:(?:pub|abbrev|unfoldable)\s+)*([A-Za-z_][A-Za-z0-9_'′₀-₉\-]*)\s+:$", re.M)

def snake(n):
    if not n[0].islower(): return n
    # camel humps within each part that a dash joins; a part that is a fact (capital first) keeps its spelling
    parts = []
    for p in n.split('-'):
        if p and p[0].islower():
            p = re.sub(r'(?<=[a-z0-9])([A-Z])', lambda m: '_' + m.group(1).lower(), p)
        parts.append(p)
    return '-'.join(parts)

declared = set()
for p in antt:
    t = p.read_text()
    declared |= set(DECL.findall(t)) | set(DECL2.findall(t))
new = {n: snake(n) for n in declared if snake(n) != n}
words = {}
for p in antt + rt:
    for w in TOKEN.findall(p.read_text()):
        words.setdefault(w, set()).add(str(p))
clash = {o: n for o, n in new.items() if n in words}
if say:
    for o, n in sorted(new.items()):
        print(o, n, '  FALLS TOGETHER: ' + ' '.join(sorted(words[n])[:6]) if o in clash else '')
    sys.exit()

def turn(text):
    return TOKEN.sub(lambda m: new.get(m.group(0), m.group(0)), text)
# In these files a new name stands already, for something of the file's own: that gets another name first.
ASIDE = {
    'crates/flash/proofs/Chosen.antt': {'is_open': 'open_found'},
    'crates/flash/proofs/CopiesInto.antt': {'at_turn': 'moved_at'},
    'crates/flash/proofs/Tables.antt': {'at_turn': 'slot_at_turn'},
    'crates/repairing/proofs/Emptied.antt': {'is_open': 'open_found'},
    'crates/writing/proofs/reclaiming/copy_live/Proof.antt': {'is_free': 'free_found'},
}
BARE = re.compile(r"(?<![\w.'′\-◌])([A-Za-z_][A-Za-z0-9_'′₀-₉\-]*)")
for name, aside in ASIDE.items():
    p = pathlib.Path(name)
    p.write_text(BARE.sub(lambda m: aside.get(m.group(1), m.group(1)), p.read_text()))
CLAUSE = re.compile(r'^(\s*(?:ghost use|requires|ensures|ghost|invariant|decreases)\b.*)$')
for p in antt:
    t = p.read_text(); u = turn(t)
    if u != t: p.write_text(u)
for p in rt:
    out, depth = [], 0
    for line in p.read_text().split('\n'):
        if depth > 0 or CLAUSE.match(line):
            new_line = turn(line)
            depth += line.count('{') - line.count('}')
            out.append(new_line)
        else:
            out.append(line)
    p.write_text('\n'.join(out))
for p in edits:
    p.write_text(turn(p.read_text()))

# ---- second: fields and definitions of specs/ that have a dash
DASHED = re.compile(r"^\s*(?:(?:pub|abbrev|unfoldable|data|record)\s+)*([a-z][A-Za-z0-9_'\-]*-[A-Za-z0-9_'\-]*)(?:\s+\{[^}]*\})*\s+:(?:\s|$)", re.M)
OTHER = {'slot-of': 'slot_is'}          # slot_of is a definition of image
dashed = set()
for p in top.glob('*/specs/**/*.antt'):
    dashed |= set(DASHED.findall(p.read_text()))
new = {n: OTHER.get(n, n.replace('-', '_')) for n in dashed}
for p in antt + edits:
    t = p.read_text(); u = turn(t)
    if u != t: p.write_text(u)
for p in rt:
    out, depth = [], 0
    for line in p.read_text().split('\n'):
        if depth > 0 or CLAUSE.match(line):
            u = turn(line)
            depth += line.count('{') - line.count('}')
            out.append(u)
        else:
            out.append(line)
    p.write_text('\n'.join(out))
