#!/usr/bin/env python3
"""Writes the files that show of each public function that `determined` speaks of that there is an environment that has its code.
A function's code comes with the code of all that it calls, down to the lowest crate. For each crate the toolchain makes a table of its functions, and
for each function a proof that a look-up that has the tables of the crates finds its code, in a module, `TheLink`, that only the crate itself can name.
So this writes
  crates/NAME/proofs/Links.antt        of each crate below `determined` that has functions: the table, and what is needed of the proofs, for all to name
  crates/determined/proofs/Links.antt  all tables together, and that each crate finds in them what it calls
and a line `pub mod Links` in each proofs/Lib.antt. Run it at the top of the repository, as tools/links.py, when a public function or a crate came or
went, or a call of another crate's function. First it takes away what it wrote before. It reads what `rt check --generated` writes in each crate, which
takes some minutes. With a FOLDER as its argument it keeps that text there, and a later run reads it again. Then `rt fmt` and `rt check` in each crate;
crates.txt must name all of them as what `determined` uses."""
import pathlib, re, shutil, subprocess, sys, tempfile

top = 'determined'
crates = pathlib.Path('crates')
below = {}
for line in pathlib.Path('crates.txt').read_text().splitlines():
    if line.strip() and not line.startswith('#'):
        name, uses = line.split(':')
        below[name.split()[0]] = uses.split()

def reach(names):                       # they and all below them
    return names | set().union(*(reach(set(below[n])) for n in names))

chosen = [n for n in below if n in reach({top}) - {top}]     # lowest first, as in crates.txt

HEAD = """-- What `determined` takes of this crate, to show that there is an environment that has the code of the public functions: the table of the crate's
-- functions; what those that are told here call in the crates below, `Below`; and of each of them, that a look-up that has both has its code, with the code
-- of all that it calls. The toolchain makes the tables and the parts, in modules that only this crate can name. Written by tools/links.py.
-- Assumes nothing.
use mathlib.Core.Bool.{true}
use prog.Wired.{Code}
use prog.Linked.{World, Tree, Holds, in_world}
use prog.LinkedThreads.{HasT}
"""

def of_below(n, l, told, needed, called):
    place = {c: 'b' + '.1' * i + '.0' for i, c in enumerate(called)}
    def part(f, what):                  # the toolchain's name for it, which is of another form where f is long, or calls itself
        module, cycle = l.parts[f]
        return f'parts.{module}.{cycle}{what}'
    def argument(f):                    # one of the crate's own functions, or one of a crate below
        return f'({joined(f)} W h b)' if f in told else place[f]
    asked = ''.join(f'HasT (in_world W) true Rattle.{symbol(c)}.code ×\n    (' for c in called) + 'Unit {0}' + ')' * len(called)
    text = f"""use Rattle.{n}.proofs.TheLink as made
use Rattle.{n}.proofs.TheLinks as parts

abbrev pub table : Tree
table = made.table

abbrev pub Below : World → Type 0
Below W =
    {asked}

abbrev pub Linked : Code → Type 0
Linked c = (W : World) → Holds W "{n}" table → Below W → HasT (in_world W) true c
"""
    for f in told:
        given = [f'(made.found-{m} W h)' for m in l.members[f]] + [argument(c) for c in l.calls[f]]
        text += f"""
{'pub ' if f in needed else ''}{joined(f)} : Linked {part(f, 'code')}
{joined(f)} W h b =
    {part(f, 'has')} (in_world W) true {' '.join(given)}
"""
    return text

def joined(name):                       # image::slots::find is passed on as slots-find
    return '-'.join(name.split('::')[1:])

def symbol(name):                       # and has its code in image.proofs.slots.find.Symbol
    crate, *path = name.split('::')
    return '.'.join([crate, 'proofs'] + path + ['Symbol'])

class Link:
    """What the toolchain makes of a crate: its functions, in an order in which each stands behind those of the crate that it calls, and what each calls,
    its own crate's and others', in the order in which the part of its proof takes them."""
    def __init__(self, text):
        paths = {}
        for path, other in re.findall(r'^use Rattle\.(\S+)\.Symbol(?: as (\S+))?$', text, re.M):
            crate, _, function = path.partition('.proofs.')
            paths[other or 'Symbol'] = crate + '::' + function.replace('.', '::')
        asked = re.search(r'^Below =(.*?)\n\n', text, re.M | re.S).group(1)
        below = [paths[s] for s in re.findall(r"(\S+)\.code\b", asked)]
        self.own, self.parts, self.calls, self.members = [], {}, {}, {}
        for f, body in re.findall(r'^linked-(\S+) =\s(.*?)(?=\n\n|\Z)', text, re.M | re.S):
            self.own.append(f)
            body = re.sub(r'\((b(?:\.1)*)\)', r'\1', body)         # a long row of projections is told in two
            self.parts[f] = re.search(r'(\S+)\.((?:cycle_)?)has\b', body).groups()
            self.members[f] = re.findall(r'\(found-(\S+) W h\)', body)
            self.calls[f] = [own or below[ones.count('.1')]
                             for own, ones in re.findall(r'\(linked-(\S+) W h b\)|\bb((?:\.1)*)\.0', body)]

    def reached(self, needed):          # the crate's functions that these stand on, and they
        found = set()
        def go(f):
            if f not in found and f in self.calls:
                found.add(f)
                for c in self.calls[f]:
                    go(c)
        for f in needed:
            go(f)
        return [f for f in self.own if f in found]

def link(name, folder):
    out = (folder / name).resolve()
    if not out.exists():
        print('rt check --generated:', name, flush=True)
        made = subprocess.run(['rt', 'check', '--generated', str(out)], cwd=crates / name, capture_output=True, text=True)
        if made.returncode:
            shutil.rmtree(out, ignore_errors=True)
            sys.exit(made.stdout + made.stderr)
    module = out / f'Rattle-{name}-proofs' / 'TheLink.antt'
    return Link(module.read_text()) if module.exists() else None    # a crate with no functions has none

def set_aside():                        # what was written before may speak of functions that are gone
    for name in chosen:
        lib = crates / name / 'proofs' / 'Lib.antt'
        (lib.parent / 'Links.antt').unlink(missing_ok=True)
        if lib.exists():
            rest = [line for line in lib.read_text().splitlines() if line != 'pub mod Links']
            lib.write_text(''.join(line + '\n' for line in rest)) if rest else lib.unlink()

def write(name, text):
    proofs = crates / name / 'proofs'
    proofs.mkdir(exist_ok=True)
    (proofs / 'Links.antt').write_text(text)
    lib = proofs / 'Lib.antt'
    lines = lib.read_text().splitlines() if lib.exists() else []
    if 'pub mod Links' not in lines:
        if name == top:                 # before the file that uses it
            lines.insert(lines.index('pub mod Contracts'), 'pub mod Links')
        else:
            lines.append('pub mod Links')
        lib.write_text('\n'.join(lines) + '\n')

def main(folder):
    if any(not (folder / n).exists() for n in chosen):
        set_aside()
    links = {n: l for n in chosen if (l := link(n, folder))}
    spoken_of = set()                   # the functions that specs/Contracts.antt names
    text = (crates / top / 'specs/Contracts.antt').read_text()
    crate_of = dict((short, name) for name, short in re.findall(r'^use Rattle\.(\w+)\.proofs as (\w+)$', text, re.M))
    for short, path in re.findall(r'code = (\w+)\.([\w.]+)\.Symbol\.code', text):
        spoken_of.add(crate_of[short] + '::' + path.replace('.', '::'))
    needed, told, called, foreign = set(spoken_of), {}, {}, []
    for n, l in reversed(links.items()):
        told[n] = l.reached(needed)
        called[n] = list(dict.fromkeys(c for f in told[n] for c in l.calls[f] if c not in l.calls))
        foreign += [f'{f} calls {c}' for f in told[n] for c in l.calls[f] if c.split('::')[0] not in links]
        needed |= set(called[n])
    # the tables of std cannot be named, and without them there is nothing to show
    if foreign:
        sys.exit('\n'.join(['functions that the public ones stand on call functions of std:'] + foreign))
    missing = needed - {f for l in links.values() for f in l.own}
    assert not missing, missing
    links = {n: l for n, l in links.items() if told[n]}
    for n, l in links.items():
        assert len({joined(f) for f in told[n]} | {'table', 'Below', 'Linked', 'made', 'parts'}) == len(told[n]) + 5
        write(n, HEAD + of_below(n, l, told[n], needed, called[n]))
    imports = ''.join(f'use Rattle.{n}.proofs.Links as {n}\n' for n in links)
    write(top, TOP_HEAD + imports + everything(links) + ''.join(of_crate(n, called[n], spoken_of) for n in links))
    print(len(links), 'crates,', sum(map(len, told.values())), 'functions,', len(needed), 'passed on')

TOP_HEAD = """-- There is an environment in which names mean what the code of the public functions says: one that is tied of the tables of all crates, which the
-- toolchain makes. A look-up finds a function's crate by the text before the first colon of its name, and then the function in that crate's table.
-- Of each crate stand here that its table is found (`holds-`) and that what its functions call in the crates below is (`below-`); and, where it
-- has public functions, that the environment has the code of one of these, with the code of all that it calls (`in_`). Written by tools/links.py.
-- Assumes nothing.
use mathlib.Core.Bool.{true}
use mathlib.Core.List.{[], ◌∷◌}
use mathlib.Core.Path.{refl}
use lib.Chars.{codes}
use prog.Routine.{Env}
use prog.Wired.{Code, Wired}
use prog.Linked.{World, Holds, in_world}
use prog.LinkedThreads.{HasT, has-wired_t, tie_t, tie_t-follows, tie_t-threads}
"""

def everything(links):
    rows = '\n'.join(f'    (codes "{n}", {n}.table) ∷' for n in links)
    return f"""
pub all : World
all =
{rows}
    []

-- an environment that has the code c
abbrev pub Runs : Code → Type 0
Runs c = (γ : Env) × Wired γ c

runs : (c : Code) → HasT (in_world all) true c → Runs c
runs c has =
    let look = in_world all in
    (tie_t look, has-wired_t look (tie_t look) (tie_t-follows look) (tie_t-threads look) c has)

-- of what is asked for as a row of pairs
infixr 25 ◌&◌
abbrev ◌&◌ : {{A B : Type 0}} → A → B → A × B
a & b = (a, b)
"""

def of_crate(n, called, spoken_of):
    rows = [(f.split('::')[0], joined(f)) for f in called]
    row = '\n' + ''.join(f'    {crate}.{f} all holds-{crate} below-{crate} &\n' for crate, f in rows) + '    tt'
    text = f"""
-- ---- {n}
holds-{n} : Holds all "{n}" {n}.table
unfolding all
holds-{n} = refl

below-{n} : {n}.Below all
below-{n} ={row if called else ' tt'}
"""
    if not any(f.startswith(n + '::') for f in spoken_of):
        return text
    return text + f"""
pub in_{n} : (c : Code) → {n}.Linked c → Runs c
in_{n} c has = runs c (has all holds-{n} below-{n})
"""

if len(sys.argv) > 1:
    main(pathlib.Path(sys.argv[1]))
else:
    with tempfile.TemporaryDirectory() as made:
        main(pathlib.Path(made))
