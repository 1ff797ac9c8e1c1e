#!/usr/bin/env python3
# Brings this repository's own antt names to today's spelling rules (CONTRACT_STYLE.md, "Names"). Run once, at the repository's top, after the toolchain's port.py.
#   tools/port_names.py [--rattle DIR] [--map FILE] [--dry] [--list]
# Names: camelCase becomes snake_case; a function whose result is a Type becomes UpperCamel; in a lemma's name a dash joins two names, so parts that are one name together are joined by `_`.
# Left alone: Rust code, strings, module and file names, names of goals (`NAME : tie.Need-..` and whatever stands after a dot in a Proof.antt), names of std and of the logic, the signs that antt allows in names (`→ ⁺ ⁻ ? ' ₀`).
import argparse, collections, glob, os, re, sys

# Chosen by hand, where the rule's name is taken.
TABLE = {
    # a fact named by an adjective; `Roomy` is a record of its own
    'roomy': 'IsRoomy',
    # lemmas that have the name a definition gets now (`boundOf`, `oneMore`, ..): `_lem`, as the rule for a lemma with its function's name
    **{n: n + '_lem' for n in 'bound_of count_kept count_word digits_of first_on held_by lane_here minus_one no_cells number_put one_more raised_at starts_from'.split()},
    # `samples_after` and `list_after` are labels of clauses that stand beside these
    'samplesAfter': 'later_samples',
    'listAfter': 'list_told',
    # begins with a sign
    '→leS': '→le_s',
    # an alias beside `units_of`
    'unitsOf': 'unit_squares_of',
}
# Fields of records are in snake case; `of_` where a definition or a Rust function has that name.
FIELDS = '''bank-f64 bound-real c-above c-plus c-real cross-section e-plus e-real finite-x finite-y finite-z foot-from foot-to geom-zero high-above high-real
inner-size kept-across kept-within length-size lengths-finite lengths-rise long-numbers long-words low-real lt-under mark-lanes numbers-long outer-size own-inner
own-outer pose-nan pose-nan-short positive-finite road-line road-passes root-high root-low s-finite s-from s-to same-section section-zero sound-if spot-nan
strip-small strip-width t-size term-small text-short three-other under-no w-plus w-real wants-long x-finite x-is x-real x-size y-finite y-is y-real y-size
z-finite z-size'''.split()
TABLE.update({n: n.replace('-', '_') for n in FIELDS})
TABLE.update({n: 'of_' + n.replace('-', '_') for n in 'borders-list inner-height inner-t lane-named lane-surface length-ok outer-height outer-t samples-list strip-height wants-held'.split()})
# names in the table that also are Rust functions or fields: after a dot and in clauses they are those
PLAIN = {n for n in TABLE if re.fullmatch(r'[a-z_]+', n)}

RESERVED = set('data record deriving module where use mod pub package open as unfoldable abbrev axiom unfold unfolding ruleset mutual infix infixl infixr elim let in do Type coe fcoe tcoe hcom com search rw simp cc omega grind hlevel first_of assumption refl ground'.split())
TOKEN = re.compile(r"[^\s(){}\[\],;.:\"`|λ◌\\]+")
DEF = re.compile(r"(?m)^( *)((?:(?:pub|abbrev|unfoldable|axiom) +)*)([^\s(){}:=.,;\"]+(?: [^\s(){}:=.,;\"]+)*) :(?= |$)(.*)$")
COMMENT = re.compile(r"(?m)(?:^|(?<=\s))--(?=\s|$).*$")
TICKED = re.compile(r"`[^`\n]+`")
RT_COMMENT = re.compile(r"//.*$|\"(?:[^\"\\\n]|\\.)*\"", re.M)
CLAUSE = re.compile(r"\bghost use\b[^;]*;|\b(?:requires|ensures|invariant|decreases|ghost)\b[^{};]*\{")


def snake(name):
    s = re.sub(r"([a-z0-9])([A-Z])", r"\1_\2", name)
    s = re.sub(r"([A-Z])([A-Z][a-z])", r"\1_\2", s)
    return s.lower() if s != name else name


def is_camel(name):
    return re.match(r"[a-z]", name) is not None and re.search(r"[a-z0-9][A-Z]", name) is not None


def respell_camel(name):
    return '-'.join(snake(p) if is_camel(p) else p for p in name.split('-'))


def read(f):
    with open(f, encoding='utf-8', newline='') as h:
        return h.read()


def antt_files():
    return sorted(f for d in ('specs', 'proofs') for f in glob.glob(f'crates/*/{d}/**/*.antt', recursive=True))


def is_proof(f):
    return os.path.basename(f) == 'Proof.antt'


def code_of(text):
    return COMMENT.sub('', text)


class Def:
    def __init__(self, file, indent, words, type_):
        self.file, self.indent, self.words, self.type = file, indent, words, type_


def definitions(file, text):
    out = []
    for m in DEF.finditer(code_of(text)):
        names = m.group(3).split()
        if names[0] in RESERVED:
            continue
        for n in names:
            out.append((n, Def(file, len(m.group(1)), m.group(2).split(), m.group(4).strip())))
    return out


def goals_of(text):
    return {n for m in DEF.finditer(code_of(text)) for n in m.group(3).split() if re.match(r"\s*tie\.", code_of(text)[m.start(4):])}


def foreign_names(rattle):
    # what std and the logic define: known names, and never renamed
    names = set()
    for d in ('std*/specs', 'std*/proofs/lemmas', 'core/specs', 'core/proofs/lemmas', 'logic', 'antt/lib'):
        for top in glob.glob(os.path.join(rattle, d)):
            for f in glob.glob(os.path.join(top, '**/*.antt'), recursive=True):
                for n, d in definitions(f, read(f)):
                    names.add(n)
    return names


def imported_foreign(texts):
    # names that this tree imports from std or the logic
    names = set()
    for t in texts:
        for m in re.finditer(r"\buse ([^\s{]+?)\.\{([^}]*)\}", t):
            if m.group(1).startswith('Rattle.') and not re.match(r"Rattle\.(std|core|io|libc|os)\w*\.", m.group(1)):
                continue
            for n in re.split(r"[,\s]+", m.group(2)):
                names.add(n)
    return names


def rust_names():
    fns, rest = set(), set()
    for f in sorted(glob.glob('crates/*/src/**/*.rt', recursive=True)):
        t = re.sub(r"//.*", '', read(f))
        fns |= set(re.findall(r"\bfn (\w+)", t))
        rest |= set(re.findall(r"(?m)^\s*(?:pub(?:\([a-z]+\))? )?(\w+): ", t)) | set(re.findall(r"\b(?:const|static) (\w+)", t))
    return fns, rest


class Names:
    def __init__(self, rattle):
        self.notes = []
        self.kind = {}
        texts = {f: read(f) for f in antt_files()}
        rts = {f: read(f) for f in sorted(glob.glob('crates/*/**/*.rt', recursive=True))}
        self.texts, self.rts = texts, rts
        foreign = foreign_names(rattle)
        self.foreign = foreign
        imported = imported_foreign(list(texts.values()) + list(rts.values()))
        fns, rest = rust_names()
        self.fns, self.rest = fns, rest
        defs = collections.defaultdict(list)
        self.goals = {}
        for f, t in texts.items():
            self.goals[f] = goals_of(t) if is_proof(f) else set()
            for n, d in definitions(f, t):
                if n in self.goals[f]:
                    continue
                defs[n].append(d)
        self.defs = defs
        tokens = collections.Counter()
        for f, t in texts.items():
            tokens.update(TOKEN.findall(code_of(t)))
        self.tokens = tokens
        map_ = {}
        # 1: camel case, every token that stands in the tree and is not somebody else's
        for n in tokens:
            if n in imported:
                continue
            new = respell_camel(n)
            if new != n:
                map_[n] = new
        # 2: functions into Type
        for n, ds in defs.items():
            for d in ds:
                if re.match(r"[a-z]", n) and re.search(r"(^|→ )Type \d$", d.type):
                    if not d.type.startswith('tie.'):
                        self.notes.append(f'into Type: {n} in {d.file}')
        # 3: lemmas
        plain = {map_.get(n, n) for n in defs if '-' not in n}
        self.imported = imported
        known = plain | fns | rest | {n for n in foreign if '-' not in n}
        self.known = known
        self.own = plain | fns | rest
        for n, ds in sorted(defs.items()):
            if '-' not in n:
                continue
            if n in imported:
                continue
            cur = map_.get(n, n)
            spec = [d for d in ds if is_proof(d.file) and n == d.file.split('/')[-2].replace('_', '-') + '-spec']
            if spec:
                folders = {d.file.split('/')[-2] for d in spec}
                assert len(folders) == 1 and len(spec) == len(ds), (n, ds)
                map_[n] = folders.pop() + '_spec'
                self.kind[n] = 'proof of a function'
                continue
            new = self.joined(cur)
            if new != cur or cur != n:
                if new in plain or new in fns or new in rest:
                    self.notes.append(f'_lem: {n} -> {new}_lem')
                    new += '_lem'
                elif new in foreign:
                    self.notes.append(f'std has it, dashes kept: {n} -> {new}')
                    new = cur
            if new != n:
                map_[n] = new
                self.kind[n] = 'lemma'
        # a tree without camel case has been respelled already
        if any(is_camel(k) for k in map_):
            map_.update({k: v for k, v in TABLE.items() if k in tokens})
        self.map = {k: v for k, v in map_.items() if k != v}

    # the parts of a name joined where they are one name: as many as can be in names of this repository, then in others', the first ones first
    def joined(self, name):
        parts = name.split('-')
        best = {len(parts): ((0, 0), [])}
        for i in range(len(parts) - 1, -1, -1):
            for j in range(len(parts), i, -1):
                word = '_'.join(parts[i:j])
                own, known = (any(w in s for w in (word, word.rstrip("'") if j == len(parts) else word)) for s in (self.own, self.known))
                if j > i + 1 and not (known and all(parts[i:j])):
                    continue
                n = j - i if j > i + 1 else 0
                score = (best[j][0][0] + (n if own else 0), best[j][0][1] + n)
                if i not in best or score > best[i][0]:
                    best[i] = (score, [word] + best[j][1])
        return '-'.join(best[0][1])

    # one piece of antt text without comments
    def code(self, text, file):
        proof, goals = is_proof(file), self.goals.get(file, set())

        def one(m):
            n = m.group()
            new = self.map.get(n)
            if new is None or n in goals:
                return n
            if n in PLAIN and (not file.endswith('.antt') or m.string[m.start() - 1:m.start()] == '.'):
                return n
            if '-' in n and m.start() > 0 and m.string[m.start() - 1] == '.' and self.dotted(m.string, m.start(), file):
                return n
            return new
        return TOKEN.sub(one, text)

    # whether the name after a dot is one that Rattle makes
    def dotted(self, text, at, file):
        if is_proof(file):
            return True
        root = re.search(r"[^\s(){}\[\],;\"`|]*$", text[:at]).group()
        return re.match(r"(c|tie|at)\.", root) is not None

    def cited(self, text):
        return TICKED.sub(lambda m: TOKEN.sub(lambda k: self.map[k.group()] if k.group() in self.map and self.marked(k.group()) else k.group(), m.group()), text)

    def marked(self, n):
        return is_camel(n) or '-' in n

    def comment(self, text):
        text = self.cited(text)
        return TOKEN.sub(lambda k: self.map[k.group()] if k.group() in self.map and is_camel(k.group()) else k.group(), text)

    def antt(self, text, file):
        out, last = [], 0
        for m in COMMENT.finditer(text):
            out += [self.code(text[last:m.start()], file), self.comment(m.group())]
            last = m.end()
        return ''.join(out + [self.code(text[last:], file)])

    # the places of a .rt file that are clauses
    def spans(self, text):
        bare = RT_COMMENT.sub(lambda m: ' ' * len(m.group()), text)
        at, out = 0, []
        while True:
            m = CLAUSE.search(bare, at)
            if not m:
                return out
            at = m.end()
            if bare[at - 1] == '{':
                deep = 1
                while deep and at < len(bare):
                    deep += {'{': 1, '}': -1}.get(bare[at], 0)
                    at += 1
            out.append((m.start(), at))

    def rattle(self, text, file):
        out, last = [], 0
        for a, b in self.spans(text) + [(len(text), len(text))]:
            out += [self.rt_comments(text[last:a]), self.code(text[a:b], file)]
            last = b
        return ''.join(out)

    def rt_comments(self, text):
        return RT_COMMENT.sub(lambda m: self.comment(m.group()) if m.group().startswith('//') else m.group(), text)

    def edit(self, text, crate):
        file, out = None, []
        for line in text.splitlines(keepends=True):
            m = re.match(r"(file|old|new): ?", line)
            if m and m.group(1) == 'file':
                file = crate + '/' + line[m.end():].strip()
            elif m and file and file.endswith('.antt'):
                line = line[:m.end()] + self.antt(line[m.end():], file)
            elif m and file and file.endswith('.rt') and re.match(r"\s*(requires|ensures|ghost|invariant|decreases)\b", line[m.end():]):
                line = line[:m.end()] + self.code(line[m.end():], file)
            elif line.startswith('#'):
                line = self.cited(line)
            out.append(line)
        return ''.join(out)

    def all(self):
        for f, t in self.texts.items():
            yield f, t, self.antt(t, f)
        for f, t in self.rts.items():
            yield f, t, self.rattle(t, f)
        for f in sorted(glob.glob('crates/*/must-fail/**/*.edit', recursive=True)):
            t = read(f)
            yield f, t, self.edit(t, '/'.join(f.split('/')[:2]))
        for f in sorted(set(glob.glob('docs/**/*.md', recursive=True) + glob.glob('*.md') + glob.glob('tools/**/*.md', recursive=True) + glob.glob('crates/**/*.md', recursive=True))):
            t = read(f)
            yield f, t, self.cited(t)


def collisions(names):
    out = []
    back = collections.defaultdict(list)
    for k, v in names.map.items():
        back[v].append(k)
    for v, ks in sorted(back.items()):
        if len(ks) > 1:
            out.append(f'two become {v}: {" ".join(ks)}')
        if v in RESERVED:
            out.append(f'reserved: {v}')
        if v in names.defs and v not in names.map and v not in PLAIN:
            out.append(f'defined already: {ks} -> {v} in {[d.file for d in names.defs[v]][:3]}')
        if v in names.imported:
            out.append(f'std or the logic has: {ks} -> {v}')
    # one file that has the old name and the new one, the latter as no part of a path
    for f, t in list(names.texts.items()) + list(names.rts.items()):
        bare = code_of(t) if f.endswith('.antt') else ' '.join(t[a:b] for a, b in names.spans(t))
        have, paths = set(), set()
        for m in TOKEN.finditer(bare):
            after = m.start() > 0 and bare[m.start() - 1] == '.'
            (paths if after else have).add(m.group())
        for n in sorted(have & set(names.map)):
            if names.map[n] in have - PLAIN:
                out.append(f'both in {f}: {n} and {names.map[n]}')
            elif names.map[n] in paths:
                out.append(f'path has it, {f}: {n} and .{names.map[n]}')
        if f.endswith('.rt'):
            # parameters and constants of the Rust code that a clause sees
            rust = set(re.findall(r"\b(\w+): [&\[\w(]", t)) | set(re.findall(r"\bconst (\w+)", t)) 
            for n in sorted((have | paths) & set(names.map)):
                if names.map[n] in rust:
                    out.append(f'Rust parameter or field in {f}: {n} -> {names.map[n]}')
    return out


def main():
    a = argparse.ArgumentParser()
    a.add_argument('--rattle', default='/opt/rattle/rattle')
    a.add_argument('--map')
    a.add_argument('--dry', action='store_true')
    a.add_argument('--list', action='store_true')
    o = a.parse_args()
    names = Names(o.rattle)
    if o.map:
        with open(o.map, 'w', encoding='utf-8') as h:
            for k, v in sorted(names.map.items()):
                h.write(f'{k}\t{v}\n')
    if o.list:
        for n in names.notes + collisions(names):
            print(n)
    changed = 0
    for f, old, new in list(names.all()):
        if old != new:
            changed += 1
            if not o.dry:
                with open(f, 'w', encoding='utf-8', newline='') as h:
                    h.write(new)
    print(f'{len(names.map)} names, {changed} files')


if __name__ == '__main__':
    main()
