#!/usr/bin/env python3
# Brings must-fail edits of the landed repository to today's text, each with the change that it made there.
#   tools/port_edits.py lay LANDED OUT      a copy of LANDED in OUT, a git repository: each file that an edit changes stands there once more for that edit, as the edit leaves it
#   (cd OUT && python3 /opt/rattle/port/port.py)   the toolchain's script turns the files and their edited copies alike
#   tools/port_edits.py write LANDED OUT PORTED     PORTED: LANDED as port.py left it, with nothing laid; tools/port_names.py's names are read there
# `write` runs at the top of this repository: names are turned as port_names.py turned them, what the edit changes is the lines that differ between a file and its copy, and those are looked for in the file of today.
# Texts of the edit that stand as they were are kept; else the new text is the turned one, in a window as wide as the landed edit's. A line `left:` names what is to be done by hand, and that edit is left alone.
import difflib, glob, json, os, re, shutil, subprocess, sys

LAID = 'laid.json'
TOKEN = re.compile(r"\s+|\w+|[^\w\s]")


def read(f):
    with open(f, encoding='utf-8', newline='') as h:
        return h.read()


def write(f, t):
    with open(f, 'w', encoding='utf-8', newline='') as h:
        h.write(t)


def edits(root):
    return sorted(os.path.relpath(e, root) for e in glob.glob(root + '/crates/*/must-fail/**/*.edit', recursive=True))


# pairs [file, old, new] of an edit's text
def pairs_of(text, crate):
    file, out = None, []
    for line in text.splitlines():
        word, _, rest = line.partition(' ')
        if word == 'file:':
            file = f'crates/{crate}/{rest}'
        elif word == 'old:':
            out.append([file, rest, None])
        elif word == 'new:':
            out[-1][2] = rest
    return out


# {file: text after the edit}, or why not
def applied(pairs, text_of):
    texts = {}
    for f, old, new in pairs:
        t = texts[f] if f in texts else text_of(f)
        if t is None:
            return f'no file {f}'
        if t.count(old) != 1:
            return f'{t.count(old)} times in {f}: {old}'
        texts[f] = t.replace(old, new)
    return texts


def lay(landed, out):
    shutil.copytree(landed, out, ignore=shutil.ignore_patterns('.git', 'out', 'target'))
    laid = {}
    for e in edits(landed):
        crate = e.split('/')[1]
        for f, t in applied(pairs_of(read(f'{landed}/{e}'), crate), lambda f: read(f'{landed}/{f}')).items():
            n = len(laid) + 1
            q = os.path.dirname(f) + (f'/zz{n:04}.rt' if f.endswith('.rt') else f'/Zz{n:04}.antt')
            write(f'{out}/{q}', t)
            laid[q] = [e, f]
    write(f'{out}/{LAID}', json.dumps(laid, indent=0))
    for words in (['init', '-q', '.'], ['add', '-A'], ['-c', 'user.name=x', '-c', 'user.email=x@x', 'commit', '-qm', 'laid']):
        subprocess.run(['git', *words], cwd=out, check=True)
    print(len(laid), 'files laid')


def tokens(t):
    return [(m.group(), m.start(), m.end()) for m in TOKEN.finditer(t)]


# a text without what `rt fmt` changes
def flat(t):
    return re.sub(r",(?=[)\]}])", '', re.sub(r"\s+", '', t))


# the lines that differ, as [(first, old lines, new lines)]
def hunks(a, b):
    a, b = a.splitlines(), b.splitlines()
    return [(i, a[i:j], b[k:l]) for tag, i, j, k, l in difflib.SequenceMatcher(None, a, b, autojunk=False).get_opcodes() if tag != 'equal']


# the place in today's lines where a hunk's old lines stand: by the lines about it where they stand more than once
def place(today, old, turned, at):
    found = [i for i in range(len(today) - len(old) + 1) if today[i:i + len(old)] == old]
    if len(found) > 1:
        def near(i):
            n = 0
            for k in range(1, 400):
                if at - k < 0 or i - k < 0 or turned[at - k] != today[i - k]:
                    break
                n += 1
            return n
        found.sort(key=near)
        if near(found[-1]) == near(found[-2]):
            return None
    return found[-1] if found else None


def cut_end(ta, hi):
    return ta[hi - 1][2]


# a window of the line `a`, at least the tokens that become `b`, as wide as `like` in `landed`, that stands once in text
def window(a, b, text, landed, like):
    ta, tb = tokens(a), tokens(b)
    n = min(len(ta), len(tb))
    p = next((i for i in range(n) if ta[i][0] != tb[i][0]), n)
    s = next((i for i in range(n - p) if ta[-1 - i][0] != tb[-1 - i][0]), n - p)
    lo, hi = p, len(ta) - s
    if like is not None:
        at = landed.index(like)
        tl = tokens(landed)
        m = difflib.SequenceMatcher(None, [x[0] for x in tl], [x[0] for x in ta], autojunk=False)
        where = {i + k: j + k for i, j, size in m.get_matching_blocks() for k in range(size)}
        inside = [i for i, x in enumerate(tl) if x[2] > at and x[1] < at + len(like)]
        if inside:
            first = next((where[i] for i in range(inside[0], -1, -1) if i in where), 0)
            last = next((where[i] for i in range(inside[-1], len(tl)) if i in where), len(ta) - 1)
            lo, hi = min(lo, first), max(hi, last + 1)
    if lo == hi:
        lo, hi = max(0, lo - 1), min(len(ta), hi + 1)

    def cut():
        x, y = ta[lo][1], ta[hi - 1][2]
        return a[x:y], b[x:len(b) - (len(a) - y)]

    def wide(end):
        return all(re.match(r"\w", ta[i][0]) or not 0 < i < len(ta) - 1 for i in end)
    while text.count(cut()[0]) != 1 or like is None and not wide((lo, hi - 1)):
        if lo == 0 and hi == len(ta):
            return None
        if like is not None or text.count(cut()[0]) != 1 or not wide((lo,)):
            lo = max(0, lo - 1)
        if like is not None or text.count(cut()[0]) != 1 or not wide((hi - 1,)):
            hi = min(len(ta), hi + 1)
    # no blanks at the ends that the landed text has not
    if like and lo < p and ta[lo][0].isspace() and not like[0].isspace() and text.count(a[ta[lo][2]:cut_end(ta, hi)]) == 1:
        lo += 1
    if like and hi > len(ta) - s and ta[hi - 1][0].isspace() and not like[-1].isspace() and text.count(a[ta[lo][1]:cut_end(ta, hi - 1)]) == 1:
        hi -= 1
    return cut()


class Port:
    def __init__(self, landed, out, ported):
        self.landed, self.out = os.path.abspath(landed), os.path.abspath(out)
        here = os.getcwd()
        sys.path.insert(0, os.path.join(here, 'tools'))
        import port_names
        os.chdir(ported)
        self.names = port_names.Names('/opt/rattle/rattle')
        os.chdir(here)
        self.copies = {}
        for q, (e, f) in json.loads(read(f'{out}/{LAID}')).items():
            self.copies.setdefault(e, {})[f] = q
        self.said = []

    def turned(self, path, file):
        t = read(f'{self.out}/{path}')
        return self.names.rattle(t, file) if file.endswith('.rt') else self.names.antt(t, file)

    def today(self, f):
        return read(f) if os.path.exists(f) else None

    # the pairs of today for an edit, and what the files have then
    def one(self, e):
        crate = e.split('/')[1]
        landed = pairs_of(read(f'{self.landed}/{e}'), crate)
        want, changes = {}, []
        for f in dict.fromkeys(p[0] for p in landed):
            a, b = self.turned(f, f), self.turned(self.copies[e][f], f)
            text = self.today(f)
            if text is None:
                return None, None, f'no file {f}'
            lines = text.splitlines()
            found = []
            for at, old, new in hunks(a, b):
                i = place(lines, old, a.splitlines(), at) if old else None
                if i is None:
                    return None, None, f'{f}: no place for {old} -> {new}'
                found.append((i, old, new))
            now = list(lines)
            for i, old, new in sorted(found, reverse=True):
                now[i:i + len(old)] = new
            want[f] = '\n'.join(now) + '\n'
            changes.append((f, text, found))
        for kind, pairs in (('kept', landed), ('names', pairs_of(read(e), crate))):
            got = applied(pairs, self.today)
            if isinstance(got, dict) and {f: flat(t) for f, t in got.items()} == {f: flat(t) for f, t in want.items()}:
                return pairs, kind, None
        pairs = []
        for f, text, found in changes:
            before = read(f'{self.landed}/{f}').splitlines()
            like = [p for p in landed if p[0] == f]
            for i, old, new in sorted(found):
                if len(old) != len(new):
                    return None, None, f'{f}: {len(old)} lines become {len(new)}: {old} -> {new}'
                for a, b in zip(old, new):
                    if a == b:
                        continue
                    near = None if re.match(r"(ghost )?use ", a) else self.like(a, like, before)
                    cut = window(a, b, text, *(near or (None, None)))
                    if cut is None:
                        return None, None, f'{f}: stands more than once: {a}'
                    pairs.append([f, *cut])
                    text = text.replace(*cut)
        got = applied(pairs, self.today)
        if not isinstance(got, dict) or {f: flat(t) for f, t in got.items()} != {f: flat(t) for f, t in want.items()}:
            return None, None, f'turned texts give another file: {got if not isinstance(got, dict) else ""}'
        return pairs, 'turned', None

    # the landed pair whose line is nearest to `a`, as (landed line, old text)
    def like(self, a, pairs, lines):
        best = None
        for f, old, new in pairs:
            for l in lines:
                if old in l:
                    r = difflib.SequenceMatcher(None, [x[0] for x in tokens(l)], [x[0] for x in tokens(a)], autojunk=False).ratio()
                    if best is None or r > best[0]:
                        best = (r, l, old)
        return best[1:] if best and best[0] > 0.3 else None

    def write(self):
        kinds = {}
        for e in edits(self.landed):
            pairs, kind, why = self.one(e)
            kinds[kind] = kinds.get(kind, 0) + 1
            if pairs is None:
                print(f'left: {e}: {why}')
                continue
            out, file, crate = [], None, e.split('/')[1]
            out += [l for l in read(e).splitlines() if l.split(' ')[0] not in ('file:', 'old:', 'new:')]
            for f, old, new in pairs:
                if f != file:
                    out.append('file: ' + f.split('/', 2)[2])
                    file = f
                out += ['old: ' + old, 'new: ' + new]
            write(e, '\n'.join(out) + '\n')
        print(kinds)


if __name__ == '__main__':
    if len(sys.argv) == 4 and sys.argv[1] == 'lay':
        lay(*sys.argv[2:])
    elif len(sys.argv) == 5 and sys.argv[1] == 'write':
        Port(*sys.argv[2:]).write()
    else:
        sys.exit('usage: see the head of this file')
