# Lists what changed between two commits' contracts, old beside new, as tables for docs/DESIGN-PASS.md: every public type and function of src/, every
# definition and every statement of a law in specs/ whose words differ. Words that are the same in both stand as `..`.
# Usage: python3 tools/old_new.py COMMIT > FILE, in the repository. It reads files with the kit's own reader of contracts.
import difflib, os, re, subprocess, sys, tempfile

sys.path.insert(0, '/opt/rattle/port')
import contracts

KEEP = 2          # so many words stay on each side of a place that differs
PLAIN = 420       # a text that is new or gone is shown up to so many letters

def squeeze(t):
    return re.sub(r'\s+', ' ', t).strip()

def closing(t, i):
    deep = 0
    for k in range(i, len(t)):
        deep += (t[k] == '{') - (t[k] == '}')
        if deep == 0:
            return k + 1
    return len(t)

def uncommented(t):
    return re.sub(r'//[^\n]*', '', t)

def types(raw):
    t = uncommented(raw)
    for m in re.finditer(r'^pub (struct|enum|type) (\w+)', t, re.M):
        if m[1] == 'type':
            yield m[2], squeeze(t[m.start():t.find(';', m.end())])
            continue
        j = t.find('{', m.end())
        s = squeeze(t[m.start():closing(t, j)])
        yield m[2], re.sub(r'\bpub ', '', s).replace(', }', ' }')

def crates(root):
    top = root + '/crates'
    out = {}
    for c in sorted(os.listdir(top)):
        base = '%s/%s' % (top, c)
        if not os.path.isdir(base + '/src'):
            continue
        items = {}
        for folder, dirs, names in os.walk(base + '/src'):
            for f in sorted(names):
                if not f.endswith('.rt'):
                    continue
                raw = open('%s/%s' % (folder, f)).read()
                mod = '' if f in ('lib.rt', 'main.rt') else f[:-3] + '::'
                for name, text in types(raw):
                    items['type `%s%s`' % (mod, name)] = text
                found, ghosts = contracts.collections.defaultdict(list), contracts.collections.defaultdict(list)
                contracts.functions(f, c, raw, found, ghosts)
                for (_, _, place, name), fs in found.items():
                    for x in fs:
                        if not x['pub'] or x['test'] or x['in tests']:
                            continue
                        of = re.sub(r"<.*", '', place.split('.')[-1]) if place else ''
                        key = 'fn `%s%s%s`' % (mod, of + '::' if of else '', name)
                        say = lambda cs: ' '.join('%s%s { %s }' % (k, (' ' + n) if n else '', b) for k, n, b in cs)
                        items[key] = squeeze('%s%s %s %s' % (name, x['sign'], say(x['requires']), say(x['ensures'])))
                for (_, place, name), texts in ghosts.items():
                    if place not in ('const',) and ' for ' in place:
                        items['ghost of `%s%s`: %s' % (mod, place, name)] = ' ; '.join(texts)
        for folder, dirs, names in os.walk(base + '/specs'):
            for f in sorted(names):
                if not f.endswith('.antt'):
                    continue
                for name, texts in contracts.definitions(open('%s/%s' % (folder, f)).read()).items():
                    items['`%s.%s`' % (f[:-5], name)] = ' ; '.join(said(name, t) for t in texts)
        out[c] = items
    return out

# What a definition says: its whole text; of a law its statement alone, since its proof may be another.
def said(name, t):
    t = squeeze(t)
    if re.match(r'(?:pub )?(?:record|data)\b|(?:abbrev|unfoldable)\b', t):
        return re.sub(r'^(?:abbrev|unfoldable|pub|opaque| )+', '', t)
    m = re.match(r'(?:pub |opaque )*%s\s*(.*?)(?: unfolding .*?)? %s\b[^:]*?=' % (re.escape(name), re.escape(name)), t)
    head = t if not m else squeeze(name + ' ' + m[1])
    last = re.split(r'→', head)[-1].strip()
    if re.match(r'(ℕ|ℤ|Bool|Bytes|List|Option|Type|Sort|Form|Op|Mem|Due|Tables|\()', last) and not re.search(r'[≡≤<×]', last):
        return re.sub(r'^(?:pub|opaque| )+', '', t)
    return re.sub(r'^(?:pub|opaque| )+', '', head)

# The definitions' options were mathlib's at the first commit and are Rust's own now: their two names stand for the same.
def words(t):
    t = re.sub(r'(?<![\w.])(none|some)(?![\w])', lambda m: m[1].capitalize(), t)
    return re.findall(r"[^\s(){},;]+|[(){},;]", t)

def joined(ws):
    s = ' '.join(ws)
    s = re.sub(r'\( ', '(', s)
    return re.sub(r' ([),;])', r'\1', s)

# Two texts with what is the same in both left out.
def both(a, b):
    x, y = words(a), words(b)
    p, q = [], []
    for op, i1, i2, j1, j2 in difflib.SequenceMatcher(None, x, y, autojunk=False).get_opcodes():
        if op == 'equal':
            n = i2 - i1
            left = KEEP if i1 > 0 else 1
            right = KEEP if i2 < len(x) or j2 < len(y) else 0
            if n <= left + right + 1:
                p += x[i1:i2]; q += x[i1:i2]
            else:
                cut = x[i1:i1 + left] + ['..'] + (x[i2 - right:i2] if right else [])
                p += cut; q += cut
        else:
            p += x[i1:i2]; q += y[j1:j2]
    return joined(p), joined(q)

def cell(t):
    return '`%s`' % t.replace('|', '\\|') if t else ''

def short(t):
    return t if len(t) <= PLAIN else t[:PLAIN] + ' ..'

def main(commit):
    old = tempfile.mkdtemp()
    subprocess.run('git archive %s crates | tar -x -C %s' % (commit, old), shell=True, check=True)
    a, b = crates(old), crates('.')
    for c in [c for c in order() if c in b or c in a] + [c for c in a if c not in b]:
        x, y = a.get(c, {}), b.get(c, {})
        rows = []
        for k in list(x) + [k for k in y if k not in x]:
            if k in x and k in y:
                if words(x[k]) != words(y[k]):
                    rows.append((k, *both(x[k], y[k])))
            elif k in x:
                rows.append((k, short(x[k]), None))
            else:
                rows.append((k, None, short(y[k])))
        if rows:
            print('#### %s\n\n| what | old | new |\n|---|---|---|' % c)
            for k, o, n in rows:
                print('| %s | %s | %s |' % (k, cell(o) if o is not None else 'new', cell(n) if n is not None else 'gone'))
            print()

def order():
    return [l.split(':')[0].split()[0] for l in open('crates.txt') if l.strip() and not l.startswith('#')]

main(sys.argv[1])
