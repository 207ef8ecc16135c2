# Counts, in src/ of every crate, the places that docs/DESIGN-PASS.md is about. The page says what each line means.
import glob, re, sys

root = sys.argv[1] if len(sys.argv) > 1 else '.'
show = len(sys.argv) > 2
files = sorted(glob.glob(root + '/crates/*/src/*.rt'))
text = {f: open(f).read() for f in files}
# without comments
code = {f: re.sub(r'//[^\n]*', '', t) for f, t in text.items()}
short = lambda f: f.split('crates/')[1]

def every(pattern, flags=re.M):
    return [(short(f), m.group(0).strip().replace('\n', ' ')[:110]) for f, t in code.items() for m in re.finditer(pattern, t, flags)]

def enums():
    for f, t in code.items():
        for m in re.finditer(r'(?:pub )?enum (\w+)(?:<[^>]*>)? \{(.*?)\n\}', t, re.S):
            body = re.sub(r'\([^)]*\)|\{[^}]*\}', lambda p: '*', m.group(2))
            arms = [a.strip() for a in body.split(',') if a.strip()]
            yield short(f), m.group(1), [a.endswith('*') for a in arms]

def shaped():
    # one case that carries the value and others that carry nothing, or two that carry
    return [(f, n) for f, n, arms in enums() if arms.count(True) >= 1 and (arms.count(False) >= 1 or len(arms) == 2)]

def parameters(*wanted):
    out = []
    for f, t in code.items():
        for m in re.finditer(r'fn (\w+)(?:<[^>]*>)?\((.*?)\)(?: ->|\n| \{)', t, re.S):
            names = re.findall(r'(\w+):', m.group(2))
            if all(w in names for w in wanted):
                out.append((short(f), m.group(1)))
    return out

points = [
    ('1 enums of the shape of Option or Result', shaped()),
    ('1 numbers for kinds, sorts, forms, keywords, refusals', [p for p in every(r'^(?:pub )?const [A-Z_]+: (?:u32|u64|usize) = [0-9a-fx]+;') if p[0] in ('words/src/kind.rt', 'words/src/sort.rt', 'words/src/form.rt', 'words/src/key.rt', 'plan_line/src/word.rt', 'values/src/refusal.rt') or (p[0] == 'context/src/op.rt' and ': u32' in p[1]) or (p[0] == 'values/src/pair.rt')]),
    ('2 functions whose names differ in a digit or a type', [p for p in every(r'fn (?:put_row|put_named|put_end)\d|fn (?:wide|sheet_end|put_pair_\w+|write_pair\w*|values_of\w*|error_\w+|at_line|in_tree|in_side|side_values)\(')]),
    ('3 loops `while`', every(r'^\s*while .*\{$')),
    ('3 of them with a count', every(r'^\s*while (?:\w+ (?:!= 0|> 0|< \w+(?:\.len\(\))?|> [A-Z_]+)|let .*) (?:&& .*)?\{$')),
    ('4 conversions by `as`', every(r'\bas (?:u8|u32|u64|usize|i64)\b')),
    ('5 functions with the parameters a and b', parameters('a', 'b')),
    ('5 functions with ops and rest', parameters('ops', 'rest')),
    ('5 functions with four work slices', parameters('a', 'b', 'c', 'd')),
    ('5 functions with la and lb', parameters('la', 'lb')),
    ('5 clauses with Roomy', every(r'\bRoomy\b[^\n]*')),
    ('5 clauses with Fed or InLine', [p for p in every(r'^.*\b(?:Fed|InLine)\b.*$') if 'ghost use' not in p[1]]),
    ('6 a slice with a cursor beside it', parameters('plan', 'out') + parameters('page', 'out')),
    ('7 parameters that are functions', every(r'\b(?:impl )?Fn(?:Mut|Once)?\(')),
]
for name, found in points:
    print('%4d  %s' % (len(found), name))
    if show:
        for p in found:
            print('        ', ' '.join(p))
