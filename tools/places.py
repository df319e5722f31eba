#!/usr/bin/env python3
"""places: where the source has a form that today's Rattle has a plainer one for, point by point (docs/DESIGN-PASS.md).

`python3 tools/places.py [POINT ..] [--list]` at the top counts the places in crates/*/src, crate by crate, and with --list
prints them. It goes by text: a place is one to look at, and one that stays has its reason beside it, in a line `// Kept: `, in its
function, at most sixteen lines above it, or at the head of its file. Those without are marked `no reason`. What stands together (5) has
no line of its own: the page lists it with the reasons.

1  fields that are a flag or a number beside a value, sets of numbers for kinds, states or refusals, enums of the shape of Option,
   and functions that answer or take such a number
2  functions whose bodies are the same but for names, types and numbers
3  `while` loops, and `for` loops over the numbers below one
4  casts by `as`, and functions that compare, convert or print by hand
5  parameters that stand together in three functions or more, and facts that three contracts or more ask for
6  a slice with a number beside it that counts in it, two arrays of one type in one function, a search by hand
7  a match or a chain of tests on a number that says which step to run, and loops that count turns
8  answers in proofs/, their lines, and clause names that say nothing
"""
import collections, itertools, pathlib, re, sys

ROOT = pathlib.Path('crates')
listed = '--list' in sys.argv
points = [a for a in sys.argv[1:] if a.isdigit()] or [str(n) for n in range(1, 9)]

# each source line with its file and number, without what a comment says
Line = collections.namedtuple('Line', 'crate path no text')
def source():
    for path in sorted(ROOT.glob('*/src/**/*.rt')):
        for no, raw in enumerate(path.read_text().splitlines(), 1):
            yield Line(path.parts[1], path, no, raw.split('//')[0].rstrip())

lines = list(source())
Function = collections.namedtuple('Function', 'crate path no name parameters result requires body')

# the functions, with their parameters, what they require and their bodies
def functions():
    found = []
    by_path = itertools.groupby(lines, lambda l: l.path)
    for path, group in by_path:
        group = list(group)
        i = 0
        while i < len(group):
            m = re.match(r'\s*(?:pub(?:\([a-z]+\))? )?(?:extern "C" )?fn (\w+)', group[i].text)
            if not m:
                i += 1
                continue
            start = i
            indent = len(group[i].text) - len(group[i].text.lstrip())
            head = []
            while i < len(group) and not re.match(r'\s{%d}\{$|.*\{$' % indent, group[i].text):
                head.append(group[i].text)
                i += 1
            if i < len(group) and not group[i].text.strip() == '{':
                head.append(group[i].text[:-1])
            body = []
            i += 1
            while i < len(group) and group[i].text != ' ' * indent + '}':
                body.append(group[i].text.strip())
                i += 1
            text = ' '.join(h.strip() for h in head)
            text = re.sub(r'<[^<>]*(<[^<>]*>[^<>]*)*>(?=\()', '', text, count=1)
            inside = re.search(r'fn \w+\((.*?)\)(?: ->| requires| ensures|$)', text)
            parameters = [p.strip() for p in re.split(r',(?![^<\[]*[>\]])', inside.group(1)) if p.strip()] if inside else []
            result = re.search(r'\) -> (.*?)(?: requires| ensures|$)', text)
            requires = re.findall(r'requires(?: \w+)? \{ (.*?) \}(?= requires| ensures|$)', text)
            found.append(Function(group[start].crate, path, group[start].no, m.group(1), parameters,
                                  result.group(1).strip() if result else '', requires, [b for b in body if b]))
            i += 1
    return found

fns = functions()
FLAGS = r'(ok|known|lacks|number|kind|last_kind|source|phase|flag|take_set)'
KINDS = r'(ACCEPTED|BOOK_ILL_FORMED|ARGUMENT_OUT_OF_RANGE|QUALITY_REFUSED|METER_UNKNOWN|ISSUE_NOT_ABOVE|CAPACITY_REACHED|VOLUMES_SHORT|TAKE_UNSET|' \
        r'SHAPE_OF_DEFAULT_MISSING|WEIGHTED_BELOW_ONE|TOLERANCE_EXCEEDED|TOTALS_SHORT|LIST_MISSHAPEN|KIND_\w+|ACTUAL|ESTIMATED|DEFAULTED|IDLE|' \
        r'DE_ENERGISED|ENERGISED|READING|INPUT_ENDED|STOPPED|TOLERANCE|TAKE_FLAG_\w+|QUALITY_(?!MAX)\w+)'

raw = {path: path.read_text().splitlines() for path in {l.path for l in lines}}

# Whether a reason stands beside the line `no` of a file: above it, further down in the function that begins there, or at the file's head.
def has_reason(path, no):
    text = raw[path]
    first = max(0, no - 17)
    last = no
    if re.match(r'\s*(pub(\([a-z]+\))? )?(extern "C" )?fn ', text[no - 1]):
        indent = len(text[no - 1]) - len(text[no - 1].lstrip())
        while last < len(text) and text[last - 1] != ' ' * indent + '}':
            last += 1
    return any('// Kept: ' in l for l in text[:4] + text[first:last])

def at(line, what=None):
    return line.crate, '%s:%d: %s' % (line.path, line.no, what or line.text.strip())

def here(f, what):
    return f.crate, '%s:%d: %s' % (f.path, f.no, what)

def point_1():
    for l in lines:
        if re.match(r'\s+pub %s: (bool|u64|u32),' % FLAGS, l.text) or re.match(r'\s*(pub )?const %s: u(64|32) =' % KINDS, l.text):
            yield at(l)
        if re.match(r'(pub )?enum (Line|Option\w*|Maybe\w*|Outcome)\b', l.text):
            yield at(l)
    for f in fns:
        if any(re.match(r'(%s|cause): (bool|u64|u32)$' % FLAGS, p) for p in f.parameters):
            yield here(f, 'fn %s takes such a number' % f.name)
        elif f.result in ('u64', 'u32') and re.search(r'(kind|cause|source|number)', f.name):
            yield here(f, 'fn %s answers such a number' % f.name)

WORD = re.compile(r'\b(?!return\b|if\b|else\b|let\b|mut\b|while\b|for\b|in\b|match\b)[A-Za-z_][A-Za-z_0-9]*\b|\b\d[\d_]*\b')

def point_2():
    shapes = collections.defaultdict(list)
    for f in fns:
        if f.name == 'main' or not f.body:
            if f.name == 'main':
                shapes['main'].append(f)
            continue
        seen = {}
        names = lambda m: seen.setdefault(m.group(0), 'v%d' % len(seen))
        shape = '\n'.join(WORD.sub(names, b) for b in f.body)
        if len(f.body) > 1 or len(seen) > 3:
            shapes[shape].append(f)
    for group in shapes.values():
        if len(group) > 1:
            for f in group:
                yield here(f, 'fn %s, as %s' % (f.name, ', '.join(sorted({g.name for g in group} - {f.name})) or 'its likes'))

def point_3():
    for l in lines:
        if re.search(r"^\s*('\w+: )?(while |for \w+ in 0\.\.(?!u64::MAX|TURNS))", l.text):
            yield at(l)

HAND = r'(wide|signed|signed_of|magnitude|is_digit|is_minus|digit_byte|put|put_all|put_digits|put_number|put_signed|starts_with|fill|hold|move_up|fresh_state|unpack)'

def point_4():
    for l in lines:
        for m in re.finditer(r'\bas (u64|i64|usize|u32|i32|u8)\b', l.text):
            yield at(l)
    for f in fns:
        if re.fullmatch(HAND, f.name):
            yield here(f, 'fn %s' % f.name)

def named(p):
    return p.split(':')[0].strip()

def point_5():
    together = collections.Counter()
    for f in fns:
        names = sorted({named(p) for p in f.parameters} - {'self', '&self', '&mut self'})
        for pair in itertools.combinations(names, 2):
            together[pair] += 1
    for (a, b), n in sorted(together.items()):
        if n > 2:
            yield '-', '%s and %s stand together in %d functions' % (a, b, n)
    facts = collections.Counter()
    for f in fns:
        for r in set(re.sub(r'\.(old|now|new)\b', '', r) for r in f.requires):
            facts[re.sub(r'\b\d+\b', 'N', r)] += 1
    for fact, n in sorted(facts.items()):
        if n > 2:
            yield '-', 'asked for in %d contracts: %s' % (n, fact)

COUNTS = {'n', 'used', 'count', 'length', 'first', 'later', 'from', 'left', 'meters', 'near'}

def point_6():
    for f in fns:
        slices = [p for p in f.parameters if re.search(r'\[(u64|i64|u8|u32)\]$', p)]
        counts = [p for p in f.parameters if named(p) in COUNTS and p.endswith('usize')]
        if slices and counts:
            yield here(f, 'fn %s takes %s with %s' % (f.name, ', '.join(map(named, slices)), ', '.join(map(named, counts))))
        arrays = collections.Counter(re.sub(r'&(mut )?', '', p.split(':')[1].strip()) for p in f.parameters if re.search(r'\[\w+; \w+\]$', p))
        for kind, n in arrays.items():
            if n > 1:
                yield here(f, 'fn %s takes %d arrays %s' % (f.name, n, kind))
        if f.name in ('lower_bound', 'find_key'):
            yield here(f, 'fn %s searches by hand' % f.name)
    for l in lines:
        if re.match(r'\s+pub (length|used): usize,', l.text):
            yield at(l)

def point_7():
    for l in lines:
        if re.match(r'\s*[0-9]+ => ', l.text) or re.search(r'if (kind|\(?kind) == ', l.text) or re.search(r'for _ in 0\.\.', l.text):
            yield at(l)

def point_8():
    for path in sorted(ROOT.glob('*/proofs/**/Answers.antt')):
        crate = path.parts[1]
        for no, text in enumerate(path.read_text().splitlines(), 1):
            if re.match(r'pub \S+ : goal\.', text):
                yield crate, '%s:%d: %s' % (path, no, text)
    for l in lines:
        if re.search(r'\bfact_\d', l.text):
            yield at(l)

for point in points:
    found = list(globals()['point_' + point]())
    crates = collections.Counter(c for c, _ in found)
    placed = [(what, re.match(r'(crates/\S+?\.rt):(\d+): ', what)) for _, what in found]
    without = {what for what, m in placed if m and not has_reason(pathlib.Path(m.group(1)), int(m.group(2)))}
    unexplained = ', no reason %d' % len(without) if any(m for _, m in placed) else ''
    print('%s: %d%s  %s' % (point, len(found), unexplained, ', '.join('%s %d' % (c, n) for c, n in crates.items() if c != '-')))
    if listed:
        for _, what in found:
            print('   ' + what + ('  (no reason)' if what in without else ''))
