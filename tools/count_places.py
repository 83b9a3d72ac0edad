#!/usr/bin/env python3
"""Prints a line for each place: point<TAB>file:line<TAB>what. Run at the top of the repository; a tool of a past landing.

    tools/count_places.py [--sum] [--second] [POINT ..]

With --sum: per point and crate. With --second: another way of counting points 1 to 3.
Reads only crates/*/src/*.rt. With a POINT as 1 or 1a: only that point or that part of it.
"""
import glob, re, sys
from collections import defaultdict, OrderedDict

sys.dont_write_bytecode = True

from command_line import Misuse, Trouble, put, run

# the points and their parts
POINTS = '1a 1b 1c 1d 1e 1u 2 3a 3b 4a 4b 4c 4d 4e 5a 5b 6a 6b 6c 6d 6e 7a 7b 7c 7d'.split()
FILES = sorted(glob.glob('crates/*/src/*.rt'))
TEXT = {f: open(f, encoding='utf-8').read() for f in FILES}
LINES = {f: TEXT[f].split('\n') for f in FILES}
places = []  # (point, file, line, what)


def crate(f):
    return f.split('/')[1]


def add(point, f, line, what):
    places.append((point, f, line, what))


class Fn:
    pass


def parse():
    fns, structs = [], []
    for f in FILES:
        ls = LINES[f]
        owner = ''
        i = 0
        while i < len(ls):
            l = ls[i]
            m = re.match(r'impl(?:<[^>]*>)? (\w+)', l)
            if m:
                owner = m.group(1)
            if l == '}':
                owner = ''
            m = re.match(r'\s*(?:pub )?struct (\w+) ?(\{|;)', l)
            if m:
                fields = OrderedDict()
                j = i + 1
                if m.group(2) == '{':
                    while not re.match(r'\s*\}', ls[j]):
                        g = re.match(r'\s*(?:pub )?(\w+): (.+),$', ls[j])
                        if g:
                            fields[g.group(1)] = (g.group(2), j + 1)
                        j += 1
                up = []
                k = i - 1
                while k >= 0 and re.match(r'\s*#\[', ls[k]):
                    up.append(ls[k].strip())
                    k -= 1
                structs.append((m.group(1), f, i + 1, fields, up))
            m = re.match(r'(\s*)(?:pub )?(?:extern "C" )?fn (\w+)', l)
            if m and not l.strip().startswith('//'):
                fn = Fn()
                fn.file, fn.line, fn.name, fn.owner = f, i + 1, m.group(2), owner
                ind = m.group(1)
                fn.public = bool(re.match(r'\s*pub ', l))
                fn.exported = 'extern "C"' in l
                # comment above
                k = i - 1
                com = []
                while k >= 0 and (ls[k].strip().startswith('//') or ls[k].strip().startswith('#[')):
                    com.insert(0, ls[k].strip())
                    k -= 1
                fn.comment = ' '.join(com)
                # signature: until parentheses close
                j, depth, sig = i, 0, ''
                started = False
                while True:
                    for ch in ls[j]:
                        if ch == '(':
                            depth += 1
                            started = True
                        if ch == ')':
                            depth -= 1
                    sig += ls[j].strip() + ' '
                    if started and depth == 0:
                        break
                    j += 1
                fn.sig = sig
                p = sig[sig.index('('):]
                # match parens
                d = 0
                for q, ch in enumerate(p):
                    if ch == '(':
                        d += 1
                    if ch == ')':
                        d -= 1
                        if d == 0:
                            break
                inner, rest = p[1:q], p[q + 1:]
                fn.params = OrderedDict(
                    (a.replace('mut ', '').strip(), t.strip())
                    for a, t in re.findall(r'((?:mut )?\w+): ((?:[^,\[(<]|\[[^\]]*\]|\([^)]*\)|<[^>]*>)+)', inner))
                g = re.match(r'\s*-> (.+?)\s*(\{.*)?$', rest)
                fn.ret = g.group(1).strip() if g else ''
                # clauses, then body
                clauses = []
                k = j + 1
                if ls[j].rstrip().endswith('{') or ls[j].rstrip().endswith('{}'):
                    body_start = j + 1
                else:
                    cur = None
                    while k < len(ls) and ls[k] != ind + '{':
                        s = ls[k].strip()
                        if re.match(r'(requires|ensures)\b', s):
                            cur = s
                            clauses.append(cur)
                        elif clauses:
                            clauses[-1] += ' ' + s
                        k += 1
                    body_start = k + 1
                fn.clauses = clauses
                if ls[j].rstrip().endswith('{}'):
                    fn.body = []
                    fn.body_start = j + 1
                else:
                    k = body_start
                    body = []
                    while k < len(ls) and ls[k] != ind + '}':
                        body.append(ls[k])
                        k += 1
                    fn.body = body
                    fn.body_start = body_start + 1
                fns.append(fn)
                i = j
            i += 1
    return fns, structs


fns, structs = parse()
full = lambda fn: (fn.owner + '::' if fn.owner else '') + fn.name

# ---- 1 ----------------------------------------------------------------
for name, f, line, fields, up in structs:
    c = '#[repr(C)]' in ' '.join(up)
    if fields.get('number', ('',))[0] == 'u8':
        add('1a', f, line, f'struct {name}: number beside a value' + (' [repr(C)]' if c else ''))
    for flag in ('full', 'good', 'same'):
        if fields.get(flag, ('',))[0] == 'bool':
            add('1b', f, line, f'struct {name}: {flag}: bool beside a value')
    for n, (t, fl) in fields.items():
        if t == 'u8' and n in ('kind', 'previous'):
            add('1e', f, fl, f'field {name}.{n}: u8, a command by its byte')
SENT = ['last_of', 'term_position', 'first_with', 'first_short', 'find', 'digit', 'at_most', 'entry',
        'set_of', 'name_at', 'pair_of']
for fn in fns:
    if fn.ret == 'u8' and (fn.name.endswith('_refusal') or fn.name in ('refusal_at', 'first_of')):
        add('1c', fn.file, fn.line, f'fn {full(fn)} answers a refusal\'s number, 0 for none')
    if fn.name in SENT or (fn.name == 'choices' and 'refusal' in fn.params):
        add('1d', fn.file, fn.line, f'fn {full(fn)} answers a number that stands for none')
    ks = [p for p, t in fn.params.items() if t == 'u8' and p in ('kind', 'previous', 'command', 'letter')
          or p == 'byte' and t == 'u8' and crate(fn.file) == 'builder']
    if ks or fn.name.endswith('_kind'):
        add('1e', fn.file, fn.line, f'fn {full(fn)}: a kind or letter as u8 ({", ".join(ks) or "its answer"})')
for f in FILES:
    for i, l in enumerate(LINES[f], 1):
        if 'const NO_COST' in l:
            add('1d', f, i, 'const Found::NO_COST, a cost that stands for none')
        if re.search(r'\bif (placed|number|first_number|refusal|\w+\.number) != 0 \{', l):
            add('1u', f, i, 'use: the number is tried by hand, where `?` would stand')

# ---- 2 ----------------------------------------------------------------
FAM = [
    ('a unsigned number read', r'^u(8|16|32|64)_at$', 'wire'),
    ('b signed number read', r'^i(8|16|32|64)_at$', 'wire'),
    ('c number written', r'^put_[ui](8|16|32|64)$', 'wire'),
    ('d refused constructor', r'^refused$', None),
    ('f fresh record', r'^fresh$', None),
    ('g entry or 0', r'^(entry|set_of)$', 'scheme|certificate|conformance'),
    ('h choice_sets', r'^choice_sets$', None),
    ('i off_diagonal_term', r'^off_diagonal_term$', None),
    ('j put_diagonals/put_linears', r'^put_(diagonals|linears)$', None),
    ('k print_*', r'^print_(listing|supplier_listing|cheapest)$', None),
    ('l lines of a program', r'^(lines_of|supplier_lines|cheapest_lines)$', 'console'),
    ('m wide', r'^wide$', None),
    ('n smaller/larger', r'^(smaller|larger)$', None),
    ('o negative_of/positive_of', r'^(negative_of|positive_of|negative_part)$', None),
    ('p one or 0 of a test', r'^(one_where|one_unless_zero)$', None),
    ('q with_accepted/with_refused', r'^with_(accepted|refused)$', 'job'),
    ('r with_product/with_split', r'^with_(product|split)$', 'builder'),
    ('s stands_after of a part', r'^stands_after$', None),
    ('s command_size of a part', r'^command_size$', None),
    ('s refusal_at of a part', r'^refusal_at$', None),
    ('s end_refusal of a part', r'^end_refusal$', None),
    ('s reader of a part', r'^(read_register|read_scheme|read_with_sets)$', None),
    ('t run of bytes by itself', r'^(read_whole|check_whole)$', None),
    ('u listing calls', r'^feedcheck_(supplier_)?listing$', None),
    ('v rule constructors', r'^(null_form|row_form|subtracted)$', 'certificate'),
    ('w term where fed', r'^(term_cost|gained_by|lost_by|term_sum)$', None),
    ('x sum over terms', r'^(cost_of|sum_at)$', None),
    ('y number of a field', r'^of$', 'vectors'),
    ('y field compared', r'^(unsigned|signed)$', 'vectors'),
    ('A call in the words of specs', r'.*_call$', 'soundness'),
    ('z lent and length', r'^(lent|length)$', 'conformance'),
    ('z item or zeros', r'^(choice|term|window|row_number|product|split|number)$', 'conformance'),
    ('z items', r'^(choices|terms|windows|rows|products|splits|entries|numbers)$', 'conformance'),
    ('z agrees of a file', r'^agrees$', 'conformance'),
    ('z answers of a call', r'^answers$', 'conformance'),
    ('z main of feedcheck', r'^main$', 'feedcheck|feedcheck_long|supplier_view|cheapest'),
]
for fn in fns:
    for label, pat, cr in FAM:
        if re.match(pat, fn.name) and (cr is None or re.fullmatch(cr, crate(fn.file))):
            if label == 'z items' and fn.name == 'choices' and 'refusal' in fn.params:
                continue
            add('2', fn.file, fn.line, f'{label}: fn {full(fn)}' + (' [exported]' if fn.exported else ''))
for name, f, line, fields, up in structs:
    if name.endswith('Read'):
        add('2', f, line, f'e read record: struct {name}')
    if name.endswith('Answer'):
        add('2', f, line, f'e answer record [repr(C)]: struct {name}')
    if name == 'Seen':
        add('2', f, line, 's Seen of a part: struct Seen')
    if crate(f) == 'vectors' and name in ('Unsigned', 'Signed', 'Byte', 'Bytes'):
        add('2', f, line, f'y value with good: struct {name}')
for f in FILES:
    for i, l in enumerate(LINES[f], 1):
        if re.search(r'if position < \w+\.len\(\)', l) and not any(
                fn.file == f and fn.name in ('read_whole', 'check_whole') and fn.line < i < fn.body_start + len(fn.body)
                for fn in fns):
            add('2', f, i, 't what stands past a part: `if position < len` and refusal 12')
        if re.search(r'>> \w+\) % 2 == 1', l):
            add('2', f, i, 'w membership of a mask, written out')
        if re.search(r'\.choices \+ scheme\.products \+ 1', l):
            add('2', f, i, 'w the side, written out')

# ---- 3 ----------------------------------------------------------------
for fn in fns:
    for n, l in enumerate(fn.body):
        m = re.match(r"\s*(?:'\w+: )?while (.+) \{$", l)
        if not m:
            continue
        cond = m.group(1)
        v = re.match(r'(?:(\w+) <|(\d+) < )', cond)
        var = v.group(1) if v else None
        ind = len(l) - len(l.lstrip())
        k = n + 1
        counts = False
        while k < len(fn.body) and not (fn.body[k].startswith(' ' * ind + '}')):
            if var and fn.body[k] == ' ' * (ind + 4) + f'{var} += 1;':
                counts = True
            k += 1
        kind = '3a' if counts else '3b'
        lab = ' [labelled]' if "'" in l else ''
        add(kind, fn.file, fn.body_start + n, f'fn {full(fn)}: while {cond}{lab}')

# ---- 4 ----------------------------------------------------------------
HAND = {
    'magnitude': 'x.unsigned_abs()', 'signed': 'cast_signed, or from_le_bytes of the width',
    'unsigned': 'cast_unsigned', 'smaller': 'a.min(b)', 'larger': 'a.max(b)', 'wide': 'i64::from(x)',
    'last_of': 'n.saturating_sub(1)', 'is_same': '`==` of slices', 'raised': 'count.saturating_add(1)',
    'negative_of': 'c.min(0)', 'positive_of': 'c.max(0)', 'negative_part': 'x.min(0).unsigned_abs()',
    'ceil_div': 'division rounded up', 'is_proper_subset': 'a method of a mask type', 'pair_falls': '`<` of tuples',
    'entry': 'get(..).copied().unwrap_or(0)', 'set_of': 'get(..).copied().unwrap_or(0)',
    'one_where': 'usize::from(b)', 'one_unless_zero': 'usize::from(m != 0)', 'entry_where': 'if, or i32::from',
    'copy_front': 'copy_from_slice', 'clear': 'fill(0)', 'put_digits': 'Display', 'put_sign': 'Display',
    'put_integer': 'Display', 'digit': 'to_digit', 'bits': 'cast_unsigned', 'from_bits': 'cast_signed',
    'off_diagonal_term': 'x.abs()', 'moved': '`!=` by a derive', 'find': 'iter().position', 'is_none': '`==` of slices',
    'and_digit': 'str::parse', 'of_size': 'str::parse', 'square': 'pow', 'is_fed': 'a method of a mask type',
}
for fn in fns:
    if fn.name in HAND and not (fn.name in ('signed', 'unsigned') and crate(fn.file) == 'vectors'):
        if fn.name == 'entry' and crate(fn.file) != 'scheme':
            continue
        if fn.name == 'off_diagonal_term' and crate(fn.file) != 'bound':
            continue
        add('4a', fn.file, fn.line, f'fn {full(fn)}: {HAND[fn.name]}')
for f in FILES:
    for i, l in enumerate(LINES[f], 1):
        if re.match(r'\s+(\w+): \1,$', l):
            add('4b', f, i, f'field init `{l.strip()}`')
        m = re.match(r'\s+let (\w+) = ([\w.]+)\.\1;$', l)
        if m:
            add('4c', f, i, f'field copied out: `{l.strip()}`')
        for m in re.finditer(r'\bas ([iu](?:8|16|32|64|size))\b', l.split('//')[0]):
            if 'ghost use' not in l:
                add('4d', f, i, f'cast `as {m.group(1)}`')
for name, f, line, fields, up in structs:
    if fields and not re.search(r'PartialEq|Debug', ' '.join(up)):
        add('4e', f, line, f'struct {name}: no PartialEq, no Debug')
for f in FILES:
    for i, l in enumerate(LINES[f], 1):
        m = re.match(r'\s*pub enum (\w+)', l)
        if m:
            add('4e', f, i, f'enum {m.group(1)}: no PartialEq, no Debug')

# ---- 5 ----------------------------------------------------------------
SAME = [(r'\b(RegisterValid|ValidRegister) register\b', 'Valid(register)'), (r'^Valid register$', 'Valid(register)'),
        (r'\b(SchemeValid|Valid) register scheme\b', 'Valid(scheme of register)'), (r'\bReads register scheme bytes', 'Reads register scheme bytes'),
        (r'^Small n table$', 'Small n table'),
        (r'^Bounded side \w+ (t|table)$', 'Bounded side MAX table'),
        (r'^Products n scheme$', 'Products n scheme'), (r'^scheme.products ≤ max_products$', 'scheme.products ≤ max_products'),
        (r'^(n|choices|register.choices|seen.choices|read.register.choices) ≤ max_choices$', 'choices ≤ max_choices'),
        (r'^(rows|register.rows) ≤ max_rows$', 'rows ≤ max_rows'),
        (r'^side ≡ side_of (n|register.choices) scheme$', 'side ≡ side_of choices scheme'),
        (r'^(i|j|k|row|col) < (n|side)$', 'index < side'),
        (r'^EntriesWithin entries$', 'EntriesWithin entries'), (r'^Addable n scheme t$', 'Addable n scheme t'),
        (r'^(Ready|Lists) n work$', 'Ready n work'), (r'^(NAME) ≤ length (table|out|text)$', ''),
        (r'^(read.|answer.)?position < 2 \^ 63$', 'position < 2 ^ 63'),
        (r'^Within (read\.)?register$', 'Within register')]
facts = defaultdict(list)
for fn in fns:
    for cl in fn.clauses:
        if not cl.startswith('requires'):
            continue
        m = re.match(r'requires\s*\w*\s*\{ (.*) \}$', cl)
        if not m:
            continue
        body = m.group(1)
        parts = [body] if not re.search(r' × ', body) else [p.strip().strip('()') for p in body.split(' × ')]
        for p in parts:
            q = re.sub(r'\b(\w+)\.(now|old|new)\b', r'\1', p)
            for pat, to in SAME:
                if re.search(pat, q):
                    q = to
                    break
            if (full(fn), fn.file, fn.line) not in facts[q]:
                facts[q].append((full(fn), fn.file, fn.line))
for q, where in sorted(facts.items(), key=lambda x: -len(x[1])):
    if len(where) >= 3:
        for name, f, line in where:
            add('5a', f, line, f'fact `{q}` ({len(where)} functions): fn {name}')
GROUPS = [('table, side', {'table', 'side'}), ('table, n', {'table', 'n'}), ('register, scheme', {'register', 'scheme'}),
          ('register, scheme, table', {'register', 'scheme', 'table'}),
          ('out, at', {'out', 'at'}), ('out, start', {'out', 'start'}), ('bytes, at', {'bytes', 'at'}),
          ('tanks, froms, tos, passed, n', {'tanks', 'froms', 'tos', 'passed'}), ('lefts, rights, n', {'lefts', 'rights', 'n'}),
          ('totals, entries, rows', {'totals', 'entries'}), ('row_totals, row_entries, rows', {'row_totals', 'row_entries', 'rows'}),
          ('masks, coefficients, terms', {'masks', 'coefficients', 'terms'}), ('sets, amounts', {'sets', 'amounts'}),
          ('number, part, position', {'number', 'part', 'position'}), ('number, position', {'number', 'position'}),
          ('bound, cost, gap', {'bound', 'cost', 'gap'}), ('line, next or from', {'line'}), ('work, n', {'work', 'n'}),
          ('job, from', {'job', 'from'}), ('register, plan', {'register', 'plan'}), ('rt, group, name', {'rt', 'group', 'name'})]
for fn in fns:
    ps = set(fn.params)
    for label, need in GROUPS:
        if label == 'line, next or from':
            if not ('line' in ps and ('next' in ps or 'from' in ps or 'self' in fn.sig)):
                continue
        elif not need <= ps:
            continue
        if label == 'number, position' and {'number', 'part', 'position'} <= ps:
            continue
        if label == 'register, scheme' and 'table' in ps:
            continue
        add('5b', fn.file, fn.line, f'together ({label}): fn {full(fn)}')

# ---- 6 ----------------------------------------------------------------
for name, f, line, fields, up in structs:
    arr = [n for n, (t, _) in fields.items() if t.startswith('[')]
    num = [n for n, (t, _) in fields.items() if t == 'usize']
    if arr and num:
        add('6a', f, line, f'struct {name}: arrays {", ".join(arr)} with counts {", ".join(num)}')
    if not arr and 'count' in fields and fields['count'][0] == 'usize':
        add('6a', f, line, f'struct {name}: a count of a buffer that stands elsewhere')
for fn in fns:
    ps = fn.params
    slices = [p for p, t in ps.items() if re.match(r"&(?:'a )?\[", t)]
    muts = [p for p, t in ps.items() if re.match(r"&(?:'a )?mut \[", t)]
    if ('out' in muts) and ('at' in ps or 'start' in ps):
        add('6b', fn.file, fn.line, f'fn {full(fn)}: a buffer and the position in it')
    elif ('out' in muts or 'text' in muts) and fn.ret == 'usize':
        add('6b', fn.file, fn.line, f'fn {full(fn)}: a buffer, and the count of what was written')
    if len(slices) + len(muts) >= 2 and any(t == 'usize' and p in ('n', 'count', 'terms', 'rows', 'splits', 'products', 'passed') for p, t in ps.items()):
        par = [p for p in slices + muts if p not in ('bytes', 'out')]
        if len(par) >= 2:
            add('6c', fn.file, fn.line, f'fn {full(fn)}: parallel arrays {", ".join(par)}')
    if fn.name in ('may_feed', 'pass_windows', 'first_with', 'find', 'term_position'):
        add('6d', fn.file, fn.line, f'fn {full(fn)}: a list searched by hand')
    if fn.name in ('reaches', 'joined', 'paired', 'reduced', 'sets_of', 'weight'):
        add('6e', fn.file, fn.line, f'fn {full(fn)}: an arena of indices (products name operands by index)')

# ---- 7 ----------------------------------------------------------------
for fn in fns:
    for p, t in fn.params.items():
        if t == 'bool' and p in ('supplier', 'is_counted', 'is_listed', 'is_negative', 'used'):
            add('7a', fn.file, fn.line, f'fn {full(fn)}: flag {p}: bool chooses the step')
        if t == 'u8' and p in ('letter', 'kind') and crate(fn.file) != 'text':
            add('7b', fn.file, fn.line, f'fn {full(fn)}: {p}: u8 passed to choose')
    src = '\n'.join(fn.body)
    m = re.search(r'match (kind|group|program|lines) \{', src)
    if m:
        n = next(i for i, l in enumerate(fn.body) if re.search(r'match (kind|group|program|lines) \{', l))
        add('7c', fn.file, fn.body_start + n, f'fn {full(fn)}: match {m.group(1)}, a table of functions or formulas')
    m = re.search(r'match command \{', src)
    if m:
        n = next(i for i, l in enumerate(fn.body) if 'match command {' in l)
        add('7d', fn.file, fn.body_start + n, f'fn {full(fn)}: match on the command byte')


def second():
    """Points 1 to 3 counted another way: by text alone, with no list of names."""
    out = []
    for f in FILES:
        t = LINES[f]
        for i, l in enumerate(t, 1):
            s = l.strip()
            # 1: comments that say that a number stands for none, and fields and answers typed so
            if s.startswith('//') and re.search(r"refusal's number|, or 0\b|or zeros|0 where|0 past|, or the end|or the count where|`side` where there is none|, or 16|`good`:|It is full|or the term that needs|is refused by|kept while no|number of a kind", s):
                out.append(('1', f, i, s[:90]))
            # 3: every loop keyword that is no `for`
            if re.match(r"(?:'\w+: )?(while|loop)\b", s):
                out.append(('3', f, i, s))
    # 2: functions of one name in two modules or types, or whose names are alike when digits, widths and u/i are cut
    by = defaultdict(list)
    for fn in fns:
        by[re.sub(r'[ui](8|16|32|64)', 'N', fn.name)].append(fn)
    for k, v in by.items():
        if len(v) > 1:
            for fn in v:
                out.append(('2', fn.file, fn.line, f'name {k} ({len(v)}): {full(fn)}'))
    bs = defaultdict(list)
    for name, f, line, fields, up in structs:
        bs[re.sub(r'^[A-Z][a-z]+(?=Read$|Answer$)', '', name)].append((name, f, line))
    for k, v in bs.items():
        if len(v) > 1:
            for name, f, line in v:
                out.append(('2', f, line, f'struct {k} ({len(v)}): {name}'))
    return out


def main(args):
    known = ['1', '2', '3'] if '--second' in args else sorted({p[0] for p in POINTS} | set(POINTS))
    words = [a for a in args if a not in ('--sum', '--second')]
    for w in words:
        if w not in known:
            raise Misuse(f"{w} is no option here" if w.startswith('-') else f"{w} is none of the points {' '.join(known)}")
    if not FILES:
        raise Trouble('there is no file crates/*/src/*.rt here; run it at the top of the repository')
    rows = second() if '--second' in args else places
    if words:
        rows = [r for r in rows if any(r[0] == w or r[0].rstrip('abcdeu') == w and not w[-1].isalpha() for w in words)]
    rows.sort(key=lambda r: (r[0], r[1], r[2]))
    lines = []
    if '--sum' in args:
        tot = defaultdict(lambda: defaultdict(int))
        for p, f, l, w in rows:
            tot[p][crate(f)] += 1
        for p in sorted(tot):
            lines.append([p, str(sum(tot[p].values())), ' '.join(f'{c}={n}' for c, n in sorted(tot[p].items()))])
    else:
        lines = [[p, f'{f}:{l}', w] for p, f, l, w in rows]
    put(''.join('\t'.join(line) + '\n' for line in lines))
    return 0


if __name__ == '__main__':
    run(__doc__, main)
