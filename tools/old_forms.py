#!/usr/bin/env python3
"""Lists places in crates/*/src that may still have an older form, by point: `tools/old_forms.py 3`, or all counts with no point.

A line that is listed is a candidate: docs/DESIGN-PASS.md says which are places, and why those that stay do.
"""
import collections, glob, re, sys

LINES = {
    1: [('an enum', r'^\s*(pub |pub\(crate\) )?enum '),
        ('a flag or an outcome beside a value', r'-> \((bool|Result)|^\s*(pub )?\w+: (Option<Fault>|Result<)'),
        ('a refusal as an Option, or a number as an error', r'Option<Fault>|Result<[^<>]*(<[^<>]*>)?, u(8|16|32)>'),
        ('a number for a kind', r'=> \[?[0-9]+(,|$)|^ +\[[0-9][^;]*, rest')],
    3: [('a loop without for', r'^\s*(while|loop)\b'),
        ('a loop over a range', r'\bfor .* in [^{]*\.\.'),
        ('a search by hand', r'^\s{12,}return (true|false|Some\(\w+\)|i|at);'),
        ('a look-up by hand', r'\bif .*[<>]=? ?[\w.]*(len\(\)|\.count|\.used)( \{|$)')],
    4: [('a function that compares, converts or prints', r'fn (eq|cmp|same_\w+|number|numbers|as_held|answer_of|verdict_by|with_line|trim|ask|step|told|put\w*|\w+_text|\w+_line)\b')],
    6: [('an array', r'^\s*(pub )?\w+: \[\w+; ?\w+\]|let mut \w+ = \[')],
    7: [('a function object, or a switch on calls', r'^impl.* (RowTest|AtomTest|Numbers|NamesVariable)\b.* for |match call')],
}

def files():
    return sorted(f for f in glob.glob('crates/*/src/**/*.rt', recursive=True))

def by_line(point):
    for what, pattern in LINES[point]:
        for f in files():
            for n, line in enumerate(open(f), 1):
                if re.search(pattern, line) and not line.lstrip().startswith('//'):
                    yield what, f'{f}:{n}: {line.strip()}'

def twins():
    """Functions, types and constants of one name in several files, but for a trait's methods."""
    where = collections.defaultdict(set)
    traits = set()
    for f in files():
        text = open(f).read()
        for body in re.findall(r'^(?:pub |pub\(crate\) )?trait .*?^}', text, re.M | re.S):
            traits.update(re.findall(r'fn (\w+)', body))
        for name in re.findall(r'^(?:pub |pub\(\w+\) )?(?:fn|struct|enum|trait|const) (\w+)', text, re.M):
            where[name].add(f)
        for name in re.findall(r'^    (?:pub |pub\(\w+\) )?(?:fn) (\w+)', text, re.M):
            where[name].add(f)
    for name, at in sorted(where.items()):
        if len(at) > 1 and name not in traits and name != 'main':
            yield 'one name', f'{name}: {" ".join(sorted(at))}'

def repeated():
    """Facts that three functions or more require or presuppose, and pairs of parameters of four functions or more of a crate."""
    facts, pairs = collections.defaultdict(set), collections.defaultdict(set)
    for f in files():
        crate, text, name = f.split('/')[1], open(f).read(), None
        for line in text.split('\n'):
            at = re.search(r'\bfn (\w+)', line)
            name = f'{crate}:{at.group(1)}' if at else name
            clause = re.match(r'\s*requires\s*\w*\s*\{(.*)\}', line)
            for part in re.split(r' × ', clause.group(1)) if clause else []:
                facts[re.sub(r'\b(\w+)\.(old|now)\b', r'\1', part).strip(' ()')].add(name)
            premise = re.match(r'\s*ensures\s*\w*\s*\{\s*(\w[\w.]* .*?) →', line)
            if premise:
                facts[premise.group(1)].add(name)
        for fn, inside in re.findall(r'fn (\w+)(?:<[^(]*>)?\(([^)]*)\)', text):
            params = [re.sub(r"'\w+ ?", '', re.sub(r'\s+', ' ', p).strip()) for p in inside.split(',')]
            params = [p for p in params if p and 'self' not in p]
            for i, first in enumerate(params):
                for second in params[i + 1:]:
                    pairs[(crate, first, second)].add(fn)
    for fact, names in sorted(facts.items()):
        if len(names) > 2:
            yield 'a fact', f'{fact}: {" ".join(sorted(names))}'
    for (crate, *pair), names in sorted(pairs.items()):
        if len(names) > 3:
            yield 'parameters', f'{crate}: {", ".join(pair)}: {" ".join(sorted(names))}'

def answers():
    for f in sorted(glob.glob('crates/*/proofs/**/*.antt', recursive=True)):
        yield ('answers' if f.endswith('Answers.antt') else 'lemmas and invariants'), f'{f}: {sum(1 for _ in open(f))} lines'

def listed(point):
    return {2: twins, 5: repeated, 8: answers}[point]() if point in (2, 5, 8) else by_line(point)

if __name__ == '__main__':
    for point in [int(p) for p in sys.argv[1:]] or range(1, 9):
        found = list(listed(point))
        if sys.argv[1:]:
            for what, line in found:
                print(f'{what}: {line}')
        counts = collections.Counter(what for what, _ in found)
        print(f'point {point}:', '; '.join(f'{what} {n}' for what, n in counts.items()))
