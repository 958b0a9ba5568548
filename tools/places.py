#!/usr/bin/env python3
"""Counts, in crates/*/src, the places that read like an older language: python3 tools/places.py [-v] [REPOSITORY]

One line a point of docs/DESIGN-PASS.md, and with -v a line for each place. What a pattern finds is a place to look at, no verdict.
"""
import re, sys, pathlib, collections

args = [a for a in sys.argv[1:] if a != '-v']
verbose = '-v' in sys.argv
top = pathlib.Path(args[0] if args else '.')
files = sorted(p for p in top.glob('crates/*/src/**/*.rt'))
text = {p: p.read_text() for p in files}


def name(p, at=None):
    where = str(p.relative_to(top / 'crates'))
    return where if at is None else '%s:%d' % (where, text[p].count('\n', 0, at) + 1)


def block(t, at):
    """The text from the brace at or behind `at` to the one that closes it."""
    i = t.index('{', at)
    depth = 0
    for j in range(i, len(t)):
        depth += (t[j] == '{') - (t[j] == '}')
        if not depth:
            return t[i:j + 1]
    return t[i:]


FN = re.compile(r'^( *)(?:pub )?fn (\w+)(?:<[^>]*>)?\(', re.M)


def functions():
    """File, place, name, head (parameters and clauses) and body of each function."""
    for p, t in text.items():
        for m in FN.finditer(t):
            lines, at = t[m.start():].split('\n'), 0
            head = []
            for line in lines:
                at += len(line) + 1
                head.append(line)
                if line == m.group(1) + '{' or line.endswith(' {') and 'requires' not in line and 'ensures' not in line:
                    break
            body = block(t, m.start() + at - 2 - (len(head[-1]) - head[-1].rfind('{')) + 1)
            yield p, m.start(), m.group(2), '\n'.join(head), body


def show(point, places):
    places = list(places)
    print('%-52s %4d' % (point, len(places)))
    if verbose:
        for place in places:
            print('    ' + place)


def enums():
    for p, t in text.items():
        for m in re.finditer(r'^(?:pub )?enum (\w+) \{', t, re.M):
            variants = re.findall(r'^    (\w+)(\([^)]*\))?,', block(t, m.start()), re.M)
            bare = [v for v, held in variants if not held]
            full = [(v, held) for v, held in variants if held]
            refused = [v for v, held in full if 'Refusal' in held]
            if (len(variants) == 2 and len(full) == 1) or (refused and len(variants) <= 3):
                yield '%s enum %s: %s' % (name(p, m.start()), m.group(1), ', '.join(v + h for v, h in variants))


def flags():
    for p, t in text.items():
        for m in re.finditer(r'^(?:pub )?struct (\w+)(?:<[^>]*>)? \{', t, re.M):
            fields = re.findall(r'^    (?:pub )?(\w+): ([^,\n]+),', block(t, m.start()), re.M)
            for f, kind in fields:
                if kind == 'bool' and len(fields) > 1:
                    yield '%s struct %s: %s beside %s' % (name(p, m.start()), m.group(1), f, ', '.join(x for x, _ in fields if x != f))


def sentinels():
    for p, at, fn, head, body in functions():
        result = re.search(r'-> (usize|u8|u32|u64)$', head, re.M)
        before = text[p][:at].rstrip('\n').split('\n')
        note = []
        while before and before[-1].startswith('//'):
            note.append(before.pop())
        said = ' '.join(reversed(note))
        if result and re.search(r'where (there is|it is|the way is|a child is|all are|it names|no |the node is)[^.]*(none|damaged|empty|another|0)|nowhere|n where there is none|the order where|stands for a damaged', said):
            yield '%s fn %s' % (name(p, at), fn)


def shape(head, body):
    """A function's text with names and numbers by their first use."""
    seen = {}
    def same(m):
        return seen.setdefault(m.group(0), 'n%d' % len(seen))
    head = re.sub(r'^\s*(requires|ensures).*$', '', head, flags=re.M)
    code = re.sub(r'//.*', '', head + body)
    keep = r'\b(?!(?:fn|pub|let|mut|if|else|while|for|in|match|return|as|usize|u32|u64|u8|bool|true|false)\b)\w+'
    return re.sub(r'\s+', ' ', re.sub(keep, same, code))


def twins():
    by = collections.defaultdict(list)
    for p, at, fn, head, body in functions():
        if body.count('\n') >= 2 and 'extern' not in head and '/tests' not in str(p) and not re.search(r'card_\w+/', name(p)):
            by[shape(head, body)].append('%s %s' % (name(p, at), fn))
    return [' = '.join(v) for v in by.values() if len(v) > 1]


def loops(counted):
    for p, t in text.items():
        for m in re.finditer(r"^ *(?:'\w+: )?while (.*) \{$", t, re.M):
            body = block(t, m.end() - 1)
            steps = re.findall(r'(\w+) (?:\+= 1|-= 1|= \1 \+ 1|= \1 - 1);', body)
            # a budget that falls is a count too
            is_counted = any(re.search(r'\b%s\b' % s, m.group(1)) for s in steps)
            if is_counted == counted:
                yield '%s while %s' % (name(p, m.start()), m.group(1))


def by_hand():
    for p, at, fn, head, body in functions():
        arms = re.findall(r'=> (true|false),', body)
        if arms and len(arms) == len(re.findall(r'=>', body)):
            yield '%s fn %s: a match to true and false' % (name(p, at), fn)
        if re.fullmatch(r'\{\s*if (\w+) < (\w+) \{\s*return \2;\s*\}\s*\1\s*\}', body) or re.fullmatch(r'\{\s*if (\w+) < (\w+) \{\s*return \1;\s*\}\s*\2\s*\}', body) \
                or re.fullmatch(r'\{\s*if (\w+) < (\w+) \{ \w+ \} else \{ \w+ \}\s*\}', body):
            yield '%s fn %s: the larger or the lower' % (name(p, at), fn)
        if re.fullmatch(r'\{\s*if \w+ \{ \w+ \} else \{ \w+ \}\s*\}', body):
            yield '%s fn %s: one or the other' % (name(p, at), fn)
        if re.fullmatch(r'\{\s*\w+ as \w+\s*\}', body):
            yield '%s fn %s: a conversion' % (name(p, at), fn)
        if re.search(r'\w+\.0 < \w+\.0|\w+\.\w+\.0 <=? \w+\.\w+\.0', body):
            yield '%s fn %s: an order by fields' % (name(p, at), fn)
        for m in re.finditer(r'Element \{\s*rank: Rank\(', body):
            yield '%s fn %s: an element written field by field' % (name(p, at), fn)
        if re.search(r'match r \{\s*\w+::\w+ => \d+,', body):
            yield '%s fn %s: a number for each variant' % (name(p, at), fn)


def copies():
    for p, at, fn, head, body in functions():
        for m in re.finditer(r'^ +let (\w+) = (\w+)\.(\w+);$', body, re.M):
            yield '%s fn %s: let %s = %s.%s' % (name(p, at), fn, *m.groups())


def facts():
    by = collections.defaultdict(set)
    for p, at, fn, head, body in functions():
        for clause in re.findall(r'^ *requires (?:\w+ )?\{ (.*) \}$', head, re.M):
            for fact in re.split(r' × ', clause):
                fact = fact.strip()
                while fact.startswith('(') and fact.endswith(')'):
                    fact = fact[1:-1]
                by[re.sub(r'\.(now|old)\b', '', fact)].add('%s %s' % (name(p, at), fn))
    return ['%s: %d functions' % (f, len(v)) for f, v in sorted(by.items(), key=lambda x: -len(x[1])) if len(v) >= 3]


def groups():
    by = collections.defaultdict(set)
    for p, at, fn, head, body in functions():
        if re.search(r'card_', name(p)):
            continue
        params = re.findall(r'(\w+): ([^,()]+)', head.split('ensures')[0].split('requires')[0])
        params = [x for x in params if x[1].strip() in ('usize', 'u32', 'bool')]
        for k in range(len(params) - 1):
            by[', '.join(n for n, _ in params[k:k + 2])].add('%s %s' % (name(p, at), fn))
    return ['%s: %d functions' % (f, len(v)) for f, v in sorted(by.items(), key=lambda x: -len(x[1])) if len(v) >= 5]


def arrays():
    for p, t in text.items():
        for m in re.finditer(r'\[\w+; [A-Z_]+\]', t):
            line = t[t.rfind('\n', 0, m.start()) + 1:t.find('\n', m.end())]
            if not line.lstrip().startswith('//') and ('let mut' in line or 'count' in line or 'pub ' in line.split(':')[0]):
                yield '%s %s' % (name(p, m.start()), line.strip())


def switches():
    for p, at, fn, head, body in functions():
        for m in re.finditer(r'match (\w+) \{', body):
            arms = re.findall(r'=> (?:Ok\()?(\w+)\(', block(body, m.start()))
            if len(set(arms)) >= 2 and len(arms) >= 3:
                yield '%s fn %s: match %s' % (name(p, at), fn, m.group(1))


def answers():
    for p in sorted(top.glob('crates/*/proofs/**/Answers.antt')):
        yield str(p.relative_to(top / 'crates'))


show('1  enums of the shape of Option or Result', enums())
show('1  a flag with values beside it', flags())
show('1  a number for none or damaged', sentinels())
show('2  functions of one shape, sets', twins())
show('3  while loops that count by hand', loops(True))
show('3  other while loops', loops(False))
show('4  equality, order, choice, conversion by hand', by_hand())
show('4  a field copied into a local', copies())
show('5  facts in the requires of three functions or more', facts())
show('5  two numbers side by side in five functions or more', groups())
show('6  arrays of a fixed length with a count beside', arrays())
show('7  a match that calls another function in each arm', switches())
show('8  files of answers', answers())
