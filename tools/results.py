#!/usr/bin/env python3
"""Respells what calls answer: python3 tools/results.py [REPOSITORY]

It ran once, for docs/DESIGN-PASS.md, on the commit that the page begins with:
  Count { Held n, Unknown r }            becomes  Result of a number and a Refusal,   Ok n, Err r
  Answer { Done, Out e, Refused r }      becomes  Result of an Option and a Refusal,  Ok None, Ok (Some e), Err r
  FairAnswer { Accepted, Served e, Denied r }  likewise, with a FairRefusal
in code, definitions, theorems, proofs and edits; and the facts that were named Some get names of their own. Nothing else is touched, so that
the statements of that commit, so respelled, can be set beside today's.
"""
import pathlib
import re
import sys

top = pathlib.Path(sys.argv[1] if len(sys.argv) > 1 else '.')
LEFT, RIGHT = r"(?<![\w\-·'.])", r"(?![\w\-·'′])"
USE = re.compile(r'^\s*(unfoldable )?(pub )?(unfoldable )?use ')
LIST = re.compile(r'^(\s*(?:unfoldable )?(?:pub )?(?:unfoldable )?use Rattle\.[\w.]*\.\{)(.*)(\}.*)$')


def atom(s, i):
    """The end of the term that begins at i: a name, or what stands in parentheses."""
    if i < len(s) and s[i] == '(':
        depth = 0
        for j in range(i, len(s)):
            depth += (s[j] == '(') - (s[j] == ')')
            if not depth:
                j += 1
                while j + 1 < len(s) and s[j] == '.' and s[j + 1] not in ' \n':
                    j += 1
                    while j < len(s) and (s[j].isalnum() or s[j] in "_-'·"):
                        j += 1
                return j
        return None
    m = re.compile(r'[^\s()\[\],;{}]+').match(s, i)
    return m.end() if m else None


class Answers:
    """An enum of three variants, to be a Result of an Option."""

    def __init__(self, name, done, out, refused, home, to):
        self.name, self.words, self.home, self.to = name, (done, out, refused), home, to
        self.stands_for = {done: ['Ok', 'None'], out: ['Ok', 'Some'], refused: ['Err']}

    def given(self, code):
        """`Out x` as `Ok (Some x)`, and `Out` alone as a function."""
        parts, i = [], 0
        pattern = re.compile(LEFT + r'(?:%s\.)?%s' % (self.name, self.words[1]) + RIGHT)
        while True:
            m = pattern.search(code, i)
            if not m:
                return ''.join(parts) + code[i:]
            parts.append(code[i:m.start()])
            i = m.end()
            end = atom(code, i + 1) if re.match(r' [(\w]', code[i:]) and not re.search(r"[\w'}]\s$", code[:m.start()]) else None
            if end is None:
                parts.append('(λ (x : Element). Ok (Some x))')
            else:
                parts.append('Ok (Some %s)' % self.given(code[i + 1:end]))
                i = end

    def term(self, code):
        done, out, refused = self.words
        code = re.sub(LEFT + r'(?:%s\.)?%s' % (self.name, done) + RIGHT, '(Ok None)', code)
        code = self.given(code)
        code = re.sub(LEFT + r'(?:%s\.)?%s' % (self.name, refused) + RIGHT, 'Err', code)
        code = code.replace('((Ok None))', '(Ok None)')
        return re.sub(r'(= |≡ |, |↦ |→ )\(Ok None\)(?=$|\)| ×| →|,| ∙)', r'\1Ok None', code)

    def line(self, l):
        m = LIST.match(l)
        items = [x.strip() for x in m.group(2).split(',')] if m else []
        if m and self.home + '.declared.%s.TheVariants' % self.name in m.group(1):
            new = dict.fromkeys(w for x in items for w in self.stands_for[x])
            return re.match(r'\s*(?:pub )?', l).group(0) + 'use Rattle.std.specs.Prelude.{%s}' % ', '.join(new)
        if m and self.home + '.declared.%s.' % self.name in m.group(1):
            return re.match(r'\s*(?:pub )?', l).group(0) + 'use Rattle.%s.{%s}' % (self.to, self.name)
        if m and 'laws.specs.Prelude' in m.group(1) and self.name == 'Answer':
            new = [w for x in self.words if x in items for w in self.stands_for[x]]
            items = [x for x in items if x not in self.words]
            return m.group(1) + ', '.join(dict.fromkeys(items + new)) + m.group(3)
        if USE.match(l):
            return l
        k = 0 if re.match(r'^\s*--', l) else l.find(' -- ')
        return self.term(l) if k < 0 else self.term(l[:k]) + l[k:]

    def antt(self, t):
        at = r'%s\.declared\.%s\b' % (self.home.replace('.', r'\.'), self.name)
        here = r'\b(%s)\b' % '|'.join(self.words + (self.name,))
        if not re.search(at, t) and not (self.name == 'Answer' and re.search(r'use Rattle\.laws\.specs\.Prelude\.\{[^\n]*' + here, t)):
            return t
        return '\n'.join(self.line(l) for l in t.split('\n'))

    def rt(self, t):
        done, out, refused = self.words
        t = t.replace('%s::%s' % (self.name, done), 'Ok(None)').replace('%s::%s' % (self.name, refused), 'Err')
        parts, i, out = [], 0, '%s::%s' % (self.name, out)
        while t.find(out + '(', i) >= 0:
            k = t.find(out + '(', i)
            end = atom(t, k + len(out))
            parts.append(t[i:k] + 'Ok(Some(%s))' % t[k + len(out) + 1:end - 1])
            i = end
        lines = (''.join(parts) + t[i:]).split('\n')
        return '\n'.join(self.clause(l) for l in lines)

    def clause(self, l):
        return self.term(l) if self.name + '.' in l and re.match(r'\s*(requires|ensures)|^\s+×', l) else l


def count_list(text):
    items = [x.strip() for x in text.split(',')]
    new = (['Result', 'Refusal', 'ℕ'] if 'Count' in items else []) + (['Ok'] if 'Held' in items else []) + (['Err'] if 'Unknown' in items else [])
    return ', '.join(dict.fromkeys([x for x in items if x not in ('Count', 'Held', 'Unknown')] + new))


def counts(t):
    if not re.search(r'use Rattle\.(laws\.specs\.Prelude[^\n]*\b(Held|Unknown|Count)\b|strip\.specs\.declared\.Count)', t):
        return t
    lines = []
    for l in t.split('\n'):
        m = LIST.match(l)
        if m and 'laws.specs.Prelude' in m.group(1) and re.search(r'\b(Count|Held|Unknown)\b', m.group(2)):
            l = m.group(1) + count_list(m.group(2)) + m.group(3)
        elif 'declared.Count' in l:
            names = re.search(r'\{(.*)\}', l)
            new = [{'Held': 'Ok', 'Unknown': 'Err', 'Count': 'Result'}[x.strip()] for x in names.group(1).split(',')] if names else ['Ok']
            l = re.match(r'\s*(?:pub )?', l).group(0) + 'use Rattle.std.specs.Prelude.{%s}' % ', '.join(new)
        elif not USE.match(l):
            k = 0 if re.match(r'^\s*--', l) else l.find(' -- ')
            code, rest = (l, '') if k < 0 else (l[:k], l[k:])
            code = re.sub(r"(?<![\w\-·'])(Count|count)\.Held", 'Ok', re.sub(r"(?<![\w\-·'])(Count|count)\.Unknown", 'Err', code))
            code = re.sub(LEFT + 'Held' + RIGHT, 'Ok', re.sub(LEFT + 'Unknown' + RIGHT, 'Err', code))
            l = re.sub(LEFT + 'Count' + RIGHT, 'Result ℕ Refusal', code) + rest
        lines.append(l)
    return '\n'.join(lines)


def counts_in_code(t):
    if not re.search(r'\bCount\b', t):
        return t
    t = t.replace('Count::Held(', 'Ok(').replace('Count::Unknown(', 'Err(')
    t = re.sub(r'(use strip::\{)([^}]*)(\})', lambda m: m.group(1) + re.sub(r'\bCount,\s?', '', m.group(2)) + m.group(3), t)
    return re.sub(r'(->|:) Count\b', r'\1 Result<u32, Refusal>', t)


def rename(t, path):
    """The facts that were named Some."""
    for crates, new in ((('bucket_model', 'ports_model'), 'HoldsSome'), (('tree_model', 'tree_clock_model', 'tree_records'), 'IsWork')):
        if path.parts[-3] in crates and re.search(r'Causes|specs/Promise|specs/History|Replace|Exactly|specs/Prelude', '/'.join(path.parts[-2:])):
            home = '|'.join(crates)
            lines = [l if USE.match(l) and not re.search(r'(%s)\.specs' % home, l) else re.sub(r"(?<![\w\-·'])Some(?![\w\-·'])", new, l) for l in t.split('\n')]
            t = '\n'.join(lines)
    return t


ANSWER = Answers('Answer', 'Done', 'Out', 'Refused', 'strip.specs', 'strip.specs.Answers')
FAIR = Answers('FairAnswer', 'Accepted', 'Served', 'Denied', 'fair_model.specs', 'fair_model.specs.Answers')


def edit(t, fair):
    lines, kind = [], ''
    for l in t.split('\n'):
        kind = l.rsplit('.', 1)[-1].strip() if l.startswith('file: ') else kind
        m = re.match(r'(old: ?|new: ?)(.*)$', l)
        if m:
            body = m.group(2)
            for one in (ANSWER, FAIR) if fair else (ANSWER,):
                body = one.line(body) if kind == 'antt' else one.clause(one.rt(body))
            body = re.sub(LEFT + 'Held' + RIGHT, 'Ok', re.sub(LEFT + 'Unknown' + RIGHT, 'Err', counts_in_code(body)))
            l = m.group(1) + body.replace('in-Held', 'in-Ok').replace('in-Unknown', 'in-Err')
        lines.append(l)
    return '\n'.join(lines)


def write(path, new):
    if new != path.read_text():
        path.write_text(new)


for path in sorted(p for part in ('specs', 'proofs') for p in top.glob('crates/*/%s/**/*.antt' % part)):
    text = counts(rename(path.read_text(), path))
    if path.name == 'Answers.antt':
        text = text.replace('in-Held', 'in-Ok').replace('in-Unknown', 'in-Err')
    write(path, FAIR.antt(ANSWER.antt(text)))
for path in sorted(top.glob('crates/*/src/**/*.rt')):
    write(path, FAIR.rt(ANSWER.rt(counts_in_code(path.read_text()))))
for path in sorted(top.glob('crates/*/must-fail/*.edit')):
    write(path, edit(path.read_text(), path.parts[-3].startswith(('fair', 'card_tree', 'card_cases'))))
