#!/usr/bin/env python3
"""Counts the places in src/ that docs/DESIGN-PASS.md speaks of. Usage: tools/forms.py [--list] [POINT..]

1 enums of the shape of Option or Result, and functions that number the variants of an enum by hand
2 functions that differ from another only in names, types and numbers (three lines or more)
3 loops that count an index by hand
4 helpers that copy, compare, choose the lesser or convert by hand
5 functions with seven parameters or more, and a `requires` that three functions or more share
6 structs with an array and a number beside it, and pairs of arrays lent side by side
7 matches on a number or a flag that say which step to run

A place with a comment line `// Stays: ..` above or inside it is counted as kept."""
import collections, glob, re, sys

def sources():
    for path in sorted(glob.glob('crates/*/src/**/*.rt', recursive=True)):
        yield path, open(path, encoding='utf-8').read()

def block(text, start):
    """From the brace at or after start to the one that closes it."""
    i = text.index('{', start)
    depth = 0
    for j in range(i, len(text)):
        depth += {'{': 1, '}': -1}.get(text[j], 0)
        if depth == 0:
            return text[i:j + 1]
    return text[i:]

def functions(text):
    """Name, line, parameters, clauses and body of each function; a clause's braces come before the body's."""
    for m in re.finditer(r'^( *)(?:pub(?:\(crate\))? )?(?:extern "C" )?fn (\w+)(<[^(]*>)?\(', text, re.M):
        indent = m.group(1)
        depth, i = 1, m.end()
        while depth:
            depth += {'(': 1, ')': -1}.get(text[i], 0)
            i += 1
        params = text[m.end():i - 1]
        end = re.compile(r'^' + indent + r'\}', re.M).search(text, i)
        one = text.find('\n', i)
        if end is None:
            continue
        rest = text[i:end.end()]
        body_at = re.search(r'(?:^|\s)\{\n', rest)
        clauses, body = (rest[:body_at.start()], rest[body_at.start():]) if body_at else (rest, '')
        yield m.group(2), text.count('\n', 0, m.start()) + 1, params, clauses, body, text[:m.start()]

def kept(before, inside=''):
    lines = before.rstrip('\n').split('\n')
    k = len(lines) - 1
    while k >= 0 and re.match(r'\s*(//|#\[)', lines[k]):
        if '// Stays:' in lines[k]:
            return True
        k -= 1
    return '// Stays:' in inside

def names_in(params):
    return [p for p in re.findall(r'(?:^|,)\s*(?:mut )?(\w+)\s*:', re.sub(r'<[^<>]*>', '', params))]

def code(text):
    return re.sub(r'//[^\n]*', '', text)

def point1():
    for path, text in sources():
        for m in re.finditer(r'^(?:pub(?:\(crate\))? )?enum (\w+)[^{]*\{', text, re.M):
            body = code(block(text, m.start()))
            variants = re.findall(r'^\s+(\w+)(\([^)]*\))?(?: = \w+)?,', body, re.M)
            empty = [v for v, p in variants if not p]
            if len(variants) == 2 and (len(empty) == 1 or any('Refusal' in p or 'Refused' in v or 'Failed' in v for v, p in variants)):
                yield path, text.count('\n', 0, m.start()) + 1, 'enum ' + m.group(1), kept(text[:m.start()], block(text, m.start()))
            elif len(variants) == 2 and len(empty) == 0:
                yield path, text.count('\n', 0, m.start()) + 1, 'enum ' + m.group(1), kept(text[:m.start()], block(text, m.start()))
        for name, line, params, clauses, body, before in functions(text):
            arms = re.findall(r'\b[A-Z]\w*::[A-Z]\w*(?:\([^)]*\))? => \d+,', body)
            if len(arms) >= 3 and re.search(r'-> (usize|u8|u32|u64)', clauses):
                yield path, line, 'numbers by hand: ' + name, kept(before, body)

def point2():
    shapes = collections.defaultdict(list)
    for path, text in sources():
        for name, line, params, clauses, body, before in functions(text):
            b = code(body)
            if len([l for l in b.split('\n') if l.strip() not in ('', '{', '}')]) < 3:
                continue
            words = re.findall(r'\w+|[^\w\s]', b)
            keep = {'if', 'else', 'while', 'for', 'in', 'match', 'let', 'mut', 'return', 'as', 'true', 'false', 'loop', 'break'}
            shape = ' '.join('0' if w[0].isdigit() else w if w in keep or not (w[0].isalpha() or w[0] == '_') else 'x' for w in words)
            shapes[shape].append((path, line, name, kept(before, body)))
    for group in shapes.values():
        if len(group) > 1:
            for path, line, name, k in group:
                yield path, line, name + ' (as ' + ', '.join(n for p, l, n, _ in group if (p, l) != (path, line)) + ')', k

def point3():
    for path, text in sources():
        for m in re.finditer(r'^( *)while ([^{]*)\{', text, re.M):
            body = code(block(text, m.start()))
            tested = set(re.findall(r'\w+(?:\.\w+)*', m.group(2)))
            steps = re.findall(r'\b(\w+(?:\.\w+)*) (?:\+|-)= 1;', body)
            if any(s in tested for s in steps) or (steps and re.search(r'\[\w', body)):
                yield path, text.count('\n', 0, m.start()) + 1, 'while ' + m.group(2).strip(), kept(text[:m.start()], block(text, m.start()).split('\n', 2)[1])

def point4():
    plain = re.compile(r'^(lesser|larger|least_of|smaller|greater|minimum|maximum|copy|copied|copy_\w+|same\w*|equal\w*|is_equal|flag|wide|between|up_to|left_of|clear\w*|fill\w*|zero\w*|outside|number_of|input_of|text_of|bits_of)$')
    for path, text in sources():
        for name, line, params, clauses, body, before in functions(text):
            if plain.match(name):
                yield path, line, name, kept(before, body)

def point5():
    shared = collections.defaultdict(list)
    for path, text in sources():
        for name, line, params, clauses, body, before in functions(text):
            n = len(names_in(params))
            if n >= 7:
                yield path, line, '%s takes %d' % (name, n), kept(before, body)
            for r in re.findall(r'requires(?: \w+)? \{ (.*?) \}', clauses, re.S):
                shared[(path.split('/')[1], re.sub(r'\s+', ' ', r))].append((path, line, name, kept(before, body)))
    for (crate, r), places in sorted(shared.items()):
        if len(places) >= 3:
            path, line, name, k = places[0]
            yield path, line, 'requires { %s } in %d functions' % (r[:60], len(places)), all(p[3] for p in places)

def point6():
    for path, text in sources():
        for m in re.finditer(r'^(?:pub(?:\(crate\))? )?struct (\w+)[^{;]*\{', text, re.M):
            body = code(block(text, m.start()))
            arrays = re.findall(r'(\w+): (?:&(?:\'\w+ )?(?:mut )?)?\[', body)
            numbers = re.findall(r'(\w+): usize', body)
            if (arrays and numbers) or len(arrays) > 1:
                yield path, text.count('\n', 0, m.start()) + 1, 'struct ' + m.group(1), kept(text[:m.start()], block(text, m.start()))

def point7():
    for path, text in sources():
        for name, line, params, clauses, body, before in functions(text):
            if re.search(r'\b\w+: bool\b', params) and not re.search(r'^\s*if !?\w+ \{ \w+ \} else \{ \w+ \}$', body, re.M):
                yield path, line, name + ' takes a flag', kept(before, body)

POINTS = {'1': point1, '2': point2, '3': point3, '4': point4, '5': point5, '6': point6, '7': point7}

def main():
    show = '--list' in sys.argv
    for p in [a for a in sys.argv[1:] if a in POINTS] or sorted(POINTS):
        found = list(POINTS[p]())
        print('%s: %d places, %d of them kept with a reason' % (p, len(found), sum(1 for f in found if f[3])))
        if show:
            for path, line, what, k in found:
                print('   %s:%d %s%s' % (path, line, what, ' (kept)' if k else ''))

main()
