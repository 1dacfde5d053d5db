#!/usr/bin/env python3
"""Counts, in src/ of a commit, the places that could be written in a newer form of the language.

usage: python3 tools/places.py COMMIT [POINT]

With a point, from 1 to 7, each place is listed.
"""
import collections
import re
import subprocess
import sys

KEYWORDS = set('as break const continue else enum false fn for if impl in let loop match mod move mut pub ref return self Self struct trait true type use where while'.split())


def git(*words):
    return subprocess.run(['git', *words], capture_output=True, text=True, check=True).stdout


def sources(commit, part='src', end='.rt'):
    for path in git('ls-tree', '-r', '--name-only', commit, 'crates').split('\n'):
        if '/%s/' % part in path and path.endswith(end):
            yield path, git('show', '%s:%s' % (commit, path))


def is_test(path):
    return path.endswith('tests.rt') or '_tests/' in path or '/checks/' in path


def bare(text):
    return re.sub(r'//.*', '', text)


def found(files, pattern, tests=True):
    for path, text in files:
        if tests or not is_test(path):
            text = bare(text)
            for m in re.finditer(pattern, text, re.M | re.S):
                yield path, text.count('\n', 0, m.start()) + 1, ' '.join(m.group(0).split())[:90]


def functions(files):
    for path, text in files:
        text = bare(text)
        for m in re.finditer(r'\bfn (\w+)', text):
            at = text.find('{', m.end())
            # past the clauses: the body begins with a brace at the start of a line or after the signature
            body = re.compile(r'(^|\s)\{\n', re.M).search(text, m.end())
            end = text.find('fn ', m.end())
            if body is None or (end != -1 and body.start() > end):
                continue
            depth, k = 0, body.start() + body.group(0).index('{')
            start = k
            while k < len(text):
                if text[k] == '{':
                    depth += 1
                elif text[k] == '}':
                    depth -= 1
                    if depth == 0:
                        break
                k += 1
            yield path, text.count('\n', 0, m.start()) + 1, m.group(1), text[start:k + 1]


def shape(body):
    words = re.findall(r'b?"[^"]*"|[A-Za-z_]\w*|\d[\w.]*|\S', body)
    return tuple(w if w in KEYWORDS or not re.match(r'[\w"b]', w) else 'x' for w in words)


def options(files):
    yield from found(files, r'let (Some|Ok)\([^;{]*?else \{\s*return (None|Err\([^;]*\)|Ok\(None\));\s*\}')
    yield from found(files, r'if [^{;]*\.is_(err|ok|none|some)\(\) \{|=> [^;,]*\.is_(err|ok)\(\)', tests=False)
    yield from found(files, r'^\s*(None|Err\([a-z_]+\)) => (Err|None|true|false)\b')
    yield from found(files, r'\{\s*(Some|Ok)\([^{}]*\)\s*\} else \{\s*(None|Err\([^{}]*\))\s*\}')
    yield from found(files, r'^enum Answer \{')
    yield from found(files, r'\.rank\(\)')


def twins(files):
    groups = collections.defaultdict(list)
    for path, line, name, body in functions(files):
        s = shape(body)
        if len(s) >= 9:
            groups[s].append((path, line, name))
    for group in groups.values():
        if len(group) > 1:
            yield group[0][0], group[0][1], 'alike: ' + ', '.join('%s:%s' % (p.split('/')[1], n) for p, _, n in group)


def loops(files):
    yield from found(files, r'^\s*for \w+ in [^{]*?\.\.[^{]*\{')
    yield from found(files, r'^\s*while [^{]*<[^{]*\{')
    yield from found(files, r'self\.len \+= 1;\n\s*\}\n\s*Ok')


def by_hand(files):
    yield from found(files, r'match [\w(), .]+ \{[^{}]*?=> (true|false),[^{}]*?=> (true|false),[^{}]*?\}')
    yield from found(files, r'[/%*] 256\b')
    yield from found(files, r'\[0\] == [^;{]*?\[1\] ==')
    yield from found(files, r'#\[derive\(Clone, Copy\)\]\s*(pub )?(struct|enum) \w+')
    yield from found(files, r'\b\w+(\.\w+)*(\([^()]*\))? as (u8|u16|u32|usize|i32|i64)\b')
    yield from found(files, r'fn \w+<W: fmt::Write>\(\w+: \w+, f')
    yield from found(files, r'fn (number|use_of|form_of|use_byte|form_byte|number_byte|numbered)\b')


def facts(files):
    clauses = collections.defaultdict(list)
    for path, line, text in found(files, r'^\s*(requires|ensures)\b[^\n]*'):
        fact = re.sub(r'^(requires|ensures)( \w+)? ', '', text)
        clauses[fact].append((path, line))
    for fact, places in clauses.items():
        if len(places) >= 3:
            yield places[0][0], places[0][1], '%d times %s' % (len(places), fact)
    together = list(found(files, r'tables: &Tables, windows: &Windows'))
    if len(together) >= 3:
        yield together[0][0], together[0][1], '%d times tables and windows together' % len(together)


def buffers(files):
    yield from found(files, r'struct \w+[^{;]*\{[^}]*\[\w+; \w+\],\s*(pub )?len: usize')
    yield from found(files, r'fn \w+\(\w+: &?\[\w+; \w+\], (len|count): usize')
    yield from found(files, r'Result<\[\w+; \w+\], \w+>')
    for path, text in files:
        text = bare(text)
        for m in re.finditer(r'struct (\w+) \{([^}]*)\}', text):
            sizes = collections.Counter(re.findall(r'; (\w+)\],?\s*\n', m.group(2)))
            for size, n in sizes.items():
                if n > 1:
                    yield path, text.count('\n', 0, m.start()) + 1, '%s has %d arrays of %s' % (m.group(1), n, size)


def switches(files):
    yield from found(files, r'match \w+(\.\w+)? \{(\s*\w+::\w+ => \w+\([^{}]*?\),){4,}\s*\}')
    yield from found(files, r'(else if [^{]*\{[^{}]*\}\s*){4,}')
    yield from found(files, r'(\w+\([^;{}]*\)\?;\s*){4,}')


def proofs(commit):
    for path, text in sources(commit, 'proofs', '.antt'):
        yield path, text.count('\n'), 'lines'


POINTS = [options, twins, loops, by_hand, facts, buffers, switches]


def main():
    commit = sys.argv[1]
    files = list(sources(commit))
    for n, point in enumerate(POINTS, 1):
        places = sorted(set(point(files)))
        print('point %d: %d' % (n, len(places)))
        if sys.argv[2:] == [str(n)]:
            for path, line, text in places:
                print('  %s:%d: %s' % (path, line, text))
    kept = list(proofs(commit))
    print('point 8: %d files of proofs, %d lines' % (len(kept), sum(n for _, n, _ in kept)))


main()
