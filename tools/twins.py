#!/usr/bin/env python3
"""Functions of crates/*/src whose code has one shape: the same words of the language and signs, other names, types or numbers."""
import glob, re, sys, collections
KEYWORDS = set("as break const continue else enum false fn for if impl in let loop match mod move mut pub ref return self struct true use where while Some None Ok Err Option Result".split())

def functions(text):
    """Name, line and body of each function."""
    for m in re.finditer(r'\bfn (\w+)', text):
        start = text.find('(', m.end())
        depth, i, quoted = 0, start, False
        # the body begins at the first brace at the start of a line or after `) -> .. {`, past the clauses
        while i < len(text):
            c = text[i]
            if c == ';' and depth == 0:
                i = -1
                break
            if c == '{' and depth == 0 and not re.search(r'(ensures|requires)[ \w]*$', text[max(0, i - 40):i]):
                break
            if c in '([{':
                depth += 1
            if c in ')]}':
                depth -= 1
            i += 1
        if i < 0 or i >= len(text):
            continue
        depth, j = 0, i
        while j < len(text):
            depth += text[j] == '{'
            depth -= text[j] == '}'
            j += 1
            if depth == 0:
                break
        yield m.group(1), text.count('\n', 0, m.start()) + 1, text[i:j]

def shape(body):
    body = re.sub(r'//[^\n]*', '', body)
    words = re.findall(r"b?'[^']*'|\"[^\"]*\"|\w+|\S", body)
    return tuple(w if w in KEYWORDS or not re.match(r"[\w'\"]", w) else 'x' for w in words)

groups = collections.defaultdict(list)
for path in sorted(glob.glob('crates/*/src/*.rt')):
    text = open(path).read()
    for name, line, body in functions(text):
        s = shape(body)
        if len(s) >= 18:
            groups[s].append(f'{path}:{line} {name}')
total = 0
for s, places in sorted(groups.items(), key=lambda g: -len(g[0])):
    if len(places) > 1:
        total += len(places)
        print(f'{len(s)} words:', '; '.join(places))
print(total, 'functions with a twin')
