#!/usr/bin/env python3
"""Counts, in crates/*/src, the places that docs/DESIGN-PASS.md is about. With -v it lists them too."""
import glob, re, subprocess, sys, os

VERBOSE = '-v' in sys.argv
FILES = sorted(glob.glob('crates/*/src/*.rt'))
TEXT = {f: open(f).read() for f in FILES}

def lines(pattern, skip=None):
    for f, text in TEXT.items():
        for n, line in enumerate(text.split('\n'), 1):
            if line.strip().startswith(('//', 'ghost', 'ensures', 'requires')):
                continue
            if re.search(pattern, line) and not (skip and re.search(skip, f + ':' + line)):
                yield f'{f}:{n}: {line.strip()}'

def wide(most):
    for f, text in TEXT.items():
        for m in re.finditer(r'\bfn (\w+)(?:<[^(]*>)?\(([^{;]*?)\)\s*(?:->|where|\n|\{)', text):
            names = re.findall(r'(?:^|,)\s*(?:mut )?(\w+):', m.group(2)) + re.findall(r'&?(?:mut )?\bself\b', m.group(2))[:1]
            if len(names) > most:
                yield f'{f}:{text.count(chr(10), 0, m.start()) + 1}: {m.group(1)} ({len(names)})'

def two_variants():
    for f, text in TEXT.items():
        for m in re.finditer(r'^(?:pub )?enum (\w+)[^{]*\{(.*?)\n\}', text, re.S | re.M):
            variants = re.findall(r'^    ([A-Z]\w*)', m.group(2), re.M)
            if len(variants) == 2:
                yield f'{f}:{text.count(chr(10), 0, m.start()) + 1}: {m.group(1)} {variants}'

def clauses(phrase, least=3):
    """A phrase in the clauses of at least so many functions."""
    found = [f'{f}:{n}' for f, text in TEXT.items() for n, line in enumerate(text.split('\n'), 1)
             if re.match(r' *(ensures|requires)\b', line) and phrase in line]
    return found if len(found) >= least else []

def show(point, title, places):
    places = list(places)
    print(f'{point}  {len(places):4}  {title}')
    if VERBOSE:
        for p in places:
            print('          ', p)

show('1a', 'enums of two variants, as Option and Result have', two_variants())
show('1b', 'bool fields of structs that say what a value beside them means', lines(r'^(pub(\(crate\))? )?(error|fits): bool,'.replace('^', r'^\s*')))
show('1c', 'numbers where an enum, an IDN or a code has a name: compared', lines(r'number\(\) *(==|!=|<|>)|(==|!=|<=|>=|<|(?<!=)>) *[a-z.]+\.number\(\)|match idn\.0|idn\.0 (==|<=|<|>=)'))
show('1d', 'numbers of IDNs where a constant has the name (outside rows of data and tests)', lines(r'Idn\((0x)?[0-9a-f]+\)', r'_tests/|blocks\.rt|sample\.rt|idns\.rt|pub const NONE'))
show('1e', 'numbers of codes and refusals', lines(r'0x1001|Refused\(u8\)|Refused\(refusal\.number', r'_tests/'))
show('1f', 'faults as an Option, which the caller turns into an Err', lines(r'-> Option<(Digit|Refusal|Cause|ValueFault)>|^\) -> Option<(Digit|Refusal|Cause|ValueFault)>', r'_tests/'))
twins = subprocess.run([sys.executable, os.path.join(os.path.dirname(__file__), 'twins.py')], capture_output=True, text=True).stdout.strip().split('\n')
show('2 ', 'groups of functions of one shape (tools/twins.py)', twins[:-1])
show('3a', 'loops over the numbers of places', lines(r'\bfor \w+ in \w+\.\.'))
show('3b', 'loops that count by hand', lines(r'\bwhile (?!let)'))
show('4a', 'numbers of enums by a match', (f'{f}: {m.group(1)}' for f, t in TEXT.items() for m in re.finditer(r'fn (number|cause|bit)\(self\)[^{]*\{[^}]*\}?\s*\{\s*match self', t)))
show('4b', 'enums from numbers by a match', lines(r'match self\.0 /'))
show('4c', 'bytes of words and words of bytes by arithmetic', lines(r'256 \*|0x100 \*|% 256|/ 256|(?<!self\.0) % 0x1_0000\) as u16'))
show('4d', 'comparisons by hand: parts, variants', lines(r'\.0 (==|<|>|<=|>=) \w+\.(idn\.)?0\b|a\.\w+ == b\.\w+|if let Phase::|^\s*(Some\()?\w+(::\w+)?( \| \w+(::\w+)?)+\)? => true,|Keeper::Drive => true'))
show('4e', 'printing and conversion functions of enums', lines(r"-> &'static str|fn (value_digit|value_cause|print)\b"))
show('5a', 'functions of more than four parameters', wide(4))
show('5b', 'clauses on kept_bytes', clauses('kept_bytes'))
show('5c', 'clauses on the blocks of plan, states and bytes', clauses('matched_blocks plan.now.rows.now states.now bytes.now'))
show('5d', 'clauses that fault bits are below 512', clauses('faults < 512'))
show('5e', 'clauses on the state that a service or a drive is', clauses('viewed S.Store.blocks') + clauses('view S.Store.blocks'))
show('6a', 'arrays and slices with a count or states beside', lines(r'^\s*(pub(\(crate\))? )?(cells|states): '))
show('6b', 'texts, telegrams and lists read by index', lines(r'\b(text|telegram|buffer|entries|bytes)\[(\d+|i|i \+ 1)\]', r'sample\.rt'))
show('6c', 'sorted rows searched by hand', lines(r'while low < high'))
show('7 ', 'a switch or a chain of ifs on which step to run', lines(r'match \(self\.link\.place|match idn(\.0)? \{|(?<!else )if info (>|==) |match (sent|line) \{'))
answers = glob.glob('crates/*/proofs/**/Answers.antt', recursive=True)
invariants = glob.glob('crates/*/proofs/**/Invariants.antt', recursive=True)
lemmas = [p for p in glob.glob('crates/*/proofs/**/*.antt', recursive=True) if p not in answers + invariants]
count = lambda fs: sum(len(open(p).readlines()) for p in fs)
print(f'8   {len(answers)} files of answers ({count(answers)} lines), {len(invariants)} of invariants ({count(invariants)}), {len(lemmas)} of lemmas ({count(lemmas)})')
