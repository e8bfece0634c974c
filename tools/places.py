#!/usr/bin/env python3
"""Counts the places that docs/DESIGN-PASS.md speaks of, in crates/*/src of a tree: `tools/places.py [ROOT]`.

A line for each place, under the point that it belongs to, and the counts at the end. It reads text and knows no types, so what it
finds is looked at one by one, and docs/DESIGN-PASS.md says what became of each.
"""
import collections
import glob
import os
import re
import sys

ROOT = sys.argv[1] if len(sys.argv) > 1 else '.'
FILES = sorted(glob.glob(os.path.join(ROOT, 'crates/*/src/**/*.rt'), recursive=True))
found = collections.defaultdict(list)


def place(point, path, line, what):
    found[point].append(f'{os.path.relpath(path, ROOT)}:{line}: {what}')


def functions(text):
    """Each function with a body: line, name, parameters and answer, clauses, body."""
    for m in re.finditer(r'^( *)(?:pub(?:\(crate\))? )?(?:extern "C" )?fn (\w+)', text, re.M):
        end = text.find('\n' + m.group(1) + '}', m.end())
        whole = text[m.start():end]
        # the body opens where a line is that brace alone, or at the end of a signature without clauses
        b = re.search(r'\n' + m.group(1) + r'\{\n', whole) or re.search(r' \{\n', whole)
        if end < 0 or not b:
            continue
        head = whole[:b.start()]
        cut = re.search(r'\n +(requires|ensures)', head)
        signature = head[:cut.start()] if cut else head
        clauses = head[cut.start():] if cut else ''
        yield text.count('\n', 0, m.start()) + 1, m.group(2), signature, clauses, whole[b.end():]


def bare(text):
    return re.sub(r'//[^\n]*', '', text)


shapes = collections.defaultdict(list)
facts = collections.defaultdict(set)
together = collections.defaultdict(set)
for path in FILES:
    text = open(path).read()
    crate = path.split('/src/')[0]
    # 1: enums of the shape of Option or Result; numbers of reasons; runs of numbers for kinds; fields and parameters that are flags
    for m in re.finditer(r'enum (\w+)[^{]*\{\n(.*?)\n\}', text, re.S):
        variants = re.findall(r'^ +(\w+)(\([^)]*\))?(?: = \d+)?,', bare(m.group(2)), re.M)
        line = text.count('\n', 0, m.start()) + 1
        if len(variants) == 2 and (variants[0][1] or variants[1][1]):
            place('1 enum of the shape of Option or Result', path, line, m.group(1))
        elif any(v == 'Refused' for v, _ in variants):
            place('1 enum of the shape of Option or Result', path, line, m.group(1))
    for m in re.finditer(r'^ *(?:pub )?reason: u8|^ *(?:pub )?\w*kind: u8|fn \w+\(reason: u\d+', text, re.M):
        place('1 number of a reason or a kind', path, text.count('\n', 0, m.start()) + 1, m.group(0).strip())
    for line, name, signature, clauses, body in functions(text):
        if re.search(r'-> u8$', signature.strip()) and re.search(r'reason|=> n,|code_of|station_\w+\(', bare(body)) and re.search(r'\b0\b|code_of|station::', body):
            place('1 number of a reason or a kind', path, line, f'{name} answers a number for a reason')
    for m in re.finditer(r'(?:^(?:pub(?:\(crate\))? )?const [A-Z]\w*: (?:u8|usize|u32) = 0;\n)(?:\n*(?:pub(?:\(crate\))? )?const [A-Z]\w*: (?:u8|usize|u32) = \d+;\n)+', text, re.M):
        place('1 numbers for kinds, a run of constants from 0', path, text.count('\n', 0, m.start()) + 1, f'{m.group(0).count("const ")} constants')
    for m in re.finditer(r'^ *(?:pub )?(\w+): bool,$', text, re.M):
        place('1 flag', path, text.count('\n', 0, m.start()) + 1, m.group(1))
    for line, name, signature, clauses, body in functions(text):
        for flag in re.findall(r'(\w+): bool', signature.replace('\n', ' ')):
            if not re.search(r'^ *' + flag + ': bool,$', signature, re.M):
                place('1 flag', path, line, f'{name}({flag})')
        code = bare(body)
        # 2: functions of one shape
        shape = re.sub(r'\b[A-Za-z_]\w*\b', 'i', re.sub(r'\b(0x)?[0-9A-Fa-f_]+\b', 'n', re.sub(r'b?"[^"]*"', 's', code)))
        shape = re.sub(r'\s+', ' ', shape)
        if len(shape) > 60:
            shapes[shape].append((path, line, name))
        # 3: loops that count an index
        for m in re.finditer(r'while (\w+)[^{]*\{', code):
            if re.search(r'\b' + m.group(1) + r' (\+=|-=) ', code) or re.search(r'\b' + m.group(1) + r' = \w+;', code):
                place('3 while that counts', path, line, f'{name}: {m.group(0)[:-2]}')
        for m in re.finditer(r'for (\w+) in [^{]*\.\.[^{]*\{', code):
            if re.search(r'\[[^\]]*\b' + m.group(1) + r'\b', code[m.end():]):
                place('3 for over an index of a list', path, line, f'{name}: {m.group(0)[:-2]}')
        # 4: printing and conversion by hand
        for m in re.finditer(r'\bio::(?:write_all|print_\w+)\(', code):
            place('4 printing by a number of a file', path, line, name)
        for m in re.finditer(r'\bsay::(\w+)\(', code):
            place('4 printing by hand', path, line, f'{name}: {m.group(1)}')
        for m in re.finditer(r'% 256\) as u8', code):
            place('4 bytes of a number by hand', path, line, name)
        if re.search(r'^\s*match \w+ \{', code) and len(re.findall(r'=> (?:0x[0-9A-F]+|\d+),', code)) > 1:
            place('4 conversion by a match', path, line, name)
        # 5: facts in contracts, parameters that travel together
        for part in re.findall(r'requires (?:\w+ )?\{(.*?)\}\n', clauses + '\n', re.S):
            for fact in re.split(r' × ', part):
                fact = re.sub(r'\.(now|old|new)\b', '', re.sub(r'[()]', '', fact)).strip()
                facts[crate, fact].add((path, line, name))
        names = re.findall(r'(\w+): ', signature[signature.find('('):].replace('\n', ' '))
        for a, b in zip(names, names[1:]):
            together[crate, a, b].add((path, line, name))
        # 7: a switch on which step
        for m in re.finditer(r'match (\w+) \{(.*?)\n {4}\}', code, re.S):
            arms = re.findall(r'(?:[A-Z][A-Z_0-9]*|\d+|_) => \w+::\w+\(', m.group(2))
            if len(arms) > 2:
                place('7 switch on which step', path, line, f'{name}: {len(arms)} arms')
    # 6: a buffer with a length beside it
    for m in re.finditer(r'struct (\w+)[^{]*\{\n(?:[^}]*\n)? *(?:pub(?:\(crate\))? )?(\w+): \[u8; \d+\],\n *(?:pub(?:\(crate\))? )?(\w+): usize', text):
        place('6 buffer with a length beside it', path, text.count('\n', 0, m.start()) + 1, m.group(1))
    for m in re.finditer(r'(\w+): (&mut )?\[usize; (\w+)\],\s*(\w+): (&mut )?\[usize; \3\]', text):
        place('6 parallel arrays', path, text.count('\n', 0, m.start()) + 1, f'{m.group(1)}, {m.group(4)}')
for group in shapes.values():
    if len(group) > 1:
        for path, line, name in group[1:]:
            place('2 functions of one shape', path, line, f'{name}, as {group[0][2]} ({os.path.relpath(group[0][0], ROOT)}:{group[0][1]})')
for (crate, fact), where in sorted(facts.items()):
    if len(where) > 2:
        path, line, name = sorted(where)[0]
        place('5 fact in three contracts', path, line, f'{fact} in {len(where)}')
for (crate, a, b), where in sorted(together.items()):
    if len(where) > 2:
        path, line, name = sorted(where)[0]
        place('5 parameters that travel together', path, line, f'{a}, {b} in {len(where)}')

for point in sorted(found):
    print(f'{point}: {len(found[point])}')
    for one in found[point]:
        print('   ', one)
print()
for point in sorted(found):
    print(f'{len(found[point]):5} {point}')
