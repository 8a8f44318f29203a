#!/usr/bin/env python3
"""Counts the places in crates/*/src that docs/DESIGN-PASS.md speaks of, point by point, in a folder or at a commit.

    tools/forms.py [COMMIT] [--list]

With --list each place is printed with its file and line. What a count cannot tell (whether a place is to stay) docs/DESIGN-PASS.md says.
"""
import difflib
import re
import subprocess
import sys

args = [a for a in sys.argv[1:] if not a.startswith('--')]
listing = '--list' in sys.argv
commit = args[0] if args else None


def run(*command):
    return subprocess.run(command, capture_output=True, text=True, check=True).stdout


if commit:
    names = [n for n in run('git', 'ls-tree', '-r', '--name-only', commit, 'crates').split('\n') if re.match(r'crates/\w+/(src/.*\.rt|proofs/.*\.antt)$', n)]
    text = {n: run('git', 'show', f'{commit}:{n}') for n in names if n.endswith('.rt')}
    answers = [n for n in names if n.endswith('/Answers.antt')]
    answer_text = {n: run('git', 'show', f'{commit}:{n}') for n in answers}
else:
    names = run('git', 'ls-files', 'crates').split('\n')
    names = [n for n in names if re.match(r'crates/\w+/(src/.*\.rt|proofs/.*\.antt)$', n)]
    import os
    names = [n for n in names if os.path.exists(n)]
    text = {n: open(n, encoding='utf8').read() for n in names if n.endswith('.rt')}
    answer_text = {n: open(n, encoding='utf8').read() for n in names if n.endswith('/Answers.antt')}


def places(pattern, flags=re.M):
    """Every match of a pattern outside comments, as (file, line, text)."""
    found = []
    for n, t in sorted(text.items()):
        code = re.sub(r'//[^\n]*', lambda m: ' ' * len(m.group()), t)
        for m in re.finditer(pattern, code, flags):
            found.append((n, code.count('\n', 0, m.start()) + 1, ' '.join(m.group().split())[:110]))
    return found


def enums():
    found = []
    for n, t in sorted(text.items()):
        code = re.sub(r'//[^\n]*', '', t)
        for m in re.finditer(r'^\s*(?:pub )?enum (\w+)[^{]*\{([^}]*)\}', code, re.M):
            found.append((n, t.find('enum ' + m.group(1)), m.group(1), [v.strip() for v in re.split(r',\s*\n', m.group(2)) if v.strip(' ,\n')]))
    return found


def functions():
    """(file, line, name, parameters, body) of every function."""
    found = []
    for n, t in sorted(text.items()):
        code = re.sub(r'//[^\n]*', lambda m: ' ' * len(m.group()), t)
        for m in re.finditer(r'\bfn (\w+)(?:<[^(]*>)?\(', code):
            depth, i = 1, m.end()
            while depth:
                depth += {'(': 1, ')': -1}.get(code[i], 0)
                i += 1
            parameters = code[m.end():i - 1]
            line_end = code.find('\n', i)
            head = code[i:line_end]
            if '{' in head and 'ensures' not in head and 'requires' not in head:
                opening = code.index('{', i) + 1
            else:
                start = re.compile(r'^ *\{$', re.M).search(code, i)
                opening = start.end() if start else line_end
            depth, j = 1, opening
            while depth and j < len(code):
                depth += {'{': 1, '}': -1}.get(code[j], 0)
                j += 1
            found.append((n, code.count('\n', 0, m.start()) + 1, m.group(1), parameters, code[opening:j - 1]))
    return found


def show(title, found):
    print(f'{title}: {len(found)}')
    if listing:
        for f in found:
            print('   ', f[0].replace('crates/', '').replace('/src/lib.rt', '').replace('/src/main.rt', ''), *f[1:])


print('1 own enums, flags, numbers')
refusing = r'\b(Refused|Failed|Malformed|Stuck|Ends)\b'
show('  1a enums with a case for a refusal, a failure or nothing',
     [(n, name, '|'.join(' '.join(v.split()) for v in vs)) for n, _, name, vs in enums() if re.search(refusing, ' '.join(vs))
      and name not in ('Refusal', 'Broken')])
said = re.compile(r'(answers? (0|the same place)|or DISKS|, or 0|0 where|0 stands for|for none|0: no|table is empty|0 on refusal|is 0, |0 but for|on refusal all)')
show('  1b flags in structs, and comments that say which number stands for none',
     [(n, t.count('\n', 0, t.find(line)) + 1, line.strip()[:110]) for n, t in sorted(text.items()) for line in t.split('\n') if '//' in line and said.search(line)]
     + places(r'^    (?:pub )?\w+: bool,|^pub fn print\b.*-> bool'))
show('  1c kinds, rules, calls and refusals as bare numbers',
     places(r'\b(kind|call) [=!]= \d|\bkind: u32\b|\b(rule|number): u32(?=[,)])|&\[\d(?:, \d)*\]|^    (?:Refused|RefusedAt|Stopped|Reason)\(u32|fn (?:number_of|kind_of|rule_in)\b'))

print('    in another way: enums and structs of our own', sum(len(re.findall(r'^\s*(?:pub )?enum \w+', t, re.M)) for t in text.values()),
      sum(len(re.findall(r'^\s*(?:pub )?struct \w+', t, re.M)) for t in text.values()),
      'Result, Option and ?', sum(t.count('-> Result<') for t in text.values()), sum(t.count('-> Option<') + t.count(': Option<') for t in text.values()),
      sum(len(re.findall(r'\)\?', t)) for t in text.values()))

print('2 twins')


def shape(body):
    tokens = re.findall(r"[A-Za-z_]\w*|\d\w*|[^\s\w]", body)
    return tokens


twins = []
fs = [f for f in functions() if len(shape(f[4])) >= 12 and 'desk_c' not in f[0]]
for i, a in enumerate(fs):
    for b in fs[i + 1:]:
        x, y = shape(a[4]), shape(b[4])
        if len(x) == len(y):
            differ = sum(1 for p, q in zip(x, y) if p != q)
            words = {(p, q) for p, q in zip(x, y) if p != q}
            if all(re.match(r'\w', p) and re.match(r'\w', q) for p, q in words) and len(words) <= 4 and differ <= len(x) // 3:
                twins.append((a[0], f'{a[2]} and {b[0].split("/")[1]}::{b[2]}', ', '.join(f'{p}/{q}' for p, q in sorted(words))))
show('  2 pairs of functions whose bodies differ in four words at most', twins)
alike = []
for i, a in enumerate(fs):
    for b in fs[i + 1:]:
        x, y = shape(a[4]), shape(b[4])
        if min(len(x), len(y)) >= 24 and 0.8 <= len(x) / len(y) <= 1.25:
            ratio = difflib.SequenceMatcher(None, x, y, autojunk=False).ratio()
            if ratio >= 0.85:
                alike.append((a[0], f'{a[2]} and {b[0].split("/")[1]}::{b[2]}', f'{ratio:.2f}'))
show('    in another way: pairs whose bodies are alike by 0.85 of their words', alike)

print('3 loops')
show('  3 while and loop', places(r'^ *while [^{]*\{|^.*\bloop \{'))
show('    in another way: indices moved by hand, by += 1', places(r'^ *\w+ \+= 1;'))
show('    for', places(r'^ *(?:\'\w+: )?for [^{]*\{'))

print('4 by hand: conversion, comparison, copying, printing')
show('  4a functions that only convert', places(r'fn (?:number_of|kind_of|rule_in|wide|last|time_of|left|sooner|digit|if_any|told\w*)\b'))
show('  4b comparisons, copies and moves element by element', places(r'\b(\w+)\[(\w+)\] = \w+\[\w+\];'))
show('    derives', places(r'#\[derive\([^)]*\)\]'))
show('    impl of From, TryFrom, Display', places(r'^impl[^{]*\b(?:From|TryFrom|Display)\b[^{]*'))

print('5 parameters that travel together')
five = []
for n, line, name, parameters, _ in functions():
    ps = re.findall(r'(\w+):', parameters)
    for group in (('seats', 'counts', 'next', 'prev'), ('costs', 'starts'), ('costs', 'loads', 'delays'), ('out', 'at'), ('unit', 'tenancy'), ('next', 'prev')):
        if set(group) <= set(ps) and 'desk_c' not in n:
            five.append((n, line, name, ' '.join(group)))
            break
show('  5a functions with one of the groups', five)
clauses = {}
for n, t in sorted(text.items()):
    code = re.sub(r'//[^\n]*', '', t)
    for m in re.finditer(r'requires(?: \w+)? \{([^}]*)\}', code):
        for part in m.group(1).split('×'):
            part = ' '.join(part.split()).strip('() ')
            if part:
                clauses.setdefault((n, re.sub(r'\.(now|old)\b', '', part)), []).append(code.count('\n', 0, m.start()) + 1)
show('  5c premises that stand in three functions of a crate or more', [(n, clause, f'{len(ls)} times') for (n, clause), ls in sorted(clauses.items()) if len(ls) >= 3])
show('  5b functions of eight parameters or more', [(n, line, name, len(re.findall(r'\w+:', p))) for n, line, name, p, _ in functions() if len(re.findall(r'\w+:', p)) >= 8 and 'desk_c' not in n])

print('6 buffers and parallel arrays')
show('  6a arrays made of zeros', places(r'\[(?:0u\d+|0|zero); \w+\]'))
show('  6b structs of an array with a length beside', places(r'^(?:pub )?struct \w+ \{[^}]*\[[^\]]*;[^}]*\}', re.M | re.S) + places(r'^(?:pub )?struct \w+ \{[^}]*\bMasks\b[^}]*\}', re.M | re.S))

print('7 switches on a step')
show('  7 chains of tests of one number', places(r'if call == 1 \{|match call \{|dyn |: fn\(|impl Fn|FnMut|FnOnce'))

print('8 proofs')
count = sum(len(re.findall(r'^pub [\w\-+\']+ : goal\.', t, re.M)) for t in answer_text.values())
lines = sum(t.count('\n') for t in answer_text.values())
print(f'  8 answers written: {count}, in {len(answer_text)} files of {lines} lines')
