#!/usr/bin/env python3
"""Counts in crates/*/src the places where an older way of writing may stand, point by point.

    python3 tools/places.py [FOLDER] [--list]

FOLDER is a checkout (default: this one). With --list each place is printed too.
docs/DESIGN-PASS.md says what each point is, and what became of each place.
"""
import collections
import os
import re
import sys

LIST = '--list' in sys.argv
ROOT = next((a for a in sys.argv[1:] if not a.startswith('-')), os.path.join(os.path.dirname(__file__), '..'))


def sources():
    for folder, _, names in sorted(os.walk(os.path.join(ROOT, 'crates'))):
        if '/src' in folder and '/out/' not in folder:
            for name in sorted(names):
                if name.endswith('.rt'):
                    path = os.path.join(folder, name)
                    yield os.path.relpath(path, os.path.join(ROOT, 'crates')), open(path).read()


def closing(text, start, pair='{}'):
    depth = 0
    for i in range(start, len(text)):
        if text[i] == pair[0]:
            depth += 1
        elif text[i] == pair[1]:
            depth -= 1
            if depth == 0:
                return i
    return len(text)


def without_comments(text):
    return re.sub(r'//[^\n]*', '', text)


Function = collections.namedtuple('Function', 'path name args clauses body test')


def functions(path, text):
    text = without_comments(text)
    for m in re.finditer(r'\bfn (\w+)(<[^(]*>)?\(', text):
        end = closing(text, m.end() - 1, '()')
        i, clauses = end, []
        while i < len(text) and text[i] not in '{;':
            i += 1
        if i >= len(text):
            continue
        head = i
        while True:
            before = text[end:i]
            if re.search(r'(requires|ensures)\b[^{};]*$', before):
                close = closing(text, i)
                clauses.append(re.sub(r'\s+', ' ', re.search(r'(requires|ensures)\b[^{};]*$', before).group(1) + ' ' + text[i:close + 1]))
                end = i = close + 1
                while i < len(text) and text[i] not in '{;':
                    i += 1
            else:
                break
        body = text[i:closing(text, i) + 1] if i < len(text) and text[i] == '{' else ''
        args = re.sub(r'\s+', ' ', text[m.end():closing(text, m.end() - 1, '()')]).strip(' ,')
        test = '#[test]' in text[max(0, m.start() - 12):m.start()]
        yield Function(path, m.group(1), args, clauses, body, test)


def normal(body):
    body = re.sub(r'b?"[^"]*"', 'S', body)
    body = re.sub(r"b?'[^']*'", 'S', body)
    body = re.sub(r'-?\b\d[\d_x]*[A-F]*(u\d+|i\d+)?\b', 'N', body)
    body = re.sub(r'\b[A-Z]\w*\b', 'T', body)
    return re.findall(r'\w+|[^\w\s]', body)


def matching(pattern, everything, flags=0):
    return [(p, t[:m.start()].count('\n') + 1, re.sub(r'\s+', ' ', m.group(0))[:90]) for p, t in everything for m in re.finditer(pattern, t, flags)]


def show(point, what, places):
    print(f'{point}  {len(places):4d}  {what}')
    if LIST:
        for place in places:
            print('         ', *place)


def point_1(everything, fns):
    """Own enums like Option and Result, flags, nones and errors handed on by hand."""
    enums = []
    for p, t in everything:
        for m in re.finditer(r'\benum (\w+)[^{]*\{', t):
            inside = t[m.end():closing(t, m.end() - 1)]
            inside = re.sub(r'\{[^{}]*\}', '{}', inside)
            variants = [v.strip() for v in re.split(r',(?![^(]*\))', inside) if v.strip()]
            units = [v for v in variants if '(' not in v and '{' not in v]
            named = any(re.match(r'(Absent|Nothing|Missing|Taken|Accepted|Refused|Failed)\b', v) for v in variants)
            if named and len(units) < len(variants):
                enums.append((p, m.group(1)))
    show(1, 'enums with a variant for "none" or "refused" beside ones with values', enums)
    show(1, 'an error or a none handed on by hand, where ? would do', matching(r'(None => (return )?(None|Err\()|Err\((\w+)\) => (return )?Err\(\5\)|let (Some|Ok)\([^=]*= [^;{]*else \{\s*return (None|Err\([^)]*\));\s*\})', everything))
    show(1, 'a match that only maps what is in an Option or a Result', matching(r'Some\(\w+\) => (Some|Ok)\([^,]*,?\s*(\w+\([^)]*\))?\)?,?\s*None =>|match [^{]*\{\s*Some\((\w+)\) => \3,\s*(None|_) => ', everything))
    show(1, 'fields that a flag or a 0 makes meaningless', matching(r'(?<=\n    )(place|len): usize,', everything))


def point_2(everything, fns):
    """Twins."""
    groups = collections.defaultdict(list)
    for f in fns:
        tokens = normal(f.body)
        if len(tokens) >= 7 and not f.test:
            groups[' '.join(tokens)].append((f.path, f.name))
    twins = [g for g in groups.values() if len(g) > 1]
    show(2, f'functions that differ only in names of types, constants and literals, in {len(twins)} groups', [x for g in twins for x in g])
    stems = collections.defaultdict(set)
    for f in fns:
        m = re.match(r'(.*?)_?(number|mask|text|low|high|first|second|next|fewest|most|current|voltage|lines|temperature)(_.*)?$', f.name)
        if m and (m.group(1) or m.group(3)):
            stems[(os.path.dirname(f.path), m.group(1), m.group(3) or '')].add(f.name)
    show(2, 'families of functions whose names differ in one word of kind or end', [(k[0], ' '.join(sorted(v))) for k, v in stems.items() if len(v) > 1])
    show(2, 'structs of an array and its length', matching(r'\[u8; \w+\],\s*len: usize', everything))


def point_3(everything, fns):
    """Loops."""
    show(3, 'loops over a range from a number', matching(r'for \w+ in \(?\d[^{]*\.\.[^{]*\{', everything))
    show(3, 'while and loop', matching(r'(?<!\.)\b(while|loop) [^=;]*\{', everything))
    show(3, 'loops that search, test or count: a return or a sum inside a for', matching(r'for [^{]* in [^{]*\{\s*(if|match)[^{]*\{[^}]*(return|\+= 1)', everything))


def point_4(everything, fns):
    """Equality, order, conversion and printing by hand."""
    show(4, 'match to true and false', matching(r'=> (true|false),\s*[^=>]*=> (true|false),', everything))
    show(4, 'numbers taken out of quantities to be compared', matching(r'millionths\(\)\s*(<|>|<=|>=|==)\s*[\w.()]*\.millionths\(\)', everything))
    bare = []
    for p, t in everything:
        for m in re.finditer(r'((?:#\[derive\([^\]]*\)\]\s*)*)(?:pub(?:\(crate\))? )?enum (\w+)[^{]*\{', t):
            inside = t[m.end():closing(t, m.end() - 1)]
            if 'PartialEq' not in m.group(1) and '(' not in inside and '{' not in inside:
                bare.append((p, m.group(2)))
    show(4, 'plain enums without derived equality', bare)
    show(4, 'functions that make text for people', [(f.path, f.name) for f in fns if re.match(r'(describe|text_of|told|explain|loop_name|access_name|setter|reason)', f.name)])
    show(4, 'functions that turn one of our values into another', [(f.path, f.name) for f in fns if f.name != 'from' and re.match(r'\w+: (CellValue|Option<i64>|Option<u32>)$', f.args)])


def point_5(everything, fns):
    """Facts that repeat, parameters that travel together."""
    clauses = collections.defaultdict(set)
    for f in fns:
        for c in f.clauses:
            if c.startswith('requires'):
                for part in re.split(r' × ', re.sub(r'^requires \{|\}$', '', c)):
                    clauses[(f.path.split('/')[0], re.sub(r'[()\s]', '', part))].add(f.path + ' ' + f.name)
    show(5, 'facts that three or more functions of a crate require', [(k[0], k[1], len(v)) for k, v in clauses.items() if len(v) > 2])
    sets = collections.defaultdict(set)
    for f in fns:
        args = [re.sub(r"'\w+ ", '', a.strip()) for a in re.split(r',(?![^<(]*[>)])', f.args) if ':' in a]
        args = [a for a in args if not re.search(r'Global|HostRuntime|impl |Formatter', a)]
        for i, a in enumerate(args):
            for b in args[i + 1:]:
                sets[(f.path.split('/')[0], a, b)].add(f.path + ' ' + f.name)
    show(5, 'pairs of parameters that three or more functions of a crate take', [(*k, len(v)) for k, v in sets.items() if len(v) > 2])


def point_6(everything, fns):
    """Buffers with a length, tables."""
    show(6, 'an array with a length or a place beside it', matching(r'\[[\w<>]+; \w+\],\s*len: usize|Vec<\w+>,\s*place: usize', everything))
    show(6, 'tables', matching(r'(static|const) \w+: \[[^;]+; \w+\]', everything))


def point_7(everything, fns):
    """Switches."""
    show(7, 'a match of which four or more arms call a function', [(p, l, x) for p, l, x in matching(r'match [^{]*\{(\s*[^=]*=> (self\.)?\w+\([^;{]*\),){4,}', everything)])
    show(7, 'tables of functions, function pointers', matching(r':\s*\[?fn\(', everything))


def point_8(everything, fns):
    """Proofs, and how much there is."""
    answers = lemmas = lines = 0
    for folder, _, names in os.walk(os.path.join(ROOT, 'crates')):
        if '/proofs' in folder and '/out/' not in folder:
            for name in names:
                if name.endswith('.antt'):
                    t = open(os.path.join(folder, name)).read()
                    lines += t.count('\n')
                    if name == 'Answers.antt':
                        answers += len(re.findall(r'^pub \S+ : goal\.', t, re.M))
                    elif name != 'Invariants.antt':
                        lemmas += len(re.findall(r'^ *(pub )?[^\s:]+ : \(', t, re.M))
    print(f'8  {answers:4d}  answers in proofs; {lemmas} lemmas; {lines} lines of proofs')
    print(f'   {sum(t.count(chr(10)) for _, t in sources()):4d}  lines in src; {len(fns)} functions')


def main():
    everything = [(p, re.sub(r'"[^"\n]*"', '""', without_comments(t))) for p, t in sources()]
    fns = [f for p, t in sources() for f in functions(p, t)]
    for point in (point_1, point_2, point_3, point_4, point_5, point_6, point_7, point_8):
        point(everything, fns)


main()
