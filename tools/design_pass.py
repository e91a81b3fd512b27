"""Candidates of the points 2, 5 and 8 of docs/DESIGN-PASS.md: python3 tools/design_pass.py 2 (or 5, or 8)."""
import collections, glob, itertools, re, sys

BRACES = r'\{((?:[^{}]|\{[^{}]*\})*)\}'
CLAUSE = r'(requires|ensures)(?: \w+)? ' + BRACES


def sources():
    for path in sorted(glob.glob('crates/*/src/**/*.rt', recursive=True)):
        yield path[7:-3].replace('/src', ''), re.sub(r'//.*', '', open(path).read())


def twins():
    """Functions whose bodies have one shape: names, numbers, `&` and casts left out, and argument lists in bodies over twelve words."""
    words = set('let mut match if else for in while loop return None Some Ok Err impl const break true false n'.split())
    shapes = collections.defaultdict(list)
    for name, text in sources():
        text, of = re.sub(CLAUSE, '', text), ''
        for m in re.finditer(r'^impl\b(.*?)\{$|^( *)(?:pub(?:\(\w+\))? )?fn (\w+)(?:\[[^\]]*\]|[^;{\[])*\{', text, re.M):
            if m.group(3) is None:
                of = m.group(1).split(' for ')[-1].strip().split('<')[0] + '::'
                continue
            depth, end = 1, m.end()
            while depth:
                depth += {'{': 1, '}': -1}.get(text[end], 0)
                end += 1
            body = re.sub(r'"[^"]*"', 'text', text[m.end():end - 1])
            body = re.sub(r'&mut |[&*](?=[\w\[])| as \w+|(?:\w+::)+(?=\w)', '', re.sub(r'\b\d\w*', 'n', body))
            shape = ' '.join(w if w in words or not re.match(r'\w', w) else 'i' for w in re.findall(r'\w+|[^\w\s]', body))
            shape, old = re.sub(r'i( \. i)+(?! \()', 'i', shape), None
            while shape != old and len(shape.split()) > 12:
                old = shape
                shape = re.sub(r'i( \. i)* \(\)( \. i \(\))*', 'i', re.sub(r'\( [in .,\[\]|:]*\)', '()', shape))
            if len(shape.split()) > 2:
                shapes[shape].append(name + ' ' + (of if m.group(2) else '') + m.group(3))
    return sorted(f'{len(v)} | {"; ".join(v)} | {k[:60]}' for k, v in shapes.items() if len(v) > 1)


def together():
    """Facts in the clauses of three functions or more, and parameters that three or more have together."""
    facts, pairs = collections.defaultdict(set), collections.defaultdict(set)
    for name, text in sources():
        for m in re.finditer(r'\bfn (\w+)(?:<[^(]*>)?\(([^{;]*?)\)(?: -> [^\n{]*)?\s*((?:' + CLAUSE + r'\s*)*)', text):
            fn = f'{name}:{text[:m.start()].count(chr(10)) + 1} {m.group(1)}'
            for kind, clause in re.findall(CLAUSE, m.group(3)):
                for fact in clause.replace('«', '').replace('»', '').replace('other_', '').split(' × '):
                    fact = re.sub(r'\b(entry\.entry|entry|first|second|state|self|extent)\.', '', fact.strip())
                    while fact.count('(') > fact.count(')') and fact[0] == '(':
                        fact = fact[1:]
                    while fact.count(')') > fact.count('(') and fact[-1] == ')':
                        fact = fact[:-1]
                    if re.fullmatch(r'\([^()]*(\([^()]*\)[^()]*)*\)', fact):
                        fact = fact[1:-1]
                    facts[kind + ' ' + fact].add(fn)
            given = [re.sub(r"'\w+ ?|\bmut |^_", '', p.strip()) for p in re.split(r',(?![^<]*>)', m.group(2))]
            given = sorted({p for p in given if p and 'self' not in p and 'rt: ' not in p})
            for size in (2, 3, 4):
                for group in itertools.combinations(given, size):
                    pairs[group].add(fn)
    pairs = {g: v for g, v in pairs.items() if len(v) > 2}
    pairs = {', '.join(g): v for g, v in pairs.items() if not any(set(g) < set(h) and pairs[h] == v for h in pairs)}
    facts = {f: v for f, v in facts.items() if len(v) > 2}
    return [f'{len(v)} | {k} | {"; ".join(sorted(v))}' for d in (facts, pairs) for k, v in sorted(d.items())]


def answers():
    """Lines of proofs that stand three times or more in the same words, whatever name they give."""
    lines = collections.defaultdict(list)
    for path in sorted(glob.glob('crates/*/proofs/**/*.antt', recursive=True) + glob.glob('crates/*/specs/*.antt')):
        for line in map(str.strip, open(path)):
            if re.match(r'use |--|pub mod', line):
                continue
            line = re.sub(r"^let \S+ (: .*? )?= ", 'let .. = ', line) if line.startswith('let ') else re.sub(r'^[\w-]+ .*? = ', '.. = ', line)
            if ' = ' in line and (len(line) >= 20 or 'absurd' in line):
                lines[line].append(path[7:-5])
    return [f'{len(v)} | {k} | {"; ".join(sorted(set(v)))}' for k, v in sorted(lines.items(), key=lambda x: (-len(x[1]), x[0])) if len(v) > 2]


found = {'2': twins, '5': together, '8': answers}[sys.argv[1]]()
print('\n'.join(found))
print(len(found))
