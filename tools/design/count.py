#!/usr/bin/env python3
"""count.py [COMMIT] [--list]: where the sources under crates/*/src have an older form, by kind.

Each kind is a list of lines or groups that its pattern finds; what they are, and which of them are places, is read
by hand (docs/DESIGN-PASS.md). Without COMMIT the work tree is counted. --list prints each line."""
import collections, difflib, re, subprocess, sys

args = [a for a in sys.argv[1:] if not a.startswith('--')]
commit, listing = (args[0] if args else None), '--list' in sys.argv


def git(*words):
    return subprocess.run(['git', *words], capture_output=True, text=True, check=True).stdout


def read(path):
    return git('show', f'{commit}:{path}') if commit else open(path, encoding='utf-8').read()


names = (git('ls-tree', '-r', '--name-only', commit, 'crates') if commit else git('ls-files', '-co', '--exclude-standard', 'crates')).split('\n')
files = {n: read(n) for n in names if re.fullmatch(r'crates/\w+/src/\w+\.rt', n)}
answers = {n: read(n) for n in names if re.fullmatch(r'crates/\w+/proofs/.*Answers\.antt', n)}


def program(text):
    """The lines that are no comment and no ghost use, with their numbers; tests are left out."""
    for i, line in enumerate(text.split('#[cfg(test)]')[0].split('\n'), 1):
        bare = re.sub(r'//.*', '', line)
        if bare.strip() and not bare.lstrip().startswith(('ghost use', 'use ')):
            yield i, bare


def lines(pattern, skip=None):
    return [f'{n}:{i}: {l.strip()}' for n, t in sorted(files.items()) for i, l in program(t)
            if re.search(pattern, l) and not (skip and re.search(skip, l))]


def functions():
    """Each function: its file, name, signature with clauses, and body."""
    for n, t in sorted(files.items()):
        body = '\n'.join(l for _, l in program(t))
        for m in re.finditer(r'(?m)^( *)(?:pub(?:\(crate\))? )?(?:const )?(?:extern "C" )?fn (\w+)', body):
            end = re.compile(r'(?m)^' + m.group(1) + r'\}').search(body, m.end())
            if not end:
                continue
            text = body[m.start():end.end()]
            cut = re.search(r'(?m)^' + m.group(1) + r'\{|\) (?:-> [^{\n]*)?\{$', text)
            if cut:
                yield n, m.group(2), text[:cut.start()], text[cut.end():]


def twins():
    parts = [(f'{n}:{name}', re.findall(r'\w+|[^\w\s]', body)) for n, name, _, body in functions()]
    parts = [(w, b) for w, b in parts if len(b) >= 12]
    group = {w: w for w, _ in parts}

    def root(w):
        while group[w] != w:
            w = group[w]
        return w

    for i, (w, a) in enumerate(parts):
        for v, b in parts[i + 1:]:
            if len(a) < 2 * len(b) and len(b) < 2 * len(a):
                m = difflib.SequenceMatcher(None, a, b, autojunk=False)
                if m.quick_ratio() >= 0.75 and m.ratio() >= 0.75:
                    group[root(v)] = root(w)
    found = collections.defaultdict(list)
    for w, _ in parts:
        found[root(w)].append(w)
    return [', '.join(g) for g in found.values() if len(g) > 1]


def facts():
    """Clauses that stand word for word (up to the names of values) in three or more functions of a crate."""
    seen = collections.defaultdict(set)
    for n, name, head, _ in functions():
        head = re.sub(r'\s+', ' ', head)
        for clause in re.findall(r'(?:requires|ensures)(?: \w+)? \{ (.*?) \}(?= requires| ensures|$| *$)', head):
            plain = re.sub(r'\b(self|cells|stack|i|s|at|slot|path|target|first|second)\b', 'x', clause)
            plain = re.sub(r'\.(now|old|new)\b', '', plain)
            for part in re.split(r' × | → ', plain):
                if len(part) > 12:
                    seen[n.split('/')[1], part.strip('() ')].add(name)
    return [f'{c}: {len(fs)} functions: {p}' for (c, p), fs in sorted(seen.items()) if len(fs) >= 3]


def together():
    """Pairs of parameters that stand in four or more signatures of a crate."""
    seen = collections.defaultdict(set)
    for n, name, head, _ in functions():
        inside = re.search(r'\((.*?)\)(?: ->|\s*$|\s*\n)', head, re.S)
        if not inside:
            continue
        ps = re.findall(r'(\w+): [^,]+', inside.group(1))
        for i, p in enumerate(ps):
            for q in ps[i + 1:]:
                seen[n.split('/')[1], p, q].add(name)
    return [f'{c}: {p}, {q}: {len(fs)} functions' for (c, p, q), fs in sorted(seen.items()) if len(fs) >= 4]


def derives(word):
    out = []
    for n, t in sorted(files.items()):
        for m in re.finditer(r'(?m)^((?: *#\[.*\]\n)*) *(?:pub(?:\(crate\))? )?(?:struct|enum) (\w+)', t.split('#[cfg(test)]')[0]):
            if word not in m.group(1) and f'impl {word} for {m.group(2)}' not in t:
                out.append(f'{n}: {m.group(2)}')
    return out


def same_answers():
    seen = collections.defaultdict(list)
    for n, t in answers.items():
        own = re.escape(n.split('/')[-2])
        plain = '\n'.join(l for l in t.split('\n') if l and not l.startswith(('use ', '--')))
        seen[re.sub(rf'\b{own}\b', 'f', re.sub(rf'\b{own}_', 'f_', plain))].append(n)
    return [', '.join(g) for g in seen.values() if len(g) > 1]


KINDS = [
    ('1 own enums', lines(r'^\s*(pub(\(crate\))? )?enum ')),
    ('1 numbers for kinds and refusals', lines(r'-> u8\b|\b(code|call|kind|from|to): u8\b|\[u8; \d+\] *\{?$|match (r\.call|code|tag|p\.tag)|\bcode (==|<|<=|>)|<= code|number\(\)')),
    ('1 flags beside values', lines(r'^\s*(pub(\(crate\))? )?\w+: bool,|-> \(bool,')),
    ('2 bodies alike', twins()),
    ('3 loops', lines(r'^\s*(for|while|loop)\b|= loop \{')),
    ('3 of these over a range or an index', lines(r'\bfor \w+ in [^{]*\.\.|\+= 1;')),
    ('4 impls by hand', lines(r'^\s*impl(<.*?>)? \S+(<.*>)? for ')),
    ('4 types that print nothing for people at work (no Debug)', derives('Debug')),
    ('4 types without ==', derives('PartialEq')),
    ('4 functions that convert, compare or name by hand', lines(r'fn (same|number|code|kind|text|word|bytes|truth|order|alike|is_\w+|refusal_byte|short|steps)\(')),
    ('5 facts in three contracts or more', facts()),
    ('5 parameters that travel together', together()),
    ('6 arrays', lines(r'\[[A-Za-z]\w*; [A-Za-z0-9_]+\]')),
    ('6 lengths beside', lines(r'\b(\w+_len|depth|len|used|count): (usize|u8|u16)')),
    ('7 switches and flags as parameters', lines(r'match (turn|r\.call|shape|frame\.way)|\b\w+: bool[,)]')),
    ('8 answers word for word twice, up to their own name', same_answers()),
]

for title, found in KINDS:
    print(f'{len(found):5} {title}')
    if listing:
        for f in found:
            print(f'      {f}')
print(f'{len(answers):5} 8 files of answers, {sum(t.count(chr(10)) for t in answers.values())} lines')
print(f'{sum(1 for _ in functions()):5} functions, in {len(files)} files of {sum(t.count(chr(10)) for t in files.values())} lines')
