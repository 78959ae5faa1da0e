#!/usr/bin/env python3
"""Respells the repository's own definitions, lemmas and fields: snake case with underscores, where they were in camel case or had dashes.

Run once, at the top of the repository, after the toolchain's own scripts. Types, modules, Rust names, names of the libraries and names that the checker makes stay as they are.
"""
import glob
import re
import sys

OWN = {p.split('/')[1] for p in glob.glob('crates/*/')}
TOKEN = re.compile(r"[^\s(){}\[\],;.`\"|]+")
# names of the language and of the checker that look like names of ours
KEEP = {'omega', 'grind'}


def is_own(path):
    parts = path.split('.')
    return len(parts) > 1 and parts[0] == 'Rattle' and parts[1] in OWN


def is_made(path):
    """A module that the checker makes of the sources."""
    return bool(re.search(r'\.(Goals|Given|declared|TheVariants|TheConstants|Proof)\b', path + '.'))


def turned(name):
    if not name[:1].islower():
        return name
    name = name.replace('getD', 'get_or')
    name = re.sub(r'(?<=[a-z0-9])([A-Z])(?=[a-z])', lambda m: '_' + m.group(1).lower(), name)
    name = re.sub(r"(?<=[a-z0-9])([A-Z])(?![a-z])", lambda m: '_' + m.group(1).lower(), name)
    return re.sub(r"(?<=[\w'≤≡≢])-(?=[\w≤≡≢])", '_', name)


USE = re.compile(r'\b(?:ghost )?(?:pub )?use ([^\s{};]+?)(?:\.\{([^}]*)\})?(?: as ([^\s;]+))?;?$', re.M)


def imports(text):
    """(path, names, alias) of each use line."""
    for m in USE.finditer(text):
        names = [n.strip() for n in (m.group(2) or '').split(',') if n.strip()]
        yield m.group(1), names, m.group(3)


antt = sorted(glob.glob('crates/*/specs/**/*.antt', recursive=True) + glob.glob('crates/*/proofs/**/*.antt', recursive=True))
rust = sorted(glob.glob('crates/*/src/**/*.rt', recursive=True))
texts = {f: open(f).read() for f in antt + rust}

# every name that is imported from a library
library = set()
for f, text in texts.items():
    for path, names, alias in imports(text):
        if not is_own(path) or is_made(path):
            for n in names:
                parts = n.split(' as ')
                library.add(parts[0])
                if not is_made(path):
                    library.add(parts[-1])

DECL = re.compile(r"^(\s*)((?:(?:abbrev|unfoldable|pub)\s+)*)([^\s:(){},.=]+(?:\s+[^\s:(){},.=]+)*)\s+(?:\{[^}]*\}\s*|\([^)]*\)\s*)*:(?:\s|$)")
DATA = re.compile(r"^\s*(?:pub\s+)?(?:data|record)\s+(\S+)")
declared = set()
fields = set()
for f in antt:
    inside = None
    for line in texts[f].split('\n'):
        if line.lstrip().startswith('--') or line.startswith('use '):
            continue
        d = DATA.match(line)
        if d:
            inside = True
            continue
        if line and not line[0].isspace():
            inside = None
        m = DECL.match(line)
        if m and not re.search(r':\s+goal\.', line):
            for n in m.group(3).split():
                declared.add(n)
                if inside:
                    fields.add(n)


# a lemma that would have the name of a definition, or of a word of a library, ends in _lem; but not where no file has both
defined = {turned(n) for n in declared if re.search(r'[a-z0-9][A-Z]', n) and '-' not in n and turned(n) != n}
words_of = {f: {m.group(0).rstrip(':') for m in TOKEN.finditer(texts[f])} for f in antt}
# a field and what is given for it may share a name
SHARED = {'few-lines'}


def meets(name):
    """Some file has this name beside another that gets the same spelling."""
    return any(name in words and any(w != name and turned(w) == turned(name) for w in words) for words in words_of.values())


lemmas = {n for n in declared if n == turned(n) and n in defined and n not in library and meets(n)}


def spelled(name):
    dashed = '-' in name and (turned(name) in defined or turned(name) in library) and name not in SHARED and meets(name)
    return turned(name) + '_lem' if dashed or name in lemmas else turned(name)


def goals(text):
    """The names that the checker made, as this file writes them."""
    made = set(re.findall(r'goal\.([^\s(){},;.]+)', text))
    for path, names, alias in imports(text):
        if is_made(path) and not '.declared' in path:
            made.update(n.split(' as ')[-1] for n in names)
    return made


def respell_antt(f, text):
    made = goals(text)
    aliases = {alias for path, names, alias in imports(text) if alias and is_own(path) and not is_made(path)}
    out = []
    for line in text.split('\n'):
        use = USE.match(line)
        comment = line.find('--') if re.search(r'(^|\s)--(\s|$)', line) else -1
        if comment >= 0:
            comment = re.search(r'(^|\s)--(\s|$)', line).start()
        own_use = use and is_own(use.group(1)) and not is_made(use.group(1))
        brace = line.find('{') if use else -1

        def sub(m):
            t = m.group(0)
            start = m.start()
            before = line[start - 1] if start else ''
            if use:
                return spelled(t) if own_use and start > brace >= 0 and t != 'as' and t not in library else t
            core = t.rstrip(':')
            tail = t[len(core):]
            if core in library or core in made or core in KEEP:
                return t
            if comment >= 0 and start > comment:
                return spelled(core) + tail if core in declared and re.search(r'[a-z]-[a-z]|[a-z][A-Z]', core) else t
            if before == '.':
                word = re.search(r"([^\s(){}\[\],;.]+)\.$", line[:start])
                if word and word.group(1) in aliases:
                    return spelled(core) + tail
                if core in fields or (re.match(r'^[a-z]+[A-Z]\w*$', core) and core in declared):
                    return spelled(core) + tail
                return t
            return spelled(core) + tail

        out.append(TOKEN.sub(sub, line))
    return '\n'.join(out)


def respell_words(text):
    """In Rust and in pages: the names in camel case that we declare."""
    words = {n for n in declared if re.match(r'^[a-z]+[a-z0-9]*[A-Z]', n) and n not in library}
    return re.sub(r"[A-Za-z_][\w']*", lambda m: spelled(m.group(0)) if m.group(0) in words else m.group(0), text)


new = {}
for f in antt:
    new[f] = respell_antt(f, texts[f])
for f in rust:
    new[f] = respell_words(texts[f])
for f in ['README.md'] + glob.glob('docs/*.md') + glob.glob('crates/*/must-fail/*.edit'):
    texts[f] = open(f).read()
    new[f] = respell_words(texts[f])

# names that fall together: a name that a file had already, beside one that now has its spelling
for f in antt:
    olds = {m.group(0) for m in TOKEN.finditer(texts[f])}
    came = {}
    for a, b in zip(TOKEN.finditer(texts[f]), TOKEN.finditer(new[f])):
        if a.group(0) != b.group(0):
            came.setdefault(b.group(0), set()).add(a.group(0))
    for n, froms in sorted(came.items()):
        if len(froms) > 1 or n in olds:
            print(f'{f}: {n}: {sorted(froms)}' + (' was there' if n in olds else ''))

for f, text in new.items():
    if text != texts[f]:
        if '--dry' not in sys.argv:
            open(f, 'w').write(text)
