#!/usr/bin/env python3
# Counts the places of the design pass in crates/*/src and crates/*/proofs: places.py [FOLDER] [-v]
import collections, glob, os, re, sys

top = next((a for a in sys.argv[1:] if not a.startswith('-')), '.')
verbose = '-v' in sys.argv

def sources():
    for path in sorted(glob.glob(os.path.join(top, 'crates/*/src/*.rt'))):
        yield os.path.relpath(path, os.path.join(top, 'crates')), open(path).read()

def code(text):
    return re.sub(r'(?m)^\s*//.*$|\s//.*$', '', text)

def count(name, hits):
    print(f'{len(hits):5} {name}')
    if verbose:
        for h in hits:
            print('        ', h)

def matches(pattern):
    return [f'{p}: {m.group(0).strip()}' for p, t in sources() for m in re.finditer(pattern, code(t), re.M)]

def functions():
    for p, t in sources():
        for m in re.finditer(r'(?ms)^ *(?:pub )?(?:const )?(?:extern "C" )?fn (\w+)[^(]*\(([^)]*)\)(.*?)^ *\{', code(t)):
            ps = [x.split(':')[0].strip() for x in m.group(2).split(',') if x.strip()]
            yield p, m.group(1), ps, m.group(3)

# 1
enums = [f'{p}: {m.group(1)}' for p, t in sources() for m in re.finditer(r'(?ms)^(?:pub )?enum (\w+) \{(.*?)^\}', code(t))
         if re.search(r'\b(Refused|Nothing|None|Failed)\b', m.group(2))]
count('1  enums of the shape of Option or Result', enums)
count('1  numbers for kinds, marks and bases', matches(r'^(?:pub )?const (?:KIND_(?!COUNTS)\w+|\w+_MARK|DECIMAL|HEXADECIMAL)\b'))
count('1  flags in a struct, with a value beside them', matches(r'^    (?:pub )?\w+: bool,'))
count('1  numbers for "there is none"', matches(r'^(?:pub )?const NO_(?!SUMS)\w+'))
# 3
count('3  loops that are no `for`', matches(r'^\s*(?:\'\w+: )?(?:while\b.*|loop \{)'))
count('   loops that are `for`', matches(r'^\s*(?:\'\w+: )?for .* in .*'))
# 5
facts = collections.defaultdict(set)
for p, f, ps, clauses in functions():
    for m in re.finditer(r'(?s)requires \{(.*?)\}\s*(?=ensures|requires|$)', clauses):
        depth, start, parts, text = 0, 0, [], m.group(1)
        for i, ch in enumerate(text):
            depth += ch in '(['
            depth -= ch in ')]'
            if ch == '×' and depth == 0:
                parts.append(text[start:i]); start = i + 1
        parts.append(text[start:])
        for part in parts:
            fact = re.sub(r'\.(?:now|old)\b', '', part).strip()
            fact = re.sub(r'^\((.*)\)$', r'\1', fact)
            facts[fact].add(f'{p}:{f}')
count('5  facts in the `requires` of three functions or more', [f'{len(v)}  {k}' for k, v in sorted(facts.items(), key=lambda x: -len(x[1])) if len(v) >= 3])
count('5  functions of six parameters or more', [f'{p}: {f} ({len(ps)})' for p, f, ps, _ in functions() if len(ps) >= 6])
count('5  clauses `length x ≡` of a lent slice', [f'{p}: {f}' for p, f, _, c in functions() if re.search(r'length \w+\.(?:now|old) ≡', c) and 'requires' in c])
# 6
count('6  functions of a buffer and a place in it (text, at)', [f'{p}: {f}' for p, f, ps, _ in functions() if 'text' in ps and 'at' in ps])
# 8
answers = lines = own = 0
for path in glob.glob(os.path.join(top, 'crates/*/proofs/**/*.antt'), recursive=True):
    t = open(path).read()
    lines += t.count('\n')
    if path.endswith('Answers.antt'):
        answers += len(re.findall(r'(?m)^pub \S+ : goal\.', t))
    own += 0
print(f'{answers:5} 8  answers;  {lines} lines of proofs')
print(f'{len(list(functions())):5}    functions')
