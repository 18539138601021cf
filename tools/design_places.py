#!/usr/bin/env python3
"""Lists the places in crates/*/src that a design pass has to look at, by kind, and counts them.

usage: tools/design_places.py [COMMIT]      (without a commit: the work tree)

What it prints is where to look, and no verdict: docs/DESIGN-PASS.md says of each place what became of it.
"""
import re
import subprocess
import sys
from collections import defaultdict

COMMIT = sys.argv[1] if len(sys.argv) > 1 else None


def git(*words):
    return subprocess.run(['git', *words], capture_output=True, text=True, check=True).stdout


def sources():
    """Each source file's name and its lines."""
    if COMMIT:
        names = git('ls-tree', '-r', '--name-only', COMMIT, 'crates').split('\n')
    else:
        names = git('ls-files', '-co', '--exclude-standard', 'crates').split('\n')
    for name in names:
        if re.fullmatch(r'crates/[a-z_]+/src/.*\.rt', name):
            text = git('show', f'{COMMIT}:{name}') if COMMIT else open(name).read()
            yield name, text.split('\n')


FILES = list(sources())


def show(title, rows):
    print(f'## {title}: {len(rows)}')
    for row in rows:
        print('  ' + row)
    print()


def grep(pattern, skip=None):
    rows = []
    for name, lines in FILES:
        for i, line in enumerate(lines):
            code = line.split('//')[0]
            if 'ghost use' in code or re.match(r'\s*(use|requires|ensures)\b', code):
                continue
            if re.search(pattern, code) and not (skip and re.search(skip, code)):
                rows.append(f'{name}:{i + 1}: {line.strip()}')
    return rows


def functions():
    """Each function's name, its parameters and the lines of its clauses."""
    for name, lines in FILES:
        i = 0
        while i < len(lines):
            found = re.match(r'\s*(?:pub(?:\(crate\))? )?fn (\w+)', lines[i])
            if not found:
                i += 1
                continue
            head, start = [], i
            while i < len(lines) and not re.search(r'[{;]\s*$', lines[i].split('//')[0]) or (i < len(lines) and re.match(r'\s*(requires|ensures)', lines[i]) and not lines[i].rstrip().endswith(';')):
                head.append(lines[i])
                i += 1
            if i < len(lines):
                head.append(lines[i])
            yield name, start + 1, found.group(1), head
            i += 1


def clauses():
    where = defaultdict(list)
    for name, line, fn, head in functions():
        for row in head:
            found = re.match(r'\s*(requires|ensures)\*?\s*(?:\w+ )?\{ (.*) \};?\s*$', row)
            if found:
                crate = name.split('/')[1]
                where[(crate, found.group(1), found.group(2))].append(fn)
    return [f'{crate}: {kind} {{ {text} }} in {len(fns)}: {", ".join(fns)}' for (crate, kind, text), fns in sorted(where.items()) if len(fns) >= 3]


def parameters():
    where = defaultdict(list)
    for name, line, fn, head in functions():
        text = ' '.join(row.strip() for row in head)
        inside = re.search(r'fn \w+(?:<[^(]*>)?\((.*?)\)(?: ->| *\{|;| requires| ensures|$)', text)
        if not inside:
            continue
        names = [p.strip() for p in re.split(r',\s*(?![^<(\[]*[>)\]])', inside.group(1)) if ':' in p]
        for a in range(len(names)):
            for b in range(a + 1, len(names)):
                where[(name.split('/')[1], names[a], names[b])].append(fn)
    return [f'{crate}: ({a}, {b}) in {len(fns)}: {", ".join(fns)}' for (crate, a, b), fns in sorted(where.items()) if len(fns) >= 3]


show('1a own enums', grep(r'^\s*(pub(\(crate\))? )?enum '))
show('1b numbers for kinds and refusals', grep(r'\b(letter|rule|kind|code|number): u(8|16|32|64|size)\b'))
show('1c a flag with a value beside it', grep(r'^\s*(pub(\(crate\))? )?\w+: bool,$|\((true|false), '))
show('1d numbers for yes, no or none', grep(r'=> [01],$|break 0;|^\s+[01]$|\{ [01] \}|u32::from\(.*[<>=]|unwrap_or\(0\)|^    bytes\.len\(\)$|return 0;$'))
show('3 loops', grep(r'(^|\s)(loop \{|while |for \S+(, \S+\))? in )'))
show('4a conversions, comparisons and constructors by hand', grep(r'fn (number|tell|tell_line|call_in|is_taken|none|empty|unused|new)\(|if let [A-Z]\w*::\w+ ='))
show('4b impls of conversion, comparison and printing', grep(r'^impl.* (From|TryFrom|Display|PartialEq|Ord|Debug|Default|Clone)\b.* for '))
show('4c printing', grep(r'\be?print(ln)?!|push_number\(|write!\('))
show('5a clauses that stand in three or more functions of a crate', clauses())
show('5b pairs of parameters in three or more functions of a crate', parameters())
show('6 fixed arrays, lengths beside them, indices as links', grep(r': \[\w+; \w+\]|^\s*(pub(\(crate\))? )?(filled|next|prev|first|last|count|len|length): |&mut \[\w+\]'))
show('7 matches that choose a step', grep(r'=> (self|census|Some|Counted|\w+)(\.\w+)*\(.*\),?\??$|=> self\.\w+\.\w+\(.*\)\?,$'))
