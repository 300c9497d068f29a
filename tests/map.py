#!/usr/bin/env python3
"""Holds docs/STATEMENTS.md to the sources: every name in it exists, and every public call is in it.

  python3 tests/map.py            from anywhere; prints what is missing and exits 1, or a count

A name is what stands in backquotes: a definition, theorem, record, function, must-fail edit, file or folder.
"""
import os, re, sys

ROOT = os.path.dirname(os.path.dirname(os.path.abspath(__file__)))
CRATES = os.path.join(ROOT, 'crates')
ANTT = re.compile(r'^\s*(?:(?:unfoldable|abbrev|pub) )*((?:[^\s:(){}]+ )*[^\s:(){}]+)(?: \{[^}]*\})? :(?:\s|$)')
TYPE = re.compile(r'^\s*(?:pub )?(?:record|data) (\S+)')
RATTLE = re.compile(r'^\s*(pub(?:\(crate\))? )?(?:extern "C" )?(?:fn|struct|enum|const|trait|ghost) (\w+)')


def files(ending):
    for base, dirs, names in os.walk(CRATES):
        if os.path.dirname(base) == CRATES:
            dirs[:] = [d for d in dirs if d != 'out']  # what rt made; a folder out/ further down is ours
        for name in sorted(names):
            if name.endswith(ending):
                yield os.path.join(base, name)


def declared():
    """Every name that a source file declares, and every must-fail edit's label."""
    found = set()
    for path in files('.antt'):
        for line in open(path, encoding='utf-8'):
            for pattern in (TYPE, ANTT):
                m = pattern.match(line)
                if m:
                    found.update(m[1].split())
    for path in files('.rt'):
        for line in open(path, encoding='utf-8'):
            m = RATTLE.match(line)
            if m:
                found.add(m[2])
    found.update(os.path.basename(p)[:-len('.edit')] for p in files('.edit'))
    return found


def functions(path, prefix):
    """The public functions of a source file, each behind the prefix and its type, the public modules it declares, and the
    names that it hands on from a private one."""
    owner, calls, modules, handed = None, [], [], []
    for line in open(path, encoding='utf-8'):
        m = re.match(r'^impl(?:<[^>]*>)? (\w+)', line)
        if m:
            owner = m[1]
        elif line.startswith('}'):
            owner = None
        m = RATTLE.match(line)
        if m and re.match(r'^\s*pub (?:extern "C" )?fn', line):
            calls.append('::'.join(prefix + ([owner] if owner else []) + [m[2]]))
        m = re.match(r'^pub mod (\w+);', line)
        if m:
            modules.append(m[1])
        m = re.match(r'^pub use crate::(\w+)::(?:(\w+)|\{([^}]*)\});', line)
        if m:
            handed.append((m[1], {name.strip() for name in (m[2] or m[3]).split(',')}))
    return calls, modules, handed


def public_calls():
    """Each function that another crate, or C, can call, as crate::name (or crate::module::name, crate::Type::name)."""
    found = []
    for crate in sorted(os.listdir(CRATES)):
        source = os.path.join(CRATES, crate, 'src')
        if os.path.exists(os.path.join(source, 'lib.rt')):
            calls, modules, handed = functions(os.path.join(source, 'lib.rt'), [crate])
            found += calls
            for module in modules:
                found += functions(os.path.join(source, module + '.rt'), [crate, module])[0]
            for module, names in handed:
                inner = functions(os.path.join(source, module + '.rt'), [crate])[0]
                found += [call for call in inner if call.split('::')[1] in names]
    return found


def main():
    text = open(os.path.join(ROOT, 'docs', 'STATEMENTS.md'), encoding='utf-8').read()
    known, missing, count = declared(), [], 0
    quoted = re.findall(r'`([^`\n]+)`', text)
    for name in quoted:
        count += 1
        last = name.split('::')[-1].split(' ')[0]
        if last in known or os.path.exists(os.path.join(ROOT, name)) or os.path.exists(os.path.join(CRATES, name)):
            continue
        missing.append(f'docs/STATEMENTS.md names `{name}`, which nothing declares')
    for call in public_calls():
        if call not in quoted:
            missing.append(f'docs/STATEMENTS.md does not have the public call `{call}`')
    print('\n'.join(missing) if missing else f'map: {count} names, {len(public_calls())} public calls, all there')
    sys.exit(1 if missing else 0)


main()
