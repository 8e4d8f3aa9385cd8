#!/usr/bin/env python3
"""Checks that the text taken from fe2o3-amqp stands here as it was published.

usage: verify.py FOLDER     (the unpacked archive of the crate, with its src/)

Each region between `// >>> FILE` and `// <<<` has to stand in FILE as it is, in one piece.
"""
import pathlib
import sys

HERE = pathlib.Path(__file__).resolve().parent / 'original' / 'oracle' / 'src'


def regions(path):
    """(file, text) of each region."""
    name, lines = None, []
    for line in path.read_text(encoding='utf-8').splitlines():
        mark = line.strip()
        if mark.startswith('// >>> '):
            name, lines = mark[len('// >>> '):], []
        elif mark == '// <<<':
            yield name, '\n'.join(lines).strip('\n')
            name = None
        elif name:
            lines.append(line)


def main():
    published = pathlib.Path(sys.argv[1])
    count = lines = bad = 0
    for path in sorted(HERE.rglob('*.rs')):
        for name, text in regions(path):
            count += 1
            lines += text.count('\n') + 1
            whole = (published / name).read_text(encoding='utf-8')
            if f'\n{text}\n' not in f'\n{whole}\n':
                print(f'{path.relative_to(HERE)}: a region of {name} is not as published')
                bad += 1
    print(f'{count} regions, {lines} lines, {bad} not as published')
    return 1 if bad or not count else 0


if __name__ == '__main__':
    sys.exit(main())
