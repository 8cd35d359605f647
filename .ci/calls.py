#!/usr/bin/env -S python3 -B
"""Writes docs/CALLS.md, which `.ci/pages` holds to the sources: `.ci/calls.py`. The page has each public call of deque
and ring, with its type, its signature, the first sentence of its documentation, and a link to its line."""
import re
from pathlib import Path

ROOT = Path(__file__).resolve().parent.parent
PAGE = ROOT / 'docs/CALLS.md'
PARTS = [('The deque, its iterators and the scanner', 'arraydeque'), ('The ring and its iterator', 'arraydeque_ring')]
CALL = re.compile(
    r'((?:^    ///.*\n)+)(?:^    #\[.*\n)*^    pub ((?:const |unsafe )*fn (\w+)[\s\S]*?)'
    r'(?=\n    \{| \{\n|\n        (?:requires|ensures|//))|^impl(?:<.*?>)? ([^{\n]*?)(?: \{)?$',
    re.M,
)
HEAD = (
    '# All calls\n\n'
    'This page lists each public call of the deque and of the ring, with its type and the first sentence of its '
    'documentation. The link leads to the source of the call. A call of a trait of std, such as `next` or `==`, '
    'isn\'t listed here: it stands at the `impl` of that trait. [CALLING](../crates/arraydeque/CALLING.md) explains '
    'the calls task by task.\n\n'
    '`.ci/calls.py` writes this page.\n'
)


def first_sentence(documentation):
    """The first sentence of a call's documentation. If it ends in a colon, the list behind it belongs to it."""
    paragraphs = re.sub(r'^ */// ?', '', documentation, flags=re.M).split('\n\n')
    text = ' '.join(paragraphs[0].split())
    found = re.match(r'.*?[.:](?= |$)', text)
    first = found[0] if found else text
    if first.endswith(':'):
        rest = ' '.join([text[len(first):], *paragraphs[1:]]).partition('```')[0]
        first += f' {re.match(r".*?[.](?= |$)|.*", " ".join(rest.split()))[0].removeprefix("- ")}'
    return re.sub(r'\[(`.*?`)\](?:\(.*?\))?', r'\1', first).replace('|', r'\|')


def calls_of(path):
    """The lines of the page for a file: one for each public call."""
    owner, text = '', path.read_text()
    for found in CALL.finditer(text):
        documentation, signature, name, block = found.groups()
        owner = block or owner
        if name:
            signature = re.sub(r',? (?=\))|(?<=\() |,$', '', ' '.join(signature.split()))
            link = f'../{path.relative_to(ROOT).as_posix()}#L{text[: found.start(2)].count(chr(10)) + 1}'
            yield f'- [`{name}`]({link}) of `{owner}`: `{signature}`. {first_sentence(documentation)}'


def page_of_calls():
    """The page, as it has to be."""
    parts = [HEAD]
    for title, crate in PARTS:
        files = sorted((ROOT / 'crates' / crate / 'src').rglob('*.rt'))
        files = [it for it in files if not {'slots', 'slots.rt', 'tests'} & {*it.relative_to(ROOT).parts}]
        parts.append(f'## {title}\n\n' + '\n'.join(line for it in files for line in calls_of(it)) + '\n')
    return '\n'.join(parts)


if __name__ == '__main__':
    PAGE.write_text(page_of_calls())
