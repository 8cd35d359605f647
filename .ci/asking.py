"""Which functions of std may ask for memory, by the toolchain's own sources of std.

A function asks if its signature has a refusal in its result, or as an error that its own error is made of. A refusal
may also become the error of a stream, so a function of `Write`, `Read` or `BufRead` asks if it returns a `Result`. And
a refusal may not be told of at all, so a function without a `Result` asks if its body calls an allocator.
"""
import re
import subprocess
import sys
from pathlib import Path

from rattle import without_comments

CRATES = 'core io std std_alloc std_collections std_heap std_io'.split()
HEAD = re.compile(
    r'^( *)(pub )?(?:pub\(\w+\) )?(?:final |const |unsafe )*(?:fn (\w+)|(?=impl\b|trait\b))(.*?)'
    r'(?:;$| \{\}?$|$(?=\n *(?:requires|ensures|\{)))',
    re.M | re.S,
)
REFUSES = re.compile(r'Result<.*\bAlloc(?:Error|Failed)\b|\bFrom<AllocError>', re.S)
STREAM = re.compile(r'\b(?:Write|Read|BufRead)(?: for\b|:|$)')
ALLOCATES = re.compile(r'\.(?:allocate|grow|shrink)\(')


def sources():
    """The sources of std, which stand beside the toolchain's guides."""
    try:
        guide = subprocess.run(['rt', 'doc'], text=True, capture_output=True, check=True).stdout.strip()
    except (OSError, subprocess.CalledProcessError):
        sys.exit('sources: `rt doc` leads to no toolchain, whose sources say which calls of std ask for memory')
    return [path for crate in CRATES for path in (Path(guide).parent / 'rattle' / crate / 'src').rglob('*.rt')]


def asking_in(text):
    """The functions of a text that ask, each by its name and whether it is public and belongs to no type."""
    owner, heads = '', list(HEAD.finditer(text))
    for head, end in zip(heads, [*(head.start() for head in heads[1:]), len(text)]):
        indent, public, name, signature = head.groups()
        if not name or not indent:
            owner = '' if name else signature
        fails = STREAM.search(owner) if 'Result' in signature else ALLOCATES.search(text, head.end(), end)
        if name and (fails or REFUSES.search(signature)):
            yield name, bool(public and not indent)


def functions_of_std():
    """The names of std's functions that ask, and of those among them that belong to no type."""
    asking = {it for path in sources() for it in asking_in(without_comments(path.read_text()))}
    names = {name for name, _ in asking}
    if not {'push', 'clone', 'collect', 'shrink_to_fit', 'write_str'} <= names:
        sys.exit("sources: the toolchain's sources of std aren't at hand, or don't say which calls ask for memory")
    return names, {name for name, is_alone in asking if is_alone}
