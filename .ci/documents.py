"""What `.ci/examples` and `.ci/steps` share: the blocks of a page, a copy of the libraries, and proofs over it."""
import re
import shutil
import subprocess
from pathlib import Path
from textwrap import dedent

ROOT = Path(__file__).resolve().parent.parent
LIBRARIES = ('arraydeque_ring', 'arraydeque')
START = ROOT / 'docs/START.md'
FENCE = re.compile(r'^( *)```([^\n`]*)\n(.*?)^\1```$', re.M | re.S)


def fences(page):
    """The fenced blocks of a page: the language, the path that ends the line before, or None, the text, and the prose
    before."""
    end = 0
    for fence in FENCE.finditer(page):
        prose, end = page[end : fence.start()], fence.end()
        path = re.search(r'`([\w./]+)`:$', prose.rstrip())
        yield fence[2], path and path[1], dedent(fence[3]), prose


def copy_libraries(to, *without):
    """Copies ring and deque as a repository of their own, without what has one of these names."""
    for name in LIBRARIES:
        shutil.copytree(ROOT / 'crates' / name, to / 'crates' / name, ignore=shutil.ignore_patterns(*without))
    for name in ('LICENSE', 'HANDLES'):
        shutil.copy(ROOT / name, to)


def prove(folder):
    """Has `rt ci` prove and run a repository, over libraries that it kept if a run on this machine proved the same.
    Returns whether each crate passes, and the run."""
    done = subprocess.run(['rt', 'ci'], cwd=folder, text=True, capture_output=True)
    passed = re.search(r'^(\d+) passed, 0 failed', done.stdout, re.M)
    crates = len((folder / 'crates.txt').read_text().splitlines())
    return done.returncode == 0 and passed is not None and int(passed[1]) >= crates, done
