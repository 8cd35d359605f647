#!/usr/bin/env -S python3 -B
"""Holds what callers of ring and deque read to what they read at the last release.

That is text, in one layout, without comments, tests and bodies, and none of it is understood; a name that is bound
within a clause may change. Of `src`, but for the region: what `pub` hands on; each public type with what it derives,
its private fields as one; each member of a public trait, or of an impl for a public type; a call's signature with its
impl's bounds, and each clause by its label, with `=` if no other is of its kind; from where the words and types of all
these come; and each `unsafe impl`, the region's too. Of `specs` each word, and from where its words come, of
`specs/formers` the statements alone; of `proofs` the statements that CALLING names beside their file, or in a ruleset.

An entry above that release's heading in CHANGELOG, a bullet or a table's row, has to name in backticks what differs, a
clause or field with its call or record: under 'Breaks' what is gone or has another text, what an old call or trait asks
anew, and a call that hides a trait's; there or under 'New' an `ensures` of another text. If other places have such a
call and clause, it names a type or policy that they lack. A release is the first commit that gave its heading a day, so
a renamed heading makes another, and is held to the release before it, by its own section. It is a fault if git's
history isn't whole, unless ARRAYDEQUE_HISTORY is `none`.

Not seen: whether a text says less, more or the same; what words of the toolchain mean, and private ones of `proofs`, of
`formers` and of a private trait; a type's view and invariant; what follows from private fields, such as `Send`, or from
an `impl !`; a new call or member in place of a trait's provided one; attributes of calls; which crates are needed; what
proofs by hand cite besides; time. For these the maintainer reads `git diff` of both crates.
"""
import io
import os
import re
import subprocess
import sys
import tarfile
from pathlib import Path

from rattle import without_comments, without_tests

ROOT = Path(__file__).resolve().parent.parent
CRATES = ('crates/arraydeque', 'crates/arraydeque_ring')
RELEASE = re.compile(r'^## (.*), \d+ \w+ \d{4}$', re.M)
SECTION = re.compile(r'^### (Breaks|New)\n(.*?)(?=^#|\Z)', re.M | re.S)
ENTRY = re.compile(r'^(?:- .*(?:\n +\S.*)*|\| .*)', re.M)
ITEM = re.compile(r'^(?=(?:pub|impl|unsafe|ghost|struct|enum|trait|fn|mod|use|const|static|type)\b)', re.M)
IMPL = re.compile(r'impl(<(?:->|[^<>]|<(?:[^<>]|<[^<>]*>)*>)*>)? ((?:[^{}]|\{[^{}\n]*\})*?)\s\{(.*)', re.S)
MEMBER = re.compile(r'^    (?=#\[|(?:ghost (?!use )|type |(?:pub\S* )?(?:const |unsafe )*(?:fn |const ))\w)', re.M)
SHOWN = re.compile(r'(ghost|type|(?:pub )?const) (?!fn )(\w+)')
CALL = re.compile(r'(?:const |unsafe )*fn (\w+)')
PUBLIC_CALL = re.compile(r'^ *pub (?:const |unsafe )*fn ', re.M)
CLAUSE = re.compile(r'^ *(?=(?:requires|ensures)\b)', re.M)
PRIVATE = re.compile(r'^(?:pub\(\w+\) )?(?:struct|enum|trait) (\w+)', re.M)
FIELD = re.compile(r'^    (?:pub\(\w+\) )?(?!pub |ghost )\w+: .*\n?', re.M)
LAYOUT = re.compile(r'(?<=\() |,? (?=\))|(?:(?<=\()|(?<=[(,] ))mut (?=\w+:|self\b)|,$')
BOUND = re.compile(r'λ ([^.]*)\.|\blet (\w+) =|[({](\w+) :')
USE = re.compile(r'^ *((?:ghost |pub )?)use (.*\{\n(?:.*\n)*?\}|.*).*\n', re.M)
RECORD = re.compile(r'^( *)pub record (\S+).*\n(?:\1  .*\n)*', re.M)
WORD = re.compile(r' *(?:\w+ )?pub (?:(?:mod|record|data|ruleset) )?([^\s(:{]+)')


def plain(text):
    """A text in one line, in one layout."""
    return LAYOUT.sub('', ' '.join(text.split()))


def words(text):
    """The words of a text."""
    return set(re.findall(r'[\w-]+', text))


def imported(text, is_public=False):
    """Each name that imports bring in, and from where. Of the crate's own modules it doesn't matter from which."""
    for lines in [it[1] for it in USE.findall(text) if (it[0] == 'pub ') == is_public]:
        outer = ['']
        for part in re.findall(r'[^\s{},;]+(?: as \w+)?|[{}]', lines.replace('::', '.')):
            if part == '}':
                outer.pop()
            elif part.endswith('.'):
                outer.append(outer[-1] + part)
            elif part != '{':
                yield re.split(r'[. ]', part)[-1], re.sub(r'^(?:crate|super|self)\..*', 'crate', outer[-1] + part)


def cited(owner, texts, imports):
    """From where the words come that these texts of one owner cite, an operator by its signs."""
    text = re.sub(r'(?:\.|::|\bfn )\w+|\w+: ', ' ', ' '.join(texts))
    tokens = {it for ends in (r'[\s(){},;]+', r'[\s(){}<>,;:.!&\[\]]+') for it in re.split(ends, text)}
    yield from (((owner, it, 'from'), 'here') for it in tokens - {name for name, _ in imports})
    for name, origin in imports:
        if tokens.issuperset(name.strip('◌').split('◌')):
            yield (owner, name, 'from'), origin


def of_clause(text, known):
    """A clause, with numbers for names that it binds, but for those that are known otherwise, or name a field too."""
    fields = set(re.findall(r'[{;] (\w+) =', text))
    names = re.findall(r'\w+', ' '.join(' '.join(it) for it in BOUND.findall(text)))
    numbers = {name: f'_{at}' for at, name in enumerate(dict.fromkeys(names)) if name not in known | fields}
    return re.sub(r"(?<![\w.'-])[\w'-]+", lambda it: numbers.get(it[0], it[0]), plain(text).removesuffix(';'))


def of_call(owner, bounds, code, known):
    """The signature and the clauses of a call."""
    body = re.search(r'^(?:    )?(?:[{}]$|\S.* \{$)', code, re.M)
    signature, *clauses = CLAUSE.split(code[: body.end() - 1] if body else code)
    name, kinds = CALL.search(signature)[1], [re.match(r'\w+', it)[0] for it in clauses]
    yield (owner, name, ''), plain(f'{bounds} {signature}').removesuffix(' {').removesuffix(';')
    for kind, clause in zip(kinds, clauses):
        label = re.match(r'\w+\*? ?(\w*)', clause)[1]
        part = f'{kind}{"=" if kinds.count(kind) == 1 else ""} {label}'
        yield (owner, name, part), of_clause(clause, known | words(signature))


def of_block(owner, bounds, members, is_shown, known):
    """The members of a trait or an impl: all of them, or the public ones."""
    for member in MEMBER.split(members)[1:]:
        if shown := SHOWN.match(member):
            if is_shown and (' Model for ' not in owner or shown[2] == 'Value') or shown[1] == 'pub const':
                yield (owner, shown[2], ''), of_clause(member.rpartition(';')[0], known)
        elif CALL.search(member.partition('\n')[0]) and (is_shown or member.startswith('pub ')):
            yield from of_call(owner, bounds, member, known)


def of_type(crate, name, code, attributes):
    """A public type, its private fields as one, and what it derives."""
    others = re.sub(r'#\[(?:derive|tactic|doc).*\n', '', attributes)
    shown = FIELD.sub('', code) if code.startswith('pub struct') else code
    yield (crate, name, ''), plain(others + shown) + ('' if shown == code else ' ..')
    derived = re.findall(r'\w+', ' '.join(re.findall(r'derive\((.*)\)', attributes)))
    yield from (((crate, name, f'derives {it}'), '') for it in derived)


def of_item(path, crate, item, attributes, known):
    """What a file has of promises by one item."""
    if item.startswith('unsafe impl') and (marked := re.match(r'unsafe (impl.* (\w+) for (\w+).*)', item)):
        yield (f'{crate} unsafe {marked[3]}', marked[2], ''), plain(marked[1])
    elif block := IMPL.match(item):
        bounds, head, members = block[1] or '', plain(block[2]), block[3]
        owner = f'{crate} {head}'
        if ' for ' in head:
            trait, name = (re.findall(r'\w+', it.partition('<')[0])[-1] for it in head.split(' for '))
            yield (owner, name, f'impl {trait}'), plain(f'{bounds} {head}')
        yield from of_block(owner, f'impl{bounds}', members, ' for ' in head, known)
    elif block := re.match(r'(pub trait (\w+).*?) \{(.*)', item, re.S):
        yield (f'{crate} trait {block[2]}', block[2], 'impl'), plain(block[1])
        yield (f'{crate} trait {block[2]}', block[2], 'from'), path
        yield from of_block(f'{crate} trait {block[2]}', '', block[3], True, known)
    elif kind := re.match(r'pub (?:struct|enum|const|static|type) (?!fn )(\w+)', item):
        yield from [*of_type(crate, kind[1], item, attributes), ((crate, kind[1], 'from'), path)]
    elif re.match(r'pub (?:use|mod) ', item):
        for name, origin in imported(item.replace(' mod ', ' use '), True):
            yield (f'{path} pub', name, ''), re.match(r'(?:std|arraydeque_ring)\b|', origin)[0]
    elif PUBLIC_CALL.match(item):
        yield from of_call(crate, '', item, known)


def of_source(path, text):
    """What a file of code has of promises, and from where their words come."""
    crate, code = path.split('/')[1], without_tests(without_comments(text, None))
    imports, attributes, found = [*imported(code)], '', []
    for whole in ITEM.split(code):
        item = re.sub(r'(?:^#.*\n)+\Z', '', whole, flags=re.M)
        found += of_item(path, crate, item, attributes, {name for name, _ in imports})
        attributes = whole[len(item):]
    calls = [key for key, it in found if not key[2] and CALL.search(it) and not re.search(' for | trait ', key[0])]
    if len(PUBLIC_CALL.findall(code)) != len(calls):
        sys.exit(f'kept: of {path} not each public call is read')
    yield from found
    for owner in {it[0] for it, _ in found}:
        yield from cited(owner, [it for key, it in found if key[0] == owner], imports)


def of_words(path, text):
    """The words of a file of `specs` or `proofs`, those that it passes on, and from where their words come."""
    outer, around, found, states = '', '', [], '/proofs/' in path or '/formers/' in path
    text = re.sub(r'^ *--.*\n', '', text, flags=re.M)
    text = RECORD.sub(lambda it: it[0].replace(f'\n{it[1]}  pub ', f'\n{it[1]}  pub {it[2]}.'), text)
    yield from (((path, name, 'use'), origin) for name, origin in imported(text, True))
    for chunk in re.split(r'\n\n+|^(?= *(?:\w+ )?pub )', USE.sub('', text), flags=re.M):
        if head := re.match(r' *module _ (.*?) where\n?', chunk, re.S):
            outer = head[1] if chunk.startswith('module') else outer
            around, chunk = f'{outer} {head[1]}', chunk[head.end():]
        is_public = WORD.match(chunk)
        name = is_public or re.match(r' *(?:\w+ )?([^\s(:{]+) :', chunk)
        if not name or states and not is_public:
            continue
        if states:
            chunk = re.split(rf'^ *{re.escape(name[1])}(?= |$)', chunk, flags=re.M)[0]
        stated = f'{around} {chunk}' if chunk.startswith(' ') else chunk
        word, _, field = name[1].partition('.')
        found.append(((path, word, f'field {field}' if field else '' if is_public else 'private'), plain(stated)))
    yield from found
    yield from cited(path, [it for _, it in found], [*imported(text)])


def interface(texts):
    """What callers may read in the files of a tree, by place, name and part."""
    found = {}
    code = {it: text for it, text in texts.items() if re.match(r'crates/\w+/src/(?!.*\btests\b).*\.rt$', it)}
    hidden = {it for text in code.values() for it in PRIVATE.findall(text)} | {'Slots', 'slots'}
    promises = [it for path, text in code.items() for it in of_source(path, text)
                if ' unsafe ' in it[0][0] or not hidden & words(f'{it[0][0]} {it[0][1]}')]
    promises += [it for path, text in texts.items() if re.match(r'crates/\w+/(?:specs|proofs)/.*\.antt$', path)
                 for it in of_words(path, text)]
    for key, text in promises:
        found.setdefault(key, set()).add(text)
    return {key: ' | '.join(sorted(it)) for key, it in found.items()}


def promised(texts):
    """What callers could rest on in the files of a tree: of `proofs` what CALLING names, beside its file."""
    calling = ' '.join(re.findall(r'`[^`\n]+`', texts[f'{CRATES[0]}/CALLING.md'])).replace('::', '.')
    told = {it for it in texts if '/proofs/' in it and it[len('crates/'):-len('.antt')].replace('/', '.') in calling}
    found, named = interface(texts), words(calling)
    named |= {it for key, text in found.items() if key[1] in named and 'pub ruleset ' in text for it in words(text)}
    return {key: it for key, it in found.items() if '/proofs/' not in key[0] or key[0] in told
            and (key[1] in named or key[2] == 'from')}


def differences(old, new):
    """What callers have to be told: each with what became of it, and whether it breaks them."""
    owners, gone = {it[0] for it in old}, old.keys() - new.keys()
    blocks = {it[0] for it in gone if it[2].startswith('impl')}
    methods = {(it[1], re.split('[ <]', it[0].split(' for ')[1])[0]) for it in old if ' for ' in it[0]}
    for key, text in old.items():
        owner, name, part = key
        # What is gone is told once, without its parts.
        is_told = owner in blocks and not part.startswith('impl') or part and (owner, name, '') in gone
        if key in new and new[key] != text:
            yield key, 'has another text', ' trait ' in owner or not part.startswith('ensures')
        elif key not in new and not is_told and part not in ('from', 'private'):
            yield key, 'is gone', True
    for owner, name, part in new.keys() - old.keys():
        if part != 'from' and owner in owners and ' trait ' in owner or part[:3] == 'req' and (owner, name, '') in old:
            yield (owner, name, part), 'is asked anew', True
        elif ' ' in owner and not part and ' for ' not in owner and (name, re.split('[ <]', owner)[1]) in methods:
            yield (owner, name, part), "hides a trait's", True


def untold(old, new, news):
    """What CHANGELOG's part above a release doesn't tell of a difference."""
    entries = [(section, words(' '.join(re.findall(r'`[^`]+`', it)).replace('::', ' ')) | {*re.findall(r'`(\W+)`', it)})
               for section, text in SECTION.findall(news) for it in ENTRY.findall(text)]
    for (owner, name, part), what, is_break in sorted(differences(old, new)):
        others = [words(it[0]) for it in old if it[1:] == (name, part) and it[0] != owner and part != 'from']
        only = words(owner) - {'trait'}.union(*others) if others else set()
        only = {it for it in only if re.match(r'[A-Z]\w*[a-z]', it)} or only
        wanted = {name.strip('◌'), *part.split()[1:]}
        if not any(wanted <= named and (not only or only & named) and (section == 'Breaks' or not is_break)
                   for section, named in entries):
            also = f', and one of {" ".join(sorted(only))}' if only else ''
            yield f'{owner}: {name} {part} {what}: CHANGELOG names {" and ".join(sorted(wanted))}{also}, under Breaks'


def git(*given):
    """What git prints of this tree."""
    return subprocess.run(['git', *given], cwd=ROOT, capture_output=True, check=True).stdout


def texts_at(commit):
    """The files of ring and deque at a commit."""
    with tarfile.open(fileobj=io.BytesIO(git('archive', '--format=tar', commit, *CRATES))) as files:
        return {it.name: files.extractfile(it).read().decode() for it in files if it.isfile()}


def texts_here():
    """The files of ring and deque in this tree."""
    files = [it for crate in CRATES for part in ('src', 'specs', 'proofs') for it in (ROOT / crate / part).rglob('*.*')]
    return {it.relative_to(ROOT).as_posix(): it.read_text() for it in [*files, ROOT / CRATES[0] / 'CALLING.md']}


def releases(names):
    """The commits that made the newest release and the one before it, or nothing if the history isn't here."""
    try:
        is_whole = (ROOT / '.git').exists() and git('rev-parse', '--is-shallow-repository').strip() == b'false'
        return [git('log', '--reverse', '--format=%h', f'-G^## {it}, [0-9]', '--', 'CHANGELOG.md').decode().split()[0]
                for it in names[:2] if is_whole]
    except (OSError, subprocess.CalledProcessError, IndexError):
        return []


def faults_of_promises():
    """What isn't told, and in one line what it was held to."""
    news = (ROOT / 'CHANGELOG.md').read_text()
    names, parts = RELEASE.findall(news), RELEASE.split(news)[::2]
    commits = releases(names)
    if not commits:
        fault = "promises are held to none: a release's day, or the history, is not here: clone it whole"
        return ([], fault) if os.environ.get('ARRAYDEQUE_HISTORY') == 'none' else ([fault], '')
    had = [texts_at(it) for it in commits]
    old = [promised(it) for it in had]
    faults = [it for each in zip(old, map(interface, [texts_here(), *had]), parts) for it in untold(*each)]
    return faults, f'{len(old[0])} texts are as {names[0]} ({commits[0]}) has them, or CHANGELOG tells the change'


if __name__ == '__main__':
    found, held = faults_of_promises()
    print(*(found or [held]), sep='\n')
    sys.exit(bool(found))
