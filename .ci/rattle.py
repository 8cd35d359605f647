"""Reads sources as text: without comments, literals and tests, function by function."""
import re

COMMENT_OR_LITERAL = re.compile(
    r'''//[^\n]*|/\*.*?\*/|\br(#*)".*?"\1|"(?:[^"\\]|\\.)*"|'(?:[^'\\\n]|\\[^\n]+?)\'''', re.S
)
TEST_ITEM = re.compile(
    r'^( *)#\[cfg\(test\)\]\n(?:\1#\[.*\]\n)*\1(?:pub\S* )?(?:mod \w+;'
    r'|(?:(?:mod|impl|trait|struct|enum)\b.*\{|fn\b.*[^;}])\n(?:(?!\1(?!where\b)\w).*\n)*?\1\})$',
    re.M,
)
ITEM = re.compile(
    r'(?:pub\S* )?(?:unsafe )?(?:impl|trait|struct|enum|const|static|mod|type)\b(?:.*?(\w+)(?:<[^<>]*>)?(?: \{)?$)?'
)
FUNCTION = re.compile(r' *(?:pub\S* )?(?:const )?(?:unsafe )?fn (\w+)')


def without_comments(text, literal='""'):
    """A text without comments, and with this for each literal, or the literal itself for None."""
    return COMMENT_OR_LITERAL.sub(lambda it: '' if it[0].startswith('/') else literal or it[0], text)


def without_tests(text):
    """A text without modules of tests and without items that stand in tests alone, each over several lines."""
    return TEST_ITEM.sub('', text)


def functions(text):
    """The functions of a text, each with its name and its code, from its head up to the next item."""
    owner, found = '', []
    for line in text.splitlines():
        if function := FUNCTION.match(line):
            found.append([f'{owner}::{function[1]}' if line.startswith(' ') else function[1], ''])
        elif item := ITEM.match(line):
            owner = item[1]
            found.append(['', ''])
        if found:
            found[-1][1] += line + '\n'
    return [(name, code) for name, code in found if name]


def in_loops(code):
    """The lines of a function that a loop may run more than once."""
    found, loop = [], None
    for line in code.splitlines():
        indent = len(line) - len(line.lstrip())
        if loop is not None and (indent > loop or line.strip() in ('', '{')):
            found.append(line)
        elif head := re.match(r"\s*(?:let .*= )?(?:'\w+: )?(for|while|loop)\b", line):
            loop = indent
            found += [line] if head[1] == 'while' else []
        else:
            loop = None
    return '\n'.join(found)
