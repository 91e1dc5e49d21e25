"""Markdown, as far as the reference pages have it, as the text of a man page (man(7))."""
from __future__ import annotations

import re
from collections.abc import Iterator
from textwrap import wrap

LINK = re.compile(r'\[([^\]]*)\]\([^)]*\)')
SPAN = re.compile(r'\*\*(?P<bold>(?:`[^`]*`|[^*])+)\*\*|`(?P<code>[^`]+)`')
USAGE_WORD = re.compile(r'[A-Za-z0-9_+.:=-]+|[^A-Za-z0-9_+.:=-]+')
OPTIONAL = re.compile(r'\[[^\]]*\]')
VALUE = re.compile(r'[A-Z0-9_+:.]*[A-Z][A-Z0-9_+:.]*(?:\.json|\.svg)?')
SENTENCE = re.compile(r'(?<=[.!?]) +(?=[A-Z`*])')
ESCAPED = {'\\': '\\e', '^': '\\(ha', '~': '\\(ti', '`': '\\(ga', '-': '\\-'}
UNBROKEN = '\0'
"""Stands for a space at which no line ends."""
NO_END = '\\&'
"""Comes after a dot that ends no sentence."""
COLUMNS = 78
"""How long a line of the page's text is at most."""
ITEM, CODE_INDENT, ROW = '- ', '    ', '|'


def escaped(text: str, but: str = '') -> str:
    """A text in which no character has a meaning for roff."""
    ascii_ = (ESCAPED.get(one, one) if one not in but else one for one in text)
    return ''.join(one if one.isascii() else f'\\[u{ord(one):04X}]' for one in ascii_)


def line(text: str) -> str:
    """A line of text: one that begins with a dot or a quote is no request."""
    return f'\\&{text}' if text.startswith(('.', "'")) else text


def inline(text: str) -> str:
    """A text of Markdown: links lose their addresses, code and what is strong are bold."""
    bare = LINK.sub(r'\1', text)
    parts, end = [], 0
    for span in SPAN.finditer(bare):
        inner = span['code'] or span['bold'].replace('`', '')
        parts += [escaped(bare[end : span.start()], '-'), f'\\fB{escaped(inner)}\\fR']
        end = span.end()
    return ''.join([*parts, escaped(bare[end:], '-')])


def sentences(text: str) -> list[str]:
    """The lines of a paragraph: each sentence begins a line."""
    whole = (inline(one) for one in SENTENCE.split(' '.join(text.split())))
    return [line(row) for one in whole for row in wrap(one, COLUMNS, break_long_words=False, break_on_hyphens=False)]


def usage(words: str) -> list[str]:
    """The lines of a usage: what is typed is bold, what is chosen slanted. An option stays beside its value."""
    kept = OPTIONAL.sub(lambda found: found[0].replace(' ', UNBROKEN), words)
    whole = ''.join(usage_word(word) for word in USAGE_WORD.findall(kept))
    return wrap(whole.replace(UNBROKEN, '\\~'), COLUMNS, break_long_words=False, break_on_hyphens=False)


def usage_word(word: str) -> str:
    if VALUE.fullmatch(word):
        return f'\\fI{escaped(word)}\\fR'
    if word[0].isalnum() or word[0] == '-':
        return f'\\fB{escaped(word)}\\fR'
    return f'{escaped(word)}{NO_END}' if word.endswith('.') else escaped(word)


def blocks(text: str) -> Iterator[list[str]]:
    """The blocks of a page: lines between empty lines. Of code, the empty lines inside it are left out."""
    for block in re.split(r'\n\s*\n', text.strip('\n')):
        yield block.splitlines()


def page_text(text: str) -> list[str]:
    """Several paragraphs, lists, tables and blocks of code."""
    return [row for block in blocks(text) for row in block_text(block)]


def block_text(block: list[str]) -> list[str]:
    if block[0].startswith(CODE_INDENT):
        return ['.PP', '.RS 4', '.EX', *(line(escaped(row[4:])) for row in block), '.EE', '.RE']
    if block[0].startswith(ROW):
        return table_text([[cell.strip() for cell in row.strip('|').split('|')] for row in block])
    if block[0].startswith(ITEM):
        return [row for item in block for row in ('.IP \\(bu 2', *sentences(item.removeprefix(ITEM)))]
    return ['.PP', *sentences(' '.join(block))]


def table_text(rows: list[list[str]]) -> list[str]:
    """A table: its first column is what the rows are about. A column with a short head in capitals keeps that head."""
    head, _, *body = rows
    found = []
    for row in body:
        told = [f'{name}: {cell}' if name.isupper() else cell for name, cell in zip(head[1:], row[1:])]
        found += ['.TP', inline(row[0]), *sentences('; '.join(filter(None, told)))]
    return found
