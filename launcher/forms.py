"""The forms of the language, as docs/FORMS.md has them: what a row says, which words have the form, and where other words leave it."""

import os
import re

TOP = os.path.dirname(os.path.dirname(os.path.realpath(__file__)))
PAGE = f'{TOP}/docs/FORMS.md'
LAST = 4294967295
RESERVED = {'OP', 'SYS', 'NONE', 'FACILITY', 'STRUCTURE', 'PREF', 'CONNECTOR'}
KINDS = ('CACHE', 'LIST', 'LOCK')

NUMERAL = r'(?:0|[1-9][0-9]*)'
TERM = r'[A-Za-z0-9._-]+'
PATTERNS = {'number': NUMERAL, 'term': TERM, 'data': rf'{TERM}(?:\*{NUMERAL})?', 'NAME': r'[A-Z][A-Z0-9_]*', 'resource': f'{TERM}@{NUMERAL}',
            'record': f'#{NUMERAL}'}
# Where the tables stand: at structures of which kinds, and whether the lines are calls, which may end with RETRY.
SECTIONS = {'The policy': ((), False), 'Calls at any structure': (KINDS, True), 'Calls at a cache structure': (('CACHE',), True),
            'Calls at a list structure': (('LIST',), True), 'Calls at a lock structure': (('LOCK',), True),
            'Tests, at a cache or list structure': (('CACHE', 'LIST'), False), 'Notes, at any structure': (KINDS, False)}


class Word:
    """A word that is filled in."""

    def __init__(self, name, sort, low, high, note):
        self.name, self.sort, self.low, self.high, self.note = name, sort, low, high, note
        self.pattern = f'CF[{low}-{high}]' if sort == 'facility' else PATTERNS[sort]
        self.fits = re.compile(self.pattern).fullmatch

    def is_form(self, text):
        return bool(self.fits(text)) and not (self.sort == 'NAME' and text in RESERVED)

    def has(self, number):
        return self.low <= number <= self.high

    def is_within(self, text):
        """Whether a text of the form has a length or a number that is allowed."""
        if self.sort in ('number', 'record'):
            return self.has(int(text.lstrip('#')))
        if self.sort == 'resource':
            name, _, value = text.partition('@')
            return self.has(len(name)) and int(value) <= LAST
        piece, _, times = text.partition('*')
        return self.sort == 'facility' or self.has(len(piece) * int(times or 1))

    def says(self):
        """The word and what stands there."""
        if self.sort == 'number':
            return f'{self.name} (a number from {self.low}' + (f' to {self.high:,})' if self.high < LAST else ')')
        return f'{self.name} ({self.note})'


class Choice:
    """One of several rows of words, or none of them where it is an option."""

    def __init__(self, rows, is_option):
        self.rows, self.is_option = rows, is_option


class Form:
    """One row of the page. A node is a text that stands as it is, a Word, or a Choice."""

    def __init__(self, text, nodes, kinds=(), by=(), example='', page='', is_call=False):
        self.text, self.nodes, self.kinds, self.by, self.example, self.page, self.is_call = text, nodes, kinds, by, example, page, is_call
        self.verb = text.split()[0]
        self.words, self.literals = [], set()
        self.pattern = re.compile(self.pattern_of(nodes))

    def has(self, word):
        """Whether the word stands as it is in the form."""
        return word in self.literals

    def pattern_of(self, nodes):
        """A pattern of words with one blank behind each, with a group for each word that is filled in."""
        return ''.join(map(self.pattern_of_node, nodes))

    def pattern_of_node(self, node):
        if isinstance(node, str):
            self.literals.add(node)
            return re.escape(node) + ' '
        if isinstance(node, Word):
            self.words.append(node)
            return f'({node.pattern}) '
        return '(?:' + '|'.join(map(self.pattern_of, node.rows)) + ')' + ('?' if node.is_option else '')

    def read(self, words):
        """What is filled in, each with its Word, where the words have this form."""
        found = self.pattern.fullmatch(''.join(word + ' ' for word in words))
        read = found and [(word, text) for word, text in zip(self.words, found.groups()) if text is not None]
        return read if read is not None and all(word.is_form(text) for word, text in read) else None

    def miss(self, words):
        """How many words have the beginning of the form, and what may stand behind those; an empty text is the end of the line."""
        missed = {}
        for at in ends_of(self.nodes, words, 0, missed):
            missed.setdefault(at, []).append('')
        at = max(missed)
        return at, missed[at]


def ends_of(nodes, words, start, missed):
    """Where the nodes may end that begin at this word; what they miss is noted by its place."""
    places = {start}
    for node in nodes:
        after = set()
        for at in places:
            if isinstance(node, Choice):
                after.update({at} if node.is_option else ())
                for row in node.rows:
                    after |= ends_of(row, words, at, missed)
            elif at < len(words) and (node.is_form(words[at]) if isinstance(node, Word) else node == words[at]):
                after.add(at + 1)
            else:
                missed.setdefault(at, []).append(node)
        places = after
    return places


class Page:
    """What docs/FORMS.md says."""

    def __init__(self, path=PAGE):
        with open(path, encoding='utf-8') as file:
            tables = tables_of(file)
        self.words = {}
        for names, sort, low, high, note in tables['Words']:
            for name in re.findall(r'\w+', names):
                self.words[name] = Word(name, sort, int(low), int(high), note.replace('`', ''))
        self.parts = {bare(name): (bare(form), bare(note)) for name, form, note in tables['Parts']}
        self.retry = self.nodes_of('[RETRY times]')
        self.section_of = {self.form(section, row): section for section in SECTIONS for row in tables[section]}
        self.forms = list(self.section_of)

    def form(self, section, row):
        kinds, is_call = SECTIONS[section]
        text, example, page = bare(row[0]), bare(row[-2]), re.search(r'\(([^)]*)\)', row[-1])[1]
        by = tuple(row[1].split(', ')) if kinds else ()
        return Form(text, self.nodes_of(text) + (self.retry if is_call else []), kinds, by, example, page, is_call)

    def nodes_of(self, text):
        tokens = re.findall(r'[][()]|[^][()\s]+', text)
        nodes, left = self.row_of(tokens)
        assert not left, text
        return nodes

    def row_of(self, tokens):
        """The nodes up to a bracket that closes or an `or`, and the tokens from there on."""
        nodes = []
        while tokens and tokens[0] not in ('or', ')', ']'):
            token, tokens = tokens[0], tokens[1:]
            if token in '([':
                rows = []
                while token != ')' and token != ']':
                    row, tokens = self.row_of(tokens)
                    rows.append(row)
                    token, tokens = tokens[0], tokens[1:]
                nodes.append(Choice(rows, token == ']'))
            elif token in self.parts:
                nodes += self.nodes_of(self.parts[token][0])
            else:
                nodes.append(token if token.isupper() else self.words[token])
        return nodes, tokens

    def policy(self, verb):
        return [form for form in self.forms if not form.kinds and form.verb == verb]

    def commands(self, kind=None, by=None):
        """The forms of commands, at structures of a kind and by a caller where these are given."""
        return [form for form in self.forms if form.kinds and (not kind or kind in form.kinds) and (not by or by in form.by)]

    def verbs(self):
        return {form.verb for form in self.forms}

    def literals(self):
        """Every word of the language that stands as it is."""
        return set(re.findall(r'\b[A-Z]{2,}\b', ' '.join([form.text for form in self.forms] + [form for form, _ in self.parts.values()]))) | {'RETRY', 'OP'}


def bare(cell):
    return cell.replace('`', '')


def tables_of(lines):
    """The rows of the tables, by the heading that they stand under, without their heads."""
    tables, heading = {}, None
    for line in lines:
        if line.startswith('#'):
            heading = line.lstrip('#').strip()
        elif line.startswith('|'):
            tables.setdefault(heading, []).append([cell.strip() for cell in line.strip().strip('|').split('|')])
    return {heading: rows[2:] for heading, rows in tables.items()}
