"""What ./plexrun says of a line that is wrong: which word, or what stands where, and the form. The forms are those of docs/FORMS.md."""

import difflib
import re

from forms import KINDS, Word
from judge import CONNECTORS, LINE, NAME, POLICY, STRUCTURES, Judge, PAGE, is_name, is_printed, without_return, words_of

A_CALL = 'a call is who, structure, command, as A GBP CONNECT DELETE'
CAPITALS = 'words are in capital letters'
SHOWN = 60


def near(word, words):
    """The word that is most like another one, where one is."""
    return next(iter(difflib.get_close_matches(word.upper(), sorted(words), 1, 0.75)), None)


def listed(words, joint='and'):
    words = list(words)
    return f' {joint} '.join([', '.join(words[:-1])] * (len(words) > 1) + words[-1:])


def quoted(word):
    return ascii(word[:SHOWN])[1:-1] + (' ..' if len(word) > SHOWN else '')


def kind_says(kinds):
    return 'any structure' if tuple(kinds) == KINDS else f'a {" or ".join(kind.lower() for kind in kinds)} structure'


def by_says(by):
    return listed(({'c': 'a connector', 'OP': 'the operator (OP)'}[it] for it in by), 'or')


def form_says(form, who='', on=''):
    """The row of a form: as a line, where somebody gives it at a structure."""
    text = ' '.join([*([who or '..', on or '..'] if form.kinds else []), form.text] + ['[RETRY times]'] * form.is_call)
    parts = [f'{part} is {PAGE.parts[part][0][1:-1]}' for part in PAGE.parts if re.search(rf'\b{part}\b', form.text)]
    return '; '.join([text, *parts])


def shown(forms, who='', on=''):
    """The rows of forms, an example, and the page that says more."""
    lines = [f'the form: {form_says(form, who, on)}' for form in forms]
    pages = list(dict.fromkeys(re.sub('#.*', '', form.page) for form in forms))
    return lines + [f'for example: {forms[0].example} (docs/{", docs/".join(pages)})']


def is_taken(node, word):
    """Whether a word may stand for a node."""
    return node.is_form(word) if isinstance(node, Word) else node == word


def expects(nodes):
    """What the line may go on with."""
    texts = list(dict.fromkeys(node.says() if isinstance(node, Word) else node or 'the end of the line' for node in nodes))
    return listed(texts, 'or')


class Hints:
    """What is told of one line, by what the lines before it declare."""

    def __init__(self, lines, number):
        self.judge = Judge()
        for line in lines[:number - 1]:
            self.judge.line(line)
        self.number, self.line = number, without_return(lines[number - 1]) if number <= len(lines) else b''
        self.words = words_of(self.line)

    def told(self, why):
        """Lines of text, the first of which says what is wrong."""
        return getattr(self, why.lower(), lambda: [])()

    # ---- declared names

    def no_connector(self, word):
        there = self.judge.connectors
        return f'{quoted(word)} is no connector: no line CONNECTOR {quoted(word)} stands before it' + self.among(word, there, 'connectors are')

    def no_structure(self, word):
        return f'{quoted(word)} is no structure: no line STRUCTURE {quoted(word)} .. stands before it' + self.among(word, self.judge.kinds, 'structures are')

    def no_facility(self, word):
        return f'no line FACILITY {word} units stands before it' + self.among(word, self.judge.facilities, 'facilities are')

    def among(self, word, there, says):
        like = near(word, there)
        return f' ({like}?)' if like else f' ({says} {listed(list(there)[:8])})' if there else ''

    # ---- SYNTAX

    def syntax(self):
        return self.bytes_wrong() or self.head_wrong() or self.command_wrong()

    def bytes_wrong(self):
        if b'\r' in self.line:
            return ['a carriage return stands within the line, or lines end in one alone; a line ends at a line feed']
        if self.line.startswith(b'\xef\xbb\xbf'):
            return ['the text begins with a byte order mark; it has to be saved without one']
        if self.line.startswith((b'#', b';', b'//', b'--', b'"', b"'")):
            return ['a comment begins with *, on a line of its own']
        if is_printed(self.line):
            return None
        at = next(at for at, byte in enumerate(self.line, 1) if not is_printed(bytes([byte])))
        return [f'character {at} of the line, byte {self.line[at - 1]}, is not printable ASCII; only comments, which begin with *, hold such characters']

    def head_wrong(self):
        """What is wrong with the first word, or the second, where they decide."""
        first = self.words[0]
        if first in POLICY:
            return self.missed(PAGE.policy(first), self.words)
        if first == 'OP' or first in self.judge.connectors:
            return self.second_wrong()
        if first.upper() in POLICY | {'OP'} | set(self.judge.connectors):
            return [f'{CAPITALS}: {first.upper()}']
        if first.upper() in PAGE.verbs():
            return self.starts_with_command(first.upper())
        policy = near(first, POLICY) or next((word for word in sorted(POLICY) if len(first) > 2 and word.startswith(first[:3].upper())), None)
        if policy and not self.judge.first_call:
            return [f'{quoted(first)} is no word of the policy: {policy} is', *shown(PAGE.policy(policy))]
        if len(self.words) > 1 and first in self.judge.kinds and self.words[1] in self.judge.connectors:
            return [f'who comes first, and then the structure: {self.words[1]} {first} ..']
        if not self.judge.connectors:
            return [f'{quoted(first)} is no word of the policy and no connector: no CONNECTOR line stands before it; {A_CALL}, and comes after the policy: '
                    'FACILITY, STRUCTURE, PREF and CONNECTOR lines']
        if first in self.judge.kinds:
            return [f'who is missing: {first} is a structure; {A_CALL}']
        return [f'{self.no_connector(first)}; {A_CALL}']

    def starts_with_command(self, verb):
        """A line that begins with a command."""
        forms = [form for form in PAGE.commands() if form.verb == verb]
        on = next((on for on, kind in self.judge.kinds.items() for form in forms if kind in form.kinds), None)
        here = [form for form in forms if self.judge.kinds.get(on) in form.kinds] or forms[:1]
        example = here[0].example.split()
        who = 'OP' if 'c' not in here[0].by else next(iter(self.judge.connectors), example[0])
        policy = '' if self.judge.connectors else '; before the first call comes the policy: FACILITY, STRUCTURE, PREF and CONNECTOR lines'
        return [f'who and the structure are missing before {verb}: {who} {on or example[1]} {verb} ..{policy}', *shown(here, who, on)]

    def second_wrong(self):
        if len(self.words) < 2:
            return [f'after {self.words[0]} come a structure and a command: {A_CALL}']
        second = self.words[1]
        if second in self.judge.kinds:
            return None
        if second.upper() in self.judge.kinds:
            return [f'{CAPITALS}: {second.upper()}']
        if second in PAGE.verbs():
            return self.structure_missing(second)
        return [f'{self.no_structure(second)}; {A_CALL}' if is_name(second) else f'{quoted(second)} is no name of a structure; {A_CALL}']

    def structure_missing(self, verb):
        on = next(iter(self.judge.kinds), 'GBP')
        return [f'the structure is missing between {self.words[0]} and {verb}: {self.words[0]} {on} {verb} ..']

    def command_wrong(self):
        """What is wrong after who and a structure."""
        who, on = self.words[0], self.words[1]
        by, kind, rest = 'OP' if who == 'OP' else 'c', self.judge.kinds[on], self.words[2:]
        if not rest:
            verbs = dict.fromkeys(form.verb for form in PAGE.commands(kind, by))
            return [f'after {who} {on} comes a command: {listed(verbs, "or")}']
        forms = [form for form in PAGE.commands(kind, by) if form.verb == rest[0]]
        if not forms:
            return self.no_command(rest[0], kind, by)
        return self.of_other_kind(kind, by, rest) + self.missed(self.same_second(forms, rest), rest, who, on)

    def of_other_kind(self, kind, by, rest):
        """What is said of words that have a form at structures of another kind, whose commands of that name are others."""
        read = [form for form in PAGE.commands(by=by) if form.verb == rest[0] and kind not in form.kinds and form.read(rest)]
        return [f'{form.text} is a command of {kind_says(form.kinds)}, and {self.words[1]} is a {kind} structure' for form in read[:1]]

    def same_second(self, forms, rest):
        """Of forms that begin alike, as REBUILD START and REBUILD STOP, the one that is meant."""
        return [form for form in forms if len(rest) > 1 and form.text.split()[1:2] == [rest[1]]] or forms

    def no_command(self, verb, kind, by):
        """What is wrong with a command that this caller can't give at this structure."""
        at_kind = [form for form in PAGE.commands(kind) if form.verb == verb]
        if at_kind:
            giver = 'OP' if by == 'c' else next(iter(self.judge.connectors), 'A')
            return [f'{verb} is given by {by_says(at_kind[0].by)}, and not by {by_says([by])}', *shown(at_kind, giver, self.words[1])]
        verbs = dict.fromkeys(form.verb for form in PAGE.commands(kind, by))
        return self.command_elsewhere(verb, kind, verbs) or self.strange_command(verb, kind, by, verbs)

    def command_elsewhere(self, verb, kind, verbs):
        """What is said of a command of another kind of structure."""
        elsewhere = [form for form in PAGE.commands() if form.verb == verb]
        if not elsewhere:
            return None
        told = f'{verb} is no command of a {kind} structure, which {self.words[1]} is'
        if not elsewhere[0].is_call:
            return [f'{told}: it has no vectors, so there is nothing to test']
        kinds = [it for it in KINDS if any(it in form.kinds for form in elsewhere)]
        return [f'{told}, but of {kind_says(kinds)}', f'commands here: {listed(verbs)} (docs/FORMS.md)']

    def strange_command(self, verb, kind, by, verbs):
        """What is said of a word that is no command."""
        who, on = self.words[:2]
        if verb.upper() in {form.verb for form in PAGE.commands()}:
            return [f'{CAPITALS}: {verb.upper()}']
        if verb in self.judge.kinds or verb in self.judge.connectors:
            return [f'after {who} {on} comes a command, and {verb} is a {"structure" if verb in self.judge.kinds else "connector"}: {A_CALL}']
        like = near(verb, {form.verb for form in PAGE.commands(kind)})
        if like:
            return [f'{quoted(verb)} is no command: {like} is', *shown([form for form in PAGE.commands(kind) if form.verb == like], who, on)]
        return [f'{quoted(verb)} is no command', f'commands of {by_says([by])} at a {kind} structure: {listed(verbs)} (docs/FORMS.md)']

    # ---- where a line leaves its form

    def missed(self, forms, words, who='', on=''):
        """At which word a line leaves the forms, and what should stand there."""
        misses = [(form, *form.miss(words)) for form in forms]
        at = max(it[1] for it in misses)
        nodes = [node for _, place, missed in misses if place == at for node in missed]
        meant = [form for form, place, _ in misses if place == at]
        return [self.miss_says(at, words, nodes), *shown(meant, who, on)]

    def miss_says(self, at, words, nodes):
        """What is said of the word at which a line leaves the forms, where the nodes may stand."""
        after = f'after {quoted(" ".join(words[max(at - 2, 0):at]))}'
        if at >= len(words):
            return f'{after} the line ends, where there has to come {expects(node for node in nodes if node)}'
        word = words[at]
        if word != word.upper() and any(is_taken(node, word.upper()) for node in nodes):
            return f'{CAPITALS}: {word.upper()}'
        if word.startswith('*'):
            return f'a comment has a line of its own: {quoted(word)} stands after a command'
        if re.fullmatch('0[0-9]+', word) and any(is_taken(node, word.lstrip('0') or '0') for node in nodes):
            return f'a number has no leading zero: {word.lstrip("0") or "0"} in place of {word}'
        return self.too_much(word, nodes) or f'{after} stands {quoted(word)}, where there has to come {expects(nodes)}'

    def too_much(self, word, nodes):
        """A word after the end of the form, which may be an option at a wrong place."""
        if '' not in nodes:
            return None
        options = [node for node in nodes if node]
        if word == 'RETRY':
            return f'RETRY stands at the end of a call alone; here may come {expects(nodes)}'
        if word in PAGE.literals() and word not in options:
            return f'{word} has no place there; the words come in the order of the form, and here may come {expects(nodes)}'
        return f'{quoted(word)} is too much; here may come {expects(nodes)}'

    # ---- the other causes

    def late(self):
        return [f'FACILITY, STRUCTURE, PREF and CONNECTOR lines come before the first call, which is line {self.judge.first_call}']

    def limit(self):
        if len(self.line) > LINE:
            return [f'the line has {len(self.line):,} bytes; at most {LINE:,} are allowed']
        first = self.words[0]
        if first in POLICY:
            return self.policy_limit(PAGE.policy(first)) or self.too_many()
        for word in self.words[:2]:
            if len(word) > NAME and is_name(word):
                return [f'{quoted(word)} has {len(word)} characters; a name has {NAME} at most']
        return self.word_limit(self.judge.given(self.words), self.words[2:]) or []

    def policy_limit(self, forms):
        return self.word_limit(forms, self.words)

    def word_limit(self, forms, words):
        form, read = next(((form, read) for form in forms for read in [form.read(words)] if read is not None), (None, []))
        for word, text in read:
            if not word.is_within(text):
                return [self.limit_says(word, text), *shown([form], *(self.words[:2] if form.kinds else []))]
        return None

    def limit_says(self, word, text):
        number = text.lstrip('#')
        if word.sort in ('number', 'record'):
            return f'{word.name} is {quoted(text)}; it is from {word.low:,} to {word.high:,}' if number.isdigit() else ''
        piece, star, times = text.partition('*')
        if star:
            return f'{word.name} is {quoted(piece)} {times} times, {len(piece) * int(times):,} characters; from {word.low} to {word.high:,} are allowed'
        if word.sort == 'resource' and len(text.split('@')[0]) <= word.high:
            return f'the hash value of {quoted(text)} is greater than 4,294,967,295'
        length = len(text.split('@')[0])
        return f'{word.name}, {quoted(text)}, has {length:,} characters; at most {word.high:,} are allowed'

    def too_many(self):
        first = self.words[0]
        most = STRUCTURES if first == 'STRUCTURE' else CONNECTORS
        return [f'{quoted(" ".join(self.words[:2]))} is one too many: a script has at most {most} {first.lower()}s']

    def unknown(self):
        first = self.words[0]
        if first in POLICY:
            return self.unknown_names(PAGE.policy(first), self.words)
        if first != 'OP' and first not in self.judge.connectors:
            if first in self.judge.kinds and self.words[1] in self.judge.connectors:
                return [f'who comes first, and then the structure: {self.words[1]} {first} ..']
            if first in PAGE.verbs():
                return self.starts_with_command(first)
            return [f'{self.no_connector(first)}; {A_CALL}']
        if self.words[1] not in self.judge.kinds:
            if self.words[1] in PAGE.verbs() and not near(self.words[1], self.judge.kinds):
                return self.structure_missing(self.words[1])
            return [self.no_structure(self.words[1])]
        return self.unknown_names(self.judge.given(self.words), self.words[2:])

    def unknown_names(self, forms, words):
        tells = {'cf': (self.judge.facilities, self.no_facility), 'structure': (self.judge.kinds, self.no_structure),
                 'connector': (self.judge.connectors, self.no_connector)}
        read = next(read for read in (form.read(words) for form in forms) if read is not None)
        return [tell(text) for word, text in read if word.name in tells for there, tell in [tells[word.name]] if text not in there][:1]

    def twice(self):
        first, name = self.words[0], self.words[1]
        judge = self.judge
        if first == 'PREF':
            return [f'PREF {name} {self.words[2]} stands in line {judge.preferred[name, self.words[2]][1]} already']
        return [f'{first} {name} was declared before, in line {getattr(judge, {"FACILITY": "facilities"}.get(first, first.lower() + "s"))[name]}']

    def space(self):
        _, _, cf, units = self.words
        taken = self.judge.taken(cf)
        return [f'{cf} has {self.judge.units[cf]:,} units (line {self.judge.facilities[cf]}), {taken:,} of which PREF lines before it set aside; '
                f'{int(units):,} more are too many']

    def notwords(self):
        told = 'plexrun locks does OBTAIN and RELEASE on one lock structure alone, without REC or RETRY'
        strange = [word for word in self.words[2:] if word in PAGE.literals() - {'OBTAIN', 'RELEASE', 'SHR', 'EXCL'}]
        if self.words[0] == 'STRUCTURE':
            return [f'{told}; {self.words[1]} is ' + ('the second structure' if self.words[2] == 'LOCK' else f'a {self.words[2].lower()} structure')]
        return [f'{told}; here stands {strange[0]}' if strange else told]


def hints(text, number, why):
    """What is told of the line of a text that is wrong, and why."""
    return Hints(text.split(b'\n'), number).told(why)
