"""What docs/SCRIPT.md and docs/FORMS.md say of a text: that it is right, or the first line that is wrong, and why. Nothing here is proved. It was
written after the pages alone, so that the program's reader can be held against it (bench/fronts)."""

import re

from forms import LAST, Page

POLICY = {'FACILITY', 'STRUCTURE', 'PREF', 'CONNECTOR'}
LINE, TEXT = 8192, 1048576
STRUCTURES, CONNECTORS, NAME = 16, 64, 16
PAGE = Page()


def is_name(word):
    return PAGE.words['connector'].is_form(word)


def words_of(line):
    return [word.decode('latin-1') for word in re.split(rb'[ \t]+', line) if word]


def without_return(line):
    return line[:-1] if line.endswith(b'\r') else line


def is_printed(line):
    return all(byte == 9 or 32 <= byte <= 126 for byte in line)


class Judge:
    """What was declared by the lines so far: a line's number by each name, and a structure's kind."""

    def __init__(self):
        self.facilities, self.structures, self.connectors, self.preferred = {}, {}, {}, {}
        self.lines, self.kinds, self.units = 0, {}, {}
        self.first_call = None

    def line(self, line):
        """Why the line is wrong, or None."""
        self.lines += 1
        line = without_return(line)
        is_long = len(line) > LINE
        words = words_of(line)
        if not words or words[0][0] == '*':
            return 'LIMIT' if is_long else None
        if words[0] in POLICY:
            return self.policy(words, line, is_long)
        return self.does(words, line, is_long)

    def does(self, words, line, is_long):
        """Why a line that does something is wrong."""
        if words[0] != 'OP' and words[0] not in self.connectors:
            if not is_name(words[0]) or len(words) < 3 or not self.first_call:
                return 'SYNTAX'
            return 'LIMIT' if len(words[0]) > NAME or is_long else 'UNKNOWN'
        self.first_call = self.first_call or self.lines
        if len(words) < 2:
            return 'SYNTAX'
        if words[1] not in self.structures:
            if not is_name(words[1]):
                return 'SYNTAX'
            return 'LIMIT' if len(words[1]) > NAME or is_long else 'UNKNOWN'
        if not is_printed(line):
            return 'SYNTAX'
        return self.unknown(*self.read(self.given(words), words[2:], is_long))

    def given(self, words):
        """The forms of the commands that this caller may give at this structure."""
        return PAGE.commands(self.kinds[words[1]], 'OP' if words[0] == 'OP' else 'c')

    def read(self, forms, words, is_long):
        """Why the words have none of the forms or go past their limits, or what they say."""
        read = next(filter(lambda read: read is not None, (form.read(words) for form in forms)), None)
        if read is None:
            return 'SYNTAX', None
        return (None, read) if not is_long and all(word.is_within(text) for word, text in read) else ('LIMIT', read)

    def unknown(self, why, read):
        known = {'cf': self.facilities, 'connector': self.connectors, 'structure': self.structures}
        return why or ('UNKNOWN' if any(text not in known[word.name] for word, text in read if word.name in known) else None)

    def policy(self, words, line, is_long):
        if self.first_call:
            return 'LATE'
        why, read = self.read(PAGE.policy(words[0]), words, is_long) if is_printed(line) else ('SYNTAX', None)
        return why or getattr(self, words[0].lower())(words, read)

    def facility(self, words, read):
        why = self.declare(words[1], self.facilities, 4)
        if not why:
            self.units[words[1]] = int(words[2])
        return why

    def structure(self, words, read):
        why = self.declare(words[1], self.structures, STRUCTURES)
        if not why:
            self.kinds[words[1]] = words[2]
        return why

    def connector(self, words, read):
        return self.declare(words[1], self.connectors, CONNECTORS)

    def declare(self, name, into, most):
        if len(into) >= most and name not in into:
            return 'LIMIT'
        if name in into:
            return 'TWICE'
        into[name] = self.lines
        return None

    def pref(self, words, read):
        _, name, cf, units = words
        if self.unknown(None, read):
            return 'UNKNOWN'
        if (name, cf) in self.preferred:
            return 'TWICE'
        if self.taken(cf) + int(units) > self.units[cf]:
            return 'SPACE'
        self.preferred[name, cf] = (int(units), self.lines)
        return None

    def taken(self, cf):
        """How many units of a facility the PREF lines set aside."""
        return sum(units for (_, other), (units, _) in self.preferred.items() if other == cf)


def first_fault(text):
    """The number of the first line that is wrong, and why; or None."""
    judge = Judge()
    for number, line in enumerate(text.split(b'\n'), 1):
        why = judge.line(line)
        if why:
            return number, why
    return None


def judged(text):
    """What the program has to write of a wrong text, or None where it is right."""
    if len(text) > TEXT:
        return f'TOOLONG {TEXT}\n'
    fault = first_fault(text)
    return fault and 'SCRIPT {} {}\n'.format(*fault)
