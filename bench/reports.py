"""Reads the reports of plexrun, for the programs of this folder, and holds them against the script that was run. Nothing here is proved."""

import re

RESPONSE_OWED = ('DISCFAIL', 'QUIESCE', 'CLEANUP', 'STOP')
ROUND = 64
POLICY = ('FACILITY', 'STRUCTURE', 'PREF', 'CONNECTOR')


class Wrong(Exception):
    """A report that isn't one of its script."""


class Report:
    """A report, taken apart: the lines of its policy, the entries of each structure, the items of each caller."""

    def __init__(self, text):
        lines = text.split('\n')
        if lines[-2:] != ['END', '']:
            raise Wrong('the report has no end')
        self.policy, self.histories, self.transcripts = [], {}, {}
        place = 0
        while lines[place].split(' ', 1)[0] in POLICY:
            self.policy.append(lines[place])
            place += 1
        place = self.blocks(lines, place, 'HISTORY', self.histories, self.entry)
        place = self.blocks(lines, place, 'TRANSCRIPT', self.transcripts, self.item)
        if lines[place:] != ['END', '']:
            raise Wrong(f'a line that belongs nowhere: {lines[place]}')

    def blocks(self, lines, place, heading, into, taken):
        while lines[place].startswith(heading + ' '):
            _, name, count = lines[place].split(' ')
            into[name] = [taken(line, number) for number, line in enumerate(lines[place + 1:place + 1 + int(count)], 1)]
            place += 1 + int(count)
        return place

    @staticmethod
    def entry(line, number):
        left, arrow, reply = line.partition(' -> ')
        words = left.split(' ', 2)
        if not arrow or len(words) != 3 or words[0] != str(number):
            raise Wrong(f'no entry {number}: {line}')
        return words[1], words[2], reply

    @staticmethod
    def item(line, _):
        structure, _, rest = line.partition(' ')
        return structure, rest


class Caller:
    """One caller's items, which are held one after another against the lines that it had to do."""

    def __init__(self, name, report):
        self.name, self.histories = name, report.histories
        self.items = report.transcripts[name]
        self.place = 0
        self.linked = {}
        self.known = {}
        self.done = {}
        self.tests = []

    def fail(self, why):
        raise Wrong(f'{self.name}, item {self.place}: {why}')

    def next_item(self, structure):
        if self.place == len(self.items):
            self.fail(f'a line of {structure} has no item')
        of, item = self.items[self.place]
        if of != structure:
            self.fail(f'{of} {item} where something of {structure} is due')
        self.place += 1
        return item

    def saw(self, structure, number, complete):
        """Nothing that is shown is older than what was shown before; what was seen complete binds later tests."""
        if number > len(self.histories[structure]):
            self.fail(f'{structure} has no number {number}')
        self.known[structure] = max(number, self.known.get(structure, 0))
        if complete:
            self.done[structure] = max(number, self.done.get(structure, 0))

    def call(self, structure, command):
        number = int(self.next_item(structure))
        if number <= self.known.get(structure, 0):
            self.fail(f'call {number} of {structure} is not behind what was seen before')
        self.saw(structure, number, True)
        by, done, reply = self.histories[structure][number - 1]
        if by != self.name or done != command:
            self.fail(f'entry {number} of {structure} is {by} {done} and not {command}')
        if command.startswith('CONNECT ') and reply.startswith('OK'):
            self.linked[structure] = True
        if command in ('DISCONNECT', 'FAIL') and reply == 'OK':
            self.linked[structure] = False
        return reply

    def round(self, structure):
        for _ in range(ROUND):
            reply = self.call(structure, 'NEXT').split(' ')
            if reply[0] != 'EVENT':
                return
            if reply[1] in RESPONSE_OWED:
                self.call(structure, 'RESPOND')

    def test(self, structure, line):
        words = self.next_item(structure).split(' ')
        if words[:2] != line.split(' '):
            self.fail(f'{" ".join(words)} is not {line}')
        if words[2] == 'BADINDEX':
            self.tests.append((structure, line, ' '.join(words[2:]), None, None))
            return
        at = int(words[3])
        if at < self.known.get(structure, 0):
            self.fail(f'{" ".join(words)} is older than what was seen before')
        self.tests.append((structure, line, words[2], at, self.done.get(structure, 0)))
        self.saw(structure, at, False)

    def note(self, structure, word):
        shown, number = self.next_item(structure).split(' ')
        if shown != word or int(number) < self.done.get(structure, 0):
            self.fail(f'{shown} {number} where {word} of at least {self.done.get(structure, 0)} is due')
        self.saw(structure, int(number), True)

    def line(self, structure, command):
        word = command.split(' ', 1)[0]
        if command == 'EVENTS':
            return self.round(structure)
        if word in ('TEST', 'TESTWORD'):
            return self.test(structure, command)
        if command in ('POST', 'TAKE'):
            return self.note(structure, command)
        command, _, again = command.partition(' RETRY ')
        for _ in range(int(again or 0)):
            if not re.match(r'REFUSED (69|72) ', self.call(structure, command)):
                return
            self.round(structure)
        self.call(structure, command)

    def close(self, structures):
        """Behind its last line a caller departs from the structures at which it is active."""
        for structure in structures:
            if self.linked.get(structure):
                self.call(structure, 'DISCONNECT')
        if self.place != len(self.items):
            self.fail('an item for which there is no line')
        own = [len([1 for by, _, _ in entries if by == self.name]) for entries in self.histories.values()]
        called = len([1 for _, item in self.items if item.isdigit()])
        if sum(own) != called:
            self.fail(f'{sum(own)} entries, and {called} shown')


def callers_of(report, policy, lines):
    """The callers of a run of this script, each with its tests, where the report is one of it; `Wrong` else.

    `policy` and `lines` have the script in its plain form; a line is (who, structure, command)."""
    if report.policy != policy:
        raise Wrong('the policy is another')
    structures = [line.split(' ')[1] for line in policy if line.startswith('STRUCTURE ')]
    names = ['OP'] + [line.split(' ')[1] for line in policy if line.startswith('CONNECTOR ')]
    if list(report.histories) != structures or list(report.transcripts) != names:
        raise Wrong('the headings are others')
    callers = {name: Caller(name, report) for name in names}
    for who, structure, command in lines:
        callers[who].line(structure, command)
    for caller in callers.values():
        caller.close(structures)
    return callers


def is_front(text, whole):
    """Whether a text that want of memory has ended is a front of the whole one and the line that says so."""
    return text.endswith(b'NOMEMORY\n') and whole.startswith(text[:-len(b'NOMEMORY\n')])
