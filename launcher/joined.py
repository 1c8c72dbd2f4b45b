"""A script and a report of it, joined: beside each line of the script what the report has of it.

Each caller's transcript has what its lines did, in their order. So the lines are gone through, and each takes from its caller's transcript what is its
own: a call with RETRY and a line EVENTS several entries, any other line one item. What is left are the departures in the end."""

import re

POLICY = ('FACILITY', 'STRUCTURE', 'PREF', 'CONNECTOR')
OWED = ('DISCFAIL', 'QUIESCE', 'CLEANUP', 'STOP')
ROUND = 64
WIDE = 44


class NotOfScript(Exception):
    pass


class Report:
    """What a report has: the entries of each structure, and what each caller was shown."""

    def __init__(self, lines):
        self.entries, self.items, at = {}, {}, 0
        if lines[0].startswith('JOURNALFULL '):
            raise NotOfScript('it is of a run that ended with a full journal')
        while at < len(lines) and lines[at].split()[:1] and lines[at].split()[0] in POLICY:
            at += 1
        while at < len(lines) and lines[at] not in ('END', ''):
            head = lines[at].split()
            if len(head) != 3 or head[0] not in ('HISTORY', 'TRANSCRIPT') or not head[2].isdigit():
                raise NotOfScript(f'"{lines[at][:60]}" begins no part of a report')
            part = lines[at + 1:at + 1 + int(head[2])]
            if head[0] == 'HISTORY':
                self.entries[head[1]] = {int(line.split()[0]): line for line in part}
            else:
                self.items[head[1]] = part
            at += 1 + len(part)
        if at >= len(lines) or lines[at] != 'END':
            raise NotOfScript('its last line is not END')


class Joining:
    """The report's items, of which each line of the script takes its own."""

    def __init__(self, report):
        self.report, self.next, self.marked = report, dict.fromkeys(report.items, 0), {}

    def take(self, who, on, number):
        """The next item of a caller: its number, where it is an entry, and the text that is shown."""
        items, at = self.report.items.get(who, []), self.next.get(who, 0)
        words = items[at].split() if at < len(items) else []
        if words[:1] != [on]:
            raise NotOfScript(f'line {number} is by {who} at {on}, and what comes next in the transcript of {who} is {" ".join(words) or "its end"}')
        self.next[who] = at + 1
        return words[1:]

    def entry(self, who, on, number):
        """The next entry of a caller, and the marks before it."""
        words = self.take(who, on, number)
        entries = self.report.entries.get(on, {})
        at = int(words[0]) if words[0].isdigit() else -1
        if at not in entries or len(words) > 1:
            raise NotOfScript(f'line {number} is a call, and the transcript of {who} has {" ".join(words)} for it')
        first = at
        while first - 1 in entries and entries[first - 1].split()[1] == 'SYS':
            first -= 1
        return [entries[it] for it in range(first, at + 1)]

    def round(self, who, on, number):
        """The entries of an event round."""
        told = []
        for _ in range(ROUND):
            told += self.entry(who, on, number)
            reply = told[-1].partition(' -> ')[2].split()
            if reply[0] != 'EVENT':
                break
            if reply[1] in OWED:
                told += self.entry(who, on, number)
        return told

    def call(self, words, number):
        """The entries of a call, asked again with event rounds where it has RETRY."""
        who, on = words[:2]
        again = int(words[-1]) if words[-2] == 'RETRY' else 0
        command = words[2:-2] if again else words[2:]
        told = self.entry(who, on, number)
        if told[-1].split()[2] != command[0]:
            raise NotOfScript(f'line {number} is {" ".join(words)[:60]}, and the entry for it {told[-1][:60]}')
        while again and told[-1].partition(' -> ')[2].split()[:2] in (['REFUSED', '69'], ['REFUSED', '72']):
            again -= 1
            told += self.round(who, on, number) + self.entry(who, on, number)
        return told

    def line(self, line, number):
        """What the report has of a line of the script: entries, and a text that its caller was shown."""
        words = line.split()
        if not words or words[0][0] == '*' or words[0] in POLICY:
            return [], ''
        if len(words) < 3:
            raise NotOfScript(f'line {number} is wrong')
        if words[2] in ('TEST', 'TESTWORD', 'POST', 'TAKE'):
            shown = self.take(words[0], words[1], number)
            if shown[0] != words[2]:
                raise NotOfScript(f'line {number} is a {words[2]}, and what {words[0]} was shown is {" ".join(shown)}')
            return [], ' '.join(shown)
        return (self.round(words[0], words[1], number) if words[2] == 'EVENTS' else self.call(words, number)), ''

    def rest(self):
        """The departures in the end, each with its structure."""
        for who, items in self.report.items.items():
            for item in items[self.next[who]:]:
                on = item.split()[0]
                yield on, self.entry(who, on, 0)


def rows(number, line, entries, shown):
    """One row or more: the line and its number, the entries, and what was shown."""
    left = f'{number:>5}  {line.rstrip()}' if line.strip() else ''
    first = entries[0] if entries else ''
    if len(left) > WIDE and first:
        yield left
        left = ''
    yield f'{left:{WIDE}}  {first or (" " * 4 + shown if shown else "")}'.rstrip()
    for entry in entries[1:]:
        yield f'{"":{WIDE}}  {entry}'


def joined(script, report):
    """The lines of a script, and beside them what a report has of them."""
    joining = Joining(Report(report))
    while script and not script[-1].strip():
        script.pop()
    for number, line in enumerate(script, 1):
        yield from rows(number, line.rstrip('\r'), *joining.line(line, number))
    for on, entries in joining.rest():
        yield f'       {"(in the end, at " + on + ")":{WIDE - 7}}  {entries[0]}'
        for entry in entries[1:]:
            yield f'{"":{WIDE}}  {entry}'
