"""What `plexrun check` has to answer to a text: a second reading of docs/CHECKING.md, REFUSALS.md and commands, against which its answers can be held.
It goes by launcher/judge.py (which texts are scripts) and model.py (what structures answer). Nothing here is proved."""

import os
import re
import sys

sys.dont_write_bytecode = True
TOP = os.path.dirname(os.path.dirname(os.path.realpath(__file__)))
sys.path.insert(0, f'{TOP}/launcher')
import model
from judge import POLICY, TEXT, Judge, first_fault, without_return, words_of

MOST, SMALL, LARGE, ROUND = 16777216, 2 ** 32 - 1, 2 ** 64 - 1, 64
OWED = ('DISCFAIL', 'QUIESCE', 'CLEANUP', 'STOP')
# The forms of replies: capitals stand for themselves, a bracket may be left out, and a list says how many words follow it.
LOSSES = ('SIMPLEX cf', 'STOPPED n', 'FAILED')
SHELL = ('OK', 'OK NEW cf', 'OK RECONNECTED cf', 'EVENT event', 'RESPONDED event', 'OK n', 'OK cf', 'COPIED n n', 'OK NONE', 'REFUSED refusal')
CONTENT = {
    'CACHE': ('DATA data [ADJ adj] [change]', 'NODATA', 'OK', 'OK n', 'REGS of n:term', 'OK change', 'NAMES of term', 'STATS of n:n',
              'DIR CHANGED n STG n LOCK holder REGS n', 'DIR UNCHANGED NONE STG n LOCK holder REGS n', 'STG n n', 'ALTERED n n MORE', 'ALTERED n n DONE'),
    'LIST': ('ID id', 'ENTRY id n VERSION n [NAME term] [KEY term] [DATA data] [ADJ adj]', 'OK', 'IDS of id', 'HOLDER holder', 'CONTROLS n n', 'EMPTY',
             'NOTEMPTY', 'OK n', 'SUBLIST n term'),
    'LOCK': ('GRANTED', 'PENDING n', 'OK', 'RECORDS of resource:state:adj')}
EVENTS = ('NEWCONN c', 'DISCFAIL c', 'QUIESCE n', 'REBUILDCONNECT n', 'CONNECTSDONE n', 'CLEANUP n', 'COMPLETE n', 'STOP n', 'STOPDONE n', 'LOSTCONN cf',
          'STRFAIL', 'CONTENTION resource c', 'NOTIFY resource c', 'GRANTED resource state', 'DENIED resource')
REFUSALS = ('1 NOTREGISTERED', '2 INDEXINUSE term', '3 BADINDEX n n', '4 ISCHANGED', '5 NOTCHANGED', '6 CASTOUTHELD c', '7 NOTHELD', '8 NOENTRY',
            '9 DIRECTORYFULL n', '10 NOELEMENTS n n', '11 BADCLASS n', '12 BEYONDUNITS n n', '13 NOALTER', '20 NOENTRY', '21 NAMETAKEN id',
            '22 BADHEADER n n', '23 LISTFULL n', '24 ENTRIESFULL n', '25 NOELEMENTS n n', '26 LOCKHELD c', '27 LOCKNOTHELDBY holder', '28 WRONGREFERENCE refs',
            '29 INDEXINUSE n', '30 BADLOCK n n', '31 VERSIONDIFFERS n', '32 NOQUEUED', '40 ALREADYINTERESTED state', '41 NOTINTERESTED', '42 RECORDSFULL n',
            '43 NOTMANAGER holder', '44 NOWAITER', '45 NORECORD', '46 STILLPENDING', '60 NOTCONNECTED', '61 NAMEACTIVE connection', '62 TOOMANYCONNS byte',
            '63 NOTFAILED connection', '64 HASCONNECTIONS n', '65 NOSPACE n n', '66 NOTHINGOWED', '67 REBUILDINPROGRESS n', '68 NOREBUILD',
            '69 WRONGSTAGE stage', '70 ITEMSLEFT n', '71 TOOSMALL n n', '72 QUIESCED n', '73 LOSTCONN cf', '74 LOSTFACILITY cf', '75 STRUCTUREFAILED',
            '76 NOFACILITY', '77 ALREADYDUPLEXED', '78 NOEVENT', '79 NOTALLOCATED')
CHOICES = {'change': ('CHANGED', 'UNCHANGED'), 'state': ('SHR', 'EXCL'), 'refs': ('NAMES', 'KEYS', 'NOTHING'),
           'connection': ('ACTIVE', 'LEAVING', 'GONE'), 'stage': ('QUIESCE', 'CONNECT', 'COPY', 'CLEANUP', 'STOPPING')}
TERMS = {'term': 16, 'adj': 64, 'data': 4096}


def is_number(word, most=SMALL):
    return bool(re.fullmatch('0|[1-9][0-9]*', word)) and int(word) <= most


class Unread(Exception):
    """The first line, from 1, up to which a text begins as no report does."""


class Bad(Exception):
    """The answer to a report that is read."""


class Replies:
    """Which words are replies, by the connectors of a script."""

    def __init__(self, connectors):
        self.connectors = connectors

    def is_word(self, sort, word):
        if sort in CHOICES:
            return word in CHOICES[sort]
        if sort in TERMS:
            return bool(re.fullmatch('[A-Za-z0-9._-]+', word)) and len(word) <= TERMS[sort]
        if sort in ('n', 'byte'):
            return is_number(word, SMALL if sort == 'n' else 255)
        if sort == 'cf':
            return bool(re.fullmatch('CF[1-4]', word))
        if sort in ('c', 'holder'):
            return word in self.connectors or sort == 'holder' and word == 'NONE'
        if sort == 'id':
            return word[:1] == '#' and is_number(word[1:], LARGE)
        if sort == 'resource':
            name, at, value = word.rpartition('@')
            return at == '@' and self.is_word('term', name) and is_number(value)
        parts = sort.split(':')
        return len(parts) > 1 and len(word.split(':')) == len(parts) and all(map(self.is_word, parts, word.split(':')))

    def has_form(self, form, words):
        """Whether the words have a form, which is given by its own words."""
        if not form:
            return not words
        first = form[0]
        if first == 'of':
            return bool(words) and is_number(words[0], LARGE) and int(words[0]) == len(words) - 1 and all(self.is_word(form[1], it) for it in words[1:])
        if first in ('event', 'refusal'):
            return any(self.has_form(it.split(), words) for it in (EVENTS if first == 'event' else REFUSALS))
        if first.startswith('['):
            end = next(at for at, it in enumerate(form) if it.endswith(']'))
            inner = [it.strip('[]') for it in form[:end + 1]]
            return self.has_form(inner + form[end + 1:], words) or self.has_form(form[end + 1:], words)
        return bool(words) and (first == words[0] if first[0].isdigit() or first.isupper() else self.is_word(first, words[0])) and self.has_form(
            form[1:], words[1:])

    def is_reply(self, kind, command, reply):
        losses = [f'OK {it}' for it in LOSSES] if command.startswith('VARY ') else LOSSES
        return any(self.has_form(form.split(), reply.split(' ')) for form in (*CONTENT[kind], *SHELL, *losses))


def in_full(words):
    """A command as a report prints it."""
    said = [it[1] * int(it[2]) if it else word for word, it in ((word, re.fullmatch(r'([A-Za-z0-9._-]+)\*([0-9]+)', word)) for word in words)]
    return re.sub(r' STG 1(?= |$)', '', ' '.join(said))


class Script:
    """A script that is right: its policy in plain form, and its lines."""

    def __init__(self, text):
        self.judge = Judge()
        for line in text.split(b'\n'):
            self.judge.line(line)
        lines = [words for words in (words_of(without_return(line)) for line in text.split(b'\n')) if words and not words[0].startswith('*')]
        policy = [words for words in lines if words[0] in POLICY]
        self.lines = [words for words in lines if words[0] not in POLICY]
        self.kinds, self.callers = self.judge.kinds, ['OP', *self.judge.connectors]
        self.policy = [' '.join(words) for words in sorted((it for it in policy if it[0] == 'FACILITY'), key=lambda words: words[1])]
        for name in self.kinds:
            self.policy += [' '.join(words) for words in policy if words[0] == 'STRUCTURE' and words[1] == name]
            self.policy += [' '.join(words) for words in policy if words[0] == 'PREF' and words[1] == name]
        self.policy += [f'CONNECTOR {name}' for name in self.callers[1:]]
        self.replies = Replies(self.callers[1:])

    def is_command(self, by, on, command):
        """Whether a report may print this command of that caller's."""
        words = command.split(' ')
        if (by, command) == ('OP', 'NEXT'):
            return True
        if words[0] in ('EVENTS', 'TEST', 'TESTWORD', 'POST', 'TAKE') or 'RETRY' in words or in_full(words) != command:
            return False
        is_long = len(f'{by} {on} {command}') > 8192
        return not self.judge.unknown(*self.judge.read(self.judge.given([by, on]), words, is_long))


class Printed:
    """What a text prints, read line by line."""

    def __init__(self, script, text):
        self.script, self.rows, self.at = script, text.split(b'\n'), 0
        for line in script.policy:
            self.take(lambda it, due=line: it == due)
        self.histories = {name: self.part('HISTORY', name, True, lambda line, on=name: self.entry(on, line)) for name in script.kinds}
        self.transcripts = {name: self.part('TRANSCRIPT', name, bool(script.kinds), self.item) for name in script.callers}
        self.take(lambda it: it == 'END')
        if self.rows[self.at:] != [b'']:
            raise Unread(self.at + 1)

    def take(self, read):
        """What is read of the next line."""
        row = self.rows[self.at].decode('latin-1') if self.at + 1 < len(self.rows) else None
        found = read(row) if row is not None else None
        if not found:
            raise Unread(self.at + 1)
        self.at += 1
        return found

    def part(self, heading, name, may_have, read):
        def count(line):
            words = line.split(' ')
            right = len(words) == 3 and words[:2] == [heading, name] and is_number(words[2], LARGE) and (may_have or words[2] == '0')
            return words if right else None
        return [self.take(read) for _ in range(int(self.take(count)[2]))]

    def entry(self, on, line):
        left, arrow, reply = line.partition(' -> ')
        number, _, rest = left.partition(' ')
        by, _, command = rest.partition(' ')
        if not arrow or not is_number(number) or not command:
            return None
        if by == 'SYS':
            right = re.fullmatch('LOST CF[1-4]', command) and any(self.script.replies.has_form(it.split(), reply.split(' ')) for it in LOSSES)
        else:
            kind = self.script.kinds[on]
            right = by in self.script.callers and self.script.is_command(by, on, command) and self.script.replies.is_reply(kind, command, reply)
        return (int(number), by, command, reply) if right else None

    def item(self, line):
        on, _, rest = line.partition(' ')
        kind, words = self.script.kinds.get(on), rest.split(' ')
        if kind is None:
            return None
        bits = {'CACHE': ('VALID', 'INVALID'), 'LIST': ('NOTEMPTY', 'EMPTY'), 'LOCK': ()}[kind]
        if len(words) == 1:
            right = is_number(rest)
        elif words[0] in ('POST', 'TAKE'):
            right = len(words) == 2 and is_number(words[1])
        else:
            shown = words[0] == 'TEST' and words[2:3] and (words[2] in bits) or words[0] == 'TESTWORD' and re.fullmatch('[01]{32}', ''.join(words[2:3]))
            outside = words[0] in ('TEST', 'TESTWORD') and words[2:3] == ['BADINDEX']
            right = len(words) == 4 and (shown or outside) and is_number(words[1]) and is_number(words[3])
        return (on, words) if right else None


class Replay:
    """A structure's history, held against the model; the bits of each connector at each call's number."""

    def __init__(self, script, name, entries):
        self.name, self.entries = name, entries
        self.structure = model.Structure(script.policy, name)
        self.vector = 0 if script.kinds[name] == 'LOCK' else self.structure.form.vector
        self.connectors, self.bits, done = script.callers[1:], {}, 0
        self.keep(0)
        while done < len(entries):
            done = self.block(done)
            self.keep(done)
        self.points = sorted(self.bits)

    def keep(self, number):
        self.bits[number] = {who: [bool(self.structure.bit(who, index)) for index in range(self.vector)] for who in self.connectors}

    def block(self, done):
        """How many entries are right behind the next block."""
        end = done
        while end < len(self.entries) and self.entries[end][1] == 'SYS':
            end += 1
        if end == len(self.entries) or [it[0] for it in self.entries[done:end + 1]] != list(range(done + 1, end + 2)):
            raise Bad(f'NO {self.name} {done + 1}')
        marks = [it[2].split(' ')[1] for it in self.entries[done:end]]
        lost = self.structure.lost_before(*self.entries[end][1:3], type('Down', (), {'is_down': staticmethod(lambda cf: cf in marks)}))
        if lost != marks or any(self.structure.call(*it[1:3]) != it[3] for it in self.entries[done:end + 1]):
            raise Bad(f'NO {self.name} {done + 1}')
        return end + 1

    def before(self, number):
        return max(it for it in self.points if it < number)


class Lacks(Exception):
    """A caller's next call isn't there, or isn't what is due."""


class Caller:
    """What a caller's items have to be: its calls walked by its lines."""

    def __init__(self, script, printed, replays, name):
        self.name, self.script, self.printed, self.replays = name, script, printed, replays
        self.left = {on: [it for it in entries if it[1] == name] for on, entries in printed.histories.items()}
        self.linked, self.due = set(), []

    def call(self, on, command):
        if not self.left[on] or self.left[on][0][2] != command:
            raise Lacks
        number, _, _, reply = self.left[on].pop(0)
        self.due.append(('call', on, [str(number)]))
        if command.startswith('CONNECT ') and reply.startswith('OK'):
            self.linked.add(on)
        if command in ('DISCONNECT', 'FAIL') and reply == 'OK':
            self.linked.discard(on)
        return reply.split(' ')

    def round(self, on):
        for _ in range(ROUND):
            reply = self.call(on, 'NEXT')
            if reply[0] != 'EVENT':
                return
            if reply[1] in OWED:
                self.call(on, 'RESPOND')

    def line(self, on, words):
        if words[0] in ('TEST', 'TESTWORD'):
            index = int(words[1]) * (32 if words[0] == 'TESTWORD' else 1)
            vector = self.replays[on].vector
            self.due.append(('test', on, words) if index < vector else ('call', on, [*words, 'BADINDEX', str(vector)]))
        elif words[0] in ('POST', 'TAKE'):
            self.due.append(('note', on, words))
        elif words[0] == 'EVENTS':
            self.round(on)
        else:
            again, words = (int(words[-1]), words[:-2]) if words[-2:-1] == ['RETRY'] else (0, words)
            reply = self.call(on, in_full(words))
            while again and reply[:2] in (['REFUSED', '69'], ['REFUSED', '72']):
                again -= 1
                self.round(on)
                reply = self.call(on, in_full(words))

    def walk(self):
        """Whether the caller's calls are just what its lines make."""
        try:
            for words in self.script.lines:
                if words[0] == self.name:
                    self.line(words[1], words[2:])
            for on in self.script.kinds:
                if on in self.linked:
                    self.call(on, 'DISCONNECT')
        except Lacks:
            return False
        return not any(self.left.values())

    def first_bad(self):
        """The first item that is wrong, or None."""
        items = self.printed.transcripts[self.name]
        if not self.walk():
            return 1
        seen, sure = dict.fromkeys(self.script.kinds, 0), dict.fromkeys(self.script.kinds, 0)
        for place, (on, words) in enumerate(items, 1):
            if place > len(self.due) or not self.is_right(self.due[place - 1], on, words, seen[on], sure[on]):
                return place
            if words[-2:-1] != ['BADINDEX']:
                seen[on] = max(seen[on], int(words[-1]))
            if len(words) < 3:
                sure[on] = max(sure[on], int(words[-1]))
        return None if len(items) == len(self.due) else len(items) + 1

    def is_right(self, due, on, words, seen, sure):
        sort, due_on, due_words = due
        if on != due_on or (words != due_words if sort == 'call' else words[:len(due_words)] != due_words or words[-2:-1] == ['BADINDEX']):
            return False
        number = int(words[-1])
        if sort == 'note':
            return sure <= number <= len(self.printed.histories[on])
        return sort == 'call' or number >= seen and self.is_told(on, words, number, sure)

    def is_told(self, on, words, number, sure):
        replay = self.replays[on]
        if number not in replay.bits:
            return False
        first = int(words[1]) * (32 if words[0] == 'TESTWORD' else 1)
        shown = [it == '1' for it in words[2]] if words[0] == 'TESTWORD' else [words[2] in ('VALID', 'NOTEMPTY')]
        points = [number] + [replay.before(number)] * (number > sure)
        return all(any(replay.bits[at][self.name][index] == bit for at in points) if index < replay.vector else not bit
                   for index, bit in enumerate(shown, first))


def judged(script, printed):
    replays = {name: Replay(script, name, entries) for name, entries in printed.histories.items()}
    for name in script.callers:
        bad = Caller(script, printed, replays, name).first_bad()
        if bad:
            raise Bad(f'NO TRANSCRIPT {name} {bad}')
    return f'YES {sum(map(len, printed.histories.values()))}'


def answer(text):
    """The status that is due, and the line."""
    if len(text) > MOST:
        return 7, f'TOOLONG {MOST}'
    lines = text.split(b'\n')
    if b'REPORT' not in lines:
        return 3, 'SCRIPT 0 NOREPORT'
    at = lines.index(b'REPORT')
    part = b''.join(line + b'\n' for line in lines[:at])
    if len(part) > TEXT:
        return 7, f'TOOLONG {TEXT}'
    fault = first_fault(part)
    if fault:
        return 3, 'SCRIPT {} {}'.format(*fault)
    script = Script(part)
    try:
        return 0, judged(script, Printed(script, b'\n'.join(lines[at + 1:])))
    except Unread as why:
        return 9, f'NO TEXT {why}'
    except Bad as why:
        return 9, str(why)
