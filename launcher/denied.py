"""What ./plexrun says of an answer NO: which line of the report it names, and what that says. Nothing here is proved."""

from judge import POLICY, words_of

SPLIT = b'REPORT'
SHOWN = 160


def shown(line):
    text = line.decode('latin-1')
    return ascii(text[:SHOWN])[1:-1] + (' ..' if len(text) > SHOWN else '')


class Parts:
    """A script and a report, of one input: the lines of both, where the report has them, and the structures that the script declares."""

    def __init__(self, text):
        lines = text.split(b'\n')
        at = lines.index(SPLIT)
        self.script, self.lines, self.before = lines[:at], lines[at + 1:], at + 1
        self.structures = [words[1] for words in map(words_of, self.script) if len(words) > 1 and words[0] == 'STRUCTURE']

    def part(self, heading, name):
        """Where the lines of a history or of a transcript begin, from 1, and how many the heading tells; or None."""
        at = 0
        while at < len(self.lines):
            words = words_of(self.lines[at])
            if len(words) != 3 or words[0] not in ('HISTORY', 'TRANSCRIPT') or not words[2].isdigit():
                if words[:1] and words[0] not in POLICY:
                    return None
                at += 1
                continue
            if words[:2] == [heading, name]:
                return at + 2, int(words[2])
            at += 1 + int(words[2])
        return None

    def line(self, number):
        """A line of the report, with its number there and in the input."""
        return f'line {number} of the report, {number + self.before} of the input, is: {shown(self.lines[number - 1])}'


def text_says(parts, number):
    """What is said of the first line up to which the report begins as none does."""
    count = len(parts.lines) - (parts.lines[-1] == b'')
    if number > count:
        return [f'the report ends with its line {count}, and more lines have to follow: the last one of a report is END']
    line = parts.lines[number - 1]
    if number == len(parts.lines):
        return [parts.line(number), 'no line feed stands behind it']
    if line.endswith(b'\r'):
        return [parts.line(number), 'it ends in a carriage return: a line of a report ends at a line feed alone']
    if line.startswith(b'JOURNALFULL '):
        return [parts.line(number), 'the report of a run that ended with a full journal (status 8) is not judged']
    if number == 1 or any(line.startswith(word.encode() + b' ') for word in POLICY):
        return [parts.line(number), "first come the script's facilities by number, each structure with its PREF lines, and the connectors, in plain form"]
    return [parts.line(number), 'no report of this script has such a line there: docs/CHECKING.md, "NO TEXT"']


def entry_says(parts, name, number):
    """What is said of the first entry of a block that isn't the machine's."""
    begun = parts.part('HISTORY', name)
    if not begun:
        return []
    at, last = begun[0] + number - 1, min(begun[0] + begun[1], len(parts.lines))
    end = at
    while end + 1 < last and b' SYS LOST ' in parts.lines[end - 1]:
        end += 1
    told = [parts.line(it) for it in range(at, end + 1)]
    strange = [it for it in range(at, end + 1) if words_of(parts.lines[it - 1])[:1] != [str(number + it - at)]]
    if strange:
        return [*told, f'the entry in line {strange[0]} has to have the number {number + strange[0] - at}, as the entries of {name} are counted']
    if b' SYS LOST ' in parts.lines[end - 1]:
        return [*told, 'no call stands behind this loss, which was to find it']
    marked = 'either the call can not have found these losses, or ' if end > at else ''
    return [*told, f'{marked}behind the entries before it no facility answers so: docs/MODEL.md and docs/commands say what one answers']


def item_says(parts, name, number):
    """What is said of the first item of a caller that can't be shown."""
    begun = parts.part('TRANSCRIPT', name)
    if not begun:
        return []
    if number > begun[1]:
        return [f'the transcript of {name} ends with item {begun[1]}, and more items have to follow']
    told = [parts.line(begun[0] + number - 1)] if begun[0] + number - 1 <= len(parts.lines) else []
    told.append(f'{name} can have been shown what stands before it, and then not this: either the next line of {name} shows something else, '
                'or its number is older than one shown before, or the bit stood otherwise at it')
    if number == 1:
        told.append(f'item 1 is named, too, where the histories have other calls of {name} than its lines make')
    return told


def denied(text, words):
    """What is told of an answer NO."""
    parts = Parts(text)
    if len(words) == 3:
        return item_says(parts, words[1], int(words[2]))
    told = text_says(parts, int(words[1])) if words[0] == 'TEXT' else entry_says(parts, words[0], int(words[1]))
    if words[0] == 'TEXT' and 'TEXT' in parts.structures:
        told.append('(or the answer means the structure TEXT, and an entry of it: give that structure another name)')
    return told


def without_report(text):
    """Why no line of an input is exactly REPORT."""
    near = next((line for line in text.split(b'\n') if line.strip().upper() == SPLIT), None)
    told = ['no line is exactly REPORT: first comes the script, then that line, then the report']
    if near is not None:
        told.append(f'there is a line {shown(near)}: capital letters, and nothing before or behind them')
    return told
