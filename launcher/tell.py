"""What ./plexrun says beside the program. Nothing of it is proved.

  tell.py wrong LINE WHY < SCRIPT   which word of that line is wrong, and what should stand there
  tell.py no WORDS.. < INPUT        which line of a report the answer `NO WORDS..` names, of a script, a line REPORT and that report
  tell.py judged < SCRIPT           what is wrong with a script, found without the program; the status is 1 where something is
  tell.py refused < REPORT          why each call was refused, where each was
  tell.py help WORD..               the forms of commands and of lines of the policy
  tell.py joined SCRIPT [REPORT]    the script, and beside each line what the report has of it (else the report is read from standard input)

Hints go to standard error, help and joined lines to standard output."""

import re
import sys

sys.dont_write_bytecode = True
from denied import denied, without_report
from hints import by_says, form_says, hints, kind_says, listed, near
from joined import NotOfScript, joined
from judge import PAGE, first_fault, without_return

# How many characters of a line are shown.
SHOWN = 160


def say(text):
    print(f'plexrun: {text}', file=sys.stderr)


def show_fault(text, number, why):
    """Shows the line that is wrong, and what is wrong with it."""
    line = without_return(text.split(b'\n')[number - 1]).decode('latin-1')
    say(f'line {number} is: {ascii(line[:SHOWN])[1:-1]}' + (' ..' if len(line) > SHOWN else ''))
    first, *more = hints(text, number, why) or ['docs/SCRIPT.md, "What is wrong with a text", says when that comes']
    say(f'{why}: {first}')
    for it in more:
        say(f'  {it}')


def wrong(number, why):
    text = sys.stdin.buffer.read()
    if why == 'NOREPORT':
        for it in without_report(text):
            say(it)
    else:
        show_fault(text, int(number), why)
    return 0


def no(*words):
    for it in denied(sys.stdin.buffer.read(), words):
        say(it)
    return 0


def judged():
    text = sys.stdin.buffer.read()
    fault = first_fault(text)
    if not fault:
        return 0
    say(f'line {fault[0]} is wrong, as judged by the launcher, not by the program:')
    show_fault(text, *fault)
    return 1


# Why calls are refused where no call was accepted, by the number of the first refusal.
def no_facility(policy, name, rest):
    if not any(line.startswith(f'PREF {name} ') for line in policy):
        return f'no line PREF {name} cf units says in which facility {name} may stand'
    return f'no facility of the PREF lines of {name} is left to its first caller'


def no_space(policy, name, rest):
    return f'{name} takes {rest[0]} units, its entries and elements together, and its PREF lines set aside {rest[1]} at most'


def not_connected(policy, name, rest):
    return f'nobody is connected to {name}: the first call is A {name} CONNECT DELETE, as A is a connector'


REASONS = {'76': no_facility, '65': no_space, '60': not_connected}


def refused():
    """Says why, where each of several calls of a report was refused."""
    lines = sys.stdin.read().split('\n')
    heads = [at for at, line in enumerate(lines) if line.startswith('HISTORY ')]
    entries = [(lines[at].split()[1], line) for at in heads for line in lines[at + 1:at + 1 + int(lines[at].split()[2])]]
    if not entries or not all(' -> REFUSED ' in line for _, line in entries):
        return 0
    name, first = entries[0]
    number, _, *rest = first.partition(' -> REFUSED ')[2].split()
    say(f'each of {len(entries)} calls was refused, the first: {first}')
    if number in REASONS:
        say(REASONS[number](lines[:heads[0]], name, rest))
    say('docs/REFUSALS.md has every refusal by its number')
    return 0


def help_says(word):
    """The forms that begin with a word, or else those that have it."""
    forms = [form for form in PAGE.forms if form.verb == word.upper()] or [form for form in PAGE.forms if form.has(word.upper())]
    if not forms:
        like = near(word, PAGE.verbs())
        print(f'{word} begins no line and no command' + (f' ({like} does)' if like else '') + f': {listed(dict.fromkeys(form.verb for form in PAGE.forms))}')
        return 1
    for form in forms:
        print(form_says(form, 'OP' if form.by == ('OP',) else 'c', 's'))
        print(f'    by {by_says(form.by)}, at {kind_says(form.kinds)}' if form.kinds else '    a line of the policy', end='')
        print(f'; for example {form.example}; docs/{form.page}')
    filled = dict.fromkeys(word for form in forms for word in form.words)
    if filled:
        print('where ' + '; '.join(word.says() for word in filled))
    return 0


def join(script, report=None):
    try:
        with open(script, encoding='latin-1') as file:
            lines = file.read().split('\n')
        if report:
            with open(report, encoding='latin-1') as file:
                told = file.read()
        else:
            told = sys.stdin.read()
        print(*joined(lines, told.split('\n')), sep='\n')
    except OSError as error:
        say(f'{error.strerror}: {error.filename}')
        return 4
    except NotOfScript as error:
        say(f'this report is not one of this script: {error}')
        return 3
    return 0


def main(task, *words):
    if task == 'help':
        return max(map(help_says, words))
    return {'wrong': wrong, 'no': no, 'judged': judged, 'refused': refused, 'joined': join}[task](*words)


if __name__ == '__main__':
    try:
        sys.exit(main(*sys.argv[1:]))
    except BrokenPipeError:
        sys.exit(5)
