"""Makes random scripts in their plain form. Nothing here is proved."""

CONNECTORS = (2, 2, 3, 4, 8, 16, 32, 64)
LINES = 900
PAGES = tuple(f'P{n}' for n in range(6))
RECORDS = tuple(f'N{n}' for n in range(4))
KEYS = ('a', 'b', 'c')
RESOURCES = ('R0@0', 'R0@16', 'R1@1', 'R2@2')


class Structure:
    """A structure of the policy, and how often each sort of line comes."""

    def __init__(self, rng, name):
        self.name, self.kind = name, rng.choice(('CACHE', 'LIST', 'LOCK'))
        self.entries, self.elements = rng.choice((2, 4, 8, 64)), rng.choice((2, 4, 8, 64))
        self.conns = rng.choice((2, 4, 64, 64, 64))
        self.vector = rng.choice((8, 33, 64, 200)) if self.kind != 'LOCK' else 0
        self.keep = rng.choice(('KEEP', 'DELETE'))
        self.headers, self.locks, self.refs = rng.choice((1, 2, 4)), rng.choice((0, 1, 2)), rng.choice(('NAMES', 'KEYS', 'NOTHING'))
        self.rebuilt, self.duplexed, self.lost = rng.random() < 0.5, rng.random() < 0.4, rng.random() < 0.4
        self.stopped = 1.0

    def policy(self):
        size = f'{self.kind} {self.entries} {self.elements} {self.conns}'
        more = {'CACHE': f' {self.vector} {self.keep}', 'LOCK': f' {self.keep}',
                'LIST': f' {self.vector} {self.keep} {self.headers} {self.locks} {self.refs}'}
        return f'STRUCTURE {self.name} {size}{more[self.kind]}'


class Script:
    """A script: the lines of its policy and, each as (who, structure, command), what is done."""

    def __init__(self, policy, lines, structures, facilities, connectors):
        self.policy, self.lines = policy, lines
        self.structures, self.facilities, self.connectors = structures, facilities, connectors
        self.text = spelled(policy, lines)

    def vector(self, name):
        return next(structure.vector for structure in self.structures if structure.name == name)


def spelled(policy, lines):
    return ''.join(line + '\n' for line in policy) + ''.join(' '.join(line) + '\n' for line in lines)


def chance(rng, part, text):
    return text if rng.random() < part else ''


def data(rng):
    return rng.choice(('x', 'data', 'v1', 'y' * 100, 'z' * 257, 'w' * 600))


def cache_line(rng, it, who, others):
    page = rng.choice(PAGES)
    index = PAGES.index(page) if rng.random() < 0.9 else rng.randrange(it.vector + 1)
    old = chance(rng, 0.1, f' OLD {rng.choice(PAGES)}')
    storage = chance(rng, 0.2, f' STG {rng.choice((2, 3, 9))}')
    pick = rng.random()
    if pick < 0.3:
        return f'READ {page} {index}{old}{storage}'
    if pick < 0.6:
        state = rng.choice(('CHANGED 1', 'CHANGED 1', 'CHANGED 2', 'UNCHANGED', 'UNCHANGED', 'CHANGED 17'))
        adjunct, registered = chance(rng, 0.2, f' ADJ {rng.choice(KEYS)}'), chance(rng, 0.1, ' WHENREG')
        return f'WRITE {page} {index} {data(rng)} {state}{adjunct}{old}{storage}{registered}'
    if pick < 0.72:
        return f'{rng.choice(("CASTOUT", "UNLOCK", "UNLOCK"))} {page}'
    if pick < 0.82:
        return altered(rng, it)
    return rng.choice((f'CROSSINVAL {page}', 'REGLIST', f'COCLASS {rng.choice((1, 2, 17))}', 'COSTATS', f'DIRINFO {page}', f'DELETE {page}',
                       f'DELETE {page}', f'STGSTATS {rng.choice((1, 2, 9))}'))


def altered(rng, it):
    """A step of an alteration, mostly to a capacity that isn't far and that the instance has room for."""
    units = it.entries + it.elements
    entries = rng.choice((it.entries - 1, it.entries + 1, it.entries + 2, rng.randint(1, units - 1)))
    entries = max(1, min(units - 1, entries))
    start = f'ALTER START {entries} {rng.choice((units - entries, units - entries, units - entries + (rng.random() < 0.3), 1))}'
    return rng.choice((start, start, *[f'ALTER STEP {rng.choice((1, 1, 2, 4096))}'] * 4, chance(rng, 0.3, 'ALTER STOP') or start))


def record(rng, it):
    header = rng.randrange(it.headers + (rng.random() < 0.05))
    return rng.choice((f'#{rng.randint(1, 12)}', f'HEAD {header}', f'TAIL {header}', f'HEAD {header}',
                       f'NAME {rng.choice(RECORDS)}', f'KEY {header} {rng.choice(KEYS)}'))


def list_line(rng, it, who, others):
    header = rng.randrange(it.headers + (rng.random() < 0.05))
    lock = rng.randrange(it.locks + 1)
    under = chance(rng, 0.15, f' {rng.choice(("NOTHELD", "HELDBY"))} {lock}')
    body, adjunct = chance(rng, 0.5, f' DATA {data(rng)}'), chance(rng, 0.2, f' ADJ {rng.choice(KEYS)}')
    version, end = chance(rng, 0.2, f' VERSION {rng.randint(1, 3)}'), rng.choice(('HEAD', 'TAIL'))
    pick = rng.random()
    if pick < 0.35:
        refs = it.refs if rng.random() < 0.95 else rng.choice(('NAMES', 'KEYS', 'NOTHING'))
        known = {'NAMES': f' NAME {rng.choice(RECORDS)}', 'KEYS': f' KEY {rng.choice(KEYS)}', 'NOTHING': ''}[refs]
        return f'WRITE {header} {end}{known}{body}{adjunct}{under}'
    if pick < 0.42:
        return f'UPDATE {record(rng, it)}{body}{adjunct}{version}{under}'
    if pick < 0.5:
        return f'READ {record(rng, it)}{under}'
    if pick < 0.6:
        key = chance(rng, 0.5 if it.refs == 'KEYS' else 0.03, f' KEY {rng.choice(KEYS)}')
        return f'MOVE {record(rng, it)} {header} {end}{key}{version}{under}'
    if pick < 0.78:
        return f'DELETE {record(rng, it)}{version}{under}'
    if pick < 0.83:
        return rng.choice((f'MONITOR {header} {header}', f'MONITOR {header} {header}', f'MONITOR {header} {rng.randrange(it.vector + 1)}',
                           f'UNMONITOR {header}'))
    if pick < (0.92 if it.refs == 'KEYS' else 0.84):
        key = rng.choice(KEYS)
        return rng.choice((*[f'MONSUB {header} KEY {key}'] * 3, f'UNMONSUB {header} KEY {key}', *['DEQ'] * 4))
    return rng.choice((f'READLIST {header}', f'LOCK {lock} SET', f'LOCK {lock} RESET', f'LOCK {lock} TEST', f'LCONTROLS {header}',
                       f'SETLIMIT {header} {rng.choice((0, 2, 8, 64))}'))


def lock_line(rng, it, who, others):
    resource, state = rng.choice(RESOURCES), rng.choice(('SHR', 'SHR', 'EXCL'))
    recorded = chance(rng, 0.3, f' REC {rng.choice(KEYS)}')
    pick = rng.random()
    if pick < 0.4:
        return f'OBTAIN {resource} {state}{recorded}'
    if pick < 0.5:
        return f'ALTER {resource} {state}{recorded}'
    if pick < 0.75:
        return f'RELEASE {resource}'
    if pick < 0.87:
        return f'DECIDE {resource} {rng.choice(others)} {rng.choice(("KEEP", "DENY", "NOTIFY"))}'
    other = rng.choice(others)
    return rng.choice((f'RTREAD {other}', f'RTDELETE {other} {resource}'))


CONTENT = {'CACHE': cache_line, 'LIST': list_line, 'LOCK': lock_line}


def test_line(rng, it):
    if rng.random() < 0.15:
        return f'TESTWORD {rng.randrange(it.vector // 32 + 2)}'
    return f'TEST {rng.randrange(min(it.vector + 1, 8))}'


def rebuild_walk(rng):
    """What a member does in a rebuild, with patience enough for others to come."""
    again = rng.choice((5, 20, 60))
    return ['EVENTS', f'REBUILD CONNECT RETRY {again}', f'COPY {rng.choice((1, 3, 64))} RETRY {again}', 'COPY 4096',
            f'REBUILD COMPLETE RETRY {again}', 'EVENTS', 'EVENTS']


def waits(rng, it):
    """The sublists that a connector monitors as it comes."""
    if it.kind != 'LIST' or it.refs != 'KEYS' or rng.random() < 0.4:
        return []
    return [f'MONSUB {rng.randrange(it.headers)} KEY {key}' for key in KEYS]


def connector_lines(rng, it, who, others, count):
    """The lines of one connector at one structure."""
    lines = [f'CONNECT {rng.choice(("KEEP", "DELETE"))}'] + waits(rng, it)
    while len(lines) < count:
        pick = rng.random()
        if it.vector and pick < 0.22:
            lines.append(test_line(rng, it))
        elif pick < 0.3:
            lines.append('EVENTS')
        elif pick < 0.33:
            lines.append(rng.choice(('POST', 'TAKE')))
        elif pick < 0.34:
            lines.append(rng.choice(('NEXT', 'RESPOND')))
        elif pick < 0.35:
            lines += [rng.choice(('DISCONNECT', 'FAIL', 'FAIL')), f'CONNECT {rng.choice(("KEEP", "DELETE"))}', *waits(rng, it)]
        elif pick < 0.38:
            lines.append('CONNECT KEEP')
        elif it.rebuilt and pick < 0.44:
            lines += rebuild_walk(rng)
        elif it.rebuilt and pick < 0.45:
            lines.append(rng.choice((f'REBUILD START {it.entries} {it.elements}', 'REBUILD STOP', 'REBUILD CONNECT', 'COPY 2', 'REBUILD COMPLETE')))
        else:
            again = chance(rng, 0.15 if it.rebuilt else 0.01, f' RETRY {rng.choice((1, 3, 20))}')
            lines.append(CONTENT[it.kind](rng, it, who, others) + again)
    return [(who, it.name, line) for line in lines]


def operator_line(rng, it, facilities, others):
    choices = []
    if it.rebuilt:
        other = f'REBUILD START {rng.choice((1, 4, 64))} {rng.choice((1, 4, 64))}'
        choices += [f'REBUILD START {it.entries} {it.elements}', other] * 3 + ['REBUILD STOP'] * (rng.random() < it.stopped)
    if it.duplexed:
        choices += ['DUPLEX START', 'DUPLEX START', 'DUPLEX STOP']
    if it.lost:
        choices += [f'VARY {rng.choice(facilities)} {how}' for how in ('OFF', 'ON', 'ON')]
        choices += [f'{how} {rng.choice(others)} {rng.choice(facilities)}' for how in ('LOSECONN', 'RESTORECONN')] + ['FORCESTR']
    choices.append(f'FORCECONN {rng.choice(others)}')
    return 'OP', it.name, rng.choice(choices)


def shuffled(rng, callers):
    """Lines of several callers, mixed, each caller's in their order."""
    turns = [caller for caller, lines in enumerate(callers) for _ in lines]
    rng.shuffle(turns)
    each = [iter(lines) for lines in callers]
    return [next(each[caller]) for caller in turns]


def random_script(rng, links=False):
    """A random script. For links that may be down there are more lines of the operator, who seldom stops a rebuild; a structure is duplexed or rebuilt,
    and not both; and VARY is rarer, so that links find something to lose."""
    facilities = [f'CF{n + 1}' for n in range(rng.randint(2, 4))]
    structures = [Structure(rng, f'S{n}') for n in range(rng.choice((1, 1, 1, 2, 3, 4)))]
    if links:
        for it in structures:
            it.rebuilt, it.lost, it.stopped = it.rebuilt and not it.duplexed, it.lost and rng.random() < 0.3, 0.05
    connectors = [f'C{n}' for n in range(rng.choice(CONNECTORS))]
    policy = [f'FACILITY {cf} 1000' for cf in facilities]
    for it in structures:
        policy.append(it.policy())
        chosen = it.facilities = rng.sample(facilities, rng.choice((2 if links else 1, 2, 2, len(facilities))))
        policy += [f'PREF {it.name} {cf} {rng.choice((200, 200, 200, it.entries + it.elements, 3))}' for cf in chosen]
    policy += [f'CONNECTOR {name}' for name in connectors]
    share = max(4, rng.choice((LINES, LINES, LINES // 4)) // len(connectors))
    callers = []
    for who in connectors:
        used = rng.sample(structures, rng.randint(1, len(structures)))
        lines = [connector_lines(rng, it, who, connectors, max(3, share // len(used))) for it in used]
        callers.append(shuffled(rng, lines))
    asked = rng.choice((20, 200, 800) if links else (0, 5, 20, 60))
    callers.append([operator_line(rng, rng.choice(structures), facilities, connectors) for _ in range(asked)])
    return Script(policy, shuffled(rng, callers), structures, facilities, connectors)


def random_links(rng, script):
    """Calls at which links are down: the place of a structure, the number of a facility, the number of a call. The link to the facility in which
    the structure is made is asked by each command on the content: it is down late, and seldom where there is no second instance. A link to one to
    which the structure moves, or where the second instance stands, may be down at once."""
    lines = []
    for place, it in enumerate(script.structures):
        for cf in it.facilities:
            first = cf == it.facilities[0]
            times = rng.choice(((0, 1, 1, 2) if it.duplexed else (0, 0, 0, 1)) if first else (0, 1, 1, 2, 4))
            calls = {rng.randint(1, rng.choice((80, 400, 400) if first else (4, 80, 400))) for _ in range(times)}
            lines += [f'{place} {cf[2:]} {call}\n' for call in sorted(calls)]
    return ''.join(lines)
