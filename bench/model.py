"""What the calls of a structure are answered, after docs/commands alone: a second reading of those pages, against which reports can be held.

`Structure(policy lines).call(by, command)` gives the reply, `lost_before(by, command, links)` the marks that are due before a call over `Links` that
are down at listed calls, and `bit(conn, index)` a bit of a vector. Nothing here is proved."""

import collections
import math


class Refused(Exception):
    pass


def refuse(number, word, *fields):
    raise Refused(' '.join([f'REFUSED {number} {word}', *map(str, fields)]))


def elements(text):
    return math.ceil(len(text) / 256) if text else 0


class Options:
    """The words of a command, taken from the left."""

    def __init__(self, words):
        self.words = words

    def take(self):
        return self.words.pop(0)

    def number(self):
        return int(self.take())

    def option(self, *names):
        """The name of the option that comes next and its word, where it is one of these."""
        if self.words and self.words[0] in names:
            return self.take(), self.take()
        return None, None

    def value(self, name):
        return self.option(name)[1]

    def flag(self, name):
        if self.words and self.words[0] == name:
            self.take()
            return True
        return False


class Content:
    """What the contents of the three kinds share."""

    def __init__(self, form):
        self.form = form
        self.letters = []

    def call(self, by, words):
        return getattr(self, 'do_' + words[0].lower())(by, Options(words[1:]))

    def back(self, who):
        pass

    def forget(self):
        pass

    def bit(self, who, index):
        return False


def nearer(has, due, most):
    """A number that goes towards another one, by so much at most."""
    return has + max(-most, min(most, due - has))


class Row:
    def __init__(self, storage):
        self.data = self.adjunct = self.castout = self.holder = None
        self.rewritten, self.storage = False, storage


class Cache(Content):
    def __init__(self, form):
        super().__init__(form)
        self.rows, self.used, self.copies = {}, [], {}
        self.limits = self.target = None

    def items(self):
        return len(self.rows)

    def need(self):
        return len(self.rows), sum(elements(row.data) for row in self.rows.values())

    def forget(self):
        self.copies, self.limits, self.target = {}, None, None

    def base(self):
        """The entries and elements of the instance, as it was made."""
        return self.form.entries, self.form.elements

    def capacity(self):
        """How many entries and elements there may be: those of the instance, or what an alteration made of them."""
        return self.limits or self.base()

    def bit(self, who, index):
        return index in self.copies.get(who, {})

    def touch(self, page):
        self.used = [other for other in self.used if other != page]
        if self.rows[page].castout is None:
            self.used.append(page)

    def drop(self, page):
        del self.rows[page]
        self.used = [other for other in self.used if other != page]
        self.invalidate(page, None)

    def invalidate(self, page, but):
        gone = 0
        for who, copies in self.copies.items():
            if who != but:
                at = [index for index, name in copies.items() if name == page]
                gone += len(at)
                for index in at:
                    del copies[index]
        return gone

    def index_rule(self, by, page, index, old):
        if index >= self.form.vector:
            refuse(3, 'BADINDEX', index, self.form.vector)
        there = self.copies.get(by, {}).get(index)
        if there not in (None, page, old):
            refuse(2, 'INDEXINUSE', there)

    def room(self, page, data, storage):
        """The pages that have to go."""
        entry = page not in self.rows
        own = 0 if entry else elements(self.rows[page].data)
        wanted = elements(data)
        entries, all_elements = self.capacity()
        free_entries = entries - len(self.rows)
        free = all_elements - self.need()[1] + (own if data else 0)
        others = [other for other in self.used if other != page]
        order = sorted(others, key=lambda other: self.rows[other].storage != storage)
        victims = []
        while (entry and free_entries < 1) or (data and wanted > free):
            if not order:
                if entry and free_entries < 1:
                    refuse(9, 'DIRECTORYFULL', entries)
                refuse(10, 'NOELEMENTS', wanted, free)
            victims.append(order.pop(0))
            free_entries += 1
            free += elements(self.rows[victims[-1]].data)
        return victims

    def register(self, by, page, index, storage, victims):
        for victim in victims:
            self.drop(victim)
        copies = self.copies.setdefault(by, {})
        for at in [at for at, name in copies.items() if name == page]:
            del copies[at]
        copies[index] = page
        if page not in self.rows:
            self.rows[page] = Row(storage)

    def do_read(self, by, words):
        page, index, old, storage = words.take(), words.number(), words.value('OLD'), int(words.value('STG') or 1)
        self.index_rule(by, page, index, old)
        self.storage_class(storage)
        victims = self.room(page, None, storage)
        self.register(by, page, index, storage, victims)
        self.touch(page)
        row = self.rows[page]
        if row.data is None:
            return 'NODATA'
        return f'{self.shown(row)} {"UNCHANGED" if row.castout is None else "CHANGED"}'

    @staticmethod
    def shown(row):
        return f'DATA {row.data}' + (f' ADJ {row.adjunct}' if row.adjunct else '')

    @staticmethod
    def storage_class(storage):
        if not 1 <= storage <= 8:
            refuse(11, 'BADCLASS', storage)

    @staticmethod
    def castout_class(castout):
        if not 1 <= castout <= 16:
            refuse(11, 'BADCLASS', castout)

    def do_write(self, by, words):
        page, index, data = words.take(), words.number(), words.take()
        castout = words.value('CHANGED')
        if castout is None:
            words.take()
        adjunct, old, storage, registered = words.value('ADJ'), words.value('OLD'), int(words.value('STG') or 1), words.flag('WHENREG')
        self.index_rule(by, page, index, old)
        if castout is not None:
            self.castout_class(int(castout))
        self.storage_class(storage)
        if registered and page not in self.copies.get(by, {}).values():
            refuse(1, 'NOTREGISTERED')
        if castout is None and page in self.rows and self.rows[page].castout is not None:
            refuse(4, 'ISCHANGED')
        victims = self.room(page, data, storage)
        self.register(by, page, index, storage, victims)
        row = self.rows[page]
        row.data, row.adjunct = data, adjunct
        if castout is not None:
            row.castout, row.rewritten = int(castout), row.holder is not None
        self.touch(page)
        self.invalidate(page, by)
        return 'OK'

    def row(self, page):
        if page not in self.rows:
            refuse(8, 'NOENTRY')
        return self.rows[page]

    def do_crossinval(self, by, words):
        page = words.take()
        self.row(page)
        return f'OK {self.invalidate(page, by)}'

    def do_reglist(self, by, words):
        copies = sorted(self.copies.get(by, {}).items())
        return ' '.join([f'REGS {len(copies)}'] + [f'{index}:{page}' for index, page in copies])

    def do_castout(self, by, words):
        row = self.row(words.take())
        if row.holder:
            refuse(6, 'CASTOUTHELD', row.holder)
        if row.castout is None:
            refuse(5, 'NOTCHANGED')
        row.holder, row.rewritten = by, False
        return self.shown(row)

    def do_unlock(self, by, words):
        page = words.take()
        row = self.row(page)
        if row.holder != by:
            refuse(7, 'NOTHELD')
        row.holder = None
        if row.rewritten:
            row.rewritten = False
            return 'OK CHANGED'
        row.castout = None
        self.touch(page)
        return 'OK UNCHANGED'

    def do_coclass(self, by, words):
        castout = words.number()
        self.castout_class(castout)
        pages = sorted(page for page, row in self.rows.items() if row.castout == castout)
        return ' '.join([f'NAMES {len(pages)}', *pages])

    def do_costats(self, by, words):
        classes = sorted({row.castout for row in self.rows.values() if row.castout is not None})
        counts = [sum(row.castout == castout for row in self.rows.values()) for castout in classes]
        return ' '.join([f'STATS {len(classes)}'] + [f'{castout}:{count}' for castout, count in zip(classes, counts)])

    def do_dirinfo(self, by, words):
        page = words.take()
        row = self.row(page)
        state = 'UNCHANGED NONE' if row.castout is None else f'CHANGED {row.castout}'
        copies = sum(page in copies.values() for copies in self.copies.values())
        return f'DIR {state} STG {row.storage} LOCK {row.holder or "NONE"} REGS {copies}'

    def do_delete(self, by, words):
        page = words.take()
        row = self.row(page)
        if row.holder not in (None, by):
            refuse(6, 'CASTOUTHELD', row.holder)
        self.drop(page)
        return 'OK'

    def do_stgstats(self, by, words):
        storage = words.number()
        self.storage_class(storage)
        rows = [row for row in self.rows.values() if row.storage == storage]
        return f'STG {len(rows)} {sum(row.castout is not None for row in rows)}'

    def do_alter(self, by, words):
        return getattr(self, 'alter_' + words.take().lower())(words)

    def alter_start(self, words):
        asked = words.number(), words.number()
        if sum(asked) > sum(self.base()):
            refuse(12, 'BEYONDUNITS', sum(asked), sum(self.base()))
        self.holds(asked)
        self.target = asked
        return 'OK'

    def alter_step(self, words):
        most = words.number()
        self.altered()
        limits = tuple(nearer(has, due, most) for has, due in zip(self.capacity(), self.target))
        self.holds(limits)
        done = limits == self.target
        self.limits, self.target = limits, None if done else self.target
        return f'ALTERED {limits[0]} {limits[1]} {"DONE" if done else "MORE"}'

    def alter_stop(self, words):
        self.altered()
        self.target = None
        return 'OK'

    def altered(self):
        if self.target is None:
            refuse(13, 'NOALTER')

    def holds(self, limits):
        """What there is has to fit new limits: its entries, and then its elements."""
        for need, has in zip(self.need(), limits):
            if need > has:
                refuse(71, 'TOOSMALL', need, has)

    def leave(self, who, keep):
        self.copies.pop(who, None)
        for row in self.rows.values():
            if row.holder == who:
                row.holder, row.rewritten = None, False


class Record:
    def __init__(self, number, header, name, key, data, adjunct):
        self.id, self.header, self.name, self.key, self.data, self.adjunct, self.version = number, header, name, key, data, adjunct, 1


class Lists(Content):
    def __init__(self, form):
        super().__init__(form)
        self.lists = [[] for _ in range(form.headers)]
        self.limits = [form.policy_entries] * form.headers
        self.holders = [None] * form.locks
        self.monitors, self.next = {}, 1
        # who waits for events of which sublists, in the order of the MONSUBs, and the events that weren't taken
        self.watched, self.queues = [], collections.defaultdict(list)

    def call(self, by, words):
        before = {sublist: self.is_filled(sublist) for _, sublist in self.watched}
        reply = super().call(by, words)
        for who, sublist in self.watched:
            if sublist in before and before[sublist] != self.is_filled(sublist):
                if self.is_filled(sublist):
                    self.queues[who].append(sublist)
                else:
                    self.drop_event(who, sublist)
        return reply

    def is_filled(self, sublist):
        header, key = sublist
        return any(record.key == key for record in self.lists[header])

    def drop_event(self, who, sublist):
        if sublist in self.queues[who]:
            self.queues[who].remove(sublist)

    def records(self):
        return [record for records in self.lists for record in records]

    def items(self):
        plain = self.next == 1 and not self.monitors and not any(self.holders) and self.limits == [self.form.policy_entries] * self.form.headers
        return bool(self.watched) + len(self.records()) + (not plain)

    def need(self):
        return len(self.records()), sum(elements(record.data) for record in self.records())

    def bit(self, who, index):
        header = self.monitors.get((who, index))
        return header is not None and bool(self.lists[header])

    def header(self, header):
        if header >= self.form.headers:
            refuse(22, 'BADHEADER', header, self.form.headers)

    def known_by(self, refs):
        if self.form.refs != refs:
            refuse(28, 'WRONGREFERENCE', self.form.refs)

    def lock(self, lock):
        if lock >= self.form.locks:
            refuse(30, 'BADLOCK', lock, self.form.locks)
        return self.holders[lock]

    def condition(self, by, words):
        word, lock = words.option('NOTHELD', 'HELDBY')
        if word is None:
            return
        holder = self.lock(int(lock))
        if word == 'NOTHELD' and holder:
            refuse(26, 'LOCKHELD', holder)
        if word == 'HELDBY' and holder != by:
            refuse(27, 'LOCKNOTHELDBY', holder or 'NONE')

    @staticmethod
    def reference(words):
        word = words.take()
        if word[0] == '#':
            return ('ID', int(word[1:]))
        if word == 'NAME':
            return (word, words.take())
        header = words.number()
        return (word, header, words.take()) if word == 'KEY' else (word, header)

    def record(self, ref):
        found = None
        if ref[0] == 'ID':
            found = [record for record in self.records() if record.id == ref[1]]
        elif ref[0] == 'NAME':
            self.known_by('NAMES')
            found = [record for record in self.records() if record.name == ref[1]]
        else:
            self.header(ref[1])
            found = self.lists[ref[1]]
            if ref[0] == 'KEY':
                self.known_by('KEYS')
                found = [record for record in found if record.key == ref[2]]
        if not found:
            refuse(20, 'NOENTRY')
        return found[-1 if ref[0] == 'TAIL' else 0]

    def put(self, record, header, end):
        records = self.lists[header]
        place = 0 if end == 'HEAD' else len(records)
        if record.key is not None:
            place = sum(other.key < record.key if end == 'HEAD' else other.key <= record.key for other in records)
        records.insert(place, record)
        record.header = header

    def space(self, data, own):
        free = self.form.elements - self.need()[1] + own
        if data and elements(data) > free:
            refuse(25, 'NOELEMENTS', elements(data), free)

    def do_write(self, by, words):
        header, end = words.number(), words.take()
        sort, known = words.option('NAME', 'KEY')
        data, adjunct = words.value('DATA'), words.value('ADJ')
        self.condition(by, words)
        self.header(header)
        self.known_by({None: 'NOTHING', 'NAME': 'NAMES', 'KEY': 'KEYS'}[sort])
        if sort == 'NAME':
            for record in self.records():
                if record.name == known:
                    refuse(21, 'NAMETAKEN', f'#{record.id}')
        self.full(header)
        if len(self.records()) >= self.form.entries:
            refuse(24, 'ENTRIESFULL', self.form.entries)
        self.space(data, 0)
        self.put(Record(self.next, header, known if sort == 'NAME' else None, known if sort == 'KEY' else None, data, adjunct), header, end)
        self.next += 1
        return f'ID #{self.next - 1}'

    def full(self, header):
        if len(self.lists[header]) >= self.limits[header]:
            refuse(23, 'LISTFULL', self.limits[header])

    @staticmethod
    def same(record, version):
        if version is not None and record.version != int(version):
            refuse(31, 'VERSIONDIFFERS', record.version)

    def do_update(self, by, words):
        ref, data, adjunct, version = self.reference(words), words.value('DATA'), words.value('ADJ'), words.value('VERSION')
        self.condition(by, words)
        record = self.record(ref)
        self.same(record, version)
        self.space(data, elements(record.data))
        record.data, record.adjunct = data or record.data, adjunct or record.adjunct
        record.version = record.version % 4294967295 + 1
        return f'ID #{record.id}'

    def do_read(self, by, words):
        ref = self.reference(words)
        self.condition(by, words)
        it = self.record(ref)
        parts = [(' NAME ', it.name), (' KEY ', it.key), (' DATA ', it.data), (' ADJ ', it.adjunct)]
        return f'ENTRY #{it.id} {it.header} VERSION {it.version}' + ''.join(word + value for word, value in parts if value is not None)

    def do_move(self, by, words):
        ref, header, end = self.reference(words), words.number(), words.take()
        key, version = words.value('KEY'), words.value('VERSION')
        self.condition(by, words)
        record = self.record(ref)
        self.same(record, version)
        self.header(header)
        if key is not None:
            self.known_by('KEYS')
        if record.header != header:
            self.full(header)
        self.lists[record.header].remove(record)
        record.key = key or record.key
        self.put(record, header, end)
        return 'OK'

    def do_delete(self, by, words):
        ref, version = self.reference(words), words.value('VERSION')
        self.condition(by, words)
        record = self.record(ref)
        self.same(record, version)
        self.lists[record.header].remove(record)
        return f'ID #{record.id}'

    def do_readlist(self, by, words):
        header = words.number()
        self.header(header)
        return ' '.join([f'IDS {len(self.lists[header])}'] + [f'#{record.id}' for record in self.lists[header]])

    def do_lock(self, by, words):
        lock, how = words.number(), words.take()
        holder = self.lock(lock)
        if how == 'TEST':
            return f'HOLDER {holder or "NONE"}'
        if how == 'SET' and holder:
            refuse(26, 'LOCKHELD', holder)
        if how == 'RESET' and holder != by:
            refuse(27, 'LOCKNOTHELDBY', holder or 'NONE')
        self.holders[lock] = by if how == 'SET' else None
        return 'OK'

    def do_lcontrols(self, by, words):
        header = words.number()
        self.header(header)
        return f'CONTROLS {len(self.lists[header])} {self.limits[header]}'

    def do_setlimit(self, by, words):
        header, limit = words.number(), words.number()
        self.header(header)
        self.limits[header] = limit
        return 'OK'

    def do_monitor(self, by, words):
        header, index = words.number(), words.number()
        self.header(header)
        if index >= self.form.vector:
            refuse(3, 'BADINDEX', index, self.form.vector)
        if self.monitors.get((by, index), header) != header:
            refuse(29, 'INDEXINUSE', self.monitors[by, index])
        self.unmonitor(by, header)
        self.monitors[by, index] = header
        return 'NOTEMPTY' if self.lists[header] else 'EMPTY'

    def unmonitor(self, by, header):
        gone = [at for at, monitored in self.monitors.items() if at[0] == by and monitored == header]
        for at in gone:
            del self.monitors[at]
        return len(gone)

    def do_unmonitor(self, by, words):
        header = words.number()
        self.header(header)
        return f'OK {self.unmonitor(by, header)}'

    def sublist(self, words):
        header, key = words.number(), words.value('KEY')
        self.header(header)
        self.known_by('KEYS')
        return header, key

    def do_monsub(self, by, words):
        sublist = self.sublist(words)
        if (by, sublist) not in self.watched:
            self.watched.append((by, sublist))
            if self.is_filled(sublist):
                self.queues[by].append(sublist)
        return 'NOTEMPTY' if self.is_filled(sublist) else 'EMPTY'

    def do_unmonsub(self, by, words):
        sublist = self.sublist(words)
        if (by, sublist) not in self.watched:
            return 'OK 0'
        self.watched.remove((by, sublist))
        self.drop_event(by, sublist)
        return 'OK 1'

    def do_deq(self, by, words):
        if not self.queues[by]:
            refuse(32, 'NOQUEUED')
        header, key = self.queues[by].pop(0)
        return f'SUBLIST {header} {key}'

    def leave(self, who, keep):
        self.watched = [(by, sublist) for by, sublist in self.watched if by != who]
        self.queues.pop(who, None)
        self.monitors = {at: header for at, header in self.monitors.items() if at[0] != who}
        if not keep:
            self.holders = [None if holder == who else holder for holder in self.holders]


class Interest:
    def __init__(self, who, state, data, alters=False):
        self.who, self.state, self.data, self.alters, self.retained = who, state, data, alters, False


class Locks(Content):
    def __init__(self, form):
        super().__init__(form)
        self.owners, self.waiters = {}, {}

    @staticmethod
    def each(of):
        return [(resource, one) for resource in sorted(of, key=order_of) for one in of[resource]]

    def items(self):
        return len(self.each(self.owners)) + len(self.each(self.waiters))

    def records(self):
        return sum(one.data is not None for of in (self.owners, self.waiters) for _, one in self.each(of))

    def need(self):
        return 0, self.records()

    @staticmethod
    def of(who, those):
        return next((one for one in those if one.who == who), None)

    def owner(self, who, resource):
        return self.of(who, self.owners.get(resource, []))

    def waiter(self, who, resource):
        return self.of(who, self.waiters.get(resource, []))

    def manager(self, resource):
        return next((one.who for one in self.owners.get(resource, []) if not one.retained), None)

    def compatible(self, who, state, resource):
        return all(one.who == who or one.state == state == 'SHR' for one in self.owners.get(resource, []))

    def grant(self, resource):
        while self.waiters.get(resource):
            first = self.waiters[resource][0]
            if not self.compatible(first.who, first.state, resource):
                return
            self.waiters[resource].pop(0)
            owners = self.owners.setdefault(resource, [])
            if first.alters:
                self.alter(self.of(first.who, owners), first)
            else:
                owners.append(Interest(first.who, first.state, first.data))
            self.letters.append((first.who, f'GRANTED {resource} {first.state}'))

    @staticmethod
    def alter(owner, asked):
        owner.state = asked.state
        owner.data = owner.data if asked.data is None else asked.data

    def full(self, more):
        if self.records() + more > self.form.elements:
            refuse(42, 'RECORDSFULL', self.form.elements)

    def pending(self, by, resource):
        if self.waiter(by, resource):
            refuse(46, 'STILLPENDING')

    def wait(self, asked, resource):
        waiters = self.waiters.setdefault(resource, [])
        place = len(waiters)
        if asked.alters:
            place = next((at for at, one in enumerate(waiters) if not one.alters), place)
        waiters.insert(place, asked)
        if self.manager(resource):
            self.letters.append((self.manager(resource), f'CONTENTION {resource} {asked.who}'))
        return f'PENDING {place + 1}'

    def do_obtain(self, by, words):
        resource, state, data = words.take(), words.take(), words.value('REC')
        self.pending(by, resource)
        owner = self.owner(by, resource)
        if owner:
            refuse(40, 'ALREADYINTERESTED', owner.state)
        self.full(data is not None)
        if self.waiters.get(resource) or not self.compatible(by, state, resource):
            return self.wait(Interest(by, state, data), resource)
        self.owners.setdefault(resource, []).append(Interest(by, state, data))
        return 'GRANTED'

    def interest(self, by, resource):
        self.pending(by, resource)
        owner = self.owner(by, resource)
        if not owner:
            refuse(41, 'NOTINTERESTED')
        return owner

    def do_alter(self, by, words):
        resource, state, data = words.take(), words.take(), words.value('REC')
        owner = self.interest(by, resource)
        at_once = self.compatible(by, state, resource)
        self.full(data is not None and not (at_once and owner.data is not None))
        asked = Interest(by, state, data, True)
        if not at_once:
            return self.wait(asked, resource)
        self.alter(owner, asked)
        self.grant(resource)
        return 'GRANTED'

    def do_release(self, by, words):
        resource = words.take()
        owner = self.interest(by, resource)
        self.owners[resource].remove(owner)
        self.grant(resource)
        return 'OK'

    def do_decide(self, by, words):
        resource, who, how = words.take(), words.take(), words.take()
        if self.manager(resource) != by:
            refuse(43, 'NOTMANAGER', self.manager(resource) or 'NONE')
        waiter = self.waiter(who, resource)
        if not waiter:
            refuse(44, 'NOWAITER')
        if how == 'DENY':
            self.waiters[resource].remove(waiter)
            self.letters.append((who, f'DENIED {resource}'))
            self.grant(resource)
        if how == 'NOTIFY':
            self.letters += [(one.who, f'NOTIFY {resource} {who}') for one in self.owners[resource] if not one.retained and one.who != who]
        return 'OK'

    def do_rtread(self, by, words):
        who = words.take()
        found = [(resource, one) for resource, one in self.each(self.owners) if one.who == who and one.data is not None]
        if not found:
            refuse(45, 'NORECORD')
        return ' '.join([f'RECORDS {len(found)}'] + [f'{resource}:{one.state}:{one.data}' for resource, one in found])

    def do_rtdelete(self, by, words):
        who, resource = words.take(), words.take()
        owner = self.owner(who, resource)
        if not owner or owner.data is None:
            refuse(45, 'NORECORD')
        owner.data = None
        if owner.retained:
            self.owners[resource].remove(owner)
            self.grant(resource)
        return 'OK'

    def leave(self, who, keep):
        has_part = [resource for resource in {*self.owners, *self.waiters} if self.owner(who, resource) or self.waiter(who, resource)]
        changed = sorted(has_part, key=order_of)
        for resource in changed:
            self.waiters[resource] = [one for one in self.waiters.get(resource, []) if one.who != who]
            owners = self.owners.get(resource, [])
            self.owners[resource] = [one for one in owners if one.who != who or keep and one.data is not None]
            for one in self.owners[resource]:
                one.retained = one.retained or one.who == who
        for resource in changed:
            self.grant(resource)

    def back(self, who):
        for _, one in self.each(self.owners):
            if one.who == who:
                one.retained = False


def order_of(resource):
    name, value = resource.split('@')
    return name, int(value)


class Form:
    """What the policy says of a structure, at the capacity of its instances."""

    def __init__(self, words):
        self.kind = words[2]
        self.policy_entries, self.policy_elements, self.conns = map(int, words[3:6])
        self.vector = int(words[6]) if self.kind != 'LOCK' else 0
        rest = words[7:] if self.kind != 'LOCK' else words[6:]
        self.kept = rest[0] == 'KEEP'
        if self.kind == 'LIST':
            self.headers, self.locks, self.refs = int(rest[1]), int(rest[2]), rest[3]
        self.entries, self.elements = self.policy_entries, self.policy_elements


class Rebuild:
    def __init__(self, number, members, caps):
        self.number, self.members, self.owing, self.caps = number, list(members), set(members), caps
        self.stage, self.new, self.copied = 'QUIESCE', None, 0


class Links:
    """The links of a structure, of which each is down at listed calls, and how often each was asked."""

    def __init__(self, downs):
        self.downs, self.asked = downs, collections.Counter()

    def is_down(self, cf):
        self.asked[cf] += 1
        return (cf, self.asked[cf]) in self.downs


def listed_links(text, place):
    """The links of the structure with this place, from 0, of a text whose lines have place, number of the facility, and number of the call."""
    lines = [line.split() for line in text.splitlines()]
    return Links({(f'CF{cf}', int(call)) for of, cf, call in lines if int(of) == place})


KINDS = {'CACHE': Cache, 'LIST': Lists, 'LOCK': Locks}
OWED = ('DISCFAIL', 'QUIESCE', 'CLEANUP', 'STOP')
TOLD = {'CONNECT': 'REBUILDCONNECT', 'COPY': 'CONNECTSDONE', 'CLEANUP': 'CLEANUP'}


class Structure:
    """A structure with its shell: connections, events, rebuilds and facilities."""

    def __init__(self, policy, name):
        words = next(line.split(' ') for line in policy if line.startswith(f'STRUCTURE {name} '))
        self.form = Form(words)
        self.places = [(line.split(' ')[2], int(line.split(' ')[3])) for line in policy if line.startswith(f'PREF {name} ')]
        self.names = [line.split(' ')[1] for line in policy if line.startswith('CONNECTOR ')]
        self.state = {name: 'GONE' for name in self.names}
        self.keeps, self.fails, self.awaited = {}, {}, {}
        self.mail = {name: [] for name in self.names}
        self.taken = {name: [] for name in self.names}
        self.primary = self.secondary = self.rebuild = self.content = self.just_lost = None
        self.failed, self.rebuilds, self.off, self.lost = False, 0, set(), set()

    # Who is told what.

    def active(self):
        return [name for name in self.names if self.state[name] == 'ACTIVE']

    def post(self, who, event):
        if self.state.get(who) == 'ACTIVE':
            self.mail[who].append(event)

    def post_letters(self):
        if self.content:
            letters, self.content.letters = self.content.letters, []
            for who, event in letters:
                self.post(who, event)

    # Entries.

    def shell_call(self, words):
        """The name of a call that the shell does, and what does it: nothing for one on the content."""
        first = words[0] if words[0] not in ('REBUILD', 'DUPLEX') else '_'.join(words[:2])
        return first, getattr(self, 'do_' + first.lower(), None)

    def lost_before(self, by, command, links):
        """The facilities whose links this call asks, and finds down. One that is refused before asks none."""
        first, shell = self.shell_call(command.split(' '))
        try:
            if first == 'COPY':
                self.copy_causes(by, None)
                return next(([cf] for cf in (self.primary, self.rebuild.new) if links.is_down(cf)), [])
            if shell:
                return []
            self.content_causes(by, None)
            return [cf for cf in (self.primary, self.secondary) if cf and links.is_down(cf)]
        except Refused:
            return []

    def call(self, by, command):
        """The reply to a call; of a mark, what was lost."""
        words = command.split(' ')
        lost, self.just_lost = self.just_lost, None
        if by == 'SYS':
            told = self.lose(words[1])
            self.just_lost = words[1] if told == 'FAILED' else None
            return told
        try:
            first, shell = self.shell_call(words)
            if shell:
                return shell(by, Options(words[2 if '_' in first else 1:]), lost)
            self.content_causes(by, lost)
            reply = self.content.call(by, words)
            self.post_letters()
            return reply
        except Refused as refusal:
            return str(refusal)

    def bit(self, who, index):
        return index < self.form.vector and self.content is not None and self.content.bit(who, index)

    # Causes.

    def connected(self, by):
        if self.state.get(by) != 'ACTIVE':
            refuse(60, 'NOTCONNECTED')

    def standing(self):
        if self.failed:
            refuse(75, 'STRUCTUREFAILED')

    def rebuilding(self):
        if not self.rebuild:
            refuse(68, 'NOREBUILD')

    def no_rebuild(self):
        if self.rebuild:
            refuse(67, 'REBUILDINPROGRESS', self.rebuild.number)

    def simplex(self):
        if self.secondary:
            refuse(77, 'ALREADYDUPLEXED')

    def in_stage(self, right):
        if not right:
            refuse(69, 'WRONGSTAGE', self.rebuild.stage)

    def reach(self, by, *facilities):
        for cf in facilities:
            if cf and (by, cf) in self.lost:
                refuse(73, 'LOSTCONN', cf)

    def lost_facility(self, lost):
        if lost:
            refuse(74, 'LOSTFACILITY', lost)

    def content_causes(self, by, lost):
        self.connected(by)
        self.lost_facility(lost)
        self.standing()
        it = self.rebuild
        if it and (it.stage in ('CONNECT', 'COPY', 'CLEANUP') or it.stage == 'QUIESCE' and by not in it.owing):
            refuse(72, 'QUIESCED', it.number)
        self.reach(by, self.primary, self.secondary)

    def place(self, by, units):
        taken = {self.primary, self.secondary, self.rebuild.new if self.rebuild else None}
        left = [(cf, has) for cf, has in self.places if cf not in self.off and cf not in taken and (by, cf) not in self.lost]
        if not left:
            refuse(76, 'NOFACILITY')
        for cf, has in left:
            if has >= units:
                return cf
        refuse(65, 'NOSPACE', units, max(has for _, has in left))

    # Connections.

    def defined(self):
        return sum(state != 'GONE' for state in self.state.values())

    def do_connect(self, by, words, lost):
        self.standing()
        if self.state[by] in ('ACTIVE', 'LEAVING'):
            refuse(61, 'NAMEACTIVE', self.state[by])
        self.no_rebuild()
        if self.state[by] == 'GONE' and self.defined() >= self.form.conns:
            refuse(62, 'TOOMANYCONNS', self.form.conns)
        if not self.primary:
            self.primary = self.place(by, self.form.policy_entries + self.form.policy_elements)
            self.content = KINDS[self.form.kind](self.form)
        else:
            self.reach(by, self.primary, self.secondary)
        again = self.state[by] == 'FAILED'
        if again:
            self.content.back(by)
        for other in self.active():
            self.post(other, f'NEWCONN {by}')
        self.state[by], self.keeps[by] = 'ACTIVE', words.take() == 'KEEP'
        return f'OK {"RECONNECTED" if again else "NEW"} {self.primary}'

    def do_disconnect(self, by, words, lost):
        return self.depart(by, False)

    def do_fail(self, by, words, lost):
        return self.depart(by, True)

    def depart(self, by, failing):
        self.connected(by)
        keep = failing and self.keeps[by]
        self.state[by] = 'LEAVING'
        self.mail[by], self.taken[by] = [], []
        self.fails[by] = keep
        if self.content:
            self.content.leave(by, keep)
            self.post_letters()
        self.leave_rebuild(by)
        others = self.active()
        for other in others:
            self.post(other, f'DISCFAIL {by}')
        self.awaited[by] = set(others)
        for name in [by, *[name for name in self.names if name != by]]:
            if self.state[name] == 'LEAVING':
                self.awaited[name].discard(by)
                self.left(name)
        return 'OK'

    def left(self, who):
        if self.state[who] == 'LEAVING' and not self.awaited[who]:
            self.state[who] = 'FAILED' if self.fails[who] else 'GONE'
            self.given_up()

    def given_up(self):
        if not self.defined() and not self.form.kept:
            self.deallocate()

    def deallocate(self):
        self.primary = self.secondary = self.content = self.rebuild = None
        self.failed = False
        self.form.entries, self.form.elements = self.form.policy_entries, self.form.policy_elements

    def do_next(self, by, words, lost):
        self.connected(by)
        if not self.mail[by]:
            refuse(78, 'NOEVENT')
        event = self.mail[by].pop(0)
        if event.split(' ')[0] in OWED:
            self.taken[by].append(event)
        return f'EVENT {event}'

    def do_respond(self, by, words, lost):
        self.connected(by)
        if not self.taken[by]:
            refuse(66, 'NOTHINGOWED')
        event = self.taken[by].pop(0)
        word, of = event.split(' ')
        if word == 'DISCFAIL':
            self.awaited[of].discard(by)
            self.left(of)
        elif self.rebuild and self.rebuild.number == int(of) and self.rebuild.stage == {'STOP': 'STOPPING'}.get(word, word):
            self.gave(by)
        return f'RESPONDED {event}'

    def do_forceconn(self, by, words, lost):
        who = words.take()
        if self.state[who] != 'FAILED':
            refuse(63, 'NOTFAILED', self.state[who])
        self.state[who] = 'GONE'
        if self.content:
            self.content.leave(who, False)
            self.post_letters()
        self.copy_anew()
        self.given_up()
        return 'OK'

    def do_forcestr(self, by, words, lost):
        if self.defined():
            refuse(64, 'HASCONNECTIONS', self.defined())
        self.deallocate()
        return 'OK'

    # Rebuilds.

    def do_rebuild_start(self, by, words, lost):
        if by == 'OP':
            if not self.active():
                refuse(60, 'NOTCONNECTED')
        else:
            self.connected(by)
        self.standing()
        self.no_rebuild()
        self.simplex()
        self.rebuilds += 1
        self.rebuild = Rebuild(self.rebuilds, self.active(), (words.number(), words.number()))
        self.tell_members('QUIESCE')
        return f'OK {self.rebuilds}'

    def tell_members(self, word):
        for member in self.rebuild.members:
            self.post(member, f'{word} {self.rebuild.number}')

    def enter(self, stage):
        it = self.rebuild
        it.stage, it.owing = stage, set(it.members)
        if stage == 'CLEANUP':
            self.primary, it.new = it.new, None
            self.form.entries, self.form.elements = it.caps
            self.content.forget()
        self.tell_members(TOLD[stage])

    def gave(self, who):
        it = self.rebuild
        it.owing.discard(who)
        if it.owing:
            return
        if it.stage in ('CLEANUP', 'STOPPING'):
            self.tell_members('COMPLETE' if it.stage == 'CLEANUP' else 'STOPDONE')
            self.rebuild = None
        else:
            self.enter({'QUIESCE': 'CONNECT', 'CONNECT': 'COPY', 'COPY': 'CLEANUP'}[it.stage])

    def leave_rebuild(self, who):
        it = self.rebuild
        if not it or who not in it.members:
            return
        it.members.remove(who)
        if not it.members:
            self.rebuild = None
            return
        if it.stage == 'COPY':
            it.owing.discard(who)
            self.copy_anew()
        elif who in it.owing:
            self.gave(who)

    def copy_anew(self):
        if self.rebuild and self.rebuild.stage == 'COPY':
            self.rebuild.copied, self.rebuild.owing = 0, set(self.rebuild.members)

    def do_rebuild_stop(self, by, words, lost):
        if by != 'OP':
            self.connected(by)
        self.standing()
        self.rebuilding()
        self.in_stage(self.rebuild.stage not in ('CLEANUP', 'STOPPING'))
        self.stop()
        return 'OK'

    def stop(self):
        it = self.rebuild
        it.stage, it.new, it.owing = 'STOPPING', None, set(it.members)
        self.tell_members('STOP')

    def do_rebuild_connect(self, by, words, lost):
        self.connected(by)
        self.standing()
        self.rebuilding()
        it = self.rebuild
        self.in_stage(it.stage == 'CONNECT' and by in it.owing)
        if not it.new:
            for need, has in zip(self.content.need(), it.caps):
                if need > has:
                    refuse(71, 'TOOSMALL', need, has)
            it.new = self.place(by, sum(it.caps))
        else:
            self.reach(by, it.new)
        new = it.new
        self.gave(by)
        return f'OK {new}'

    def copy_causes(self, by, lost):
        self.connected(by)
        self.lost_facility(lost)
        self.standing()
        self.rebuilding()
        self.in_stage(self.rebuild.stage == 'COPY')
        self.reach(by, self.primary, self.rebuild.new)

    def do_copy(self, by, words, lost):
        self.copy_causes(by, lost)
        it = self.rebuild
        moved = min(words.number(), self.content.items() - it.copied)
        it.copied += moved
        return f'COPIED {moved} {self.content.items() - it.copied}'

    def do_rebuild_complete(self, by, words, lost):
        self.connected(by)
        self.standing()
        self.rebuilding()
        it = self.rebuild
        self.in_stage(it.stage == 'COPY' and by in it.owing)
        if it.copied < self.content.items():
            refuse(70, 'ITEMSLEFT', self.content.items() - it.copied)
        self.gave(by)
        return 'OK'

    # Facilities.

    def do_loseconn(self, by, words, lost):
        who, cf = words.take(), words.take()
        if (who, cf) not in self.lost:
            self.lost.add((who, cf))
            self.post(who, f'LOSTCONN {cf}')
        return 'OK'

    def do_restoreconn(self, by, words, lost):
        self.lost.discard((words.take(), words.take()))
        return 'OK'

    def do_vary(self, by, words, lost):
        cf, off = words.take(), words.take() == 'OFF'
        if not off:
            self.off.discard(cf)
            return 'OK'
        if cf in self.off:
            return 'OK NONE'
        self.off.add(cf)
        return f'OK {self.lose(cf)}'

    def lose(self, cf):
        if self.rebuild and self.rebuild.new == cf:
            self.stop()
            return f'STOPPED {self.rebuild.number}'
        if cf not in (self.primary, self.secondary) or not self.primary:
            return 'NONE'
        if self.secondary:
            self.primary = self.secondary if cf == self.primary else self.primary
            self.secondary = None
            return f'SIMPLEX {self.primary}'
        self.primary = self.content = self.rebuild = None
        self.failed = True
        for who in self.active():
            self.post(who, 'STRFAIL')
        return 'FAILED'

    def do_duplex_start(self, by, words, lost):
        self.standing()
        self.no_rebuild()
        self.simplex()
        if not self.primary:
            refuse(79, 'NOTALLOCATED')
        self.secondary = self.place(by, self.form.entries + self.form.elements)
        return f'OK {self.secondary}'

    def do_duplex_stop(self, by, words, lost):
        cf, self.secondary = self.secondary, None
        return f'OK {cf or "NONE"}'
