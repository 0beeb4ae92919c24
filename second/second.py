"""A second guard, written from the documentation alone, to be compared with the proved one.

    second.py house|old ROLLFILE < CALLS

prints what the programs guard and old_guard print. Nothing here is fast: each rule is worked out anew, in the words of the page
that states it. Once read from bytes, a set is a set: of numbers for groups, users and lists, of words for rights.
"""

import sys
from dataclasses import dataclass
from pathlib import Path


class Fault(Exception):
    """What is wrong with a roll or a call: 11 cut short, 12 bad form, 13 out of order, 14 unsound (only then with a clause)."""

    def __init__(self, number, place, clause=None):
        super().__init__(number, place, clause)
        self.number, self.place, self.clause = number, place, clause


# ---- Numbers, bytes and sets ----

def members(number):
    """The set that a number stands for: i is in it if the binary digit that counts 2^i is 1."""
    return frozenset(i for i, digit in enumerate(reversed(f'{number:b}')) if digit == '1')

def number_of(numbers):
    """The number that stands for a set."""
    return sum(2 ** i for i in numbers)


class Reader:
    """Takes numbers from bytes, little-endian. A fault carries the place where the record or call that is being read begins."""

    def __init__(self, data):
        self.data, self.at, self.begin = bytes(data), 0, 0

    def more(self):
        """Is there a further record or call? It begins here."""
        self.begin = self.at
        return self.at < len(self.data)

    def take(self, size):
        piece = self.data[self.at:self.at + size]
        self.insist(len(piece) == size, 11)
        self.at += size
        return int.from_bytes(piece, 'little')

    def insist(self, so, number):
        if not so:
            raise Fault(number, self.begin)


# ---- Labels (LABELS.md) ----

@dataclass(frozen=True)
class House:
    """A house label: secrecy level and categories, trust level and categories."""
    secrecy: int
    secret: frozenset
    trust: int
    trusted: frozenset

    @classmethod
    def of(cls, number):
        """The label with this number, or None if there is none: a and c are at most 2, b and d below 256."""
        a, b, c, d = (number // 65536 ** part % 65536 for part in range(4))
        return cls(a, members(b), c, members(d)) if a <= 2 and b < 256 and c <= 2 and d < 256 else None

    def flows(self, other):
        """The other is at least as secret and at most as trusted."""
        return (other.secrecy >= self.secrecy and other.secret >= self.secret
                and other.trust <= self.trust and other.trusted <= self.trusted)

    def holds(self, other):
        """The other is at most as secret and at most as trusted."""
        return (other.secrecy <= self.secrecy and other.secret <= self.secret
                and other.trust <= self.trust and other.trusted <= self.trusted)


@dataclass(frozen=True)
class Old:
    """An old label: an integrity level from 0 to 4, where greater is more trusted."""
    integrity: int

    @classmethod
    def of(cls, number):
        return cls(number) if number <= 4 else None

    def flows(self, other):
        """The other is at most as trusted."""
        return other.integrity <= self.integrity

    holds = flows


class Scheme:
    """The three questions, on numbers. A question about a number that is no label answers no."""

    def __init__(self, kind):
        self.kind = kind

    def label(self, n):
        return self.kind.of(n) is not None

    def flows(self, a, b):
        return self.label(a) and self.label(b) and self.kind.of(a).flows(self.kind.of(b))

    def holds(self, p, c):
        return self.label(p) and self.label(c) and self.kind.of(p).holds(self.kind.of(c))


# ---- What the tables are made of (TABLES.md) ----

CONTAINER, FILE, PROGRAM = 0, 1, 2
RIGHTS = ('read', 'write', 'create', 'delete', 'change rights', 'execute', 'write attributes')
USERS, GROUPS, SUBJECTS, OBJECTS = range(16), range(16), range(32), range(64)

def rights_of(byte):
    return frozenset(RIGHTS[i] for i in members(byte))

def byte_of(rights):
    return number_of(RIGHTS.index(right) for right in rights)


# ---- The roll (ROLL.md) ----

RECORDS = {1: USERS, 2: GROUPS, 3: OBJECTS}
FIELDS = {
    1: [('administrator', None), ('groups', 2), ('allow', 8), ('floor', 8), ('top', 8)],
    2: [('role', 1)],
    3: [('parent', 1), ('kind', 1), ('owner', 1), ('label', 8), ('mixed', None), ('groups', 2), ('rights', 'users')],
}

# What the number of a field means, and back. The other fields mean their number.
MEANING = {'administrator': bool, 'mixed': bool, 'groups': members, 'allow': members, 'role': rights_of,
           'rights': lambda raw: {user: rights_of(byte) for user, byte in raw.items()}}
WRITTEN = {'groups': number_of, 'allow': number_of, 'role': byte_of,
           'rights': lambda sets: {user: byte_of(rights) for user, rights in sets.items()}}

def read_field(reader, size):
    """The number of a field that is present. A mark takes no bytes; the rights field gives a number for each user in its map."""
    if size is None:
        return 1
    if size == 'users':
        return {user: reader.take(1) for user in sorted(members(reader.take(2)))}
    return reader.take(size)

def in_form(name, raw):
    """Is a field that is present in form? Neither it nor a byte of rights is zero; a kind is at most 2; rights have no bit 7."""
    if name == 'rights':
        return raw != {} and all(byte != 0 and 7 not in members(byte) for byte in raw.values())
    return raw != 0 and (name != 'role' or 7 not in members(raw)) and (name != 'kind' or raw <= 2)

def read_record(reader):
    """One record as kind, number, entry. The tests stand in the order that the page gives them; the fifth is in read_roll."""
    bits, kind, number = members(reader.take(1)), reader.take(1), reader.take(1)            # 1: three bytes are there
    reader.insist(kind in RECORDS and number in RECORDS[kind], 12)                          # 2: kind, number, bits are known
    fields = FIELDS[kind]
    reader.insist(all(bit < len(fields) for bit in bits), 12)
    present = {fields[bit][0]: read_field(reader, fields[bit][1]) for bit in sorted(bits)}  # 3: the fields are there
    reader.insist(all(in_form(name, raw) for name, raw in present.items()), 12)             # 4: the fields are in form
    zero = {name: {} if size == 'users' else 0 for name, size in fields}                    # a field that is absent is zero
    return kind, number, {name: MEANING.get(name, int)(raw) for name, raw in {**zero, **present}.items()}

def read_roll(roll):
    """The tables that a roll says, by the kinds of records."""
    said = {kind: {} for kind in RECORDS}
    reader, before = Reader(roll), None
    while reader.more():
        kind, number, entry = read_record(reader)
        reader.insist(before is None or (kind, number) > before, 13)                        # 5: it is in order
        before = (kind, number)
        said[kind][number] = entry
    return said

def write_field(size, raw):
    if size is None:
        return b''
    if size == 'users':
        return number_of(raw).to_bytes(2, 'little') + bytes(raw[user] for user in sorted(raw))
    return raw.to_bytes(size, 'little')

def write_record(kind, number, entry):
    """The bytes of a record: only the fields that are not zero are written."""
    bits, body = set(), b''
    for bit, (name, size) in enumerate(FIELDS[kind]):
        raw = WRITTEN.get(name, int)(entry[name])
        if raw not in (0, {}):
            bits.add(bit)
            body += write_field(size, raw)
    return bytes([number_of(bits), kind, number]) + body


# ---- The tables and when they are sound (TABLES.md) ----

class Tables:
    """The four tables under a label scheme: each a dictionary from the numbers of the slots that are not empty to their entries."""

    def __init__(self, scheme):
        self.scheme = scheme
        self.users, self.groups, self.subjects, self.objects = {}, {}, {}, {}

    def in_range(self, label, user):
        """The user's floor flows to the label, and the label to the user's top."""
        entry = self.users[user]
        return self.scheme.flows(entry['floor'], label) and self.scheme.flows(label, entry['top'])

    def has_right(self, user, right, o):
        """Owner, administrator, the object's set for the user, or the role of a group of both."""
        entry, who = self.objects[o], self.users[user]
        if entry['owner'] == user or who['administrator'] or right in entry['rights'].get(user, frozenset()):
            return True
        return any(right in self.groups[group]['role'] for group in who['groups'] & entry['groups'])

    def over(self, o):
        """What an object lies under: its parent, and what its parent lies under; the root lies under nothing."""
        found = set()
        while o != 0 and o in self.objects and self.objects[o]['parent'] not in found:
            o = self.objects[o]['parent']
            found.add(o)
        return found

    def under(self, p):
        """The objects that lie under p, at any depth."""
        return {o for o in self.objects if p in self.over(o)}

    def is_kind(self, o, kind):
        return o in self.objects and self.objects[o]['kind'] == kind

    def is_unmixed(self, o):
        """Is it an unmixed container?"""
        return self.is_kind(o, CONTAINER) and not self.objects[o]['mixed']

    def all_hold(self, containers, label):
        """Does each unmixed one among these containers hold the label?"""
        return all(self.scheme.holds(self.objects[p]['label'], label) for p in containers if self.is_unmixed(p))

    def holds_under(self, label, o):
        """Does the label hold everything under the object?"""
        return all(self.scheme.holds(label, self.objects[child]['label']) for child in self.under(o))

    def clauses(self):
        """The clauses of soundness in their order, and whether each holds. Each is worked out only when those before it hold."""
        users, objects, subjects = self.users.values(), self.objects.values(), self.subjects.values()
        yield 'a', all(entry['groups'] <= self.groups.keys() for entry in [*users, *objects])
        labels = [entry[name] for entry in [*users, *objects, *subjects] for name in ('floor', 'top', 'label') if name in entry]
        yield 'b', all(map(self.scheme.label, labels)) and all(self.scheme.flows(user['floor'], user['top']) for user in users)
        yield 'c', (self.is_kind(0, CONTAINER) and self.objects[0]['parent'] == 0
                    and all(self.is_kind(entry['parent'], CONTAINER) for entry in objects)
                    and all(o == 0 or 0 in self.over(o) for o in self.objects))
        yield 'd', all(entry['owner'] in self.users and entry['rights'].keys() <= self.users.keys() for entry in objects)
        yield 'e', all(self.is_kind(o, PROGRAM) for user in users for o in user['allow'])
        yield 'f', any(user['administrator'] for user in users)
        yield 'g', all(self.holds_under(self.objects[o]['label'], o) for o in self.objects if self.is_unmixed(o))
        yield 'h', all(entry['kind'] == CONTAINER for entry in objects if entry['mixed'])


# ---- The guard and its fourteen calls (MODEL.md) ----

class Guard(Tables):
    """Each call is a generator. It yields what the call asks, as pairs of a refusal's number and whether what stands under that
    number is so, in ascending order. Behind the last of them stands what the call sets; so this is reached by a granted call alone.
    The letters are those of the page: s is the subject, o the object, p the container, q the new parent."""

    def __init__(self, scheme, roll_bytes):
        super().__init__(scheme)
        said = read_roll(roll_bytes)
        self.users, self.groups, self.objects = said[1], said[2], said[3]
        for clause, so in self.clauses():
            if not so:
                raise Fault(14, len(roll_bytes), clause)

    def save(self):
        """Records ascend by kind, then by number. Subjects are not written."""
        tables = {1: self.users, 2: self.groups, 3: self.objects}
        return b''.join(write_record(kind, number, tables[kind][number]) for kind in tables for number in sorted(tables[kind]))

    def call(self, name, values):
        """The answer is the first number under which something is not so. If there is none, the call is granted and answers 0."""
        for number, so in getattr(self, 'call_' + name)(*values):
            if not so:
                return number
        return 0

    def user_of(self, s):
        return self.subjects[s]['user']

    def is_administrator(self, s):
        return self.users[self.user_of(s)]['administrator']

    def may(self, s, right, o):
        """A subject has the rights of its user."""
        return self.has_right(self.user_of(s), right, o)

    def to(self, s, o):
        """S to O: the label of S flows to the label of O."""
        return self.scheme.flows(self.subjects[s]['label'], self.objects[o]['label'])

    def call_enter(self, user, number, label):
        yield 1, user in self.users and number in SUBJECTS
        yield 2, number not in self.subjects
        yield 3, self.scheme.label(label)
        yield 8, self.in_range(label, user)
        self.subjects[number] = {'user': user, 'label': label, 'program': None}

    def call_launch(self, s, o, number, label):
        yield 1, s in self.subjects and o in self.objects and number in SUBJECTS
        yield 2, number not in self.subjects
        yield 3, self.scheme.label(label)
        yield 4, self.is_kind(o, PROGRAM)
        yield 5, self.may(s, 'execute', o)
        yield 6, o in self.users[self.user_of(s)]['allow'] or self.is_administrator(s)
        yield 7, self.scheme.flows(self.subjects[s]['label'], label) and self.scheme.flows(self.objects[o]['label'], label)
        yield 8, self.in_range(label, self.user_of(s))
        self.subjects[number] = {'user': self.user_of(s), 'label': label, 'program': o}

    def call_leave(self, s):
        yield 1, s in self.subjects
        del self.subjects[s]

    def call_read(self, s, o):
        yield 1, s in self.subjects and o in self.objects
        yield 5, self.may(s, 'read', o)
        yield 7, self.scheme.flows(self.objects[o]['label'], self.subjects[s]['label'])

    def call_write(self, s, o):
        yield 1, s in self.subjects and o in self.objects
        yield 4, self.is_kind(o, FILE)
        yield 5, self.may(s, 'write', o)
        yield 7, self.to(s, o)

    def call_create(self, s, p, number, kind, label):
        yield 1, s in self.subjects and p in self.objects and number in OBJECTS
        yield 2, number not in self.objects
        yield 3, self.scheme.label(label)
        yield 4, self.is_kind(p, CONTAINER) and kind <= 2
        yield 5, self.may(s, 'create', p)
        yield 6, kind != PROGRAM or self.is_administrator(s)
        yield 7, self.scheme.flows(self.subjects[s]['label'], label) and self.to(s, p)
        yield 9, self.all_hold({p} | self.over(p), label)
        self.objects[number] = {'parent': p, 'kind': kind, 'owner': self.user_of(s), 'label': label,
                                'mixed': False, 'groups': frozenset(), 'rights': {}}

    def call_delete(self, s, o):
        yield 1, s in self.subjects and o in self.objects
        yield 5, self.may(s, 'delete', o)
        yield 7, self.to(s, o) and self.to(s, self.objects[o]['parent'])
        yield 10, o != 0 and all(entry['parent'] != o for entry in self.objects.values())
        yield 10, all(entry['program'] != o for entry in self.subjects.values())
        del self.objects[o]
        for user in self.users.values():
            user['allow'] -= {o}

    def call_move(self, s, o, q):
        yield 1, s in self.subjects and o in self.objects and q in self.objects
        yield 4, self.is_kind(q, CONTAINER)
        yield 5, self.may(s, 'delete', o) and self.may(s, 'create', q)
        old = self.objects[o]['parent']
        yield 7, self.to(s, o) and self.to(s, old) and self.to(s, q)
        yield 7, self.scheme.flows(self.objects[old]['label'], self.objects[q]['label'])
        yield 9, q != o and q not in self.under(o)
        yield 9, all(self.all_hold({q} | self.over(q), self.objects[moved]['label']) for moved in {o} | self.under(o))
        self.objects[o]['parent'] = q

    def call_raise(self, s, o, label):
        yield 1, s in self.subjects and o in self.objects
        yield 3, self.scheme.label(label)
        yield 5, self.may(s, 'write attributes', o)
        yield 7, self.to(s, o) and self.scheme.flows(self.objects[o]['label'], label)
        yield 9, self.all_hold(self.over(o), label)
        yield 9, not self.is_unmixed(o) or self.holds_under(label, o)
        self.objects[o]['label'] = label

    def call_mix(self, s, o):
        yield 1, s in self.subjects and o in self.objects
        yield 4, self.is_kind(o, CONTAINER)
        yield 5, self.may(s, 'write attributes', o)
        yield 7, self.to(s, o)
        self.objects[o]['mixed'] = True

    def call_unmix(self, s, o):
        yield 1, s in self.subjects and o in self.objects
        yield 4, self.is_kind(o, CONTAINER)
        yield 5, self.may(s, 'write attributes', o)
        yield 7, self.to(s, o)
        yield 9, self.holds_under(self.objects[o]['label'], o)
        self.objects[o]['mixed'] = False

    def call_rights(self, s, o, user, byte):
        yield 1, s in self.subjects and o in self.objects and user in self.users
        yield 4, 7 not in members(byte)                                 # bit 7 of the set is clear
        yield 5, self.may(s, 'change rights', o)
        yield 7, self.to(s, o)
        sets = {**self.objects[o]['rights'], user: rights_of(byte)}
        self.objects[o]['rights'] = {who: rights for who, rights in sets.items() if rights}         # an empty set is as none

    def call_allow(self, s, user, o):
        yield 1, s in self.subjects and user in self.users and o in self.objects
        yield 4, self.is_kind(o, PROGRAM)
        yield 6, self.is_administrator(s)
        self.users[user]['allow'] |= {o}

    def call_bar(self, s, user, o):
        yield 1, s in self.subjects and user in self.users and o in self.objects
        yield 4, self.is_kind(o, PROGRAM)
        yield 6, self.is_administrator(s)
        self.users[user]['allow'] -= {o}


# ---- The programs (RUN.md) ----

# The calls by number, with a letter for each argument: L for a label, 8 bytes, and b for one byte.
CALLS = {1: ('enter', 'bbL'), 2: ('launch', 'bbbL'), 3: ('leave', 'b'), 4: ('read', 'bb'), 5: ('write', 'bb'),
         6: ('create', 'bbbbL'), 7: ('delete', 'bb'), 8: ('move', 'bbb'), 9: ('raise', 'bbL'), 10: ('mix', 'bb'),
         11: ('unmix', 'bb'), 12: ('rights', 'bbbb'), 13: ('allow', 'bbb'), 14: ('bar', 'bbb')}

def read_call(reader):
    """One call as name and arguments. The tests stand in the order that the page gives them."""
    bits, number = members(reader.take(1)), reader.take(1)                                  # 1: two bytes are there
    reader.insist(number in CALLS and all(bit < len(CALLS[number][1]) for bit in bits), 12)  # 2: number and bits are known
    name, widths = CALLS[number]
    present = {bit: reader.take(8 if widths[bit] == 'L' else 1) for bit in sorted(bits)}    # 3: the arguments are there
    reader.insist(0 not in present.values(), 12)                                            # 4: none of them is zero
    return name, [present.get(i, 0) for i in range(len(widths))]

def run(kind, roll, calls):
    """The lines that are printed for a roll and a list of calls."""
    try:
        guard = Guard(Scheme(kind), roll)
    except Fault as fault:
        return [f'roll {fault.number} {fault.place}']
    lines, reader = [], Reader(calls)
    while reader.more():
        try:
            name, values = read_call(reader)
        except Fault as fault:
            return lines + [f'bad {fault.number} {fault.place}']
        lines.append(f'{len(lines)} {guard.call(name, values)}')
    return lines

def main(scheme, path):
    roll = Path(path).read_bytes() if Path(path).exists() else b''       # a missing file counts as an empty one
    for line in run({'house': House, 'old': Old}[scheme], roll, sys.stdin.buffer.read()):
        print(line)


if __name__ == '__main__':
    main(*sys.argv[1:])
