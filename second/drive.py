#!/usr/bin/env python3
"""Random rolls and random call streams, run by the built programs and by second.py, and compared.

    drive.py CRATES CASES [SEED]
    drive.py store CRATES CASES SEED

CRATES is the folder `crates` of a checkout in which the programs were built: each lies in its crate's out/. Rolls are mostly sound; some are damaged,
and some break one clause of soundness. Calls follow the moving state, so that every answer comes up. Each case is run by `guard` or `old_guard`, and
by `replay`, which also tells the clause that fails and the bytes that the guard saves in the end. It prints how often each answer, fault and clause
came up, and ends with status 1 at the first difference, which it leaves in the folder `difference`, or where of 5,000 cases and more one of them never
came up.

`store` runs no program: it writes cases into CRATES/replay/stdin, and what second.py says of them into CRATES/replay/stdout. Those that are stored are
the 1,200 of seed 20261127.
"""
import collections
import os
import random
import subprocess
import sys
import tempfile

import second


def house(rng):
    return rng.choice([0, 1, 2]) + 65536 * rng.choice([0, 0, 1, 2, 3]) + 2 ** 32 * rng.choice([0, 1, 2]) + 2 ** 48 * rng.choice([0, 0, 1, 3])


SCHEMES = {
    'guard': (second.House, house, 2 ** 33, 2 + 65536 * 255, 2 + 65536 * 3 + 2 ** 33 + 2 ** 48 * 3),
    'old_guard': (second.Old, lambda rng: rng.randrange(5), 4, 0, 4),
}
# per program: the scheme, a random label, the label that flows to many, the one that many flow to, one that holds many


def record(kind, number, values):
    """the bytes of a record, from its fields in order"""
    bits, body = 0, b''
    for i, ((name, size), v) in enumerate(zip(second.FIELDS[kind], values)):
        if not v:
            continue
        bits |= 1 << i
        if size == 'users':
            body += sum(1 << u for u in v).to_bytes(2, 'little') + bytes(v[u] for u in sorted(v))
        elif size is not None:
            body += v.to_bytes(size, 'little')
    return bytes([bits, kind, number]) + body


def mask(numbers):
    return sum(1 << n for n in set(numbers))


def make_records(rng, program):
    kind, label, low, high, holder = SCHEMES[program]
    users = sorted(rng.sample(range(16), rng.randrange(1, 5)))
    groups = sorted(rng.sample(range(16), rng.randrange(0, 4)))
    objects = [0] + sorted(rng.sample(range(1, 64), rng.randrange(1, 10)))
    kinds = {o: (0 if o == 0 else rng.choice([0, 0, 1, 1, 2])) for o in objects}
    parents, out = {0: 0}, []
    for o in objects[1:]:
        parents[o] = rng.choice([p for p in parents if kinds[p] == 0])
    programs = [o for o in objects if kinds[o] == 2]
    pick = lambda xs, n: rng.sample(xs, min(len(xs), rng.randrange(n + 1)))
    for i, u in enumerate(users):
        wide = rng.random() < 0.7
        out.append(record(1, u, [i == 0 or rng.random() < 0.2, mask(pick(groups, 2)), mask(pick(programs, 2)), low if wide else label(rng), high if wide else label(rng)]))
    for g in groups:
        out.append(record(2, g, [rng.randrange(1, 128)]))
    for o in objects:
        mixed = kinds[o] == 0 and rng.random() < 0.4
        lab = holder if kinds[o] == 0 and rng.random() < 0.5 else label(rng)
        rights = {u: rng.randrange(1, 128) for u in pick(users, 2)}
        out.append(record(3, o, [parents[o], kinds[o], rng.choice(users), lab, mixed, mask(pick(groups, 2)), rights]))
    return out


def sound_roll(rng, program):
    for _ in range(60):
        roll = b''.join(make_records(rng, program))
        try:
            second.Guard(second.Scheme(SCHEMES[program][0]), roll)
            return roll
        except second.Fault:
            pass
    return roll


def break_clause(rng, program, records):
    """records that say tables in which some clause of soundness may fail"""
    kind, label, low, high, holder = SCHEMES[program]
    users = [i for i, x in enumerate(records) if x[1] == 1]
    objects = [i for i, x in enumerate(records) if x[1] == 3]
    at = rng.choice(objects)
    number = records[at][2]
    clause = rng.choice('abcdefgh')
    if clause == 'a':
        records[at] = record(3, number, [0, 1, records[users[0]][2], holder, False, 1 << rng.randrange(16), {}])
    elif clause == 'b':
        records[users[-1]] = record(1, records[users[-1]][2], [True, 0, 0, high, low] if rng.random() < 0.5 else [True, 0, 0, low, 2 ** 40 - 1])
    elif clause == 'c':
        records[at] = record(3, number, [rng.randrange(256), 0, records[users[0]][2], holder, True, 0, {}])
    elif clause == 'd':
        records[at] = record(3, number, [0, 0, rng.randrange(256), holder, True, 0, {rng.randrange(16): 1}])
    elif clause == 'e':
        records[users[0]] = record(1, records[users[0]][2], [True, 0, 1 << rng.randrange(64), low, high])
    elif clause == 'f':
        for i in users:
            records[i] = record(1, records[i][2], [False, 0, 0, low, high])
    elif clause == 'g':
        records[objects[0]] = record(3, 0, [0, 0, records[users[0]][2], low, False, 0, {}])
    else:
        records[objects[-1]] = record(3, records[objects[-1]][2], [0, 1, records[users[0]][2], low, True, 0, {}])
        if len(objects) > 1:
            records[objects[0]] = record(3, 0, [0, 0, records[users[0]][2], low, True, 0, {}])
    return b''.join(records)


def bad_roll(rng, program):
    records = make_records(rng, program)
    if rng.random() < 0.5:
        return break_clause(rng, program, records)
    if rng.random() < 0.3:
        records.insert(rng.randrange(len(records) + 1), rng.choice(records))
        return b''.join(records)
    return damage(rng, b''.join(records))


def damage(rng, data):
    data = bytearray(data)
    for _ in range(rng.randrange(1, 3)):
        if data:
            at = rng.randrange(len(data))
            how = rng.randrange(3)
            if how == 0:
                data[at] = rng.randrange(256)
            elif how == 1:
                del data[at:]
            else:
                data[at] ^= 1 << rng.randrange(8)
    return bytes(data)


def encode(number, values):
    bits, body = 0, b''
    for i, (w, v) in enumerate(zip(second.CALLS[number][1], values)):
        if v:
            bits |= 1 << i
            body += v.to_bytes(8 if w == 'L' else 1, 'little')
    return bytes([bits, number]) + body


def make_calls(rng, program, roll):
    """calls that follow the state; the names of the arguments say where a value is looked for"""
    kind, label, low, high, holder = SCHEMES[program]
    try:
        guard = second.Guard(second.Scheme(kind), roll)
    except second.Fault:
        return b''
    shapes = {1: 'unL', 2: 'spnL', 3: 's', 4: 'so', 5: 'sf', 6: 'scNkL', 7: 'so', 8: 'soc', 9: 'soL', 10: 'sc', 11: 'sc', 12: 'soum', 13: 'sup', 14: 'sup'}

    def of_kind(k):
        return [o for o, x in guard.objects.items() if x['kind'] == k]

    def value(c):
        if rng.random() < 0.06:
            return label(rng) + rng.choice([0, 3, 5, 2 ** 40]) if c == 'L' else rng.choice([rng.randrange(256), rng.randrange(64), 0])
        known = {'u': list(guard.users), 's': list(guard.subjects), 'o': list(guard.objects), 'p': of_kind(second.PROGRAM),
                 'f': of_kind(second.FILE), 'c': of_kind(second.CONTAINER)}
        if c in known:
            wider = c in 'pfc' and rng.random() < 0.1
            return rng.choice(known['o' if wider else c] or [0])
        if c == 'L':
            return rng.choice([label(rng), low, high, holder, rng.choice([x['label'] for x in list(guard.objects.values()) + list(guard.subjects.values())])])
        return {'n': rng.randrange(32), 'N': rng.randrange(64), 'k': rng.choice([0, 0, 1, 1, 2, 2, 3]), 'm': rng.choice([rng.randrange(128), rng.randrange(256)])}[c]

    out = b''
    for i in range(rng.randrange(5, 60)):
        number = 1 if i < 3 else rng.choice([1, 1, 2, 2, 2, 3, 4, 4, 5, 5, 6, 6, 6, 7, 7, 8, 8, 8, 9, 9, 10, 11, 11, 12, 12, 13, 13, 14])
        values = [value(c) for c in shapes[number]]
        guard.call(second.CALLS[number][0], values)
        out += encode(number, values)
    return out


def run_program(path, roll, calls, folder):
    with open(os.path.join(folder, 'roll'), 'wb') as f:
        f.write(roll)
    done = subprocess.run([path], input=calls, cwd=folder, capture_output=True, check=True)
    return done.stdout.decode().splitlines()


def told(kind, roll, calls):
    """the line of `replay` for a case: the answers, the end, and what the guard saves"""
    end, answers, saved = 'end', [], b''
    try:
        guard = second.Guard(second.Scheme(kind), roll)
    except second.Fault as fault:
        return f'roll {fault.number} {fault.place}' + (f' {ord(fault.clause) - 96} ' if fault.clause else ' ')
    reader = second.Reader(calls)
    while reader.more():
        try:
            name, values = second.read_call(reader)
        except second.Fault as fault:
            end = f'bad {fault.number} {fault.place}'
            break
        answers.append(guard.call(name, values))
    return ''.join(f'{a} ' for a in answers) + f'{end} {guard.save().hex()}'


def stored(program, roll, calls):
    """a case as `replay` reads it"""
    return bytes([program != 'guard']) + len(roll).to_bytes(2, 'little') + len(calls).to_bytes(2, 'little') + roll + calls


def store(folder, count, seed):
    rng = random.Random(seed)
    cases = [case(rng) for _ in range(count)]
    with open(os.path.join(folder, 'replay', 'stdin'), 'wb') as f:
        f.write(b''.join(stored(*c) for c in cases))
    with open(os.path.join(folder, 'replay', 'stdout'), 'w', encoding='utf-8') as f:
        f.writelines(told(SCHEMES[program][0], roll, calls) + '\n' for program, roll, calls in cases)
    return 0


def leave(program, roll, calls, want, got):
    os.makedirs('difference', exist_ok=True)
    for name, data in (('roll', roll), ('calls', calls)):
        with open(os.path.join('difference', name), 'wb') as f:
            f.write(data)
    print(program, 'differs: see the folder difference\nsecond:', want, '\nprogram:', got)
    return 1


def case(rng):
    program = rng.choice(list(SCHEMES))
    roll = sound_roll(rng, program) if rng.random() < 0.85 else bad_roll(rng, program)
    calls = make_calls(rng, program, roll)
    if rng.random() < 0.1:
        calls = damage(rng, calls)
    return program, roll, calls


def replayed(folder, cases):
    """what the built `replay` says of cases, a line each"""
    done = subprocess.run([os.path.join(folder, 'replay', 'out', 'replay')], input=b''.join(stored(*c) for c in cases), capture_output=True, check=True)
    lines = done.stdout.decode().split('\n')
    assert lines.pop() == '' and len(lines) == len(cases), 'one line for each case'
    return lines


def compare(folder, count, seed):
    rng, seen, clauses = random.Random(seed), collections.Counter(), collections.Counter()
    with tempfile.TemporaryDirectory() as place:
        for first in range(0, count, 500):
            cases = [case(rng) for _ in range(min(500, count - first))]
            for (program, roll, calls), line in zip(cases, replayed(folder, cases), strict=True):
                kind = SCHEMES[program][0]
                want = second.run(kind, roll, calls)
                got = run_program(os.path.abspath(os.path.join(folder, program, 'out', program)), roll, calls, place)
                if want != got:
                    return leave(program, roll, calls, want[-3:], got[-3:])
                want_line = told(kind, roll, calls)
                if want_line != line:
                    return leave('replay', roll, calls, want_line, line)
                for said in want:
                    seen[int(said.split()[1])] += 1
                if line.startswith('roll 14'):
                    clauses['abcdefgh'[int(line.split()[3]) - 1]] += 1
    print(count, 'cases, no difference; answers:', ', '.join(f'{k}: {seen[k]}' for k in sorted(seen)))
    print('of 14, by clause:', ', '.join(f'{k}: {clauses[k]}' for k in sorted(clauses)))
    missing = [str(k) for k in range(15) if not seen[k]] + [c for c in 'abcdefgh' if not clauses[c]]
    if missing:
        print('never came up:', ', '.join(missing))
    return 1 if missing and count >= 5000 else 0


def main():
    if sys.argv[1] == 'store':
        return store(sys.argv[2], int(sys.argv[3]), int(sys.argv[4]))
    return compare(sys.argv[1], int(sys.argv[2]), int(sys.argv[3]) if len(sys.argv) > 3 else 1)


if __name__ == '__main__':
    sys.exit(main())
