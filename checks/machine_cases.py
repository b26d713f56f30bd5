#!/usr/bin/env python3
"""The machine's test cases, worked out from the layouts and rules of docs/PROTOCOL.md.

    python3 checks/machine_cases.py            writes crates/cases/stdin, crates/cases/stdout and crates/stand/stdout
    python3 checks/machine_cases.py --check    says whether they are what it would write

This is a second, independent account of the machine: it shares no code with the crates, and what
it expects is never taken from what they print.
"""
import os
import sys

CODES = [16, 17, 19, 20, 49, 70, 71, 80, 85, 86, 88, 90]

KINDS = {
    'four': dict(software=4, places=[1, 2, 3, 4], holds={1, 3, 4}, types=0, version=b'F10000', codes=set(CODES)),
    'twelve': dict(software=12, places=list(range(1, 13)), holds=set(range(1, 13)), types=3, version=b'T10000', codes=set(CODES)),
    'feeder': dict(software=12, places=[12], holds={12}, types=0, version=b'M10000', codes={16, 17, 19, 20, 49, 80, 85}),
}


def be(value, size):
    return list(value.to_bytes(size, 'big'))


def sealed(head):
    return head + [255 - sum(head) % 256]


class Machine:
    def __init__(self, address, kind, unit):
        self.address, self.kind, self.unit = address, KINDS[kind], unit
        self.totals, self.cycles, self.flags, self.mark = [0] * 12, 0, 0, False
        self.rows, self.recipe, self.operator, self.order = [(0, 0)] * 12, 0, 0, 0
        self.functions, self.units, self.keypad = {82: 0, 130: 0}, 0, 0

    def batch(self, address, amounts):
        if not 1 <= address <= 254:
            return 2
        if address != self.address:
            return 8
        if len(amounts) != len(self.kind['places']):
            return 9
        if any(amount > 1_000_000 for amount in amounts):
            return 10
        for place, amount in zip(self.kind['places'], amounts):
            total = self.totals[place - 1] + amount
            if total >= 2 ** 32:
                self.flags |= 1 | 1 << place
            self.totals[place - 1] = total % 2 ** 32
        self.cycles = (self.cycles + 1) % 65536
        self.mark = True
        return 0

    def reply(self, code, data):
        return sealed([self.address, code] + data)

    def answer(self, burst):
        if burst[0] not in (self.address, 0):
            return None
        nak = self.reply(48, [21])
        if len(burst) < 3 or sum(burst) % 256 != 255:
            return nak
        code, data = burst[1], burst[2:-1]
        if code not in self.kind['codes']:
            return nak
        answer = self.obey(code, data)
        return nak if answer is None else self.reply(*answer)

    def row_fits(self, number, kind, setting):
        if number in self.kind['holds']:
            return kind <= self.kind['types'] and setting <= 999
        return kind == 0 and setting == 0

    def obey(self, code, data):
        ack = (48, [6])
        system = 2 if self.unit == 'tenths' else 9
        software = self.kind['software']
        sizes = {19: 44, 70: 3, 71: 1, 86: 1, 88: 1, 90: 6}
        if len(data) != sizes.get(code, 0):
            return None
        number = lambda at, size: int.from_bytes(bytes(data[at:at + size]), 'big')
        if code in (16, 17):
            answer = [system, software] + be(0, 2) + be(self.cycles, 2) + be(self.flags, 2)
            for total in self.totals:
                answer += be(total, 4)
            if code == 16:
                self.mark, self.flags = False, 0
            return code, answer
        if code == 19:
            rows = [(data[3 * i], number(3 * i + 1, 2)) for i in range(12)]
            recipe, operator, order = number(36, 2), number(38, 2), number(40, 4)
            if not all(self.row_fits(i + 1, *row) for i, row in enumerate(rows)) or operator > 999 or order > 999_999:
                return None
            self.rows, self.recipe, self.operator, self.order = rows, recipe, operator, order
            return ack
        if code == 20:
            answer = [system + self.mark, software]
            for kind, setting in self.rows:
                answer += [kind] + be(setting, 2)
            return code, answer + be(self.recipe, 2) + be(self.operator, 2) + be(self.order, 4)
        if code == 49:
            return code, [system, software]
        if code == 70:
            function, value = data[0], number(1, 2)
            if value > {82: 1, 130: 12}.get(function, -1):
                return None
            self.functions[function] = value
            return ack
        if code == 71:
            return None if data != [0] else (code, [130, self.functions[130], 82, self.functions[82]] + [0] * 16)
        if code == 80:
            return code, list(self.kind['version'])
        if code == 85:
            return code, [self.units]
        if code == 86:
            if data[0] not in (0, 1, 2, 4):
                return None
            self.units = data[0]
            return ack
        if code == 88:
            if data[0] > 1:
                return None
            self.keypad = data[0]
            return ack
        letters, value = bytes(data[:2]), number(2, 4)
        if value > {b'RC': 65_535, b'WO': 999_999, b'OP': 999}.get(letters, -1):
            return None
        setattr(self, {b'RC': 'recipe', b'WO': 'order', b'OP': 'operator'}[letters], value)
        return ack


class Script:
    def __init__(self):
        self.asked, self.told, self.machine = [], [], None

    def say(self, line, answer):
        self.asked.append(line)
        self.told.append(answer)

    def note(self, text):
        self.asked.append('# ' + text)

    def hang(self, address, kind, unit):
        self.machine = Machine(address, kind, unit)
        line = f'machine {address} {kind} {unit}'
        self.say(line, line)

    def batch(self, address, amounts):
        number = self.machine.batch(address, amounts)
        self.say('batch ' + ' '.join(map(str, [address] + amounts)), f'batch: refused {number}' if number else 'batch: accepted')

    def burst(self, bytes_):
        reply = self.machine.answer(bytes_)
        self.say('burst ' + ' '.join(map(str, bytes_)), 'no reply' if reply is None else 'reply: ' + ' '.join(map(str, reply)))

    def command(self, code, data, address=None):
        self.burst(sealed([self.machine.address if address is None else address, code] + data))


def settings(rows, recipe=0, operator=0, order=0):
    data = []
    for number in range(1, 13):
        kind, setting = rows.get(number, (0, 0))
        data += [kind] + be(setting, 2)
    return data + be(recipe, 2) + be(operator, 2) + be(order, 4)


def good_data(kind):
    row = {'four': {1: (0, 12), 3: (0, 999), 4: (0, 0)}, 'twelve': {1: (1, 150), 2: (2, 999), 12: (3, 1)}, 'feeder': {12: (0, 250)}}[kind]
    return {16: [], 17: [], 19: settings(row, 1234, 56, 789_012), 20: [], 49: [], 70: [130, 0, 7], 71: [0], 80: [], 85: [],
            86: [4], 88: [1], 90: list(b'WO') + be(123_456, 4)}


def every_code(s, kind):
    data = good_data(kind)
    s.note(f'{kind}: every code with good data, a byte too few, a byte too many, a wrong sum, to all, to another')
    for code in CODES:
        s.command(code, data[code])
        if data[code]:
            s.command(code, data[code][:-1])
        s.command(code, data[code] + [0])
        good = sealed([s.machine.address, code] + data[code])
        s.burst(good[:-1] + [(good[-1] + 1) % 256])
        s.command(code, data[code], address=0)
        s.command(code, data[code], address=s.machine.address + 1)
    for code in (0, 1, 18, 21, 48, 50, 58, 87, 89, 91, 255):
        s.command(code, [])
    s.command(20, [])
    s.command(71, [0])
    s.command(85, [])


def limits(s, kind):
    s.note(f'{kind}: each field at its limits and one past them')
    for function in (81, 82, 83, 129, 130, 131):
        for value in (0, 1, 2, 12, 13, 256):
            s.command(70, [function] + be(value, 2))
    s.command(71, [1])
    s.command(71, [255])
    for units in (0, 1, 2, 3, 4, 5, 255):
        s.command(86, [units])
        s.command(85, [])
    for flag in (0, 1, 2, 255):
        s.command(88, [flag])
    for letters in (b'RC', b'WO', b'OP', b'rc', b'CR', b'RO', b'\0\0'):
        for value in (0, 999, 1000, 65_535, 65_536, 999_999, 1_000_000, 2 ** 32 - 1):
            s.command(90, list(letters) + be(value, 4))
    s.command(20, [])
    for number in range(1, 13):
        for row in ((0, 999), (0, 1000), (3, 1), (4, 1), (0, 1), (1, 0)):
            s.command(19, settings({number: row}))
        s.command(20, [])
    for recipe, operator, order in ((65_535, 999, 999_999), (0, 1000, 0), (0, 0, 1_000_000), (0, 0, 2 ** 24), (1, 2, 3)):
        s.command(19, settings({}, recipe, operator, order))
    s.command(20, [])


def batches(s, kind):
    address, count = s.machine.address, len(s.machine.kind['places'])
    s.note(f'{kind}: batches, their refusals, the mark up and down')
    s.command(20, [])
    s.batch(address, [1000 + i for i in range(count)])
    s.command(20, [])
    s.command(17, [])
    s.command(20, [])
    s.command(16, [])
    s.command(20, [])
    s.batch(address, [1_000_000] * count)
    s.batch(address, [0] * (count - 1) + [1_000_001])
    s.batch(address, [1_000_001] * (count + 1))
    s.batch(address, [0] * (count - 1))
    s.batch(address, [])
    s.batch(address + 1, [0] * count)
    s.batch(0, [0] * count)
    s.batch(255, [0] * count)
    s.batch(address, [0] * count)
    s.command(17, [])
    s.command(16, [], address=0)
    s.command(17, [])
    s.command(20, [])


def shapes(s):
    s.note('bursts of every small shape')
    s.burst([5])
    s.burst([0])
    s.burst([6])
    s.burst([5, 250])
    s.burst([0, 255])
    s.burst([5, 17, 233, 0])
    s.burst([5, 17, 0, 233])
    s.burst(sealed([5] + [0] * 62))
    s.burst(sealed([5, 17] + [0] * 61))
    s.burst(sealed([0, 19] + [0] * 44))
    s.burst(sealed([255, 17]))


def build():
    s = Script()
    for kind in KINDS:
        for address, unit in ((5, 'tenths'), (254, 'grams'), (1, 'tenths')):
            s.hang(address, kind, unit)
            if unit == 'grams':
                batches(s, kind)
            elif address == 5:
                shapes(s)
                every_code(s, kind)
                batches(s, kind)
            else:
                limits(s, kind)
    return '\n'.join(s.asked) + '\n', '\n'.join(s.told) + '\n'


def number(word, limit):
    return int(word) if word.isascii() and word.isdigit() and int(word) <= limit else None


def stand(text):
    """What the stand prints of a script: one line for each that is neither empty nor a comment."""
    machine, told = None, []
    for count, line in enumerate(text.split('\n')[:-1], 1):
        words = line.split()
        if line.startswith('#') or not words:
            continue
        answer = f'line {count}: not understood'
        if words[0] == 'machine' and len(words) == 4 and machine is None:
            address = number(words[1], 255)
            if address is not None and words[2] in KINDS and words[3] in ('tenths', 'grams'):
                if 1 <= address <= 254:
                    machine, answer = Machine(address, *words[2:]), ' '.join(words)
                else:
                    answer = 'machine: refused 2'
        elif words[0] == 'batch' and len(words) > 1:
            address, amounts = number(words[1], 255), [number(word, 2 ** 32 - 1) for word in words[2:]]
            if None not in [address] + amounts:
                absent = 8 if 1 <= address <= 254 else 2
                refused = machine.batch(address, amounts) if machine else absent
                answer = f'batch: refused {refused}' if refused else 'batch: accepted'
        elif words[0] == 'burst' and 1 <= len(words) - 1 <= 64:
            burst = [number(word, 255) for word in words[1:]]
            if None not in burst:
                reply = machine.answer(burst) if machine else None
                answer = 'reply: ' + ' '.join(map(str, reply)) if reply else 'no reply'
        told.append(answer)
    return '\n'.join(told) + '\n'


def main():
    crates = os.path.join(os.path.dirname(os.path.abspath(__file__)), '..', 'crates')
    asked, told = build()
    sample = open(os.path.join(crates, 'stand', 'stdin')).read()
    files = {'cases/stdin': asked, 'cases/stdout': told, 'stand/stdout': stand(sample)}
    if '--check' in sys.argv:
        wrong = [name for name, text in files.items() if open(os.path.join(crates, name)).read() != text]
        print('differs: ' + ', '.join(wrong) if wrong else 'the cases are as this script works them out')
        sys.exit(1 if wrong else 0)
    for name, text in files.items():
        open(os.path.join(crates, name), 'w').write(text)


main()
