"""A plain model of the register and its console, for the tools beside it. It follows docs/REGISTER.md with lists and
objects in place of words; nothing here is proved. tools/check-docs holds it to every case of crates/worked/data, and
what it tells of each second there, and of each pair of seconds, since with it, to the plain log."""
import re

OPEN = 4294967295
STORE_WORDS = 16000
SETTINGS_NAMES = b'block,useful,blocks,tags'
CHANGE_NAMES = b'time,tag,sign,value'
SIGNS = {'+': 'set', '-': 'clear', '=': 'new reading', '.': 'clock move', '?': 'look-back'}

# The refusals: what happened, and what to do about it.
REFUSALS = {
    1: 'the settings are outside their limits',
    2: 'the store has fewer than 16 words',
    3: 'the first 16 words are not the head of a register',
    4: 'the store is shorter than its settings need',
    5: 'the second is 4294967295, which is kept for "not yet known"',
    6: 'the second is earlier than the clock',
    7: 'the look-back is later than the clock',
    8: 'there is no such tag: tags are 0 to D - 1',
    9: 'the tag stands already',
    10: 'the tag does not stand',
    11: 'a buffer of the look-back is too short',
    12: 'a link, place or tag in the store is unsound',
    13: 'the change needs a new block and none is left',
    14: 'the window ends before it begins',
}


def layout_words(b, blocks, tags):
    """Head, index, directory and blocks; a record has five words: tag, reading, from, to, since."""
    return 16 + 4096 + 256 + 16 + tags + blocks * (8 + 5 * b)


def buffer_words(blocks, tags):
    """What a look-back is lent: rows of three words, tag, reading, since, for each tag; and the list."""
    return 3 * tags + blocks


# ---- sizes, from the proved limits (README.md, "How much it holds")
def sets_held(b, q, blocks):
    """So many sets and new readings, at least, are accepted before a change finds no block left."""
    return blocks * (b - q + 1) - (q - 1)


def blocks_for(b, q, sets):
    """So many blocks hold these sets and new readings for certain."""
    return -(-(sets + q - 1) // (b - q + 1))


def blocks_read(q, rows):
    """So many blocks, at most, are read by a look-back that finds these rows."""
    return 2 * ((rows + q) // q)


class Record:
    """A condition in a slot, from one second to another. `since` is the second of its last set or new reading, which
    a copy keeps; `source` is the block and slot that a copy came from."""

    def __init__(self, tag, reading, since, second, source):
        self.tag, self.reading, self.since = tag, reading, since
        self.start, self.end, self.source = second, OPEN, source

    def stands(self, second):
        return self.start <= second < self.end


class Block:
    def __init__(self, opened, up):
        self.opened, self.closed = opened, OPEN
        self.up, self.left, self.child, self.right = up, 0, 0, 0
        self.records = []

    def standing(self):
        return [k for k, record in enumerate(self.records) if record.end == OPEN]


class Register:
    """Blocks are counted from 1; block 0 only holds two links."""

    def __init__(self, b, q, limit, tags):
        self.b, self.q, self.limit, self.tags = b, q, limit, tags
        self.clock = 0
        self.blocks = [Block(0, 0)]
        self.place = {}

    @staticmethod
    def refused_start(b, q, limit, tags, words=STORE_WORDS):
        if not (2 <= b <= 64 and 1 <= q and 2 * q <= b and 1 <= limit <= 4096 and 1 <= tags <= 4096):
            return 1
        return 4 if words < layout_words(b, limit, tags) else 0

    def opened(self):
        return len(self.blocks) - 1

    # ---- placing and closing
    def make_room(self, now):
        last = self.opened()
        if last == 0 or len(self.blocks[last].records) == self.b:
            self.blocks.append(Block(now, last))
            self.blocks[last].right = last + 1
            if last > 0:
                self.judge(last, now)

    def put(self, now, tag, reading, since, source=None):
        self.make_room(now)
        block = self.blocks[-1]
        block.records.append(Record(tag, reading, since, now, source))
        self.place[tag] = (self.opened(), len(block.records) - 1)

    def judge(self, n, now):
        block = self.blocks[n]
        slots = block.standing()
        if len(slots) >= self.q:
            return
        up = self.blocks[block.up]
        block.closed = now
        self.blocks[block.right].up = block.up
        up.right = block.right
        block.left, up.child = up.child, n
        for k in slots:
            record = block.records[k]
            record.end = now
            self.put(now, record.tag, record.reading, record.since, (n, k))

    def end(self, now, tag):
        n, k = self.place.pop(tag)
        self.blocks[n].records[k].end = now
        if n != self.opened():
            self.judge(n, now)

    # ---- the calls: 0, or the number of the first refusal that applies
    def would_open(self, sign, tag):
        """Whether a change needs a block more: its record, and the copies of the tag's block if that closes."""
        incoming = 0 if sign == '-' else 1
        if sign != '+':
            n, _ = self.place[tag]
            left = len(self.blocks[n].standing()) - 1
            incoming += left if n != self.opened() and left < self.q else 0
        last = self.opened()
        return incoming > 0 and (last == 0 or len(self.blocks[last].records) + incoming > self.b)

    def refusal(self, sign, second, tag):
        if second == OPEN:
            return 5
        if sign == '?':
            return 7 if second > self.clock else 0
        if second < self.clock:
            return 6
        if sign == '.':
            return 0
        if tag >= self.tags:
            return 8
        if (tag in self.place) == (sign == '+'):
            return 9 if sign == '+' else 10
        return 13 if self.would_open(sign, tag) and self.opened() == self.limit else 0

    def change(self, sign, second, tag, reading):
        if sign in '-=':
            self.end(second, tag)
        if sign in '+=':
            self.put(second, tag, reading, second)
        self.clock = second

    # ---- the look-back: rows (tag, reading, since) in order, and the blocks listed
    def look_back(self, t):
        rows, listed = [], []

        def take(n):
            rows.extend((r.tag, r.reading, r.since) for r in self.blocks[n].records if r.stands(t))

        def visit(n):
            while n:
                listed.append(n)
                if self.blocks[n].closed <= t:
                    return
                take(n)
                visit(self.blocks[n].child)
                n = self.blocks[n].left

        n = max((k for k in range(1, len(self.blocks)) if self.blocks[k].opened <= t), default=0)
        while n:
            block = self.blocks[n]
            listed.append(n)
            take(n)
            visit(self.blocks[block.up].child if block.closed == OPEN else block.left)
            n = block.up
        return rows, listed

    # ---- the window, both seconds included: rows (tag, reading, since) by tag, and how many blocks are read
    def window(self, first, last):
        read = [block for block in self.blocks[1:] if block.opened <= last and first < block.closed]
        stood = [r for block in read for r in block.records if max(r.start, first) < min(r.end, last + 1)]
        latest = {r.tag: r for r in sorted(stood, key=lambda r: r.start)}  # of equal starts the last, by place
        return sorted((r.tag, r.reading, r.since) for r in latest.values()), len(read)


class Event:
    """One line of the changes: what was asked, and its refusal (0 if accepted) or what a look-back told."""

    def __init__(self, line, sign, second, tag, reading):
        self.line, self.sign, self.second, self.tag, self.reading = line, sign, second, tag, reading
        self.refusal, self.rows, self.listed = 0, [], []

    def words(self):
        of = '' if self.sign in '.?' else f' of tag {self.tag}'
        return f'{SIGNS[self.sign]}{of} at {self.second}'


class Run:
    """A console run: `register` (None if the start was refused), `events`, `bad` (line numbers), `output` (text)."""

    def __init__(self, data):
        self.register, self.events, self.bad = None, [], []
        self.lines = ['time,kind,first,second']
        self.go(lines_of(data))
        self.output = ''.join(line + '\n' for line in self.lines)

    def say_bad(self, number):
        self.bad.append(number)
        self.lines.append(f'0,bad,{number},0')

    def go(self, lines):
        numbers = words_of(lines[1], 4) if len(lines) > 1 else None
        if not lines or lines[0] != SETTINGS_NAMES:
            return self.say_bad(1)
        if numbers is None:
            return self.say_bad(2)
        refused = Register.refused_start(*numbers)
        if refused:
            self.lines.append(f'0,no,{refused},0')
            return None
        self.register = Register(*numbers)
        if len(lines) < 3 or lines[2] != CHANGE_NAMES:
            return self.say_bad(3)
        for number, line in enumerate(lines[3:], 4):
            event = event_of(number, line)
            self.say_bad(number) if event is None else self.take(event)
        return None

    def take(self, event):
        register = self.register
        self.events.append(event)
        event.refusal = register.refusal(event.sign, event.second, event.tag)
        if event.refusal:
            self.lines.append(f'{event.second},no,{event.refusal},0')
        elif event.sign == '?':
            event.rows, event.listed = register.look_back(event.second)
            self.lines += [f'{event.second},row,{tag},{kn(reading)}' for tag, reading, _ in event.rows]
            self.lines.append(f'{event.second},sum,{len(event.rows)},{len(event.listed)}')
        else:
            register.change(event.sign, event.second, event.tag, event.reading)

    def log_at(self, t):
        """What stood at t by the accepted changes alone, without any blocks: rows by tag."""
        stood = {}
        for event in self.events:
            if event.refusal or event.second > t or event.sign in '.?':
                continue
            stood.pop(event.tag, None)
            if event.sign in '+=':
                stood[event.tag] = (event.tag, event.reading, event.second)
        return sorted(stood.values())

    def turns(self, first, last):
        """The seconds of a window at which what stands may change: its first, and those of lines in it."""
        return sorted({first, *(event.second for event in self.events if first < event.second <= last)})

    def log_window(self, first, last):
        """What stood at some second from first to last, by the accepted changes alone: each tag as it stood last."""
        stood = {row[0]: row for second in self.turns(first, last) for row in self.log_at(second)}
        return sorted(stood.values())


# ---- lines and fields
def lines_of(data):
    lines = data.split(b'\n')
    if lines[-1] == b'':
        lines.pop()
    return [line if len(line) <= 80 else b'\xff' for line in lines]


def number(field, low, high, pattern):
    if not re.fullmatch(pattern, field):
        return None
    value = int(field)
    return value if low <= value <= high else None


def word(field):
    return number(field, 0, OPEN, rb'0|[1-9][0-9]*')


def words_of(line, count):
    found = [word(field) for field in line.split(b',')]
    return found if len(found) == count and None not in found else None


def event_of(number_of_line, line):
    """The event of a change line; None if the line is bad."""
    fields = line.split(b',')
    if len(fields) != 4:
        return None
    second, tag, sign = word(fields[0]), word(fields[1]), fields[2].decode('latin-1')
    value = number(fields[3], -2**31, 2**31 - 1, rb'0|-?[1-9][0-9]*')
    if second is None or tag is None or value is None or sign not in SIGNS:
        return None
    if (sign in '.?' and tag != 0) or (sign in '.?-' and value != 0):
        return None
    return Event(number_of_line, sign, second, tag, value)


def kn(reading):
    """A reading in daN as tenths of a kN, half away from zero, never -0.0."""
    tenths = (abs(reading) + 5) // 10
    return f'{"-" if reading < 0 and tenths else ""}{tenths // 10}.{tenths % 10}'
