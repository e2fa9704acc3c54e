"""Random scripts of frames for cindersim, aimed at the edges of the rules.

A sketch of the node goes along with each script, so that most calls can be
aimed at what is open. The sketch only aims: its numbers are compared with
nothing, and where it is wrong the script is merely less well aimed.
"""

from collections import Counter

G = 1_000_000_000
TOP = 0xFFFFFFFF
EDGES = (0, 1, 2, G - 1, G, G + 1, 0x7FFFFFFF, 0x80000000, TOP)

# First byte of a frame: the lengths of its fields.
FIELDS = {
    0x01: (1, 1, 1, 1, 4, 4),
    0x02: (1, 1),
    0x03: (1, 1, 1, 1, 4, 2),
    0x05: (1, 1),
    0x06: (1, 1, 4),
    0x07: (1, 4, 4),
    0x08: (4,),
    0x09: (),
    0x10: (4,),
    0x11: (4, 4, 2),
    0x12: (4, 4, 4),
}
BUILDERS = (0x10, 0x11, 0x12)

# What a script is mostly made of: a weight for each sort of line.
THEMES = {
    "mixed": dict(tick=20, open=12, close=5, tap=12, shut=3, grant=14, settle=10, peek=6, audit=8),
    "reserves": dict(tick=8, open=60, close=2, tap=4, shut=1, grant=4, settle=4, peek=4, audit=4),
    "closing": dict(tick=14, open=22, close=20, tap=14, shut=8, grant=4, settle=5, peek=8, audit=6),
    "taps": dict(tick=10, open=10, close=1, tap=60, shut=1, grant=2, settle=2, peek=6, audit=4),
    "chain": dict(tick=30, open=10, close=1, tap=20, shut=2, grant=4, settle=4, peek=14, audit=4),
    "grants": dict(tick=8, open=3, close=1, tap=2, shut=1, grant=60, settle=8, peek=2, audit=6),
    "settling": dict(tick=18, open=5, close=2, tap=8, shut=1, grant=26, settle=26, peek=6, audit=8),
    "ticks": dict(tick=60, open=6, close=1, tap=8, shut=1, grant=6, settle=4, peek=10, audit=10),
    "noise": dict(tick=5, open=5, close=5, tap=5, shut=5, grant=5, settle=5, peek=2, audit=5),
}

# How many lines of a hundred are no aimed calls: a call with one field at an
# edge, a frame with random fields, a damaged line.
ASTRAY = {"noise": (20, 30, 35)}
ASTRAY_ELSE = (5, 2, 4)


def frame(first, *fields):
    """The line of a frame."""
    text = "%02X" % first
    for length, field in zip(FIELDS[first], fields):
        text += "%0*X" % (2 * length, field & (1 << 8 * length) - 1)
    return text.encode()


def fields_of(line):
    """First byte and fields of a good line, or None."""
    if not 2 <= len(line) <= 80 or len(line) % 2 or line.strip(b"0123456789ABCDEF"):
        return None
    data = bytes.fromhex(line.decode())
    lengths = FIELDS.get(data[0])
    if lengths is None or len(data) != 1 + sum(lengths):
        return None
    fields, at = [], 1
    for length in lengths:
        fields.append(int.from_bytes(data[at:at + length], "big"))
        at += length
    return data[0], fields


class Reserve:
    def __init__(self, owner, parent, limit, level):
        self.owner, self.parent, self.limit, self.level = owner, parent, limit, level


class Sketch:
    """About what the node of a script is like by now."""

    def __init__(self, capacity, floor, part):
        self.capacity, self.floor, self.part = capacity, floor, part
        self.held = self.rest = self.serial = 0
        self.reserves = {0: Reserve(0, 0, G, 0)}
        self.taps = {}
        self.grants = {}
        self.reached = Counter()

    @staticmethod
    def built(first, fields):
        if first == 0x12:
            capacity, floor, part = sum(fields), 0, 0
        elif first == 0x11:
            capacity, floor, part = fields
        else:
            capacity, floor, part = fields[0], 0, 0
        return Sketch(capacity, floor, part) if capacity <= G and part <= 10_000 else None

    def available(self):
        return max(0, self.held - self.floor)

    def owner(self, reserve):
        return self.reserves[reserve].owner if reserve in self.reserves else 0

    def busy(self, number):
        return (any(r.parent == number for r in self.reserves.values())
                or any(number in tap[:2] for tap in self.taps.values())
                or any(number == grant[0] for grant in self.grants.values()))

    def follow(self, first, fields):
        """Does what the call would do, where it seems to be accepted."""
        getattr(self, "follow_%02x" % first, lambda *_: None)(*fields)

    def follow_01(self, task, parent, number, owner, limit, amount):
        giver = self.reserves.get(parent)
        if (giver and 1 <= number <= 31 and number not in self.reserves and limit <= G
                and giver.owner == task and amount <= min(limit, giver.level)):
            giver.level -= amount
            self.reserves[number] = Reserve(owner, parent, limit, amount)
            self.reached["31 reserves were opened"] += len(self.reserves) == 32

    def follow_02(self, task, number):
        gone = self.reserves.get(number)
        if gone and number and gone.owner == task and not self.busy(number):
            del self.reserves[number]
            self.reached["a reserve was closed into a full parent"] += self.give(gone.parent, gone.level)

    def follow_03(self, task, tap, source, sink, n, d):
        ends = self.reserves
        if (tap <= 95 and source in ends and sink in ends and source != sink and n <= 1_000_000
                and d and tap not in self.taps and ends[source].owner == task):
            self.taps[tap] = [source, sink, n, d, 0]
            self.reached["96 taps were opened"] += len(self.taps) == 96

    def follow_05(self, task, tap):
        if tap in self.taps and self.owner(self.taps[tap][0]) == task:
            del self.taps[tap]

    def follow_06(self, task, reserve, amount):
        giver = self.reserves.get(reserve)
        if not (giver and 1 <= amount <= G and giver.owner == task):
            return
        if len(self.grants) == 64:
            self.reached["a 65th grant was requested"] += 1
        elif amount <= min(giver.level, self.available()):
            giver.level -= amount
            self.held -= amount
            self.serial += 1
            self.grants[self.serial] = (reserve, amount)
        elif amount <= giver.level:
            self.reached["a floor refused"] += 1

    def follow_07(self, task, serial, used):
        reserve, amount = self.grants.get(serial, (None, 0))
        if reserve is None or self.owner(reserve) != task or used > amount:
            return
        del self.grants[serial]
        back = min(amount - used, self.capacity - self.held)
        self.held += back
        self.reached["a settlement found the store full"] += back < amount - used
        self.reached["a settlement found the reserve full"] += self.give(reserve, back)

    def follow_08(self, harvest):
        if harvest > G:
            return
        total = self.held * self.part + self.rest
        loss, self.rest = divmod(total, 10_000)
        self.held -= loss
        self.reached["a loss went beyond the root"] += loss > self.reserves[0].level
        for number in (0, *range(31, 0, -1)):
            if loss and number in self.reserves:
                borne = min(loss, self.reserves[number].level)
                self.reserves[number].level -= borne
                loss -= borne
        intake = min(harvest, self.capacity - self.held)
        self.reached["a harvest found the store full"] += intake < harvest
        self.held += intake
        self.reserves[0].level += intake
        for number in sorted(self.taps):
            tap = self.taps[number]
            source, sink = self.reserves[tap[0]], self.reserves[tap[1]]
            due, tap[4] = divmod(tap[2] + tap[4], tap[3])
            moved = min(due, source.level, sink.limit - sink.level)
            self.reached["a tap found its source too low"] += source.level < due
            self.reached["a tap found its sink too full"] += sink.limit - sink.level < due
            source.level -= moved
            sink.level += moved

    def give(self, reserve, amount):
        """Gives to a reserve and beyond its limit to the root; tells whether there was a beyond."""
        fits = min(amount, self.reserves[reserve].limit - self.reserves[reserve].level)
        self.reserves[reserve].level += fits
        self.reserves[0].level += amount - fits
        return fits < amount


class Script:
    """One random script: its text, and what the sketch saw on the way."""

    def __init__(self, random, lines):
        self.random = random
        self.sketch = None
        self.lines = []
        self.tasks = random.choice(((0,), (0, 7), (0, 1, 255), (0, 3, 3, 9)))
        self.chain = 0
        self.theme = random.choice(tuple(THEMES))
        self.write(lines)
        ending = b"" if random.random() < 0.2 else b"\n"
        self.text = b"\n".join(self.lines) + ending if self.lines else b""

    def write(self, lines):
        random = self.random
        while random.random() < 0.3:
            self.put(random.choice((self.random_frame, self.damaged, self.misbuilt))())
        if random.random() < 0.97:
            self.put(self.builder())
        if self.theme != "noise" and random.random() < 0.8:
            self.put(frame(0x08, random.choice((G, 100, 1000, 50_000))))
        sorts = tuple(THEMES[self.theme])
        weights = tuple(THEMES[self.theme].values())
        edge, astray, damage = ASTRAY.get(self.theme, ASTRAY_ELSE)
        for sort in random.choices(sorts, weights, k=random.randint(lines // 2, lines * 3 // 2)):
            place = random.randrange(100)
            if place < edge:
                line = self.edged(self.aimed(sort))
            elif place < edge + astray:
                line = self.random_frame()
            elif place < edge + astray + damage:
                line = self.damaged()
            else:
                line = self.aimed(sort)
            self.put(line)
        self.end()

    def end(self):
        """Tells every level, as far as a refusal can, and the books."""
        if self.sketch:
            for number in sorted(self.sketch.reserves):
                self.put(self.peek_at(number))
            self.put(frame(0x09))
        if self.random.random() < 0.3:
            self.put(self.damaged())

    def put(self, line):
        self.lines.append(line)
        parsed = fields_of(line)
        if parsed and parsed[0] in BUILDERS:
            self.sketch = self.sketch or Sketch.built(*parsed)
        elif parsed and self.sketch:
            self.sketch.follow(*parsed)

    # Builders

    def capacity(self):
        pick = self.random
        return pick.choice((0, 1, 2, 10, 100, 100, 1000, 1000, 50_000, G - 1, G, G,
                            pick.randint(0, 200), pick.randint(0, G)))

    def builder(self):
        pick = self.random
        first = pick.choice(BUILDERS)
        capacity = self.capacity()
        if first == 0x10:
            return frame(first, capacity)
        if first == 0x11:
            floor = pick.choice((0, 0, 1, 4, capacity // 2, capacity // 10, capacity // 3,
                                 max(0, capacity - 1), capacity, capacity + 1, G, TOP))
            part = pick.choice((0, 0, 1, 7, 10, 100, 333, 1000, 5000, 9999, 10_000))
            return frame(first, capacity, floor, part)
        cut = sorted((pick.randint(0, capacity), pick.randint(0, capacity)))
        cells = [cut[0], cut[1] - cut[0], capacity - cut[1]]
        return frame(first, *pick.choice((cells, (capacity, 0, 0), (0, 0, capacity), (0, capacity, 0))))

    def misbuilt(self):
        pick = self.random
        return pick.choice((
            frame(0x10, G + 1), frame(0x10, TOP),
            frame(0x11, G + 1, 0, 0), frame(0x11, 100, 4, 10_001), frame(0x11, TOP, TOP, 0xFFFF),
            frame(0x12, G, 1, 0), frame(0x12, 0, G, 1), frame(0x12, TOP, 1, 0), frame(0x12, TOP, 1, 100),
            frame(0x12, 0x80000000, 0x80000000, 5), frame(0x12, TOP, TOP, 2), frame(0x12, G + 1, 0, 0),
        ))

    # Aimed calls

    def aimed(self, sort):
        if self.sketch is None:
            return frame(0x09) if sort == "audit" else self.random_frame()
        return getattr(self, sort)()

    def task_for(self, reserve):
        return self.random.randrange(256) if self.random.random() < 0.03 else self.sketch.owner(reserve)

    def some_reserve(self):
        """An open reserve; one with a level is likelier."""
        pick, reserves = self.random, self.sketch.reserves
        filled = [number for number in reserves if reserves[number].level]
        if filled and pick.random() < 0.7:
            return pick.choice(filled)
        return pick.choice(tuple(reserves)) if pick.random() < 0.98 else pick.randrange(33)

    def free(self, used, first, last):
        free = [number for number in range(first, last + 1) if number not in used]
        if free and self.random.random() < 0.96:
            return self.random.choice(free)
        return self.random.randint(first, last)

    def level(self, reserve):
        return self.sketch.reserves[reserve].level if reserve in self.sketch.reserves else 0

    def open(self):
        pick = self.random
        parent = self.some_reserve()
        level = self.level(parent)
        limit = pick.choice((0, 1, 5, 20, 100, 1000, level, level // 2, G, G, pick.randint(0, G)))
        amount = pick.choice((0, 0, 1, 5, level, level // 2, level // 4, level + 1, limit, limit + 1,
                              min(level, limit), min(level, limit), min(level, limit, 20)))
        return frame(0x01, self.task_for(parent), parent, self.free(self.sketch.reserves, 1, 31),
                     pick.choice(self.tasks), limit, amount)

    def close(self):
        pick, sketch = self.random, self.sketch
        others = [number for number in sketch.reserves if number]
        idle = [number for number in others if not sketch.busy(number)]
        number = pick.choice(idle or others or (1,)) if pick.random() < 0.7 else pick.choice(others or (0,))
        return frame(0x02, self.task_for(number), number)

    def tap(self):
        pick, reserves = self.random, tuple(self.sketch.reserves)
        source, sink = self.some_reserve(), pick.choice(reserves)
        if self.theme == "chain" and len(reserves) > 1:
            source, sink = reserves[self.chain % len(reserves)], reserves[(self.chain + 1) % len(reserves)]
            self.chain += 1
        if source == sink and pick.random() < 0.9:
            sink = pick.choice(reserves)
        n = pick.choice((0, 1, 1, 2, 3, 7, 10, 100, 1000, 65_536, 999_999, 1_000_000))
        d = pick.choice((1, 1, 2, 3, 7, 10, 100, 65_534, 65_535))
        return frame(0x03, self.task_for(source), self.free(self.sketch.taps, 0, 95), source, sink, n, d)

    def shut(self):
        taps = self.sketch.taps
        number = self.random.choice(tuple(taps)) if taps else self.random.randrange(97)
        return frame(0x05, self.task_for(taps[number][0]) if taps else 0, number)

    def grant(self):
        pick = self.random
        reserve = self.some_reserve()
        level, available = self.level(reserve), self.sketch.available()
        reach = min(level, available)
        small = (1, 1, 1, 2, 3)
        wide = (level, level + 1, available, available + 1, reach, reach // 2, reach // 3, reach // 10,
                pick.randint(0, reach), min(level, available + 1), G, 0)
        few = self.theme == "grants" and pick.random() < 0.9
        return frame(0x06, self.task_for(reserve), reserve, pick.choice(small if few else small + wide))

    def settle(self):
        pick, grants = self.random, self.sketch.grants
        if not grants or pick.random() < 0.06:
            serial = pick.choice((0, 1, self.sketch.serial, self.sketch.serial + 1, TOP))
        else:
            serial = pick.choice(tuple(grants))
        reserve, amount = grants.get(serial, (0, 1))
        used = pick.choice((0, 0, 0, amount, amount, amount // 2, amount + 1, pick.randint(0, amount), TOP))
        return frame(0x07, self.task_for(reserve), serial, used)

    def tick(self):
        pick = self.random
        room = self.sketch.capacity - self.sketch.held
        harvest = pick.choice((0, 0, 1, 2, 10, 50, room // 2, room // 3, room, room + 1, G, pick.randint(0, G)))
        return frame(0x08, harvest)

    def peek(self):
        return self.peek_at(self.some_reserve())

    def peek_at(self, reserve):
        """A request for G, refused with the level's deficit; or an opening, where 64 grants are open."""
        sketch = self.sketch
        free = [number for number in range(1, 32) if number not in sketch.reserves]
        if len(sketch.grants) == 64 and free:
            return frame(0x01, sketch.owner(reserve), reserve, free[0], 0, G, G)
        return frame(0x06, sketch.owner(reserve), reserve, G)

    def audit(self):
        return frame(0x09)

    # Lines astray

    def edged(self, line):
        """A call with one field at an edge."""
        parsed = fields_of(line)
        if not parsed or not parsed[1]:
            return line
        first, fields = parsed
        place = self.random.randrange(len(fields))
        edges = {1: (0, 1, 30, 31, 32, 33, 94, 95, 96, 97, 127, 128, 255),
                 2: (0, 1, 2, 9999, 10_000, 10_001, 65_535),
                 4: EDGES + (999_999, 1_000_000, 1_000_001, fields[place] + 1, fields[place] - 1)}
        fields[place] = self.random.choice(edges[FIELDS[first][place]])
        return frame(first, *fields)

    def random_frame(self):
        pick = self.random
        first = pick.choice(tuple(FIELDS))
        if pick.random() < 0.2:
            return pick.randbytes(pick.randint(1, 40)).hex().upper().encode()
        return frame(first, *(
            pick.choice((pick.randrange(1 << 8 * length), pick.choice(EDGES), pick.randrange(32)))
            for length in FIELDS[first]))

    def damaged(self):
        pick = self.random
        line = self.aimed(pick.choice(("tick", "open", "tap", "grant", "settle", "audit"))) \
            if self.sketch else self.builder()
        at = pick.randrange(len(line))
        sort = pick.randrange(24)
        if sort < 8:  # one character is another, with all bytes but the line feed
            other = pick.choice(b"0123456789ABCDEFabcdefgGZ /:@[`\r\t\0\x7f\x80\xff\x0b\x1a+-xX")
            return line[:at] + bytes((other,)) + line[at + 1:]
        if sort < 18:
            return (
                line[:at], line[at:], line[:at] + line[at + 1:], line[:at] + b"0" + line[at:],
                line + b"00", line + b"\r", b" " + line, line + b" ", line.lower(), line + b"\0",
            )[sort - 8]
        if sort < 20:
            return pick.choice((b"", b"", b"0", b"\r", b" ", b"\0", b"\xff", b"00", b"04", b"04" + line[2:]))
        if sort < 21:
            return bytes(b for b in pick.randbytes(pick.randint(0, 100)) if b != 0x0A)
        length = pick.choice((78, 79, 80, 80, 81, 82, 83, 160, 162, 1000))
        if pick.random() < 0.02:
            length = pick.choice((65_535, 65_536, 65_537, 100_000))
        whole = (line * (length // len(line) + 1))[:length]
        return pick.choice((whole, b"0" * length, whole[:-1] + b"x", line + b"0" * (length - len(line))))


def lines_of(text):
    """The lines of a script: the last may lack its line feed, if it is not empty."""
    lines = text.split(b"\n")
    return lines if lines[-1] else lines[:-1]
