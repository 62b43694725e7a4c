"""An independent interpreter of programs, written from docs/FORMAT.md and docs/RULES.md alone.

It works on flat tables, one row a statement and one entry a thread, where the definitions work on a tree.
Its numbers are compared with those of the definitions, and it serves as a second opinion in tests.
It can be told to make one of five slips, to see which numbers the slip changes.
"""
from dataclasses import dataclass, field

LOWEST, HIGHEST = -2 ** 31, 2 ** 31 - 1
NOTHING, SET, PAUSE, IF, LOOP, PAR, ABORT = range(7)
INPUT, PRIVATE, SHARED, OUTPUT = range(4)
LONGEST_TICK = 60000

# Slips of hurried work; a machine makes none unless it is told to.
STORES_FOR_COPIES = "reading stores instead of copies"
ORDER_OF_ARRIVAL = "joining in order of arrival"
PAST_ARMS_COUNTED = "counting a past arm in a join"
OUTERMOST_ABORT = "ending the outermost weak abort"
FLAT_JOINS = "flattening nested joins"
SLIPS = [STORES_FOR_COPIES, ORDER_OF_ARRIVAL, PAST_ARMS_COUNTED, OUTERMOST_ABORT, FLAT_JOINS]


def saturate(n):
    return max(LOWEST, min(HIGHEST, n))


def signed(bs):
    return int.from_bytes(bytes(bs), "little", signed=True)


@dataclass
class Variable:
    kind: int
    policy: int
    operator: int
    owner: int
    initial: int
    low: int
    high: int

    def limited(self, n):
        return max(self.low, min(n, self.high))


@dataclass
class Row:
    form: int
    thread: int
    inside: object = None      # the statement round it in the same thread, with which of its blocks
    next: object = None        # the statement after it in its block
    byte: int = 0
    code: bytes = b""
    firsts: list = field(default_factory=list)   # the first statement of each of its blocks
    arms: list = field(default_factory=list)


class Program:
    """Rows of an accepted program, in reading order."""

    def __init__(self, data):
        count = data[0]
        self.variables = []
        for k in range(count):
            d = data[1 + 16 * k: 17 + 16 * k]
            self.variables.append(Variable(*d[:4], signed(d[4:8]), signed(d[8:12]), signed(d[12:16])))
        self.rows = []
        self.parent = {0: None}          # a thread's par
        self.first = {}                  # a thread's first statement
        self.first[0] = self.block(data[1 + 16 * count:], 0, None)

    def shared(self):
        return [v for v, d in enumerate(self.variables) if d.kind in (SHARED, OUTPUT)]

    def block(self, bs, thread, inside):
        first = previous = None
        while bs:
            number, bs = self.statement(bs, thread, inside)
            if previous is None:
                first = number
            else:
                self.rows[previous].next = number
            previous = number
        return first

    def statement(self, bs, thread, inside):
        number = len(self.rows)
        row = Row(bs[0], thread, inside)
        self.rows.append(row)
        at = 1
        if row.form in (SET, LOOP, ABORT):
            row.byte = bs[at]
            at += 1
        if row.form in (SET, IF, LOOP, ABORT):
            row.code = bytes(bs[at + 1: at + 1 + bs[at]])
            at += 1 + bs[at]
        sizes = []
        for _ in range({IF: 2, PAR: 2, LOOP: 1, ABORT: 1}.get(row.form, 0)):
            sizes.append(bs[at] + 256 * bs[at + 1])
            at += 2
        for which, size in enumerate(sizes):
            part = bs[at: at + size]
            at += size
            if row.form == PAR:
                arm = len(self.parent)
                self.parent[arm] = number
                row.arms.append(arm)
                self.first[arm] = self.block(part, arm, None)
            else:
                row.firsts.append(self.block(part, thread, (number, which)))
        return number, bs[at:]

    # tick length

    def length(self):
        return self.block_length(self.first[0]) + 1

    def accepted(self):
        """Whether the tick length allows the program; the other rules of reading are not checked here."""
        return self.length() <= LONGEST_TICK

    def block_length(self, number):
        total = 0
        while number is not None:
            total += self.statement_length(self.rows[number])
            number = self.rows[number].next
        return total

    def statement_length(self, row):
        blocks = [self.block_length(n) for n in row.firsts] + [self.block_length(self.first[a]) for a in row.arms]
        if row.form == IF:
            return 1 + max(blocks)
        if row.form == LOOP:
            return (row.byte + 1) + row.byte * blocks[0] if row.byte else 1 + 2 * blocks[0]
        if row.form == PAR:
            return 3 + sum(blocks)
        return 1 + sum(blocks)


class Machine:
    """A loaded program with its stores and threads; values are plain numbers."""

    def __init__(self, data, slip=None):
        self.slip = slip
        self.program = Program(data)
        p = self.program
        self.stores = [d.initial for d in p.variables]
        threads = len(p.parent)
        self.copies = [[0] * len(p.variables) for _ in range(threads)]
        self.marks_of_sets = [[False] * len(p.variables) for _ in range(threads)]
        self.state = [("out", None)] * threads
        self.state[0] = ("fresh", None)
        self.passes = [0] * len(p.rows)
        self.mark = [False] * len(p.rows)
        self.count = 0
        self.arrived = [0] * threads     # the last step or join of each thread; only a slip asks

    # values

    def read(self, thread, v):
        if self.program.variables[v].kind in (SHARED, OUTPUT) and self.slip != STORES_FOR_COPIES:
            return self.copies[thread][v]
        return self.stores[v]

    def evaluate(self, thread, code):
        stack, i = [], 0
        while i < len(code):
            c = code[i]
            if c == 0x40:
                stack.append(signed(code[i + 1: i + 5]))
                i += 5
                continue
            if c == 0x41:
                stack.append(self.read(thread, code[i + 1]))
                i += 2
                continue
            if c == 0x49:
                stack.append(int(stack.pop() == 0))
            else:
                y, x = stack.pop(), stack.pop()
                stack.append({0x42: lambda: saturate(x + y), 0x43: lambda: saturate(x - y), 0x44: lambda: saturate(x * y),
                              0x45: lambda: min(x, y), 0x46: lambda: max(x, y), 0x47: lambda: int(x < y), 0x48: lambda: int(x == y)}[c]())
            i += 1
        assert len(stack) == 1
        return stack[0]

    def holds(self, thread, row):
        return self.evaluate(thread, row.code) != 0

    # going on

    def arrive(self, thread, number):
        """The thread is ready at a statement that it comes to from above."""
        if number is not None and self.program.rows[number].form == LOOP:
            self.passes[number] = self.program.rows[number].byte
        self.state[thread] = ("ready", number)

    def go_on(self, thread, number, inside):
        """The thread goes on at a statement; None is the end of the block inside which it is."""
        while number is None and inside is not None:
            outer = self.program.rows[inside[0]]
            if outer.form == LOOP:
                self.state[thread] = ("ready", inside[0])
                return
            number, inside = outer.next, outer.inside
        self.arrive(thread, number)

    def enter(self, thread, number, which):
        self.go_on(thread, self.program.rows[number].firsts[which], (number, which))

    def after(self, thread, number):
        row = self.program.rows[number]
        self.go_on(thread, row.next, row.inside)

    def below(self, thread):
        found = []
        for arm, par in self.program.parent.items():
            if par is not None and self.program.rows[par].thread == thread:
                found += [arm] + self.below(arm)
        return found

    def all_out(self, thread):
        for t in self.below(thread):
            self.state[t] = ("out", None)

    def aborts_round(self, number):
        found, inside = [], self.program.rows[number].inside
        while inside is not None:
            if self.program.rows[inside[0]].form == ABORT:
                found.append(inside[0])
            inside = self.program.rows[inside[0]].inside
        return found

    def stop(self, thread, state, number):
        """The thread becomes paused or held, unless its innermost weak abort with mark 1 ends."""
        aborts = self.aborts_round(number)
        for a in reversed(aborts) if self.slip == OUTERMOST_ABORT else aborts:
            if self.program.rows[a].byte & 1 and self.mark[a]:
                self.all_out(thread)
                self.after(thread, a)
                return
        self.state[thread] = (state, number)

    # opening

    def open(self, readings=()):
        readings = list(readings)
        for v, d in enumerate(self.program.variables):
            if d.kind == INPUT:
                self.stores[v] = d.limited(readings.pop(0))
        self.count = 0
        for t in range(len(self.state)):
            self.open_thread(t)

    def open_thread(self, t):
        state, number = self.state[t]
        if state in ("fresh", "paused", "held"):
            for v in self.program.shared():
                self.copies[t][v] = self.stores[v]
            self.marks_of_sets[t] = [False] * len(self.program.variables)
        if state == "fresh":
            self.arrive(t, self.program.first[0])
        elif state == "ended" and t != 0:
            self.state[t] = ("past", None)
        elif state in ("paused", "held"):
            for a in reversed(self.aborts_round(number)):
                row = self.program.rows[a]
                self.mark[a] = self.holds(t, row)
                if self.mark[a] and not row.byte & 1:
                    self.all_out(t)
                    self.after(t, a)
                    return
            if state == "paused":
                self.after(t, number)
            else:
                self.state[t] = ("waiting", number)

    # steps

    def step(self, t):
        state, number = self.state[t]
        assert state == "ready"
        self.count += 1
        if number is None:
            self.state[t] = ("ended", None)
        else:
            self.act(t, number, self.program.rows[number])
        self.join_above(t)

    def act(self, t, number, row):
        if row.form == NOTHING:
            self.after(t, number)
        elif row.form == SET:
            d = self.program.variables[row.byte]
            value = d.limited(self.evaluate(t, row.code))
            if d.kind == PRIVATE:
                self.stores[row.byte] = value
            else:
                self.copies[t][row.byte] = value
                self.marks_of_sets[t][row.byte] = True
            self.after(t, number)
        elif row.form == PAUSE:
            self.stop(t, "paused", number)
        elif row.form == IF:
            self.enter(t, number, 0 if self.holds(t, row) else 1)
        elif row.form == LOOP:
            if self.holds(t, row) and (row.byte == 0 or self.passes[number] > 0):
                if row.byte:
                    self.passes[number] -= 1
                self.enter(t, number, 0)
            else:
                self.after(t, number)
        elif row.form == PAR:
            self.state[t] = ("waiting", number)
            for arm in row.arms:
                for v in self.program.shared():
                    self.copies[arm][v] = self.copies[t][v]
                self.marks_of_sets[arm] = [False] * len(self.program.variables)
                self.arrive(arm, self.program.first[arm])
        elif row.form == ABORT:
            self.mark[number] = bool(row.byte & 2) and self.holds(t, row)
            if self.mark[number] and not row.byte & 1:
                self.after(t, number)
            else:
                self.enter(t, number, 0)

    def join_above(self, t):
        while self.program.parent[t] is not None:
            self.arrived[t] = self.count
            par = self.program.parent[t]
            row = self.program.rows[par]
            parent = row.thread
            if self.state[parent] != ("waiting", par):
                return
            if any(self.state[a][0] not in ("paused", "held", "ended", "past") for a in row.arms):
                return
            self.join(parent, row.arms)
            if all(self.state[a][0] in ("ended", "past") for a in row.arms):
                for a in row.arms:
                    self.state[a] = ("out", None)
                self.after(parent, par)
            else:
                self.stop(parent, "held", par)
            t = parent

    def join(self, parent, arms):
        if self.slip != PAST_ARMS_COUNTED:
            arms = [a for a in arms if self.state[a][0] != "past"]
        if self.slip == ORDER_OF_ARRIVAL:
            arms = sorted(arms, key=lambda a: self.arrived[a])
        for v in self.program.shared():
            d = self.program.variables[v]
            before = self.copies[parent][v]
            taken = [self.copies[a][v] for a in arms
                     if d.policy == 0 or (d.policy == 1 and self.copies[a][v] != before) or (d.policy == 2 and self.marks_of_sets[a][v])]
            if len(taken) == 1:
                self.copies[parent][v] = taken[0]
            elif len(taken) == 2:
                x, y = taken
                combined = [saturate(x + y), min(x, y), max(x, y), x][d.operator]
                self.copies[parent][v] = combined if self.slip == FLAT_JOINS and parent != 0 else d.limited(combined)
            for a in arms:
                self.marks_of_sets[parent][v] = self.marks_of_sets[parent][v] or self.marks_of_sets[a][v]

    # closing

    def ready(self):
        return [t for t, s in enumerate(self.state) if s[0] == "ready"]

    def close(self):
        assert self.state[0][0] in ("paused", "held", "ended") and not self.ready()
        for v in self.program.shared():
            self.stores[v] = self.copies[0][v]
        return self.count

    def tick(self, readings=(), pick=min):
        self.open(readings)
        while self.ready():
            self.step(pick(self.ready()))
        return self.close()
