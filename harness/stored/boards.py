"""Boards from their parts, and the parts."""

WORDS = 16384
LONGEST = 268435455
TOP = 4294967295
EXECUTE, READ, WRITE = 0, 1 << 28, 2 << 28


def board(cores, tasks, memory=(0, 0, 0), bus=(2, 0), refresh=(0, 0, 0, 0), access=1, limit=9):
    """memory: words 4, 13 and 14, and 15 where it is not 0. tasks: (core, T, D, traces), a trace a list of instructions (fetch word, work word)."""
    traces = [trace for task in tasks for trace in task[3]]
    body = [x for trace in traces for x in trace]
    header = [cores, len(tasks), len(traces), len(body), memory[0], *bus, access, *refresh, limit, *memory[1:]]
    header += [0] * (20 - len(header))
    words = [w for core, period, deadline, own in tasks for w in (core, period, deadline, len(own), 0)]
    return header + words + [len(t) for t in traces] + [f for f, _ in body] + [w for _, w in body]


def edit(words, *changes):
    out = list(words)
    for at, x in changes:
        out[at] = x
    return out


def lengths_at(b): return 20 + 5 * b[1]
def fetches_at(b): return lengths_at(b) + b[2]
def works_at(b): return fetches_at(b) + b[3]


def executes(*fetches): return [(m, EXECUTE) for m in fetches]


# words 5 and 6 with every bus
BUSES = ((0, 0), (1, 0), (2, 0), (3, 2), (4, 1))
# what word 15 can be with a cache, and what it cannot be
WAYS = (0, 1, 2, 4, 8)
NO_WAYS = (3, 5, 6, 7, 9, 15, 16, 17, 32, 256, 1 << 16, 1 << 31, TOP)


def cache(sets, ways=0): return 2, sets, 0, ways
def caches(code, data, ways=0): return 3, code, data, ways


def placed(words, memory):
    """The same board with another memory."""
    return edit(words, (4, memory[0]), *enumerate(memory[1:], 13))


def code_in(sets, s, k):
    """Block k, from 0, of the code blocks in set s."""
    return s + sets * k


def data_in(sets, s, k):
    return 32768 + (s - 32768) % sets + sets * k


def draws():
    """Numbers below n, from a fixed sequence."""
    state = 1

    def draw(n):
        nonlocal state
        state = (1664525 * state + 1013904223) % 2**32
        return (state >> 8) % n
    return draw


K1 = board(2, [(1, 100, 100, [[(0, 2 << 16), (1, READ + (3 << 16) + 32768)]]), (2, 60, 60, [[(2, WRITE + (4 << 16) + 32769)]])], bus=(3, 1), access=5, limit=100)
assert K1[32:] == [0, 1, 2, 131072, 268664832, 537165825]
K8 = edit(K1, (5, 4), (8, 2), (9, 20), (10, 1), (11, 3))


def few_tasks(n, last, memory, bus, refresh):
    """The first n of three tasks, on core 1, on core 2 and on the core `last`."""
    turn = [(0, 2 << 16), (1, READ + (2 << 16) + 32768), (0, 1 << 16)]
    two = [turn + turn[:1], [(2, WRITE + (9 << 16) + 32769)]]
    return board(3, [(1, 120, 120, [turn]), (2, 150, 150, [turn[1:]]), (last, 400, 400, two)][:n], memory, bus, refresh, 5, 100)


def equal_tasks(n):
    return board(1, [(1, 900, 900, [executes(0)])] * n)
