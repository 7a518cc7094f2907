"""Boards for the checks of rows 1 to 9."""
from stored.boards import K1, LONGEST, NO_WAYS, READ, TOP, WAYS, WORDS, WRITE, board, draws, edit, executes, fetches_at, lengths_at, works_at

FAULTS = {
    2: lambda b: edit(b, (19, 1)),
    3: lambda b: b + [0],
    4: lambda b: edit(b, (24, b[22] + 1)),
    5: lambda b: edit(b, (23, b[23] + 1)),
    6: lambda b: edit(b, (lengths_at(b), 1025)),
    7: lambda b: edit(b, (lengths_at(b), b[lengths_at(b)] + 1)),
    8: lambda b: edit(b, (works_at(b) - 1, 32768)),
    9: lambda b: edit(b, (works_at(b), 3 << 28)),
}
# both ends of every range that a header word has
EDGES = (0, 1, 2, 3, 4, 5, 8, 9, 64, 65, 255, 256, 257, 512, 513, 8192, 8193, 32768, 32769, 65535, 65536, LONGEST, LONGEST + 1, TOP)


def refused_k1():
    """K1 cut short, and with a fault of each row from 2 to 9."""
    return [[], K1[:19]] + [fault(K1) for fault in FAULTS.values()]


def maker(draw):
    """Makes boards of tasks (core, T, D, lengths of traces), with drawn instructions."""
    def trace(length):
        out = []
        for _ in range(length):
            kind = draw(3)
            out.append((draw(32768), kind << 28 | draw(4096) << 16 | (32768 + draw(32768) if kind else 0)))
        return out

    def make(cores, tasks, memory=(0, 0, 0), bus=(0, 0), refresh=(0, 0, 0, 0), access=1):
        return board(cores, [(c, t, d, [trace(n) for n in lengths]) for c, t, d, lengths in tasks], memory, bus, refresh, access, 3)
    return make


def plain(n, lengths):
    """n equal tasks whose instructions are executes of block 0."""
    own = len(lengths) // n
    return board(8, [(1, LONGEST, 1, [executes(*[0] * m) for m in lengths[own * k:own * k + own]]) for k in range(n)], limit=2)


def board_lengths():
    """K1, and every length near 0, 20 and its own."""
    return [K1, *(K1[:n] for n in (0, 1, 18, 19, 20, 21, 30, 37)), K1 + [0], K1 + [0] * 20, K1[:19] + [9], [0] * 20]


def header_words(make):
    """Every header word on its own."""
    wide = make(8, [(1, 9, 9, [1])])
    return [edit(wide, (i, x)) for i in range(20) for x in EDGES]


def words_by_others():
    """Header words that depend on another one."""
    boards = [edit(K1, (5, kind), (6, v)) for kind in range(6) for v in (0, 1, 8, 9)]
    for kind in range(4):
        for i, rest in ((9, (10, 1)), (9, (10, 0)), (10, (9, 1)), (10, (9, 0))):
            high = LONGEST if i == 9 else 65535
            boards += [edit(K1, (8, kind), rest, (i, x)) for x in (0, 1, high, high + 1)]
        boards += [edit(K1, (8, kind), (9, 1), (10, 1), (11, x)) for x in (0, 1, 255, 256)] + [edit(K1, (8, kind), (11, x)) for x in (0, 1)]
        boards += [edit(K1, (4, kind), (13, x), (14, y)) for x in (0, 1, 256, 257, 32768, 32769) for y in (0, 1, 32768, 32769)]
    return boards


def task_words(make, many):
    """Every word of every task; two words of a task out of range, and the same word of two tasks."""
    boards = [many]
    for k in range(4):
        at = 20 + 5 * k
        period, deadline = many[at + 1], many[at + 2]
        boards += [edit(many, (at, x)) for x in (0, 1, 3, 4, TOP)]
        boards += [edit(many, (at + 1, x), (at + 2, y)) for x, y in ((0, 0), (0, 1), (1, 1), (1, 2), (LONGEST, LONGEST), (LONGEST + 1, 1), (TOP, TOP))]
        boards += [edit(many, (at + 2, x)) for x in (0, 1, period - 1, period, period + 1, TOP)] + [edit(many, (at + 1, deadline - 1))]
        boards += [edit(many, (at + 3, x)) for x in (0, 1, 2, 8, 9, TOP)]
        boards += [edit(many, (at + 4, x)) for x in (1, TOP)]
    boards += [make(1, [(1, 9, 9, [1] * n)]) for n in (1, 8, 9)] + [make(n, [(n, 9, 9, [1])]) for n in range(1, 10)]
    return boards + [edit(many, (20 + i, 0), (20 + j, TOP)) for i, j in ((0, 1), (1, 2), (2, 3), (3, 4), (4, 5), (1, 6), (8, 13), (9, 19))]


def rows_5_to_9(many):
    # row 5: the counts do not sum to q; row 7: the lengths do not sum to g
    boards = [edit(many, (23, x), (28, y)) for x, y in ((1, 2), (2, 1), (2, 2), (1, 1), (1, 3), (8, 8))]
    first = lengths_at(many)
    boards += [edit(many, (first, x), (first + 1, y)) for x, y in ((1, 2), (2, 1), (2, 2), (1, 1), (1, 1024), (1024, 1024), (3, 1))]
    boards += [edit(many[:-2], (3, many[3] - 1)), edit(many + [0, 0], (3, many[3] + 1)), edit(many[:first] + [1] + many[first:], (2, many[2] + 1))]

    # row 6: trace lengths
    boards += [plain(1, lengths) for lengths in ([1024], [1025], [1, 1024], [1, 1025])]
    boards += [edit(many, (i, x)) for i in (first, first + 1, fetches_at(many) - 1) for x in (0, 1024, 1025, TOP)]
    boards += [edit(many, (first + 1, 0), (first, 1025)), edit(many, (first, 0), (first + 1, 1025))]

    # row 8: fetch words
    boards += [edit(many, (i, x)) for i in (fetches_at(many), fetches_at(many) + 5, works_at(many) - 1) for x in (0, 32767, 32768, 65535, 65536, TOP)]

    # row 9: every kind with every kind of block
    for i, kinds, cycles in ((works_at(many), range(16), 4095), (len(many) - 1, (0, 1, 2, 3, 15), 0)):
        boards += [edit(many, (i, kind << 28 | cycles << 16 | block)) for kind in kinds for block in (0, 1, 32767, 32768, 65535)]
    return boards


def two_rows(many):
    """Two rows that refuse: the first one is named."""
    return [b for i, one in FAULTS.items() for b in [one(many), *(one(two(many)) for j, two in FAULTS.items() if i < j)]]


def drawn_boards(draw, make):
    """Boards of 2 to 8 cores and several tasks, as drawn and with one or two words damaged."""
    def random_board():
        cores = 2 + draw(7)
        tasks = []
        for _ in range(2 + draw(5)):
            period = 1 + draw(LONGEST)
            tasks.append((1 + draw(cores), period, 1 + draw(period), [1 + draw(4) for _ in range(1 + draw(3))]))
        memory = [(0, 0, 0), (1, draw(32769), draw(32769)), (2, 1 + draw(256), 0)][draw(3)]
        bus = [(0, 0), (1, 0), (2, 0), (3, 1 + draw(8)), (4, 1 + draw(8))][draw(5)]
        kind = draw(3)
        refresh = (kind, 1 + draw(LONGEST), 1 + draw(65535), draw(256)) if kind else (0, 0, 0, 0)
        return make(cores, tasks, memory, bus, refresh, 1 + draw(255))

    boards = []
    for _ in range(30):
        b = random_board()
        boards.append(b)
        for count in (1, 1, 1, 2):
            boards.append(edit(b, *((draw(len(b)), (0, 1 + draw(9), draw(70000), draw(2**32), TOP)[draw(5)]) for _ in range(count))))
    return boards


def longest_boards():
    full = plain(64, [16] * 86 + [15] * 426)
    assert len(full) == WORDS
    return [
        full, full[:-1], full + [0], full + [0] * 2, [0] * WORDS, [0] * (WORDS + 1), K1 + [0] * (WORDS - 38), plain(1, [1024] * 7 + [1007]),
        edit(full, (WORDS - 1, 1)), edit(full, (WORDS - 1, READ | 32768)), edit(full, (WORDS - 1, WRITE | 32767)), edit(full, (works_at(full) - 1, 32768)),
        edit(full, (fetches_at(full) - 1, 0)), edit(full, (fetches_at(full) - 1, 16)), edit(full, (lengths_at(full) - 1, 1)), edit(full, (lengths_at(full) - 2, 7)),
    ]


def word_15(make):
    """Word 15 with every kind of memory, beside faults of the words around it, and before those of the rows after 2."""
    kinds = [make(2, [(1, 9, 9, [1])], memory) for memory in ((0, 0, 0), (1, 5, 6), (2, 5, 0), (3, 5, 6))]
    boards = [edit(b, (15, x)) for b in kinds for x in WAYS + NO_WAYS]
    for x in (0, 3, 8, 9):
        cached = edit(kinds[2], (15, x))
        boards += [edit(cached, (at, y)) for at, y in ((4, 0), (4, 1), (13, 0), (13, 256), (13, 257), (14, 1), (16, 1), (17, 1), (18, 1), (19, 1))]
        boards += [fault(cached) for fault in FAULTS.values()]
    return boards


def refusal_boards():
    draw = draws()
    make = maker(draw)
    boards = [*board_lengths(), *header_words(make), *words_by_others()]
    many = make(3, [(1, 100, 90, [1]), (3, 50, 50, [2, 1]), (2, LONGEST, LONGEST, [1] * 8), (2, 1, 1, [3])], (2, 16, 0), (3, 8), (2, 20, 3, 255), 7)
    boards += [*task_words(make, many), *rows_5_to_9(many), *two_rows(many)]
    return [*boards, *drawn_boards(draw, make), *longest_boards(), *word_15(make)]
