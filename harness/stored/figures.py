"""Boards for the figures and overheads."""
from stored.boards import EXECUTE, LONGEST, READ, WAYS, WRITE, board, cache, code_in, data_in, draws, executes

SETS = (1, 2, 3, 4, 5, 7, 8, 11, 16, 31, 63, 64, 65, 100, 128, 129, 192, 193, 255, 256)
HELD = (0, 1, 2, 5, 8, 300, 32767, 32768)


class Drawing:
    """Boards whose periods, deadlines and instructions are drawn, one after the other."""
    def __init__(self):
        self.draw = draws()

    def pick(self, xs): return xs[self.draw(len(xs))]

    def make(self, memory, tasks, cores=1):
        """tasks: (core, traces), with drawn periods and deadlines."""
        out = []
        for core, own in tasks:
            period = 1 + self.draw(LONGEST)
            out.append((core, period, 1 + self.draw(period), own))
        return board(cores, out, memory)

    def instruction(self, code, data):
        kind = self.pick((EXECUTE, EXECUTE, READ, READ, READ, WRITE))
        return self.pick(code), kind | self.pick((0, 1, self.draw(4096), 4095)) << 16 | (self.pick(data) if kind else 0)

    def blocks(self, count, low, limit):
        return sorted({min(low + self.draw(limit), 32767) for _ in range(count)})

    def random_board(self, memory, tasks, traces, length, cores):
        """Instructions over few blocks, so that blocks come back."""
        draw = self.draw
        few = 1 + draw(10)
        low = draw(memory[1] + 1) if memory[0] == 1 else draw(300)
        code = self.blocks(few, low, 12) + ([max(memory[1] - 1, 0), min(memory[1], 32767)] if memory[0] == 1 else [])
        data = [32768 + m for m in self.blocks(few, draw(memory[2] + 1), 9) + [max(memory[2] - 1, 0), min(memory[2], 32767)]]
        return self.make(memory, [
            (1 + draw(cores), [[self.instruction(code, data) for _ in range(1 + draw(length))] for _ in range(1 + draw(traces))])
            for _ in range(tasks)
        ], cores)

    def crowded(self, memory):
        """Blocks of one or two sets, about as many as there are ways; in two caches, sets with the same numbers in both."""
        draw = self.draw
        _, code_sets, data_sets, ways = memory
        data_sets = data_sets or code_sets
        most = max(ways, 1)
        places = [draw(min(code_sets, data_sets)) for _ in range(1 + draw(2))]
        code = [code_in(code_sets, s, k) for s in places for k in range(most + draw(2))]
        data = [data_in(data_sets, s, k) for s in places for k in range(1 + draw(most))]
        def traces(): return [[self.instruction(code, data) for _ in range(2 + draw(4 * most))] for _ in range(1 + draw(2))]
        return self.make(memory, [(1 + draw(2), traces()) for _ in range(2 + draw(4))], 2)


def chosen_boards(make):
    # K9, K10 and K11
    boards = [make(cache(4), [(1, [executes(0, 1, 0)])]), make(cache(4), [(1, [executes(0, 4, 0)])])]
    boards += [make(cache(4), [(1, [executes(m)]), (1, [executes(0, 1, 0)])]) for m in (4, 5)]

    # the useful sets of two points, none of which has those of the other; the same task on another core
    apart = executes(0, 1, 0, 1, 2, 3, 2, 3)
    boards += [make((2, 8, 0), [(1, [executes(0, 9, 2, 11)]), (core, [apart]), (1, [apart, executes(5)])], 2) for core in (1, 2)]

    # a fetch and a read in one set, a write to it, and a block that is written and then read
    for c in (1, 2, 3):
        boards += [make((2, c, 0), [(1, [[(0, WRITE + 32768)]]), (1, [[(0, kind + (7 << 16) + 32768), (0, other + (5 << 16) + 32768), (1, READ + (3 << 16) + 32769), (0, READ + 32768)]])])
                   for kind in (READ, WRITE) for other in (READ, WRITE)]
    return boards


def figure_boards():
    drawing = Drawing()
    draw, pick, make, random_board = drawing.draw, drawing.pick, drawing.make, drawing.random_board
    boards = chosen_boards(make)

    # drawn boards: every kind of memory
    boards += [random_board((0, 0, 0), 1 + draw(4), 3, 6, 1 + draw(3)) for _ in range(45)]
    boards += [random_board((1, pick(HELD), pick(HELD)), 1 + draw(4), 3, 6, 1 + draw(3)) for _ in range(60)]
    boards += [random_board((2, pick(SETS), 0), 2 + draw(5), 3, 9, 1 + draw(3)) for _ in range(150)]
    boards += [random_board((2, c, 0), 3, 2, 30, 1) for c in SETS]

    # many tasks, many traces, the longest trace
    boards += [random_board((2, 16, 0), 64, 1, 3, 1), random_board((2, 256, 0), 64, 2, 2, 8), random_board((2, 5, 0), 7, 8, 5, 2)]
    long = [(p * 37 % 211, READ + (4095 << 16) + 32768 + p % 5) for p in range(1024)]
    boards += [make(memory, [(1, [executes(*range(0, 200, 3))]), (1, [long])]) for memory in ((0, 0, 0), (1, 3, 4), (2, 256, 0))]

    # caches of every number of ways
    boards += [drawing.crowded(cache(sets, ways)) for sets in (1, 2, 3, 5, 16, 64, 65, 128, 255, 256) for ways in WAYS]
    return boards + [make(cache(32, 8), [(1, [executes(*range(0, 200, 3))]), (1, [long])])]
