"""Code and data caches of their own: their boards, and the calls made on each."""
from stored.boards import BUSES, K1, LONGEST, READ, TOP, WAYS, WRITE, board, cache, caches, code_in, data_in, edit, executes, few_tasks, placed
from stored.calls import all_calls, analyse, analyse_of_3, figures_of_3, figures_of_64, gammas, in_order, lent, overhead, page, verdict, weighs
from stored.figures import SETS, Drawing
from stored.files import distinct
from stored.orders import orders
from stored.reference import ask, last_time, passes
from stored.refusals import FAULTS

# the sets of the code and of the data
PAIRS = ((1, 1), (2, 3), (3, 2), (4, 5), (5, 4), (1, 256), (256, 1), (255, 256), (256, 255), (256, 256))
ENDS = (0, 1, 2, 255, 256, 257)
REFRESHES = ((0, 0, 0, 0), (1, 200, 2, 3), (2, 50, 3, 2))

# K1 in two caches, and with a fault of a word that two caches have
APART = placed(K1, caches(4, 5))
REFUSED = {
    'memory_4': edit(APART, (4, 4)),
    'code_sets_0': edit(APART, (13, 0)),
    'code_sets_257': edit(APART, (13, 257)),
    'data_sets_0': edit(APART, (14, 0)),
    'data_sets_257': edit(APART, (14, 257)),
    'data_sets_in_one_cache': edit(APART, (4, 2)),
    'two_caches_of_3_ways': edit(APART, (15, 3)),
}


def refusals():
    """Words 13 and 14 with every kind of memory and with kinds that there are not; word 15 with two caches; beside faults of the words around them, and
    before those of the rows after 2."""
    boards = [edit(K1, (4, memory), (13, code), (14, data)) for memory in (0, 1, 2, 3, 4, TOP) for code in ENDS for data in ENDS]
    boards += [edit(APART, (at, x)) for at in (13, 14) for x in (128, 258, 512, 32768, 32769, 1 << 16, TOP)]
    boards += [edit(placed(K1, caches(256, 1)), (15, x)) for x in (*WAYS, 3, 5, 6, 7, 9, 16, TOP)]
    around = ((4, 0), (4, 1), (4, 2), (5, 5), (6, 0), (7, 0), (8, 3), (12, 0), (13, 0), (13, 257), (14, 0), (14, 257), (15, 8), (15, 9), (16, 1), (17, 1), (19, 1))
    for words in (APART, *REFUSED.values()):
        boards += [edit(words, change) for change in around] + [fault(words) for fault in FAULTS.values()]
    return boards


class Blocks:
    """Blocks of code and of data in the sets of the same numbers, counted down from the last one that both caches have."""
    def __init__(self, code, data, ways):
        self.code_sets, self.data_sets, self.most = code, data, max(ways, 1)
        self.last = min(code, data) - 1

    def code(self, k, down=0): return code_in(self.code_sets, (self.last - down) % self.code_sets, k)
    def data(self, k, down=0): return data_in(self.data_sets, (self.last - down) % self.data_sets, k)

    def apart(self, j):
        """Code and data block j, in sets of their own where there are enough."""
        return self.code(3 * j, j), self.data(3 * j, j)

    @property
    def home(self):
        """A code block in another set than the others, where there is one."""
        return self.code(90, min(3, self.code_sets - 1))


def two_traces(b):
    """Traces over these blocks."""
    each = [*range(b.most)]
    def fetches(*ks): return executes(*map(b.code, ks))
    def data(kind, *ks): return [(b.home, kind + (k << 16) + b.data(k)) for k in ks]
    def pairs(ks, js): return [(b.code(k), READ + b.data(j)) for k, j in zip(ks, js)]
    (c0, d0), (c1, d1), (c2, d2) = map(b.apart, range(3))
    home = b.home
    return [
        # as many blocks of code and of data as fill a set of each cache, and each again
        pairs(each + each, each + each),
        # one block more than these of the one in a cycle, and always the same block of the other
        pairs([*each, b.most] * 3, [0] * 3 * (b.most + 1)),
        pairs([0] * 3 * (b.most + 1), [*each, b.most] * 3),
        # first code is useful, then data; and the other way round, with half as many blocks of code
        fetches(*each, *each) + data(READ, *each, *each),
        data(READ, *each, *each) + fetches(*each[:(b.most + 1) // 2] * 2),
        # the most of the code, then the most of both together, two and two, then the most of the data, each at a point of its own
        executes(c0, c1, c2, c0) + [(home, READ + d0), (home, READ + d1)] + executes(c1) + [(c2, READ + d2)] + [(home, READ + d) for d in (d0, d1, d2)],
        # a write neither loads a block nor makes it the last one used, and code of the set changes nothing in the data's
        data(READ, *each) + data(WRITE, 0, b.most) + fetches(*each, b.most) + data(READ, b.most, *each),
        # reads of one block between fetches of one block, and a write to the set
        [(c0, READ + b.data(0)), (c0, WRITE + b.data(1)), (c0, READ + b.data(0)), (home, WRITE + b.data(0))] * 2,
    ]


def disturbers(b):
    """A task that fetches from the sets of the traces, and one that writes to them and fetches from another set."""
    return executes(*(b.code(91, down) for down in range(3))), [(b.home, WRITE + b.data(91, down)) for down in range(3)]


def two_caches_board(code, data, ways, turn):
    """Each trace on a core of its own, below a task that disturbs its code and one that disturbs its data, on every other core in the other order."""
    b = Blocks(code, data, ways)
    tasks = []
    for core, trace in enumerate(two_traces(b), 1):
        above = disturbers(b)
        tasks += [(core, 90000, 90000, [own]) for own in (*(above if (core + turn) % 2 else above[::-1]), trace)]
    return board(8, tasks, caches(code, data, ways), limit=100)


def all_pairs():
    return [two_caches_board(code, data, ways, k) for k, (code, data) in enumerate(PAIRS) for ways in WAYS]


def small_two_caches():
    """The traces in boards of three tasks, for the calls that are lent a table of three records."""
    for turn, ways in enumerate(WAYS):
        sets = (4, 5)[::1 if turn % 2 else -1]
        b = Blocks(*sets, ways)
        for k, trace in enumerate(two_traces(b)):
            above = disturbers(b)[::1 if k % 2 else -1]
            yield board(1, [(1, 500, 500, [above[0]]), (1, 700, 700, [above[1]]), (1, 2000, 2000, [trace])], caches(*sets, ways), access=3, limit=100)


def beside_one_cache():
    """Boards in two caches, each with the same one in one cache, that of the code, a pair for each bus and number of ways: the last task has the smaller
    time in two, since more of its loads hit; and the larger one, since a block is held that the tasks above can throw out."""
    def loads(count): return [(k, READ + 32768 + k) for k in range(count)]
    for ways, bus in zip(WAYS, BUSES):
        most, shared = max(ways, 1), dict(memory=caches(1, 1, ways), bus=bus, access=5, limit=100)
        hits = board(2, [(1, 900, 900, [executes(50)]), (1, 2000, 2000, [loads(most) * 3])], **shared)
        lost = board(2, [(1, 500, 500, [executes(50)]), (1, 600, 600, [executes(51)]), (1, 900, 900, [loads(most // 2 + 1) + executes(0)])], **shared)
        one = [placed(words, cache(1, ways)) for words in (hits, lost)]
        assert last_time(hits) < last_time(one[0]) and last_time(lost) > last_time(one[1])
        yield from ((hits, one[0]), (lost, one[1]))


def on_every_bus():
    """One to three tasks with every bus, with the sets, the ways and the refreshes in turn."""
    for k in range(45):
        bus, n = k // 9, 1 + k % 3
        code, data = ((1, 1), (2, 1), (1, 2), (2, 2))[k % 4]
        yield few_tasks(n, 1 + k % 2, caches(code, data, WAYS[k % 5]), BUSES[bus], REFRESHES[k // 3 % 3])


def edges():
    """Boards whose last task has its time as its deadline, and one cycle less; whose passes are the limit, and one more; the first of these in one cache,
    where the task is late; and boards that are not late in one cache, and in two."""
    for bus in BUSES:
        words = few_tasks(3, 1, caches(2, 1), bus, REFRESHES[2])
        time, needed = last_time(words), passes(words)
        kept = edit(words, (32, time))
        in_one = placed(kept, cache(2))
        assert ask(in_one)[0].startswith('late')
        yield from (kept, edit(words, (32, time - 1)), edit(words, (12, needed)), edit(words, (12, needed - 1)), in_one)
    for two, one in [*beside_one_cache()][1::2]:
        yield from (edit(words, (32, last_time(one))) for words in (two, one))


def most_useful(ways):
    """As many useful blocks at a point as there can be: a trace of 1,024 instructions that loads 512 blocks of code and as many of data, and each again,
    below a task that is in every set; with one way half of these. All sets are full."""
    each = 512 if ways > 1 else 256
    sets = each // max(ways, 1)
    def loads(blocks): return [(m, READ + 32768 + m) for m in blocks]
    tasks = [(1, LONGEST, LONGEST, [loads(range(1024, 1024 + sets))]), (1, LONGEST, LONGEST, [loads([*range(each)] * 2)])]
    return board(1, tasks, caches(sets, sets, ways), limit=100)


def drawn_boards():
    """Boards with every number of ways, over few blocks or over few sets."""
    drawing = Drawing()
    draw, pick = drawing.draw, drawing.pick
    boards = [drawing.random_board(caches(pick(SETS), pick(SETS), pick(WAYS)), 2 + draw(5), 3, 9, 1 + draw(3)) for _ in range(100)]
    boards += [drawing.random_board(caches(code, data), 3, 2, 30, 1) for code, data in zip(SETS, SETS[::-1])]
    sets = (1, 2, 3, 5, 16, 64, 65, 128, 255, 256)
    return boards + [drawing.crowded(caches(sets[k], sets[(k + shift) % 10], ways)) for k in range(10) for shift in (0, 3) for ways in WAYS]


def in_two(boards):
    """Those with a cache, with as many or other numbers of sets for the data, and the ways in turn."""
    for k, words in enumerate(words for words in boards if words[4] == 2):
        yield placed(words, caches(words[13], (words[13], 1, 3, 64, 256)[k % 5], WAYS[k // 5 % 5]))


def two_caches_corners():
    """For the program by files: one board with every number of ways, the boards of which each word is at fault, both kinds of pairs beside one cache, and
    the most useful blocks."""
    words = two_caches_board(3, 5, 4, 0)
    boards = {'two_caches_%d_ways' % ways: edit(words, (15, ways)) for ways in WAYS}
    pairs = [*beside_one_cache()][2:]
    names = [kind + '_time_by_two_caches_%d' % ways for ways in WAYS[1:] for kind in ('smaller', 'larger')]
    for name, (two, one) in zip(names, pairs):
        boards.update({name: two, name + '_in_one': one})
    return {**boards, **REFUSED, **{'most_useful_%d' % ways: most_useful(ways) for ways in (1, 8)}}


def two_caches_cases(drawn):
    """Each board, and the calls: verdicts; figures, overheads and pages; of small boards all that Analyse leaves, in order too, and sums; drawn boards."""
    cases = [(words, [verdict(words)]) for words in distinct(refusals())]
    cases += [(words, all_calls(words)) for words in (APART, *REFUSED.values())]
    cases += [(words, [figures_of_64(words), gammas(words), page(words)]) for words in all_pairs()]
    for words in [*small_two_caches(), *(words for pair in beside_one_cache() for words in pair)]:
        held, n = lent(words), words[1]
        calls = [analyse('4', *held), figures_of_3(words, *held), analyse_of_3('7', *held), gammas(words), overhead(words, n, 1), overhead(words, n, n - 1)]
        cases.append((words, calls + weighs(words, 'zeros', 'halves', 'caps') + in_order(words, orders(n)[-1:])))
    for words in on_every_bus():
        cases.append((words, [analyse('4', *lent(words))] + weighs(words, 'own 0', 'halves') + in_order(words, orders(words[1]))))
    cases += [(words, [analyse('4', *lent(words))] + in_order(words, orders(3)[-1:])) for words in edges()]
    cases += [(words, [figures_of_3(words, *lent(words)), gammas(words), page(words)] + weighs(words, 'caps')) for words in map(most_useful, WAYS)]
    cases += [(words, [figures_of_64(words), gammas(words)]) for words in drawn_boards()]
    return cases + [(words, [page(words)]) for words in in_two(drawn)]
