"""Caches of several ways: their boards, and the calls made on each."""
from stored.boards import K1, READ, WAYS, WRITE, board, cache, code_in, data_in, edit, executes
from stored.calls import analyse, analyse_of_3, figures_of_3, figures_of_64, gammas, in_order, lent, page, weighs
from stored.orders import orders
from stored.reference import last_time


def way_traces(sets, ways):
    """Traces over blocks of the last set, for a cache of so many ways."""
    most = max(ways, 1)
    each = range(most)
    def fetches(*blocks): return executes(*(code_in(sets, sets - 1, k) for k in blocks))
    def data(kind, *blocks): return [(0, kind + (k << 16) + data_in(sets, sets - 1, k)) for k in blocks]
    return [
        # the blocks that fill the set, and each again; one more than these in a cycle; the same forth and back
        fetches(*each, *each),
        fetches(*[*each, most] * 3),
        fetches(*each, *reversed(each), most, *reversed(each)),
        # a hit makes a block the last one used, so that another is thrown out
        fetches(*each, 0, most, 0, *each),
        # held and used again after it was thrown out, and, the last one, held and not used again
        fetches(*range(most + 1), 0, *each),
        # a write neither loads a block nor makes it the last one used, and is not its next use
        data(READ, *each) + data(WRITE, 0, most) + data(READ, most, *each),
        data(READ, *each) + data(READ, *each[1:]) + data(WRITE, 0) + data(READ, 0),
        # code and data in one set, and blocks of another set in between
        fetches(*each)[:most // 2] + data(READ, *each)[most // 2:] + executes(0, sets) + fetches(*each)[:most // 2] + data(READ, *each) + executes(0, sets),
    ]


def way_board(sets, ways):
    """Each trace on a core of its own, below a task that disturbs another set and one that writes to the set itself."""
    other = executes(code_in(sets, 0, 90))
    writer = [(code_in(sets, 0, 91), WRITE + data_in(sets, sets - 1, 90))]
    tasks = [(core, 90000, 90000, [own]) for core, trace in enumerate(way_traces(sets, ways), 1) for own in (other, writer, trace)]
    return board(8, tasks, cache(sets, ways), limit=100)


def small_way_boards():
    """The traces in boards of two tasks, for the calls that are lent a table of three records."""
    for ways in WAYS:
        for trace in way_traces(3, ways):
            yield board(1, [(1, 500, 500, [[(0, WRITE + data_in(3, 2, 90))]]), (1, 900, 900, [trace])], cache(3, ways), access=3, limit=100)


def fewer_ways():
    """Boards whose last task has a smaller time with half the ways: there one fetch more misses, and neither of the tasks above disturbs a useful block."""
    boards = {}
    for ways in (2, 4, 8):
        tasks = [(1, 500, 500, [executes(50)]), (1, 600, 600, [executes(51)]), (1, 900, 900, [executes(*range(ways), 0)])]
        more = board(1, tasks, cache(1, ways), access=5, limit=100)
        fewer = edit(more, (15, ways // 2))
        assert last_time(fewer) < last_time(more)
        boards.update({'larger_time_by_%d_ways' % ways: more, 'smaller_time_by_%d_ways' % (ways // 2): fewer})
    return boards


def way_corners():
    """For the program by files: one board with every number of ways, a number that no cache has, and ways without a cache."""
    words = way_board(3, 4)
    return {**{'ways_%d' % ways: edit(words, (15, ways)) for ways in (*WAYS, 3)}, 'ways_without_cache': edit(K1, (15, 1)), **fewer_ways()}


def way_cases():
    """Each board, and the calls: figures, overheads and pages; of small boards all that Analyse leaves, in order too, and sums."""
    boards = [way_board(sets, ways) for sets in (1, 2, 3, 255, 256) for ways in WAYS]
    cases = [(words, [figures_of_64(words), gammas(words), page(words)]) for words in boards]
    for words in [*small_way_boards(), *fewer_ways().values()]:
        held = lent(words)
        calls = [analyse('4', *held), figures_of_3(words, *held), analyse_of_3('7', *held), gammas(words)]
        cases.append((words, calls + weighs(words, 'zeros', 'caps') + in_order(words, orders(words[1])[-1:])))
    return cases
