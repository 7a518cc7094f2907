"""Passes in order: boards and lists for them, and the calls made on each."""
import itertools

from stored.boards import K1, TOP, WRITE, board, edit, equal_tasks, few_tasks
from stored.calls import analyse, in_order, lent
from stored.corners import corners
from stored.refusals import refused_k1
from stored.reference import ask


def orders(n):
    return [list(order) for order in itertools.permutations(range(1, n + 1))]


def no_orders(n):
    """Lists that are no order of n tasks: of another length; with a number that is no task's, or another one of the list, at each place; with several."""
    right = list(range(1, n + 1))
    others = [0, n + 1, TOP]
    lists = [[], right[:-1], right + [n + 1], right + [1], list(range(1, 65)), list(range(1, 66)), [0] * (n - 1), [0] * (n + 1)]
    lists += [edit(right, (at, x)) for at in range(n) for x in others + right if x != right[at]]
    lists += [[x] * n for x in others + right if [x] * n != right] + [edit(right, (at, TOP), (n - 1, 0)) for at in range(n - 1)]
    return [list(order) for order in dict.fromkeys(map(tuple, lists))]


def order_boards():
    """K1 and boards of three tasks, one or two for each bus; on most of them the passes depend on the order."""
    writes = [(0, WRITE + (4 << 16) + 32768), (1, 5 << 16), (2, WRITE + (5 << 16) + 32768), (3, WRITE + (5 << 16) + 32768)]
    return [
        K1,
        few_tasks(3, 3, (0, 0, 0), (0, 0), (2, 50, 3, 2)),
        few_tasks(3, 1, (2, 2, 0), (1, 0), (2, 50, 3, 2)),
        few_tasks(3, 3, (2, 2, 0), (2, 0), (1, 200, 2, 3)),
        few_tasks(3, 3, (0, 0, 0), (3, 2), (2, 50, 3, 2)),
        few_tasks(3, 1, (1, 1, 0), (4, 2), (1, 200, 2, 3)),
        # three numbers of passes in the six orders
        board(3, [(1, 220, 220, [writes]), (2, 189, 189, [[(0, 5 << 16)]]), (3, 126, 126, [[(0, 5 << 16), (1, 0), (2, 3 << 16)]])],
              bus=(1, 0), refresh=(2, 56, 2, 2), access=8, limit=100),
    ]


def late(words):
    """The same board with a second task whose deadline is one below its time."""
    return edit(words, (27, int(ask(edit(words, (12, TOP)))[2].split()[2]) - 1))


def around(words):
    """The board with each pass limit that is one below, at or one above the passes of Analyse or of an order."""
    ample = edit(words, (12, TOP))
    pages = [ask(ample)] + [ask(ample, 'order', *map(str, order)) for order in orders(words[1])]
    needed = {int(page[0].split()[2]) for page in pages}
    return [edit(words, (12, limit)) for limit in sorted({p + k for p in needed for k in (-1, 0, 1)})]


def order_cases():
    """Each board, and the calls: Analyse and every order at limits around the passes needed; lists that are no order; and these with other refusals."""
    ready = order_boards()
    limited = [b for words in ready + [late(words) for words in ready[:3]] for b in around(words)]
    cases = [(words, [analyse('4', *lent(words))] + in_order(words, orders(words[1]))) for words in limited]
    cases += [(words, in_order(words, orders(words[1]) + no_orders(words[1]))) for words in (corners()['one_task'], K1, ready[1])]
    cases += [(words, in_order(words, [[], [1, 2], [0, 3]])) for words in refused_k1()]
    for n in (4, 5, 6, 7, 64):
        equal = equal_tasks(n)
        cases.append((equal, in_order(equal, [[], list(range(1, n + 1)), [0] * n])))
    return cases
