"""Refreshes that are put off: their boards, and the calls made on each."""
from stored.boards import BUSES, K8, LONGEST, TOP, board, edit, executes, few_tasks
from stored.calls import all_calls, analyse, analyse_of_3, in_order, lent, page, verdict, weighs
from stored.files import distinct
from stored.orders import orders
from stored.reference import last_time, passes
from stored.refusals import FAULTS

# what word 16 can be with distributed refresh, and what it cannot be
PUT_OFF = range(9)
NO_PUT_OFF = (9, 16, 256, 1 << 16, 1 << 31, TOP)

MEMORIES = ((0, 0, 0), (1, 1, 0), (2, 2, 0))
THREE_ROWS = (2, 50, 3, 2)
ONE_AND_P = (2, LONGEST, 1, 1)  # one refresh within any time above 0, and those put off
# the last two: more refreshes than B at any time above 0, and refreshes of no cycles
REFRESHES = (THREE_ROWS, ONE_AND_P, (2, 90, 2, 3), (2, 1, 65535, 7), (2, 20, 1, 0))

# K8 with each form of refresh, the last of which there is not
FORMS = [edit(K8, (8, form), *((at, 0) for at in (9, 10, 11) if form == 0)) for form in range(4)]
WITH_BURST = edit(FORMS[1], (16, 1))


def put_off(words, p): return edit(words, (16, p))


def refusals():
    """Word 16 with every form of refresh, beside faults of the words around it, and before those of the rows after 2."""
    boards = [put_off(words, x) for words in FORMS for x in (*PUT_OFF, *NO_PUT_OFF)]
    around = ((8, 0), (8, 1), (8, 2), (8, 3), (9, LONGEST + 1), (10, 65536), (11, 256), (12, 0), (13, 1), (14, 1), (15, 1), (17, 1), (18, 1), (19, 1))
    for words in (put_off(FORMS[0], 1), WITH_BURST, put_off(K8, 8), put_off(K8, 9)):
        boards += [edit(words, change) for change in around] + [fault(words) for fault in FAULTS.values()]
    return boards


def small_boards():
    """One to three tasks with every bus and memory, each bus with every p, and the refreshes in turn."""
    for k in range(45):
        bus, memory, n = k // 9, k // 3 % 3, 1 + k % 3
        yield put_off(few_tasks(n, 1, MEMORIES[memory], BUSES[bus], REFRESHES[(bus + 2 * memory + n) % 5]), (k + bus) % 9)


def few_accesses():
    """One task, whose B is its accesses and 1: p below its accesses, as many, and above."""
    for accesses in (0, 1, 4, 7):
        words = board(1, [(1, 900, 900, [executes(0, *range(5, 5 + accesses))])], (1, 5, 0), refresh=ONE_AND_P, access=5)
        for p in sorted({0, accesses - 1, accesses, accesses + 1, 8} & set(PUT_OFF)):
            yield put_off(words, p)


def deadline_edges():
    """Boards whose last task has its time as its deadline, and the same with one refresh more put off, by which it is one cycle late."""
    for bus in BUSES:
        words = few_tasks(3, 1, (0, 0, 0), bus, ONE_AND_P)
        for p in (0, 3, 7):
            time = last_time(put_off(words, p))
            assert last_time(put_off(words, p + 1)) == time + 1
            yield from (put_off(edit(words, (32, time)), x) for x in (p, p + 1))


def limit_edges():
    """Boards whose passes are the limit, and the same with one refresh more or less put off, by which they exceed it."""
    for words in [K8] + [few_tasks(3, 1, (0, 0, 0), bus, THREE_ROWS) for bus in BUSES]:
        needed = [passes(put_off(words, p)) for p in PUT_OFF]
        rising = next(p for p in range(8) if needed[p] < needed[p + 1])
        falling = next(p for p in range(8) if needed[p] > needed[p + 1])
        for p in (rising, falling):
            yield from (put_off(edit(words, (12, min(needed[p:p + 2]))), x) for x in (p, p + 1))


def put_off_corners():
    """For the program by files: K8 with each p but 0, a p that there is not, and others where refresh is not distributed."""
    boards = {'put_off_%d' % p: put_off(K8, p) for p in range(1, 10)}
    return {**boards, 'put_off_with_burst': WITH_BURST, 'put_off_without_refresh': put_off(FORMS[0], 1)}


def put_off_cases(drawn):
    """Each board, and the calls: verdicts; all that Analyse leaves, in order too; sums; pages of drawn boards, with 1 to 8 refreshes put off in turn."""
    cases = [(words, [verdict(words)]) for words in distinct(refusals())]
    cases += [(words, all_calls(words)) for words in (put_off(K8, 9), WITH_BURST, FORMS[1])]
    for words in (put_off(K8, p) for p in PUT_OFF):
        held = lent(words)
        cases.append((words, [analyse('4', *held), analyse_of_3('7', *held)] + weighs(words, 'zeros', 'own 0', 'halves', 'caps') + in_order(words, orders(2))))
    for words in small_boards():
        cases.append((words, [analyse('4', *lent(words))] + weighs(words, 'own 0', 'halves') + in_order(words, orders(words[1])[-1:])))
    cases += [(words, [analyse('4', *lent(words))] + weighs(words, 'zeros', 'caps')) for words in few_accesses()]
    cases += [(words, [analyse('4', *lent(words))]) for words in (*deadline_edges(), *limit_edges())]
    refreshed = [words for words in drawn if words[8] == 2]
    return cases + [(words, [page(words)]) for words in (put_off(words, 1 + k % 8) for k, words in enumerate(refreshed))]
