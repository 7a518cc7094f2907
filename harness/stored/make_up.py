"""How times are made up: boards, tasks and arguments, and the calls made on each."""
from stored.boards import BUSES, K1, K8, LONGEST, board, cache, caches, edit, equal_tasks, executes, few_tasks
from stored.calls import make_up, make_up_page, made_up
from stored.corners import corners
from stored.reference import last_time, passes
from stored.refusals import FAULTS, refused_k1

MEMORIES = ((0, 0, 0), (1, 1, 0), cache(2, 2), caches(2, 1, 2))
THREE_ROWS = (2, 50, 3, 2)
# no refresh; bursts; distributed ones of which none, three and eight are put off
REFRESHES = (((0, 0, 0, 0), 0), ((1, 200, 2, 3), 0), (THREE_ROWS, 0), (THREE_ROWS, 3), ((2, 90, 2, 40), 8))

ACCESS = 5  # cycles of an access on the boards whose numbers are chosen

# arguments of the program: numbers of tasks, with zeros before them too; numbers that are no task's, some of which are one modulo 2^32 or 2^64; and
# bytes that are no number
TASK_ARGUMENTS = (b'1', b'2', b'3', b'01', b'002', b'0' * 30 + b'1', b'0' * 255 + b'2')
OUTSIDE = (0, 4, 10, 11, 12, 64, 65, 2**31 + 1, 2**32, 2**32 + 1, 2**63 + 1, 2**64 - 2, 2**64 - 1, 2**64, 2**64 + 1, 2**64 + 2, 10**20, 10**29 + 1, 2**128 + 1)
NO_NUMBERS = (b'', b'00', b'0' * 256, b'+1', b'-1', b'--1', b' 1', b'1 ', b'\t1', b'1\n', b'1\r', b'1.0', b'1,', b'1e0', b'0x1', b'x', b'1x', b'x1', b'1/',
              b'/1', b'1:', b':1', b'1;', b'\xb1', b'1\xff', b'\xc2\xb2', b'\xd9\xa1', b'1 2', b'2-1', b'one', b'9' * 255 + b'x', b'x' + b'1' * 255)
ARGUMENTS = (*TASK_ARGUMENTS, *(b'%d' % x for x in OUTSIDE), b'9' * 30, b'9' * 256, *NO_NUMBERS)


def chosen(own, higher, accesses, others, refresh, bus=(2, 0)):
    """A board whose third task has so many cycles of work, of work above it and of refresh, and so many accesses of its core and of the other; none is
    released twice. The task on the other core outranks it by its number and by its core, and has work enough for all its accesses to count."""
    def trace(work, loads): return [(0, work << 16)] + executes(*range(1, 1 + loads))
    tasks = [(1, 90000, 90000, [trace(4000, others)]), (2, 90000, 90000, [trace(higher, 0)]), (2, 90000, 90000, [trace(own, accesses)])]
    words = board(2, tasks, (1, 1, 0), bus, (1, LONGEST, 1, refresh), ACCESS, 100)
    parts = [own, higher, ACCESS * accesses, ACCESS * others, ACCESS, refresh]
    assert make_up(words, 3) == ('ok', [str(1 + parts.index(max(parts)))], [str(x) for x in parts])
    return words


def slots(bus, accesses, others):
    """Word 6 with which just so many accesses of the other core come through, None where there is none."""
    if bus < 3:
        return 0
    return next((v for v in range(1, 9) if v * accesses == others or bus == 3 and v * accesses > others), None)


def largest_are(which, bus):
    """A board on which just these of the third task's numbers are the largest, None where no board on this bus has it so."""
    most = 1 if 5 in which else 3
    cycles = [ACCESS * most - (k not in which) for k in (1, 2, 6)]
    accesses, others = most if 3 in which else most // 2, most if 4 in which else most - 1
    v = slots(bus, accesses, others)
    return None if v is None else chosen(*cycles[:2], accesses, others, cycles[2], (bus, v))


def reasons():
    """Every choice of numbers that are the largest, with the buses in turn; and each number alone with every bus."""
    choices = [[k for k in range(1, 7) if bits >> k & 1] for bits in range(2, 128, 2)]
    for turn, which in enumerate(choices):
        found = [words for words in (largest_are(which, (turn + k) % 5) for k in range(5)) if words]
        yield from found if len(which) == 1 else found[:1]


def on_every_bus():
    """Boards of one to three tasks with every bus, memory and refresh, each with the tasks asked for."""
    for k in range(60):
        refresh, p = REFRESHES[(k // 4 + k // 12) % 5]
        n = 3 - k // 4 % 3
        words = edit(few_tasks(n, 1 + k % 2, MEMORIES[k % 4], BUSES[k // 12], refresh), (16, p))
        yield words, range(1, n + 1) if k % 3 == 0 else [n]


def deadlines(words, *chosen):
    return edit(words, *((22 + 5 * k, d) for k, d in enumerate(chosen)))


def late_boards():
    """The third task at its deadline, and one cycle late; the first and the third late; all late, two of them by far."""
    for bus, memory in zip(BUSES, (*MEMORIES, MEMORIES[0])):
        words = few_tasks(3, 1, memory, bus, THREE_ROWS)
        time = last_time(words)
        yield edit(words, (32, time)), [3]
        yield from ((late, [1, 2, 3]) for late in (edit(words, (32, time - 1)), deadlines(words, 20, 150, 130), deadlines(words, 1, 40, 2)))


def largest_numbers():
    """A late task with numbers above 2^38 for all but its own work and the blocking access: at every cycle a higher task is released, with accesses and
    work, and there are refreshes. The same without refreshes, and on FIFO, where the other cores are idle."""
    release = [(k, 4095 << 16) for k in range(8)]
    words = board(8, [(1, 1, 1, [release]), (1, LONGEST, LONGEST, [release])], bus=(4, 8), refresh=(1, 1, 65535, 255), access=255, limit=100)
    still = edit(words, *((at, 0) for at in (8, 9, 10, 11)))
    return [words, still, edit(still, (5, 2), (6, 0))]


def limits():
    """The pass limit one below, at and one above the passes needed, on boards with times and on late ones."""
    ready = [K1, K8, edit(K1, (22, 34))] + [few_tasks(3, 1, MEMORIES[2], bus, THREE_ROWS) for bus in BUSES]
    return [edit(words, (12, passes(words) + k)) for words in ready for k in (-1, 0, 1)]


def outside(n): return 0, n + 1, 2**32, 2**32 + 1, 2**64 - 1


def refusals():
    """Each row with tasks that there are and that there are not: rows 1 to 9 come before row 10, and this before those of the buffers, which four tasks
    and more do not have: 13 with four, 12 with five and six, 11 with more."""
    for words in refused_k1():
        yield words, (1, 0, 3)
    for n in (4, 5, 6, 7, 64):
        yield equal_tasks(n), (1, n, 0, n + 1)
    for fault in FAULTS.values():
        yield fault(equal_tasks(7)), (8,)
    three = few_tasks(3, 1, MEMORIES[1], BUSES[0], THREE_ROWS)
    for words in (K1, three, edit(three, (12, 1)), deadlines(three, 1, 40, 2)):
        yield words, outside(words[1])


def pages(drawn):
    """Boards with arguments: those with each reason; arguments of every kind on a board of three tasks, the first of them late; boards that are refused
    or spent; and the drawn boards with their tasks in turn."""
    yield from ((largest_are([k], 2), b'3') for k in range(1, 7))
    some = deadlines(few_tasks(3, 1, MEMORIES[3], BUSES[3], THREE_ROWS), 20)
    yield from ((some, argument) for argument in ARGUMENTS)
    for words in [*refused_k1(), edit(K1, (12, 3)), equal_tasks(64)]:
        yield from ((words, argument) for argument in (b'1', b'0', b'x'))
    yield equal_tasks(64), b'064'
    yield from ((words, b'%d' % (1 + k % words[1])) for k, words in enumerate(drawn))


def make_up_cases(drawn):
    """Each board, and the calls: K1 to K8 with each task and its page; the reasons; each bus, memory and refresh; late boards; limits; refusals; pages."""
    named = [words for name, words in corners().items() if name.startswith('k')]
    cases = [(words, made_up(words, 1, 2) + [make_up_page(words, b'1'), make_up_page(words, b'2')]) for words in named]
    cases += [(words, made_up(words, 3)) for words in reasons()]
    cases += [(words, made_up(words, *tasks)) for words, tasks in [*on_every_bus(), *late_boards(), *refusals()]]
    cases += [(words, made_up(words, 1, 2) + [make_up_page(words, b'2')]) for words in largest_numbers()]
    cases += [(words, made_up(words, words[1])) for words in limits()]
    return cases + [(words, [make_up_page(words, argument)]) for words, argument in pages(drawn)]
