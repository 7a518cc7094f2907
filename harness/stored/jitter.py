"""Releases that wobble: boards with jitter, and the calls made on each."""
from stored.boards import BUSES, K1, K8, LONGEST, TOP, board, edit, equal_tasks, executes, few_tasks
from stored.calls import all_calls, analyse, caps_of, in_order, lent, made_up, make_up_page, page, verdict, weigh, weighs
from stored.files import distinct
from stored.make_up import MEMORIES, REFRESHES
from stored.orders import orders
from stored.reference import ask, last_time, passes, words_of
from stored.refusals import FAULTS

# K1 with deadlines below its periods, 100 and 60
SHORT = edit(K1, (22, 80), (27, 45))
ENDS = ((24, 100, 80), (29, 60, 45))  # of each task of it: the place of J, T and D
# K1 with a deadline of 40, which its first task, of 35 cycles, keeps with a jitter of 5
CLOSE = edit(K1, (22, 40))

# jitters of three tasks, with deadlines of 120, 150 and 400: of one, of two and of all
JITTERS = ((30, 0, 0), (0, 40, 0), (5, 0, 100), (70, 0, 1), (1, 80, 50), (1, 1, 1), (50, 60, 200), (60, 75, 0), (7, 3, 300), (119, 10, 10), (20, 149, 10), (9, 90, 399))


def jittered(words, *jitters):
    """The board with these jitters, the first task's first."""
    return edit(words, *((24 + 5 * k, j) for k, j in enumerate(jitters)))


def refusals():
    """J at and past its ends, with a deadline below the period and with one that is it; beside faults of the words around it, and before those of the rows
    after 4; and of tasks of 64."""
    boards = [edit(SHORT, (at, x)) for at, period, deadline in ENDS
              for x in (0, 1, deadline - 1, deadline, deadline + 1, period - 1, period, period + 1, 2 * period, 1 << 16, 1 << 31, TOP)]
    boards += [edit(K1, (at, period + x)) for at, period, _ in ENDS for x in (-1, 0, 1)]
    around = ((19, 1), (20, 0), (20, 3), (21, 0), (21, 79), (21, 80), (21, LONGEST + 1), (22, 0), (22, 1), (22, 79), (22, 81), (22, 100), (22, 101), (23, 0), (23, 2), (23, 9),
              (25, 0), (25, 3), (26, 0), (26, 44), (27, 0), (27, 44), (27, 46), (27, 61), (28, 0), (28, 2), (28, 9), (29, 45), (29, 46), (29, TOP))
    for words in (jittered(SHORT, 80), jittered(SHORT, 81), jittered(SHORT, 0, 46), jittered(SHORT, 81, 46)):
        boards += [edit(words, change) for change in around] + [fault(words) for fault in FAULTS.values()]
    many = equal_tasks(64)
    return boards + [edit(many, (at, x)) for at in (24, 179, 334, 339) for x in (900, 901)] + [edit(many, (334, 901), (339, 901)), edit(many, (339, 902), (340, 0))]


def releases():
    """Two tasks on one core, with the jitter of the first at its ends and in between: sums of the second around the times at which the first is released
    once more, and of the first at 0 and at its cap. Also with a period of 1."""
    def trace(work): return [(0, work << 16), (1, 0)]
    for k, (period, j) in enumerate(((10, 0), (10, 1), (10, 3), (10, 7), (10, 9), (10, 10), (1, 0), (1, 1))):
        words = jittered(board(2, [(1, period, period, [trace(2)]), (1, 100, 100, [trace(3)])], (1, 1, 0), BUSES[k % 5], limit=100), j)
        some = sorted({t for c in (1, 2, 3) for t in range(c * period - j - 1, c * period - j + 2) if t >= 0} | {0, 100, 101})
        yield words, [weigh(words, 2, [0, t]) for t in some] + [weigh(words, 1, [t, 0]) for t in (0, 1, *caps_of(words)[:1])]


def reaches():
    """K1 with every bus: sums around the jitter with which one access more of the other core comes through: from none on, and after a whole period."""
    for bus in BUSES:
        for first, second in ((0, 0), (5, 1), (6, 5), (11, 6), (16, 50), (60, 25), (61, 26), (14, 31), (15, 0), (100, 60), (0, 60), (100, 0)):
            words = jittered(edit(K1, (5, bus[0]), (6, bus[1])), first, second)
            most = caps_of(words)
            chosen = ((2, (5, 5)), (1, (5, 5)), (2, (21, 34)), (1, (40, 5)), (2, (1, 0)), (1, (0, 1)))
            yield words, [weigh(words, i, times) for i, times in chosen if all(t <= cap for t, cap in zip(times, most))]


def times_limits():
    """Times at the caps, one above and at D + 1 and D + 2, which jitter takes from; rows 4, 10 and 11 come before row 14."""
    for jitters in ((0, 0), (1, 0), (0, 1), (30, 10), (79, 44), (80, 45), (80, 0), (81, 0), (0, 46)):
        words = jittered(SHORT, *jitters)
        a, b = caps_of(words)
        chosen = ((a, b), (a + 1, 0), (0, b + 1), (a + 1, b + 1), (a, b + 1), (81, 0), (0, 46), (82, 0), (0, 47), (80, 45), (TOP, 0), (a, b, TOP))
        calls = [weigh(words, 1 + k // 2 % 2, times) for k, times in enumerate(chosen)]
        yield words, calls + [weigh(words, i, times) for i, times in ((0, (a + 1, 0)), (3, (a + 1, b + 1)), (1, (a + 1,)), (2, ()), (0, (a + 1,)))]


def third_limits():
    """The same of the third of three tasks."""
    words = jittered(few_tasks(3, 1, MEMORIES[0], BUSES[2], (0, 0, 0, 0)), 20, 30, 300)
    caps = caps_of(words)
    return words, [weigh(words, i, edit(caps, *changes)) for i in (1, 3) for changes in ((), ((2, 102),), ((2, 401),), ((1, 122), (2, 102)), ((0, 102), (2, 102)))]


def on_every_bus():
    """One to three tasks with every bus, memory and refresh, and the jitters in turn."""
    for k in range(60):
        refresh, p = REFRESHES[(k // 4 + k // 12) % 5]
        n = (3, 3, 2, 3, 2, 3, 1)[k % 7]
        words = edit(few_tasks(n, 1 + k // 2 % 2, MEMORIES[k % 4], BUSES[k // 12], refresh), (16, p))
        yield jittered(words, *JITTERS[k % 12][:n])


def has_times(words): return ask(words)[0].startswith('ok')


def largest_jitter(words, i):
    """The largest jitter of task i with which the board has times."""
    least, most = 0, words[17 + 5 * i]
    assert has_times(words) and not has_times(edit(words, (19 + 5 * i, most)))
    while most - least > 1:
        half = (least + most) // 2
        least, most = (half, most) if has_times(edit(words, (19 + 5 * i, half))) else (least, half)
    return least


def late_edges():
    """Boards on which a task has the largest jitter with which no task is late, and one more, each with its tasks; where the deadline of the last is close
    to its time it is late by the jitter of others, else mostly the task itself by its own."""
    for k, bus in enumerate(BUSES):
        words = jittered(few_tasks(3, 1, MEMORIES[k % 4], bus, REFRESHES[k % 4][0]), 5, 7, 9)
        close = edit(words, (32, 10 + last_time(words)))
        for ready, tasks in ((words, (1, 2, 3)), (close, (1, 2) if k < 4 else (1,))):
            for i in tasks:
                j = largest_jitter(ready, i)
                yield from (edit(ready, (19 + 5 * i, x)) for x in (j, j + 1))


def limit_edges():
    """Boards whose passes are the limit, and the same with one cycle more or less of jitter, by which they exceed it."""
    for words in [K1, K8] + [few_tasks(3, 1, MEMORIES[0], bus, REFRESHES[2][0]) for bus in BUSES]:
        needed = [passes(jittered(words, j)) for j in range(70)]
        for j in [j for j in range(69) if needed[j] != needed[j + 1]][:2]:
            yield from (jittered(edit(words, (12, min(needed[j:j + 2]))), x) for x in (j, j + 1))


def always_late():
    """Tasks whose jitter is their deadline, one of them or all."""
    for k, bus in enumerate(BUSES):
        words = few_tasks(3, 1 + k % 2, MEMORIES[k % 4], bus, REFRESHES[k % 4][0])
        yield from (jittered(words, *jitters) for jitters in ((120,), (0, 150), (0, 0, 400), (120, 150, 400)))
    yield jittered(board(1, [(1, 1, 1, [executes(0)])]), 1)


def longest():
    """The longest period, deadline and jitter, of two tasks on one core and one on another: sums at the caps and at 0."""
    trace = [(0, 5 << 16), (1, 0)]
    words = board(2, [(1, LONGEST, LONGEST, [trace]), (1, LONGEST, LONGEST, [trace]), (2, LONGEST, LONGEST, [trace])], limit=100)
    half = LONGEST // 2
    for k, jitters in enumerate(((0, 0, 0), (half, 0, half), (LONGEST, 0, LONGEST), (LONGEST - 1, 0, LONGEST - 1), (LONGEST, LONGEST, LONGEST), (LONGEST, 0, half))):
        some = edit(jittered(words, *jitters), (5, BUSES[k % 5][0]), (6, BUSES[k % 5][1]))
        caps = caps_of(some)
        yield some, [weigh(some, i, times) for i in (1, 2, 3) for times in (caps, [0, 0, 0], edit(caps, (i - 1, 0)))]


def longer(words):
    """The board with periods and deadlines twice as long, which leave room for jitter."""
    return edit(words, *((at + 5 * k, 2 * words[at + 5 * k]) for k in range(words[1]) for at in (21, 22)))


def in_turn(drawn):
    """One in three of the drawn boards, with longer periods, and a part of each deadline as jitter of some of their tasks."""
    for k, words in enumerate(map(longer, drawn[::3])):
        parts = [(0, 1, 4, 0, 7, 2)[(k + i) % 6] for i in range(words[1])]
        yield jittered(words, *(words[22 + 5 * i] * part // 16 for i, part in enumerate(parts)))


def jitter_corners(files):
    """For the program by files: K1 and its kin with jitters at and past their ends; and of the largest boards, with longer periods, every task's."""
    boards = {
        'jitter_of_both': jittered(K1, 20, 10),
        'jitter_time_is_largest': jittered(CLOSE, 5),
        'jitter_late_by_one': jittered(CLOSE, 6),
        'jitter_is_deadline': jittered(SHORT, 0, 45),
        'jitter_above_deadline': jittered(SHORT, 0, 46),
        'jitter_is_period': jittered(SHORT, 100),
        'jitter_on_tdma': jittered(K8, 51, 25),
        'jitter_late_on_tdma': jittered(K8, 0, 26),
        'jitter_last_of_64': edit(equal_tasks(64), (339, 901)),
    }
    for name in ('big_02', 'big_11', 'big_20', 'big_32', 'big_42'):
        words = longer(words_of(files[name]))
        boards['jitter_' + name] = jittered(words, *(words[22 + 5 * k] // 8 for k in range(words[1])))
    return boards


def explained(words):
    """Analyse, in order too, and how the time of the late task, or of the last one, is made up, with its page."""
    kind, number, *_ = ask(words)[0].split()
    i = int(number) if kind == 'late' else words[1]
    return [analyse('4', *lent(words))] + in_order(words, orders(words[1])[-1:]) + made_up(words, i) + [make_up_page(words, b'%d' % i)]


def jitter_cases(drawn, wobbly):
    """Each board, and the calls: verdicts; all calls; sums at chosen times; each bus, memory and refresh; late boards, limits; drawn boards, and one in two of
    those that were drawn with jitter."""
    cases = [(words, [verdict(words)]) for words in distinct(refusals())]
    some = ((80,), (81,), (0, 45), (0, 46), (30, 10), (100,), (80, 45))
    cases += [(words, all_calls(words) + made_up(words, 1, 2, 0, 3)) for words in (jittered(SHORT, *jitters) for jitters in some)]
    cases += [*releases(), *reaches(), *times_limits(), third_limits(), *longest()]
    cases += [(words, explained(words) + weighs(words, 'zeros', 'own 0', 'halves', 'caps')) for words in on_every_bus()]
    cases += [(words, explained(words)) for words in (*late_edges(), *always_late())]
    cases += [(words, [analyse('4', *lent(words))] + made_up(words, 1)) for words in limit_edges()]
    cases += [(words, [make_up_page(words, b'1'), make_up_page(words, b'2')]) for words in (jittered(CLOSE, j) for j in (0, 5, 6, 40, 41))]
    ready = [*in_turn(drawn), *[words for words in wobbly if any(words[24:20 + 5 * words[1]:5])][::2]]
    return cases + [(words, [page(words), make_up_page(words, b'%d' % (1 + k % words[1]))]) for k, words in enumerate(ready)]
