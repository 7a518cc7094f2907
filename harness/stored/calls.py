"""What the calls must answer: the call's line, and the lines that it prints."""
from stored.boards import TOP, WORDS
from stored.reference import ask


def verdict(words):
    if len(words) > WORDS:
        # the reference's program refuses so many bytes by row 15 already
        return '1', ['bad 1 %d' % len(words)]
    page = ask(words)
    return '1', page if page[0].startswith('bad') else ['ok']


def task(number):
    """A task's number in a line: its low and its high 32 bits."""
    return '%d %d' % (number % 2**32, number >> 32)


def records(words):
    """What a table has of each task: core, T, D, PD, MD, the words of ECB and those of the data's own."""
    fields = [line.split() for line in ask(words, 'figures')]
    return [[int(x) for x in row[1:6]] + [int(x, 16) for x in row[6:14]] for row in fields]


def record_lines(table):
    return [' '.join(map(str, [k] + record)) for k, record in enumerate(table, 1)]


MARK = [9] * 13  # a record before a call
SPARE = 20  # words after three records, one fewer than a record has


def before():
    """The times and the table as a call is lent them: 6 words, all 7, and three marked records."""
    return [7] * 6, [MARK] * 3


def figures_of_64(words):
    table = records(words)
    return '2', [str(len(table))] + record_lines(table) + ['same %d' % (64 - len(table))]


def gammas(words):
    return '9 %d' % words[1], ['gamma ' + row for row in ask(words, 'gammas')]


def weigh(words, number, times):
    return ' '.join(['3', task(number), *map(str, times)]), ask(words, 'weigh', str(number), *map(str, times))


def caps_of(words):
    """D - J + 1 of each task; 1 where J is above D."""
    return [max(words[22 + 5 * k] - words[24 + 5 * k], 0) + 1 for k in range(words[1])]


def weighs(words, *kinds):
    """The sum of the last task at times of each kind."""
    caps = caps_of(words)
    times = {'zeros': [0] * len(caps), 'own 0': caps[:-1] + [0], 'halves': [cap // 2 for cap in caps], 'caps': caps}
    return [weigh(words, len(caps), times[kind]) for kind in kinds]


def weighed(line):
    asked, answer = line.split(' = ')
    number, *times = map(int, asked.split())
    return ' '.join(['3', task(number), *map(str, times)]), [answer]


def overhead(words, i, j):
    return '8 %s %s' % (task(i), task(j)), ask(words, 'overhead', str(i), str(j))


def row(answer):
    """The row that refuses, 0 where none does."""
    kind, *fields = answer.split()
    return int(fields[0]) if kind == 'bad' else 0


def lent(words, *command):
    """The answer, the times and the table of Analyse, or of the reference's command `order` with a list, where it is lent these and 32 words of
    scratch."""
    answer, *lines = ask(words, *command)
    n = words[1] if len(words) > 1 else 0
    times, table = before()
    if 0 < row(answer) < 10:
        return answer, times, table
    for short, most in ((11, 6), (12, 32), (13, 3)):
        if (n * n + 4 * n if short == 12 else n) > most:
            return 'bad %d %d' % (short, most), times, table
    if not row(answer):
        table[:n] = records(words)
    if answer.startswith('ok'):
        times[:n] = [int(line.split()[2]) for line in lines]
    return answer, times, table


def figures_of_3(words, answer, times, table):
    if 0 < row(answer) < 10:
        line = answer
    else:
        line = str(words[1]) if words[1] <= 3 else 'bad 13 3'
    return '6', [line] + record_lines(table)


def tables_of_3(call, line, times, table):
    """The line of an answer, those of three records, and that of the times."""
    return call, [line] + record_lines(table) + [' '.join(map(str, ['times'] + times))]


def analyse_of_3(call, answer, times, table):
    kind, *fields = answer.split()
    return tables_of_3(call, {'ok': 'ok ' + fields[-1], 'spent': 'spent'}.get(kind, answer), times, table)


def for_c(call, kind, numbers, *groups):
    """The code and the numbers of an answer, and the words of each buffer."""
    code = ('ok', 'late', 'spent', 'bad').index(kind)
    return call, [' | '.join(' '.join(map(str, group)) for group in ([code, *numbers], *groups))]


def record_words(table):
    """The records as words, with words to spare."""
    def halves(record): return [half for s in record[5:] for half in ((9, 9) if record == MARK else (s % 2**32, s >> 32))]
    return [x for record in table for x in record[:5] + halves(record)] + [9] * SPARE


def analyse(call, answer, times, table):
    """For C: the answer, the times and the records."""
    kind, *fields = answer.split()
    numbers = {'ok': fields[1:2] + [0], 'late': fields, 'spent': [0, 0], 'bad': fields}[kind]
    return for_c(call, kind, numbers, times, record_words(table))


def in_order(words, lists):
    """Analyse in the order of each list, for C and with a table."""
    calls = []
    for order in lists:
        given = [str(i) for i in order]
        held = lent(words, 'order', *given)
        calls += [analyse(' '.join(['10', *given]), *held), analyse_of_3(' '.join(['11', *given]), *held)]
    return calls


def make_up(words, number):
    """How a task's time is made up, as the reference prints it: the kind of the answer; its numbers, that is the reason, or row and place; and the six."""
    first, *lines = ask(words, 'makeup', str(number))
    kind, *fields = first.split()
    if kind in ('bad', 'spent'):
        return kind, fields if kind == 'bad' else [], []
    return 'ok', lines[-1].split()[1:2], [line.split()[1] for line in (first, *lines[:5])]


def made_up(words, *tasks):
    """How the time of each task is made up, for C and with a table. Both are lent, and leave, what Analyse is and does; row 10 comes before the rows of
    these buffers."""
    calls = []
    for number in tasks:
        kind, numbers, parts = make_up(words, number)
        analysed, times, table = lent(words)
        if kind == 'bad':
            times, table = before()
        elif row(analysed):
            kind, numbers, parts = 'bad', analysed.split()[1:], []
        line = ' '.join([kind, *parts, *numbers])
        numbers = (numbers + [0, 0])[:2]
        calls.append(for_c('12 ' + task(number), kind, numbers, parts or [5] * 6, times, record_words(table)))
        calls.append(tables_of_3('13 ' + task(number), line, times, table))
    return calls


def make_up_page(words, argument):
    """The page of `makeup` with these bytes for its argument."""
    return ' '.join(['14', *map(str, argument)]), ask(words, 'makeup', argument)


def numbers(words):
    """Tasks and tasks that are none, and too few times; of two faults the first row of the table is named."""
    n = words[1] if len(words) > 1 else 0
    outside = (0, n + 1, 2**32, 2**32 + 1, 2**64 - 1)
    pairs = [(n, 1), (1, n)] + [(i, 1) for i in outside] + [(1, j) for j in outside] + [(n + 1, 0), (0, n + 1), (2**32 + 1, 0)]
    zeros = [0] * n
    weighs = [(i, zeros) for i in outside] + [(1, zeros[1:]), (n, []), (n + 1, []), (1, zeros + [TOP]), (1, [TOP] + zeros[2:])]
    return [overhead(words, i, j) for i, j in pairs] + [weigh(words, i, times) for i, times in weighs]


def page(words):
    return '5', ask(words)


def all_calls(words):
    """What each call answers, whether it refuses the board or not."""
    held = lent(words)
    calls = [analyse('4', *held), figures_of_3(words, *held), analyse_of_3('7', *held), page(words), overhead(words, 1, 2)]
    return calls + weighs(words, 'halves') + in_order(words, [[2, 1]])
