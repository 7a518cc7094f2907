"""The boards of the reference's generator, with the calls made on each."""
import os

from stored.boards import cache, caches, edit, placed
from stored.calls import analyse, analyse_of_3, figures_of_3, in_order, lent, numbers, page, row, weighed
from stored.orders import orders
from stored.reference import bytes_of, words_of


def short_boards(folder):
    """The short ones of the drawn boards."""
    names = sorted(f for f in os.listdir(folder) if f.startswith('v_') and f.endswith('.board'))
    boards = [words_of(open(os.path.join(folder, name), 'rb').read()) for name in names]
    return [words for words in boards if len(words) < 400]


def with_full_sets(content, memory):
    """The same board in caches of few sets, with periods and deadlines for the accesses that it then has."""
    words = placed(words_of(content), memory)
    return bytes_of(edit(words, *((at + 5 * k, 8 * words[at + 5 * k]) for k in range(words[1]) for at in (21, 22))))


def generated(folder):
    """Each board that some call takes, and the calls; those that Analyse takes in every order of their tasks, likewise; and the files whose pages the
    program itself must print."""
    names = sorted(f[:-6] for f in os.listdir(folder) if f.endswith('.board'))
    raw = {name: open(os.path.join(folder, name + '.board'), 'rb').read() for name in names}
    damaged = [f for f in names if f.startswith('d0_') and len(raw[f]) < 2000]
    damaged += [f for f in names if f[:2] in ('d1', 'd2', 'd3') and len(raw[f]) < 2000][::8]
    pages = [f for f in names if f.startswith('v_') and len(raw[f]) < 6000] + damaged
    files = [f for f in pages if len(raw[f]) % 4]
    files += ['d0_size65536', 'd0_size65537', 'big_02', 'big_11', 'big_20', 'big_32', 'big_42', 'bigone_2', 'climb_2', 'long_times_3000']
    cases, ordered, refused = [], [], {}
    for name in names:
        words = words_of(raw[name])
        calls = []
        sums = os.path.join(folder, name + '.weigh')
        if os.path.exists(sums) and len(raw[name]) <= 2000:
            calls += map(weighed, open(sums).read().splitlines())
        if 0 < len(raw[name]) <= 1200 and len(raw[name]) % 4 == 0:
            held = lent(words)
            by = row(held[0])
            refused[by] = refused.get(by, 0) + 1
            # the longest climb, 2^28 + 1 passes, is made once
            again = name != 'climb_full'
            # six boards a row are enough
            if not by or refused[by] <= 6:
                calls += [analyse('4', *held), figures_of_3(words, *held)]
                if again:
                    calls.append(analyse_of_3('7', *held))
            if refused[by] <= 3:
                calls += numbers(words)
            if not by and again:
                ordered.append((words, in_order(words, orders(words[1]))))
        if name in pages and name not in files:
            calls.append(page(words))
        if calls:
            cases.append((words, calls))
    full = [('big_32', 4), ('bigone_2', 8)]
    several = {'%s_%d_ways' % (name, ways): with_full_sets(raw[name], cache(2, ways)) for name, ways in full}
    apart = {'%s_two_caches_%d_ways' % (name, ways): with_full_sets(raw[name], caches(2, 3, ways)) for name, ways in full}
    return cases, ordered, {**{name: raw[name] for name in files}, **several, **apart}
