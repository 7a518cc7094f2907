"""K1 to K8 and corners, for the program by files."""
from stored.boards import EXECUTE, K1, K8, READ, WRITE, board, edit, executes


def corners():
    one = [[(0, EXECUTE + (3 << 16))]]
    loop = [(0, EXECUTE), (1, EXECUTE), (0, EXECUTE), (1, READ + 32770), (0, EXECUTE)]
    other = [(4, EXECUTE), (5, WRITE + 32769)]

    def alone(deadline=100, limit=100):
        return board(1, [(1, 100, deadline, one)], access=5, limit=limit)

    return {
        'k1': K1,
        'k2': edit(K1, (26, 50), (27, 50)),
        'k3': edit(K1, (22, 35)),
        'k4': edit(K1, (22, 34)),
        'k5_limit_3': edit(K1, (12, 3)),
        'k5_limit_4': edit(K1, (12, 4)),
        'k6_bus_0': edit(K1, (5, 0), (6, 0)),
        'k6_bus_1': edit(K1, (5, 1), (6, 0)),
        'k6_bus_2': edit(K1, (5, 2), (6, 0)),
        'k7': edit(K1, (5, 4)),
        'k8': K8,
        'one_task': alone(),
        'time_equal_to_deadline': alone(deadline=13),
        'late_by_one': alone(deadline=12),
        'shortest_period': board(1, [(1, 1, 1, [executes(0)])], limit=100),
        'passes_equal_to_limit': alone(limit=3),
        'passes_over_limit': alone(limit=2),
        'late_and_spent_is_spent': alone(deadline=12, limit=2),
        'empty_cores_on_tdma': board(8, [(3, 1000, 1000, one), (7, 1000, 900, one)], bus=(4, 2), access=5, limit=100),
        'distributed_min_of_whole_b': board(2, [(1, 5000, 5000, one), (2, 5000, 5000, one)], refresh=(2, 1, 65535, 7), access=5, limit=1000),
        'overhead_of_another_core': board(2, [(1, 700, 700, [other]), (2, 900, 900, [loop]), (1, 1000, 1000, [loop, other]), (2, 2000, 2000, [other])],
                                          (2, 4, 0), (0, 0), access=5, limit=1000),
        'second_trace_is_longest': board(1, [(1, 500, 500, [executes(0), [(0, EXECUTE + (9 << 16)), (1, READ + 32768)]])], access=5, limit=100),
    }
