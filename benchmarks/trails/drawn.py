"""Random fingers of small cells."""
from fingers import Finger, Fingers, columns_of
from pools import PoolLevels

ON_GATE = [(1, 1), (1, 1), (2, 1), (1, 2), (2, 2), (1, 0), (0, 1), (2, 0), (0, 2), (3, 1)]   # P and N fingers of a gate


def random_fingers(draw):
    """Up to six columns: few gates or a gate for each column, fingers that are alike, ends that are one net, empty rows."""
    gates, nets, most = draw.randint(1, 6), draw.randint(2, 8), draw.randint(1, 6)

    def row():
        drawn = [Finger(draw.randrange(gates), *sorted(draw.choices(range(nets), k=2)), 6) for _ in range(draw.randint(most - 1, most))]
        return drawn + drawn[:1] * draw.randint(0, 1)
    fingers = Fingers([f"n{net}" for net in range(nets)], row(), row())
    return fingers if 1 <= columns_of(fingers) <= 6 else random_fingers(draw)


def paired_fingers(draw):
    """Single fingers: a P and an N finger on each gate."""
    nets, gates = draw.randint(3, 8), draw.randint(2, 6)
    rows = [[Finger(gate, *sorted(draw.sample(range(nets), 2)), 6) for gate in range(gates)] for _ in range(2)]
    return Fingers([f"n{net}" for net in range(nets)], *rows)


def uneven_fingers(draw, most_columns=6):
    """Some gates with more P fingers and some with more N fingers, with few ends in common."""
    on_gate = [(2, 1), (1, 2), *draw.choices(ON_GATE, k=draw.randint(0, 4))]
    draw.shuffle(on_gate)
    nets = draw.randint(max(3, len(on_gate)), 9)
    rows = [[Finger(gate, *sorted(draw.choices(range(nets), k=2)), 6) for gate, on in enumerate(on_gate) for _ in range(on[row])] for row in (0, 1)]
    fingers = Fingers([f"n{net}" for net in range(nets)], *rows)
    return fingers if columns_of(fingers) <= most_columns else uneven_fingers(draw, most_columns)


def with_big_gates(draw, big, kinds, copies, others, widths, on_gate):
    """The first gates have some kinds of fingers in each row, each some times. The others have as many as drawn from `on_gate`."""
    nets = draw.randint(big + others + 2, big + others + 6)

    def ends():
        return sorted(draw.choices(range(nets), k=2) if draw.random() < 0.1 else draw.sample(range(nets), 2))
    rows = [[Finger(gate, *ends(), draw.choice(widths)) for gate in range(big) for _ in range(draw.choice(kinds))] for _ in range(2)]
    rows = [[one for one in row for _ in range(draw.choice(copies))] for row in rows]
    for gate in range(big, big + others):
        for row, on in zip(rows, draw.choice(on_gate)):
            row += [Finger(gate, *ends(), draw.choice(widths)) for _ in range(on)]
    return Fingers([f"n{net}" for net in range(nets)], *rows)


def thick_fingers(draw, most_columns=6):
    """A gate of two to four columns, and up to three others."""
    fingers = with_big_gates(draw, 1, (1, 2, 2, 3), (1, 1, 2), draw.randint(0, 3), (6,), ON_GATE)
    return fingers if columns_of(fingers) <= most_columns else thick_fingers(draw, most_columns)


def with_crowded_gates(draw, crowded, copies, others, most_columns):
    """The first gates have so many fingers that each has too many ways, even if it stays open, the others at most one half column."""
    while True:
        fingers = with_big_gates(draw, crowded, (3, 4), copies, draw.randint(*others), (10, 10, 20), ON_GATE[:5])
        if columns_of(fingers) <= most_columns and all(PoolLevels(fingers, [gate], []).crowded is not None for gate in range(crowded)):
            return fingers


def crowded_fingers(draw, most_columns=32):
    """A gate with too many ways and two to four others."""
    return with_crowded_gates(draw, 1, (3, 4, 5), (2, 4), most_columns)


def twice_crowded_fingers(draw, most_columns=32):
    """Two gates with too many ways and one or two others. Either row may have more fingers on each of the two."""
    return with_crowded_gates(draw, 2, (2, 3, 4), (1, 2), most_columns)
