"""The drawn width of a row with its trunks on tracks."""


def lines_of(row):
    """The lines of a row from left to right: (P net, N net, gate net, whether a gap follows); None for no place."""
    lines = [[None, None, None, False]]
    for i, (gate, places) in enumerate(row):
        before = row[i - 1][1] if i else (None, None)
        gap = any(a and b and a[1] != b[0] for a, b in zip(before, places))
        if gap:
            lines[-1][3] = True
            lines.append([None, None, None, True])
            lines.append([None, None, None, False])
        at = lines[-1]
        lines.append([None, None, gate, False])
        lines.append([None, None, None, False])
        for r, place in enumerate(places):
            if place:
                at[r], lines[-1][r] = place
    return lines


def width_of(cell, lines, trunks, track_of):
    """The drawn width in grid units: each line as far left as its distances let it."""
    ends = {}
    for track in set(track_of.values()):
        on = sorted(part for part, t in track_of.items() if t == track)
        for a, b in zip(on, on[1:]):
            if a[1] != b[0]:
                ends.setdefault(b[0], []).append(a[1])
    x = [8]
    for i in range(1, len(lines)):
        node = lines[i - 1 if i % 2 else i]
        wide = any(net is not None and (net in cell.rails or net in trunks) for net in node[:2])
        x.append(max([x[-1] + (11 if wide and not lines[i - 1][3] else 8)] + [x[f] + 14 for f in ends.get(i, [])]))
    return x[-1] + 8
