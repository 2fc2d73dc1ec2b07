"""Which order of transistors in series has the fewest gaps: each one is planned. Python 3.8."""
from __future__ import annotations

import concurrent.futures
import subprocess
import tempfile
from pathlib import Path
from typing import Callable, Iterable, List, Optional, Tuple

from fitting import text
from flat import Flat, Refused
from orders import Orders
from tech import Technology

Choice = Tuple[Tuple[int, ...], ...]


class Chooser:
    """Plans cells by the program, in a folder of its own; at most `most` orders of a cell at once."""

    def __init__(self, program: str, tech: Technology, seconds: float, most: int, jobs: int, folder: Path) -> None:
        self.program, self.tech, self.seconds, self.most, self.folder = program, tech, seconds, most, folder
        self.pool = concurrent.futures.ThreadPoolExecutor(jobs)
        self.tried = 0

    def gaps(self, cell: Flat, number: int) -> Optional[int]:
        """The gaps of the cell's least row; none where the search did not end."""
        path = self.folder / f"{number}.sp"
        path.write_text(text(cell))
        words = [self.program, "plan", self.tech.path, str(path), cell.name, "--trails"]
        try:
            ended = subprocess.run(words, stdout=subprocess.PIPE, stderr=subprocess.PIPE, universal_newlines=True,
                                   check=False, timeout=self.seconds)
        except subprocess.TimeoutExpired:
            return None
        if ended.returncode not in (0, 6):
            said = (ended.stdout or ended.stderr).splitlines()
            raise Refused(f"plan ended with {ended.returncode}: {'; '.join(said[:2])}")
        found = [line.split()[1] for line in ended.stdout.splitlines() if line.startswith("gaps ")]
        return int(found[0]) if ended.returncode == 0 and found else None

    def least(self, orders: Orders, choices: Iterable[Choice], best: Tuple[float, Choice]) -> Tuple[float, Choice]:
        """The first of the choices with the fewest gaps, or the best so far where that is as good."""
        listed = list(choices)
        numbers = range(self.tried, self.tried + len(listed))
        self.tried += len(listed)
        found = self.pool.map(self.gaps, map(orders.drawn, listed), numbers)
        for choice, gaps in zip(listed, found):
            if gaps is not None and gaps < best[0]:
                best = (gaps, choice)
        return best

    def chosen(self, cell: Flat, report: Callable[[str, str], None]) -> Flat:
        """The cell in the order with the fewest gaps; its own order where that is as good."""
        orders, self.tried = Orders(cell), 0
        if orders.count < 2:
            return cell
        own = self.gaps(cell, -1)
        if own is None:
            report(cell.name, "not reordered: the search for its row does not end (--seconds)")
        if not own:
            return cell
        first = (float(own), orders.plain)
        if orders.count <= self.most:
            best = self.least(orders, orders.all(), first)
        else:
            best = self.by_turns(orders, first)
        how = f"{self.tried} of {orders.count} orders of {len(orders.series)} series tried"
        if best[1] == orders.plain:
            report(cell.name, f"{how}: its own is kept, gaps {own}")
            return cell
        report(cell.name, f"{how}: gaps {own} to {best[0]}, " + self.listed(orders, best[1]))
        return orders.drawn(best[1])

    def by_turns(self, orders: Orders, best: Tuple[float, Choice]) -> Tuple[float, Choice]:
        """One series after another, round and round while that helps and no more than `most` orders are tried."""
        before = None
        while before != best and best[0] > 0 and self.tried < self.most:
            before = best
            for at in range(len(orders.series)):
                mine = best[1]
                best = self.least(orders, (mine[:at] + (order,) + mine[at + 1:] for order in orders.of(at)), best)
        return best

    @staticmethod
    def listed(orders: Orders, choice: Choice) -> str:
        """The gates of the series that are changed, in their new order."""
        words: List[str] = []
        gates = [t.gate for t in orders.cell.transistors]
        for it, order in zip(orders.series, choice):
            if order != tuple(range(len(order))):
                names = [gates_of(it.parts[which], gates) for which in order]
                words.append("-".join(names))
        return "in series now " + ", ".join(words)


def gates_of(block, gates: List[str]) -> str:
    parts = getattr(block, "parts", None)
    if parts is None:
        return gates[block.at]
    sign = "|" if not hasattr(block, "nets") else "-"
    return "(" + sign.join(gates_of(part, gates) for part in parts) + ")"


def chooser(program: str, tech: Technology, seconds: float, most: int,
            jobs: int) -> Tuple[Chooser, tempfile.TemporaryDirectory]:
    folder = tempfile.TemporaryDirectory()
    return Chooser(program, tech, seconds, most, jobs, Path(folder.name)), folder
