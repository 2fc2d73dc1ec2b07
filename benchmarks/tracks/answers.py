"""What `make .. --low` answers for a small cell, compared with what its lowest row has to be."""
import importlib.machinery
import pathlib
import resource
import signal
import subprocess
from collections import namedtuple

from lowest_row import channel, lines_of, needed_height, rows

certificate = importlib.machinery.SourceFileLoader("certificate", str(pathlib.Path(__file__).resolve().parent / "certificate")).load_module()
UNIT_NM, METAL1 = 150, 49
LAYER, XY = 0x0D02, 0x1003                                         # records of a GDSII file
SECONDS = 20                                                       # of a processor, for one call
MOST_READ = 6                                                      # tracks; the plain reader tries all orders of them
# words: those of `make` that choose how nets go; head: a certificate's first line; fewest: what its check reports
Course = namedtuple("Course", "words head fewest")
STRAIGHT = Course([], certificate.HEADS[0], "fewest")
TURNING = Course(["--dogleg"], certificate.HEADS[1], "fewest-dogleg")


class Differs(Exception):
    """What the program answers and what was expected."""


class Spent(Exception):
    """A call took more than SECONDS."""


def same(what, found, wanted):
    if found != wanted:
        raise Differs(f"{what}:\n{found}\nexpected:\n{wanted}")


def row_lines(cell, row):
    """The report's lines of a row's columns."""
    def place(at, one):
        return "- - 0" if one is None else "{} {} {}".format(*(cell.nets[net] for net in cell.ends(at, one)), cell.width(at, one))
    return [f"column {at} gate {cell.nets[column.gate]} p {place(0, column.p)} n {place(1, column.n)}" for at, column in enumerate(row)]


def evidence_lines(row):
    """The lines of a row's columns in a log or a certificate by trails."""
    return ["column " + " ".join(map(str, (column.gate, *(column.p or ("-", 0)), *(column.n or ("-", 0))))) for column in row]


def planned(cell, name, gaps, row):
    """The first lines of the report of a cell that is made: its row."""
    return ["status 0 ok", f"cell {name}", f"columns {cell.columns}", f"gaps {gaps}", f"width {cell.columns + gaps}", *row_lines(cell, row)]


def expected(cell, name, found, height):
    """The report of a cell that is made, to the line of its size."""
    width = lines_of(channel(cell, found.row), found.routing)[-1] + 8
    return [*planned(cell, name, found.gaps, found.row), f"tracks {found.tracks}", f"fewest {found.tracks}",
            f"size {width} {height or needed_height(cell, found.row, found.tracks)}"]


def rectangles(data, layer):
    """The rectangles of a layer of a GDSII file, in grid units."""
    at, on, found = 0, None, set()
    while at < len(data):
        size, code = int.from_bytes(data[at:at + 2], "big"), int.from_bytes(data[at + 2:at + 4], "big")
        body, at = data[at + 4:at + size], at + size
        if code == LAYER:
            on = int.from_bytes(body, "big")
        elif code == XY and on == layer and len(body) == 40:
            points = [int.from_bytes(body[byte:byte + 4], "big", signed=True) / UNIT_NM for byte in range(0, 40, 4)]
            found.add((min(points[::2]), min(points[1::2]), max(points[::2]), max(points[1::2])))
    return found


class Made:
    """A cell in a folder, the program, and what the program has to find."""

    def __init__(self, program, room, cell, found, course):
        self.program, self.room, self.cell, self.found, self.course = str(pathlib.Path(program).resolve()), room, cell, found, course
        self.first = next(rows(cell, found.least))
        self.accepted = set()                                      # certificates that both readers accept

    def listed(self, row):
        """The row in the evidence for the gaps, where this one is drawn: the first least one if it has more gaps."""
        return row if self.found.gaps == self.found.least else self.first

    def run(self, *words):
        """The lines of the report, of which the first names the status."""
        ended = subprocess.run([self.program, *words], cwd=self.room, capture_output=True, check=False,
                               preexec_fn=lambda: resource.setrlimit(resource.RLIMIT_CPU, (SECONDS, SECONDS + 1)))
        if ended.returncode in (-signal.SIGXCPU, -signal.SIGKILL):
            raise Spent
        lines = ended.stdout.decode("latin-1").splitlines()
        same(f"the status of {' '.join(words)}", [lines[0].split()[1] if lines else "", ended.stderr], [str(ended.returncode), b""])
        return lines

    def make(self, tech, out, *words):
        """The report of `make` and its files by their endings."""
        for file in self.room.glob(f"{out}.*"):
            file.unlink()
        lines = self.run("make", tech, "x.sp", "x", out, *words)
        return lines, {file.suffix[1:]: file.read_bytes() for file in self.room.glob(f"{out}.*")}

    def tracks_proved(self, tech, files, gaps, fewest):
        """The certificate of tracks is there where it says something, and the program and the plain reader accept it."""
        same("whether there is a certificate of tracks", "ctrack" in files, fewest > 0)
        if fewest and files["ctrack"] not in self.accepted:
            said = ["status 0 ok", "cell x", f"gaps {gaps}", f"{self.course.fewest} {fewest}"]
            same("check .. --low", self.run("check", tech, "x.sp", "x", "low.ctrack", "--low"), said)
            self.accepted.add(files["ctrack"])
            if fewest <= MOST_READ or b"\nlemma" not in files["ctrack"]:
                self.read_again(files["ctrack"], gaps, fewest)
        if fewest:
            head = files["ctrack"].decode("latin-1").splitlines()[:4]
            same("the certificate's head", head, [self.course.head, "cell x", f"gaps {gaps}", f"tracks {fewest}"])

    def read_again(self, data, gaps, fewest):
        """By the plain reader. Lemmas on cycles are there exactly where rows with fewer gaps are, and speak of all these."""
        cell, text = certificate.cell_of(self.room / "x.sp", "x"), data.decode("latin-1")
        try:
            read = certificate.check(cell, "x", text)
        except certificate.Wrong as wrong:
            raise Differs(f"the other reader refuses the certificate: {wrong}") from None
        same("the certificate", read[:2], (gaps, fewest))
        cycles = certificate.parsed(cell, "x", text)[2]
        if read[3]:                                                # lemmas on tracks
            same("lemmas on cycles", bool(cycles), gaps > self.found.least)
            same("rows with fewer gaps", not cycles or certificate.above.first_wrong(cell, gaps - 1, cycles) == (None, True), True)

    def evidence(self, tech, files, words, row):
        """The evidence for the gaps is accepted, and lists that row. Returns the report's lines about it."""
        trails = [word for word in words if word == "--trails"]
        ending = "ctrail" if trails else "clog"
        text = files[ending].decode("latin-1").splitlines()
        same("the row of the evidence", [line for line in text if line.startswith("column")], evidence_lines(row))
        counts = [f"lemmas {sum(line.startswith('lemma ') for line in text)}"]
        if trails:
            counts += [f"filled {len(text[2].replace(',', ' ').replace('-', '').split()) - 1}"]
        if files[ending] not in self.accepted:
            checked = self.run("check", tech, "x.sp", "x", f"low.{ending}", *trails)
            same("check of the evidence", [checked[0], *checked[5:]], ["status 0 ok", *counts])
            self.accepted.add(files[ending])
        return counts

    def drawn(self, tech, files, words):
        """The drawing has the trunks of the first routing, and is the subcircuit."""
        cell, found = self.cell, self.found
        it = channel(cell, found.row)
        xs = lines_of(it, found.routing)
        base = 44 + max([10, *(cell.width(1, column.n) for column in found.row if column.n)])
        trunks = {(xs[one.left] - 4, base + 16 * track - 4, xs[one.right] + 4, base + 16 * track + 4)
                  for one, track in found.routing.items()}
        same("trunks that are not drawn", trunks - rectangles(files["gds"], METAL1), set())
        self.extracted(tech, words)

    def extracted(self, tech, words):
        """The drawing is the subcircuit; the abstract agrees."""
        cell = self.cell
        said = self.run("extract", tech, "low.gds", "x", *(word for word in words if word == "--taps"))
        same("extract", said[0], "status 0 ok")
        same("the nets", sorted(line.split()[2] for line in said if line.startswith("net ")), sorted(cell.nets))
        devices = sorted((at, cell.nets[one.gate], *sorted((cell.nets[one.lo], cell.nets[one.hi])), str(one.width))
                         for at, kinds in enumerate(cell.kinds) for one, count in zip(kinds, cell.counts[at]) for _ in range(count))
        parts = [line.split() for line in said if line.startswith("device ")]
        same("the devices", sorted(("pn".index(part[2]), part[4], *sorted(part[6:8]), part[9]) for part in parts), devices)
        same("agree", self.run("agree", tech, "low.gds", "low.lef", "x")[0], "status 0 ok")

    def tech(self, **keys):
        (self.room / "x.toml").write_text("".join(f"{key} = {value}\n" for key, value in keys.items()), encoding="ascii")
        return "x.toml"


def whole(made, tech, words, height=0, is_read=True):
    """The answer within the budget, where the cell is made."""
    said, files = made.make(tech, "low", *words)
    counts = made.evidence(tech, files, words, made.listed(made.found.row))
    same("the report", said, expected(made.cell, "x", made.found, height) + counts)
    same("the files", sorted(files), sorted([*("ctrack" for _ in range(made.found.tracks > 0)), "gds", "lef",
                                             "ctrail" if "--trails" in words else "clog"]))
    made.tracks_proved(tech, files, made.found.gaps, made.found.tracks)
    if is_read:
        made.drawn(tech, files, words)


def unwired(made, tech, words):
    """No row can be wired: the answer of `make`, and a proof that each takes as many tracks as there are nets."""
    said, files = made.make(tech, "low", *words)
    plain, old = made.make(tech, "make", *(word for word in words if word != "--low"))
    same("the report", said, plain)
    same("the status", said[0], "status 5 cycle")
    made.evidence(tech, files, words, made.first)
    made.tracks_proved(tech, files, made.cell.columns - 1, len(made.cell.nets))
    same("the files", {**files, "ctrack": b""}, {**old, "ctrack": b""})


def ringed(made, tech, words, is_whole=False):
    """Nets may turn, and no row is known that can be wired: a cycle of the first least row, and what is proved of all. With
    the whole budget no row takes fewer tracks than there are nets."""
    found = made.found
    said, files = made.make(tech, "low", *words)
    plain, old = made.make(tech, "make", *(word for word in words if word != "--low"))
    same("the report", [said[0], *said[2:], plain[0]], ["status 6 unfinished", *plain[1:], "status 5 cycle"])
    made.evidence(tech, files, words, made.first)
    proved = int(files["ctrack"].decode("latin-1").splitlines()[3].split()[1]) if "ctrack" in files else 0
    same("the line of the tracks", said[1], f"fewest {len(made.cell.nets) if is_whole else proved}")
    if found.row is not None and proved > found.tracks:
        raise Differs(f"{proved} tracks are proved, and {found.tracks} are the fewest")
    made.tracks_proved(tech, files, found.gaps, proved)
    same("the files", {**files, "ctrack": b""}, {**old, "ctrack": b""})
    return f"a cycle in the first least row, no row known that can be wired, {'some' if proved else 'no'} tracks proved"


def too_tall(made, tech, words, height):
    said, files = made.make(tech, "low", *words)
    needed = needed_height(made.cell, made.found.row, made.found.tracks)
    same("the report", said, ["status 11 tall", f"fewest {made.found.tracks}", f"needed {needed}", f"given {height}"])
    made.evidence(tech, files, words, made.listed(made.found.row))
    made.tracks_proved(tech, files, made.found.gaps, made.found.tracks)
    same("a drawing", {"gds", "lef"} & set(files), set())


def gaps_spent(made, tech, words, said, files):
    """The budget is spent in the search for a row that can be wired: what is proved of rows with fewer gaps."""
    plain, old = made.make(tech, "make", *(word for word in words if word != "--low"))
    same("the report", [said, plain[0]], [["status 6 unfinished", "fewest 0", *plain[1:]], "status 5 cycle"])
    made.evidence(tech, files, words, made.first)
    if "ctrack" in files:
        gaps = int(files["ctrack"].decode("latin-1").splitlines()[2].split()[1])
        same("rows that can be wired", made.found.least <= gaps < made.found.gaps, True)
        made.tracks_proved(tech, files, gaps, len(made.cell.nets))
    same("the files", {**files, "ctrack": b""}, {**old, "ctrack": b""})
    return f"budget spent, no row known that can be wired, {'fewer gaps proved' if 'ctrack' in files else 'nothing proved'}"


def tracks_spent(made, tech, words, said, files):
    """The budget is spent on the tracks: the first row that can be wired with the fewest gaps, routed as `make` does it."""
    found = made.found
    at = next(at for at, line in enumerate(said) if line.startswith("tracks"))
    same("the row", said[:at], planned(made.cell, "x", found.gaps, found.wired))
    taken, proved = (int(line.split()[1]) for line in said[at:at + 2])
    if not proved <= found.tracks <= taken:
        raise Differs(f"{proved} tracks are proved and {taken} drawn, and {found.tracks} are the fewest")
    made.tracks_proved(tech, files, found.gaps, proved)
    same("the counts", said[at + 3:], made.evidence(tech, files, words, made.listed(found.wired)))
    made.extracted(tech, words)
    if found.gaps == found.least:
        given = [word for word in words if word != "--low"] + ["--from", "low.ctrail" if "--trails" in words else "low.clog"]
        lines, drawn = made.make(tech, "make", *given)
        same("the drawing of the row", [said[at], *said[at + 2:at + 3], *drawn.values()],
             [*lines[at:at + 2], *(files[ending] for ending in drawn)])
    return f"budget spent, {'fewest less than tracks' if proved < taken else 'tracks proved fewest'}"


def within(made, budget, words):
    """The answer with a small budget. Returns what it is."""
    tech = made.tech(budget=budget)
    said, files = made.make(tech, "low", *words)
    plain, old = made.make(tech, "make", *(word for word in words if word != "--low"))
    if plain[0] == "status 6 unfinished":
        same("the report", (said, files), (plain, old))
        return "search for the gaps open"
    if said[0] == "status 5 cycle" and made.course == STRAIGHT:
        same("a row that is wired", made.found.row, None)
        unwired(made, tech, words)
        return "budget enough for a cycle in each row"
    if said[0] == "status 6 unfinished":
        return ringed(made, tech, words) if made.course == TURNING else gaps_spent(made, tech, words, said, files)
    same("the status", said[0], "status 0 ok")
    same("no row that is wired", made.found.row is None, False)
    wanted = expected(made.cell, "x", made.found, 0)
    if said[:len(wanted)] == wanted:
        whole(made, tech, words, is_read=False)
        return "budget enough for the lowest row"
    return tracks_spent(made, tech, words, said, files)


def differences(made, draw):
    """Makes the cell in several ways. Yields what the answers are; raises Differs where one is not as expected."""
    def words():
        return [*made.course.words, *draw.choice((["--taps"], [])), "--low", *draw.choice((["--trails"], []))]
    if made.found.row is None and made.course == TURNING:
        yield ringed(made, "-", words(), is_whole=True)
    elif made.found.row is None:
        unwired(made, "-", words())
        yield "no row wired"
    else:
        asked = words()
        whole(made, "-", asked)
        yield f"made on {made.found.tracks} tracks"
        yield from (f"made with {word}" for word in asked if word not in ("--low", "--dogleg"))
        if made.found.wired != made.first and made.course == TURNING:
            yield "made, and the first least row has a cycle"
        if made.found.gaps > made.found.least:
            yield f"no least row wired, made with {made.found.gaps - made.found.least} gaps more"
        needed = needed_height(made.cell, made.found.row, made.found.tracks)
        too_tall(made, made.tech(height=needed - 1), words(), needed - 1)
        yield "height too small"
        height = needed + draw.randint(0, 20)
        whole(made, made.tech(height=height), words(), height, is_read=draw.random() < 0.2)
        yield "height given"
    for budget in (draw.randint(1, 8), draw.randint(6, 80)):
        yield within(made, budget, words())
