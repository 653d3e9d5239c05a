"""The report of a run, `report.html`: one file that loads no other. In the end its tree and its
timeline stand beside it as pictures, and its leaves as CSV.

The splitting tree is drawn from the root down; all leaves have the same width. Neighbours that
would be narrower than a pixel or two are drawn as one, in the colour of the longest of them, so
that 5,000 leaves are as readable as 16.
"""
import bisect
import collections
import csv
import html
import io
import math
import os
import time
from pathlib import Path
from typing import Dict, Iterable, Iterator, List, Optional, Sequence, Tuple

from leaf_jobs import places
from leaf_jobs.figures import (State, breaks_of, megabytes, size, spent, state_of, told, took)
from leaf_jobs.files import Cube, digest
from leaf_jobs.leaf import CLOSED, LIMIT, Plan, Record, Records
from leaf_jobs.run import ALL_COVERED, NOT_COVERED, Run
from leaf_jobs.screen import Screen
from leaf_jobs.usage import Usage, usages

WIDTH = 1160  # of each picture, in pixels
NARROW = 1.5  # what is narrower than this is drawn with its neighbours
ROWS = 400  # of the table
EVERY = 3  # seconds after which the report is renewed at the earliest
SHARE = 0.02  # of the time, at most, that the script spends on renewing it
SPAN = 10000  # the longest of the times that are told apart, by the shortest
RAMP = ((255, 246, 205), (253, 200, 105), (240, 125, 60), (190, 50, 80), (75, 20, 95))
OPEN, COVERED, FORK = "#d9d9df", "#cfe3f3", "#f4f4f7"  # of what has no time
THIN, RED = ' stroke="#fff" stroke-width=".6"', ' stroke="#c00" stroke-dasharray="2"'  # edges

INK = "text{font:11px system-ui,sans-serif;fill:#333}"
STYLE = """
body{font:15px/1.5 system-ui,sans-serif;color:#222;max-width:1160px;margin:2em auto;padding:0 1em}
h1{font-size:1.5em;margin:0}h2{font-size:1.1em;margin:2em 0 .3em}p{margin:.3em 0;color:#555}
svg{display:block;width:100%;min-width:760px;height:auto}
dl{display:flex;flex-wrap:wrap;gap:.6em 2.2em;margin:1em 0}dt{font-size:.8em;color:#666}
dd{margin:0;font-size:1.15em;font-weight:600}
table{border-collapse:collapse;width:100%;font-size:.85em;font-variant-numeric:tabular-nums}
th,td{padding:.15em .7em;text-align:right;border-bottom:1px solid #eee;white-space:nowrap}
th{color:#666;font-weight:600}.cube{text-align:left}
td.cube{white-space:normal;overflow-wrap:anywhere;min-width:12em}
.wide{overflow-x:auto}code{overflow-wrap:anywhere}
"""


class Scale:
    """Colours for times, by their logarithm: from the shortest to the longest."""

    def __init__(self, times: List[float]) -> None:
        self.most = max(times, default=0.001)
        self.least = max(min(times, default=0.001), self.most / SPAN)

    def place(self, seconds: float) -> float:
        """From 0 for the shortest to 1 for the longest."""
        if self.most <= self.least:
            return 0.0
        return math.log(seconds / self.least) / math.log(self.most / self.least)

    def colour(self, seconds: float) -> str:
        at = min(0.9999, max(0.0, self.place(seconds))) * (len(RAMP) - 1)
        low, high = RAMP[int(at)], RAMP[int(at) + 1]
        return "#%02x%02x%02x" % tuple(round(a + (b - a) * (at % 1)) for a, b in zip(low, high))

    def ink(self, seconds: Optional[float]) -> str:
        """A colour to write with on that of `seconds`."""
        return "#fff" if seconds and self.place(seconds) > 0.6 else "#333"


def picture(height: float, parts: List[str], label: str) -> str:
    size = 'viewBox="0 0 %d %d" width="%d" height="%d"' % (WIDTH, height, WIDTH, height)
    head = '<svg xmlns="http://www.w3.org/2000/svg" %s role="img" aria-label="%s">' % (size, label)
    return "%s<style>%s</style>%s</svg>\n" % (head, INK, "\n".join(parts))


def framed(drawn: str) -> str:
    """A picture or a table of the page, which is moved from side to side on a narrow screen."""
    return "<div class=wide>%s</div>" % drawn


def box(x: float, y: float, wide: float, high: float, colour: str, title: str,
        more: str = "") -> str:
    size = 'x="%.2f" y="%.2f" width="%.2f" height="%.2f"' % (x, y, wide, high)
    title = "<title>%s</title>" % html.escape(title)
    return '<rect %s fill="%s"%s>%s</rect>' % (size, colour, more, title)


def text(x: float, y: float, words: str, anchor: str = "middle", ink: str = "#333") -> str:
    return '<text x="%.1f" y="%.1f" text-anchor="%s" style="fill:%s">%s</text>' % (
        x, y, anchor, ink, html.escape(words))


class Tree:
    """The splitting tree as boxes: each branch under its fork, a leaf down to the floor."""

    def __init__(self, state: State, last: Dict[Cube, Record], scale: Scale) -> None:
        self.cubes, self.covered, self.last, self.scale = state.cubes, state.covered, last, scale
        self.depth = max(map(len, self.cubes))
        self.high = max(7, min(22, 440 // (self.depth + 1)))
        self.wide = WIDTH / len(self.cubes)
        self.floor = (self.depth + 2) * self.high
        self.own = state.own.issuperset
        self.jobs = [last.get(cube) if cube in state.own else None for cube in self.cubes]

    def draw(self) -> str:
        parts, stack = [], [(0, 0, len(self.cubes))]
        while stack:
            depth, low, high = stack.pop()
            path, wide = self.cubes[low][:depth], (high - low) * self.wide
            leaf = len(self.cubes[low]) == depth
            if leaf or wide < NARROW:
                parts += self.leaves(depth, low, high)
                continue
            parts += self.fork(path, low, wide)
            middle = self.other_branch(depth, low, high)
            stack += [(depth + 1, low, middle), (depth + 1, middle, high)]
        return picture(self.floor + 2, parts, "the splitting tree")

    def other_branch(self, depth: int, low: int, high: int) -> int:
        """The place of the first leaf below the fork's second branch."""
        first = self.cubes[low][depth]
        is_other = [self.cubes[place][depth] != first for place in range(low, high)]
        return low + bisect.bisect_left(is_other, True)

    def fork(self, path: Cube, low: int, wide: float) -> List[str]:
        job = self.last.get(path)  # it was a leaf once, and was cut in two
        seconds: Optional[float] = None
        title = "%s, %d leaves below" % (self.told(path), round(wide / self.wide))
        if job:
            seconds = spent(job)
            how = "cut in two" if job.outcome == LIMIT else "as one leaf " + job.outcome
            title += ", %s after %s" % (how, told(seconds))
        colour = self.scale.colour(seconds) if seconds else FORK
        x, y = low * self.wide, len(path) * self.high
        parts = [box(x, y, wide, self.high, colour, title, THIN)]
        return parts + self.label(path, x, y, wide, self.scale.ink(seconds))

    def label(self, path: Cube, x: float, y: float, wide: float, ink: str) -> List[str]:
        """The literal of a branch, if there is room for it."""
        if wide < 30 or self.high < 12:
            return []
        words = str(path[-1]) if path else "formula"
        return [text(x + wide / 2, y + self.high / 2 + 4, words, ink=ink)]

    def leaves(self, depth: int, low: int, high: int) -> List[str]:
        """A leaf, or several that are too narrow to be told apart."""
        job = max(filter(None, self.jobs[low:high]), key=spent, default=None)
        seconds = spent(job) if job else None
        colour, words = self.kind(self.cubes[low:high])
        if job and seconds:
            colour, words = self.scale.colour(seconds), took(job)
        x, y, wide = low * self.wide, depth * self.high, (high - low) * self.wide
        lead, ink = "leaves %d to %d, at most" % (low + 1, high), self.scale.ink(seconds)
        if high - low == 1:
            lead = self.told(self.cubes[low])
        title = "%s: %s" % (lead, words)
        parts = [box(x, y, wide, self.floor - y, colour, title, THIN if wide > 3 else "")]
        if high - low == 1:
            parts += self.label(self.cubes[low], x, y, wide, ink)
        if wide > 6 * len(words):
            parts.append(text(x + wide / 2, self.floor - 6, words, ink=ink))
        return parts

    def kind(self, cubes: List[Cube]) -> Tuple[str, str]:
        """The colour and word of leaves that have no time."""
        if self.covered.issuperset(cubes):
            return COVERED, "by another's log"
        return (FORK, "closed by logs") if self.own(cubes) else (OPEN, "open")

    @staticmethod
    def told(path: Cube) -> str:
        return " ".join(map(str, path)) or "the whole formula"


def curve(times: List[float], scale: Scale) -> str:
    """The leaves from the longest to the shortest; each line up is ten times as long."""
    high, left, times = 200, 54, sorted(times, reverse=True)
    least, most = math.floor(math.log10(scale.least)), math.ceil(math.log10(scale.most))
    powers = range(least, max(least + 1, most) + 1)
    level = lambda seconds: 8 + high * (powers[-1] - math.log10(seconds)) / (len(powers) - 1)
    wide, parts = (WIDTH - left) / len(times), []
    for power in powers:
        y = level(10.0 ** power)
        parts.append('<path d="M%d %.1fH%d" stroke="#ddd"/>' % (left, y, WIDTH))
        parts.append(text(left - 6, y + 4, "%g s" % 10.0 ** power, "end"))
    step = max(1, math.ceil(NARROW / wide))
    for first in range(0, len(times), step):
        seconds, count = times[first], min(step, len(times) - first)
        title = "%s, number %d of %d" % (told(seconds), first + 1, len(times))
        gap = 0.8 if wide > 4 else 0
        y, colour = min(high + 8, level(seconds)), scale.colour(seconds)
        parts.append(box(left + first * wide, y, count * wide - gap, high + 8 - y, colour, title))
    return picture(high + 14, parts, "the leaves by time")


def machines_of(records: List[Record]) -> Dict[str, int]:
    """The number of each machine, from 1, in the order in which their first jobs began. Files that
    are published have it in the place of the name, so that another machine makes the same."""
    return {host: number for number, host in
            enumerate(dict.fromkeys(record.host for record in records), 1)}


def lanes_of(records: List[Record]) -> Tuple[List[int], List[Tuple[int, int]]]:
    """For each job the lane in which it is drawn: the first of its machine that is free by then."""
    machines = machines_of(records)
    free: Dict[int, List[float]] = collections.defaultdict(list)
    lanes: List[Tuple[int, int]] = []
    for record in records:
        machine = machines[record.host]
        ends = free[machine]
        idle = (lane for lane, end in enumerate(ends) if end < record.begin + 0.01)
        lane = next(idle, len(ends))
        ends[lane:lane + 1] = [record.end]
        lanes.append((machine, lane))
    order = {lane: place for place, lane in enumerate(sorted(set(lanes)))}
    return [order[lane] for lane in lanes], sorted(order)


def workers(records: List[Record], scale: Scale) -> str:
    """What ran where and when; times at which nothing ran are left out."""
    places, lanes = lanes_of(records)
    breaks, end = breaks_of(records)
    pause = lambda moment: sum(length for begin, length in breaks if begin < moment)
    at = lambda moment: moment - records[0].begin - pause(moment)
    left, high = 120, max(3, min(18, 600 // len(lanes)))
    per_second = (WIDTH - left) / max(0.001, at(end))
    parts = []
    for record, place in zip(records, places):
        for share in record.shares():
            title = "%s, %s, %s" % (Tree.told(share.cube), took(share), record.outcome)
            x, wide = left + at(share.begin) * per_second, (share.end - share.begin) * per_second
            more = RED if record.outcome != CLOSED and wide > 3 else ""
            colour, wide = scale.colour(spent(share)), max(0.4, wide - 0.4)
            parts.append(box(x, place * high, wide, high - 1, colour, title, more))
    for place, (machine, lane) in enumerate(lanes):
        if high > 9:
            name = "machine %d, job %d" % (machine, lane + 1)
            parts.append(text(left - 8, place * high + high / 2 + 3, name, "end"))
    floor = len(lanes) * high
    for begin, _ in breaks:
        x = left + at(begin) * per_second
        line = '<path d="M%.1f 0V%d" stroke="#06c" stroke-dasharray="4 3"/>'
        parts.append(line % (x, floor))
    for tenth in range(0, 11, 2):
        anchor, x = "end" if tenth == 10 else "middle", left + tenth / 10 * (WIDTH - left)
        parts.append(text(x, floor + 15, told(at(end) * tenth / 10), anchor))
    return picture(floor + 22, parts, "the workers' lanes")


def closed(state: State, cube: Cube) -> str:
    """By what a leaf is closed."""
    if cube in state.covered:
        return "by another's log"
    return "by its log" if cube in state.own else "open"


def table(state: State, last: Dict[Cube, Record]) -> str:
    """The leaves that took longest, each with its last job."""
    late = lambda row: -spent(last[row[1]]) if row[1] in last else 1
    rows = sorted(enumerate(state.cubes, 1), key=late)
    lines = ["<tr><th>leaf<th>closed<th>time<th>memory<th>log<th>began<th>host<th>its job"
             "<th class=cube>cube"]
    for place, cube in rows[:ROWS]:
        job = last.get(cube)
        cells = [closed(state, cube)] + [""] * 6
        if job:
            began = time.strftime("%d %b %H:%M:%S", time.localtime(job.begin))
            cells[1:] = [took(job), megabytes(job.memory), size(job.bytes), began, job.host,
                         job.outcome]
        row = "".join("<td>" + html.escape(cell) for cell in [str(place)] + cells)
        lines.append("<tr>%s<td class=cube>%s" % (row, html.escape(Tree.told(cube))))
    return "<table>%s</table>" % "\n".join(lines)


def shared(found: Sequence[Usage]) -> str:
    """A row for each worker of a cell: what it has learnt, and what it has taken over from whom."""
    heads = "".join("<th>of %d" % place for place in range(1, len(found) + 1))
    rows = ["<tr><th>worker<th>learnt<th>taken over%s" % heads]
    for place, one in enumerate(found, 1):
        numbers = [one.lemmas, sum(one.used.values())] + [one.used.get(other.name, 0)
                                                          for other in found]
        cells = "".join("<td>{:,}".format(number) for number in numbers)
        rows.append("<tr><td>%d%s" % (place, cells))
    return SHARED + framed("<table>%s</table>" % "\n".join(rows))


BESIDE = ("tree.svg", "timeline.svg", "leaves.csv")  # files beside the report
NONE = 1  # the status of a run that was ended before it had an answer
ANSWERS = {20: "s UNSATISFIABLE", 10: "s SATISFIABLE", 0: "s UNKNOWN", ALL_COVERED: "s COVERED",
           NOT_COVERED: "s NOT COVERED", NONE: "ended without answer", None: "under way"}
RENEWED = '<meta http-equiv="refresh" content="5">'
TREE = """<h2>The splitting tree</h2><p>From the whole formula down to the leaves: the lighter, the
sooner closed (%s); the darker, the later (%s). Blue leaves are closed by another's log, grey ones
are open. A time that is told with <i>about</i> was not measured: it is the part of the time of a
job with several leaves that the leaf's log is of the job's.</p>"""
CURVE = "<h2>Leaves by time</h2><p>The longest first; each line up is ten times as long.</p>"
LANES = """<h2>Workers</h2><p>Which job ran when. Dashed lines are times at which nothing ran; a red
edge is a job that closed nothing.</p>"""
SHARED = """<h2>Who used whose lemmas</h2><p>By the logs of the cell's workers: how many lemmas each
has learnt, and how many it has taken over from each other one.</p>"""


def scale_of(state: State, last: Dict[Cube, Record]) -> Scale:
    """Colours for the times that are drawn: of leaves with logs of their own, and of cut ones."""
    drawn = [last[cube] for cube in state.own if cube in last] + state.cut_leaves(last)
    return Scale([spent(record) for record in drawn
                  if record.of == 1 or record.bytes or record.turns])


def page(name: str, how: str, state: State, status: Optional[int],
         more: Iterable[Tuple[str, str]] = (), used: Sequence[Usage] = ()) -> str:
    last = state.last()
    scale, title = scale_of(state, last), html.escape(os.path.basename(name))
    shown = [spent(last[cube]) for cube in state.cubes if cube in state.own and cube in last]
    body = ["<h1>%s: %s</h1><p>%s</p>" % (title, ANSWERS[status], html.escape(how))]
    figures = "".join("<div><dt>%s<dd>%s</div>" % figure for figure in state.facts())
    body.append("<dl>%s</dl>" % figures)
    body += ["<p>%s: <code>%s</code></p>" % (what, html.escape(told)) for what, told in more]
    if last:
        body.append(TREE % (told(scale.least), told(scale.most)))
        body.append(framed(Tree(state, last, scale).draw()))
    if shown:
        body += [CURVE, framed(curve(shown, scale))]
    if state.records:
        body += [LANES, framed(workers(state.records, scale))]
    if used:
        body.append(shared(used))
    only = ", the %d longest" % ROWS if len(state.cubes) > ROWS else ""
    body.append("<h2>The leaves%s</h2>%s" % (only, framed(table(state, last))))
    head = '<meta charset="utf-8"><meta name="viewport" content="width=device-width">'
    head += "<title>%s</title><style>%s</style>" % (title, STYLE)
    head += RENEWED if status is None else ""
    return '<!DOCTYPE html><html lang="en">%s\n%s</html>\n' % (head, "\n".join(body))


def listed(state: State) -> str:
    """The leaves as CSV, in the order of the tree. Moments count from the first job."""
    last, rows = state.last(), io.StringIO()
    write = csv.writer(rows, lineterminator="\n").writerow
    write(["leaf", "cube", "closed", "job", "leaves_of_job", "began", "seconds", "memory_bytes",
           "log_bytes", "machine"])
    first = min((record.begin for record in state.records), default=0.0)
    machines = machines_of(state.records)
    for place, cube in enumerate(state.cubes, 1):
        job = last.get(cube)
        cells: List[object] = [""] * 7
        if job:
            cells = [job.outcome, job.of, "%.3f" % (job.begin - first), "%.3f" % spent(job),
                     job.memory, job.bytes, machines[job.host]]
        write([place, " ".join(map(str, cube)), closed(state, cube), *cells])
    return rows.getvalue()


def how_of(plan: Plan, cuts: int) -> str:
    """By what the formula was split and its leaves were searched."""
    how = "satcluster refute"
    if plan.workers:
        how = "satcluster share, %d workers" % plan.workers
    if plan.solver:
        how = " && ".join(" ".join([os.path.basename(word), *more])
                          for word, *more in plan.solver)
    how += ", limit %d lemmas" % plan.limit if plan.limit else ""
    how += ", limit %d seconds" % plan.seconds if plan.seconds else ""
    how += "; the tree was made by " + plan.split if plan.split else ""
    return how + (", and %d of its leaves were cut in two" % cuts if cuts else "")


class Report:
    """The file of the report, written again and again; in the end, with what stands beside it."""

    def __init__(self, run: Run, proof: Optional[str] = None) -> None:
        self.run, self.records, self.proof = run, Records(run.folder), proof

    def write(self, status: Optional[int]) -> Path:
        """Writes it and answers its path. It is not synced, since it can be written again."""
        run, now = self.run, time.strftime("; %d %B %Y, %H:%M:%S")
        state = state_of(run, self.records.all(), status in (20, ALL_COVERED))
        more = [] if status is None else list(self.origin(status))
        how = how_of(run.plan, run.number - 1) + now
        used = usages(run.folder.at("cell")) if run.plan.workers and status is not None else []
        self.put("report.html", page(run.plan.input, how, state, status, more, used))
        if status is not None:
            last = state.last()
            scale = scale_of(state, last)
            lanes = workers(state.records, scale) if state.records else picture(1, [], "no jobs")
            texts = Tree(state, last, scale).draw(), lanes, listed(state)
            for name, text in zip(BESIDE, texts):
                self.put(name, text)
        return run.folder.at("report.html")

    def put(self, name: str, text: str) -> None:
        part = self.run.folder.at("scratch", name)
        part.write_text(text, encoding="utf-8", errors="replace")
        part.replace(self.run.folder.at(name))

    def origin(self, status: int) -> Iterator[Tuple[str, str]]:
        """Of what files and by which version the answer was made."""
        plan = self.run.plan
        yield "SHA-256 of the formula", digest(Path(plan.input))
        if status == 20 and self.proof:
            yield "SHA-256 of the proof", digest(Path(self.proof))
        yield "version", places.version(plan.program)


class Live:
    """Renews the report while leaves run, in a small share of the time. It is written from the
    first closed leaf on, since before that the folder may be one of another formula."""

    def __init__(self, run: Run, screen: Screen) -> None:
        self.report, self.screen, self.next = Report(run), screen, 0.0

    def renew(self) -> None:
        begin = time.monotonic()
        if begin < self.next or not self.report.run.closed:
            return
        try:
            self.report.write(None)
        except Exception as why:  # the answer does not depend on the report
            self.screen.say("c no report: %r" % why)
            self.next = float("inf")
            return
        end = time.monotonic()
        self.next = end + max(EVERY, (end - begin) / SHARE)
