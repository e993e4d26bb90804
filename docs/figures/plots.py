"""The plots of what bench/run.sh counted, which it writes to measured.txt."""
from collections import defaultdict
from math import ceil

from answers import FIGURES
from svg import Picture

# where a job of the bench and its function have two names
FUNCTIONS = {"bylevels": "zg_read_by_levels", "mark": "zg_mark_cells", "base": "zg_check_base", "marks": "zg_marks_of", "unfoldall": "zg_unfold_all"}
WITHOUT_CHECK = {"take", "write", "decimation", "census", "regions", "rebase"}
DOTTED = ' stroke-dasharray="3 5"'
STARRED = "* without the check that it begins or ends with"


def measured(folder):
    """{(job, map): (N, h, library, C)} and {map: (n, N, h, [(survivors, reads) of each level])}."""
    counted, levels = {}, {}
    for line in (folder / "measured.txt").read_text().splitlines():
        kind, *words = line.split()
        if kind == "instructions":
            counted[words[0], words[1]] = tuple(map(int, words[3:]))
        elif kind == "level":
            n, darts, h, _, survivors, reads = map(int, words[1:])
            levels.setdefault(words[0], (n, darts, h, []))[3].append((survivors, reads))
    return counted, levels


def short(count):
    """A count in three figures."""
    for unit, size in (("M", 1_000_000), ("k", 1_000)):
        if count >= 0.9995 * size:
            return f"{count / size:#.3g}".rstrip(".") + f" {unit}"
    return str(count)


# ---- instructions


class Panel:
    """A place to plot, from 0 up to the most, with the values of x given."""

    def __init__(self, picture, left, top, width, height, xs, most):
        self.picture, self.left, self.top, self.width, self.height = picture, left, top, width, height
        self.last, self.most = max(xs), most

    def at(self, x, y):
        return self.left + self.width * x / self.last, self.top + self.height * (1 - y / self.most)

    def frame(self, ticks):
        for part in (0, 0.5, 1):
            y = self.top + self.height * part
            self.picture.line((self.left, y), (self.left + self.width, y), "grid", 1)
        for x in ticks:
            self.picture.text((self.at(x, 0)[0], self.top + self.height + 19), f"{x:,}", "soft", 15, "middle")

    def series(self, pairs, kind):
        """A line with a mark at each value."""
        self.picture.broken([self.at(x, y) for x, y in pairs], kind, 2, marked(kind))


# a dot for the library, a ring for what stands beside it
SHAPES = {"ours": ('class="f-ours" r="3.5"', 7), "theirs": ('class="theirs" r="5" stroke-width="1.5"', 13), "good": ('class="good" r="5" stroke-width="1.5"', 13)}


def marks(picture, kinds):
    """The marks of lines are drawn once; each line names them."""
    for kind in kinds:
        shape, size = SHAPES[kind]
        half = size / 2
        box = f'refX="{half}" refY="{half}" markerWidth="{size}" markerHeight="{size}" markerUnits="userSpaceOnUse"'
        picture.put(f'<marker id="{kind}" {box}><circle cx="{half}" cy="{half}" {shape}/></marker>', kind)


def marked(kind):
    return "".join(f' marker-{place}="url(#{kind})"' for place in ("start", "mid", "end"))


def jobs_plot(name, title, by, counted, chosen, ticks):
    """A panel for each job: the library's instructions beside those of plain C."""
    rows = defaultdict(list)
    for (job, where), (darts, h, library, c) in counted.items():
        if where in chosen:
            rows[job].append((h if by == "kernels" else darts, library, c))
    picture = Picture(name, title, 1040, 100 + 200 * ceil(len(rows) / 4))
    marks(picture, ("ours", "theirs"))
    comparison_legend(picture, by)
    for k, (job, points) in enumerate(rows.items()):
        points.sort()
        left, top = 40 + 252 * (k % 4), 140 + 200 * (k // 4)
        panel = Panel(picture, left, top, 200, 108, [x for x, _, _ in points], 1.08 * max(max(a, c) for _, a, c in points))
        panel.frame(ticks)
        panel.series([(x, c) for x, _, c in points], "theirs")
        panel.series([(x, a) for x, a, _ in points], "ours")
        words = FUNCTIONS.get(job, f"zg_{job}") + (" *" if job in WITHOUT_CHECK else "")
        picture.text((left, top - 30), words, "ink", 16, "start", True)
        picture.text((left, top - 10), short(points[-1][1]), "ours", 15)
        picture.text((left + 100, top - 10), f"C {short(points[-1][2])}", "theirs", 15)
    return picture


def comparison_legend(picture, by):
    picture.text((40, 38), f"Instructions by {by}", "ink", 19, "start", True)
    for x, kind, words in ((330, "ours", "library"), (480, "theirs", "plain C, gcc -O3")):
        picture.broken([(x, 32), (x + 44, 32)], kind, 2, marked(kind))
        picture.text((x + 56, 38), words, "ink")
    picture.text((40, 66), f"The numbers are those at the right end. {STARRED}.", "soft", 15)


def by_darts(counted):
    chosen = ["grid2-512", "grid2-1024", "grid2-2048", "grid2"]
    return jobs_plot("plot-darts", "Instructions of each job by darts, beside plain C", "darts", counted, chosen, (512, 2048, 4096))


def by_kernels(counted):
    chosen = ["tall1", "tall2", "tall4", "tall8", "tall16", "tall32"]
    return jobs_plot("plot-kernels", "Instructions of each job by kernels, beside plain C", "kernels", counted, chosen, (1, 8, 16, 32))


# ---- memory


def memory(levels):
    """Folded, beside all levels with their survivors alone, beside all levels as tables."""
    shown = list(levels)
    picture = Picture("plot-memory", "Bytes of a folded pyramid beside all its levels", 1040, 130 + 92 * len(shown))
    picture.text((40, 38), "Bytes: a folded pyramid beside all its levels", "ink", 19, "start", True)
    for k, (fill, words) in enumerate((("good", "folded: rows, Λ, Δ"), ("ours", "all levels, survivors alone"), ("theirs", "all levels as tables"))):
        picture.box(40 + 310 * k, 56, 26, 18, fill, 3)
        picture.text((74 + 310 * k, 71), words, "ink", 16)
    bytes_of = {name: byte_counts(*levels[name]) for name in shown}
    unit = 640 / max(map(max, bytes_of.values()))
    for k, name in enumerate(shown):
        n, darts, h, _ = levels[name]
        top = 108 + 92 * k
        picture.text((40, top + 22), name, "ink", 17, "start", True)
        picture.text((40, top + 46), f"n = {n}, N = {darts:,}", "soft", 15)
        picture.text((40, top + 66), f"{h} kernels", "soft", 15)
        for j, (value, fill) in enumerate(zip(bytes_of[name], ("good", "ours", "theirs"))):
            picture.box(230, top + 24 * j, unit * value, 19, fill, 3)
            picture.text((240 + unit * value, top + 15 + 24 * j), f"{value:,}", fill, 16)
    return picture


def byte_counts(n, darts, h, each):
    row = 2 * (n + 1)
    return row * darts + 2 * darts, sum(row * survivors for survivors, _ in each), (h + 1) * row * darts


# ---- reads


def reads(levels):
    """What unfolding each level reads, below what is proved."""
    shown = ["path32", "tall32", "grid3", "both3"]
    picture = Picture("plot-reads", "Base entries read by unfolding each level, with the proved bound above", 1040, 690)
    marks(picture, ("ours", "good"))
    picture.text((40, 38), "Base entries read by unfolding a level", "ink", 19, "start", True)
    for x, kind, words in ((40, "ours", "reads, as the library counts them"), (390, "good", "proved: (n+1)·survivors + 2·gone"), (750, "soft", "all entries: (n+1)N")):
        picture.line((x, 66), (x + 40, 66), kind, 2.5, DOTTED if kind == "soft" else "")
        picture.text((x + 50, 72), words, "ink", 16)
    for k, name in enumerate(shown):
        reads_panel(picture, 60 + 500 * (k % 2), 140 + 290 * (k // 2), name, levels[name])
    return picture


def reads_panel(picture, left, top, name, found):
    n, darts, h, each = found
    bound = [(n + 1) * s + 2 * (darts - s) for s, _ in each]
    panel = Panel(picture, left, top, 420, 180, [h], 1.1 * (n + 1) * darts)
    panel.frame(sorted({0, h // 4, h // 2, 3 * h // 4, h}) if h > 9 else range(h + 1))
    picture.text((left, top - 14), f"{name}: n = {n}, N = {darts:,}, {h} kernels", "ink", 16, "start", True)
    panel.picture.line(panel.at(0, (n + 1) * darts), panel.at(h, (n + 1) * darts), "soft", 1.5, DOTTED)
    panel.series(list(enumerate(bound)), "good")
    panel.series([(l, count) for l, (_, count) in enumerate(each)], "ours")
    for x, (value, fill, down) in ((0, (each[0][1], "ours", -9)), (h, (bound[-1], "good", -10)), (h, (each[-1][1], "ours", 24))):
        at = panel.at(x, value)
        picture.text((at[0], at[1] + down), f"{value:,}", fill, 15, "start" if x == 0 else "end")
    picture.text((left + 210, top + 222), "level", "soft", 15, "middle")


def pictures(folder=FIGURES):
    counted, levels = measured(folder)
    yield from (by_darts(counted), by_kernels(counted), memory(levels), reads(levels))
