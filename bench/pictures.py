#!/usr/bin/env python3
"""Draws histories by a program, and compares each rectangle and each curve of the picture with a replay of the history in Python.

    bench/pictures.py PROGRAM HISTORY.. [--render FOLDER]
    bench/pictures.py PROGRAM --made FOLDER

A picture has to be well-formed XML. Each entry has to have one tick, in order, whose title is its line. Each rectangle below the
legend has to be one of the replay's: its class, its place, its size and its title, and each of the replay's has to be there. So
have the two curves of each part, the rows that tell how many locks are folded, and the whole run above the parts: its curves, its
strip and its rows of workers. The picture has to be the first of the formats in which viewers draw it: five widths with no lock
folded, then with those that nobody parked, then with all. With --render the pictures are also rendered by rsvg-convert, which draws up
to 32,767 px, and by chromium where it is there, in colour and in grey, and chromium's tree has to have the ticks' titles.

With --made it makes long histories itself: 45,056 entries, one entry with many locks, and many entries with 4,096 locks each, in two
sizes, and tells the time that the program took for each. The first is compared and rendered too, and so are a smaller one of many
locks and one whose locks are all parked.
"""
import collections
import pathlib
import resource
import shutil
import subprocess
import sys
import xml.etree.ElementTree as xml

SVG = "{http://www.w3.org/2000/svg}"
LEFT, CURVE = 76, 48
# The formats, of which the first is taken whose picture isn't so high: the width of the plot, and which locks are folded. The height of
# the lane of a parked lock, and of the row of the folded ones.
NONE, UNPARKED, ALL = range(3)
FORMATS = [(plot, folding) for folding in (NONE, UNPARKED, ALL) for plot in (1190, 2380, 4760, 9520, 19040)]
VIEWED, LANE, FOLDED = 32768, 3, 14
# The whole run above the parts: at most so many columns, their width, and where the strip, the curve and the rows of the workers begin.
COLUMNS, COLUMN, STRIP, RUN, RUN_ROWS = 297, 4, 100, 116, 186
Interval = collections.namedtuple("Interval", "subject since until worker how")
# Where a worker's row has its bars: its height, and the places and heights of tasks, lanes, items and ticks.
LARGE = dict(row=36, task=(3, 12), lane=(16, 15), item=(18, 11), tick=(32, 3))
SMALL = dict(row=20, task=(2, 4), lane=(7, 9), item=(8, 7), tick=(17, 2))


def history_of(text):
    """The lines of the first history of a text, from its second line on, without its end."""
    lines = text.split("\n")
    begin = next(place for place, line in enumerate(lines) if line in ("history 1", "history 2")) + 1
    end = next(n for n in range(begin, len(lines)) if lines[n].startswith("end "))
    return lines[begin:end]


class Replay:
    """The intervals of a history: what holds, from the entry that begins it up to the one that ends it; and after each entry the
    leases out and the items queued."""

    def __init__(self, lines):
        self.lines, self.count = lines, len(lines) - 1
        words = lines[0].split()
        self.workers, self.max = int(words[1]), int(words[3])
        self.opened, self.intervals = {}, []
        self.out, self.queued = [0], [0]
        for entry, line in enumerate(lines[1:], 1):
            self.out.append(self.out[-1])
            self.queued.append(self.queued[-1])
            head, tail = line.split(" | ")
            worker = int(head.split()[1][1:])
            for change in [] if tail in ("nothing", "failed") else tail.split(", "):
                self.change(change.split(), entry, worker)
        for subject, (since, who) in self.opened.items():
            self.intervals.append(Interval(subject, since, len(lines), who, "running"))
        self.intervals.sort(key=lambda i: i.since)

    def say(self, subject, holds, entry, worker, how="waiting"):
        if subject in self.opened:
            since, who = self.opened.pop(subject)
            self.intervals.append(Interval(subject, since, entry, who, how))
        if holds:
            self.opened[subject] = (entry, worker)

    def change(self, words, entry, worker):
        match words:
            case ["lock" | "unlock" as word, lock]:
                self.say(("owned", int(lock)), word == "lock", entry, worker)
            case ["park" | "unpark" as word, lock]:
                self.say(("parked", worker, int(lock)), word == "park", entry, worker)
            case ["take" | "give" as word]:
                self.say(("lease", worker), word == "take", entry, worker)
                self.out[-1] += 1 if word == "take" else -1
            case ["enter" | "leave" as word]:
                self.say(("blocked", worker), word == "enter", entry, worker)
            case [kind, number, was, to]:
                self.say((kind, int(number)), to == "running", entry, worker, to)
                if kind == "unit":
                    self.queued[-1] += (to == "queued") - (was == "queued")

    def most_out(self):
        return max(1, *self.out)

    def most_queued(self):
        return max(self.most_out(), *self.queued)

    def is_fetch(self, interval):
        return self.lines[interval.since].split()[2] == "block"

    def title_of(self, interval):
        subject, since, until, worker, how = interval
        over = f", entries {since} to {until - 1}" if until - since > 1 else f", entry {since}"
        match subject:
            case ("lease", _):
                return f"w{worker} has a lease{over}"
            case ("blocked", _):
                return f"w{worker} is blocked{over}"
            case ("action", number):
                return f"w{worker} is parked at action {number}{over}"
            case ("owned", lock):
                return f"lock {lock} is owned by w{worker}{over}"
            case ("parked", _, lock):
                return f"lock {lock} is parked by w{worker}{over}"
            case ("task", number):
                return f"task {number} of w{worker}{over}, {how}"
        words = self.lines[until].split(" | ")[0].split(" ", 4) if until < len(self.lines) else []
        told = words[4] if len(words) > 4 and words[2] in ("close", "unblock") else how
        return f"{'fetch' if self.is_fetch(interval) else 'item'}, unit {subject[1]}, at w{worker}{over}: {told}"


def scale_of(plot, workers, count):
    per = max(1, min(12, 40 // workers))
    size = plot // per
    if count <= size:
        size = max(count, 1)
        return min(24, plot // size), size
    parts = -(-count // size)
    return per, -(-count // parts)


class Part:
    """The rectangles and the curves of the entries from `first` on, before `behind`, from `top` on."""

    def __init__(self, run, first, behind, per, top, folding):
        self.run, self.first, self.behind, self.per, self.top = run, first, behind, per, top
        self.rows = LARGE if run.workers <= 12 else SMALL
        shown = [i for i in run.intervals if i.since < behind and first < i.until and i.since < i.until]
        all_locks = {i.subject[-1] for i in shown if i.subject[0] in ("owned", "parked")}
        # A lane below the lock's row for each worker that has parked it, by the lock and then the worker.
        lanes = sorted({(i.subject[2], i.subject[1]) for i in shown if i.subject[0] == "parked" and folding != ALL})
        self.locks = sorted(all_locks if folding == NONE else {lock for lock, _ in lanes})
        folded = len(all_locks) - len(self.locks)
        self.lock_row = 14 if len(self.locks) <= 20 else 10
        self.locks_top = top + CURVE + 24 + run.workers * self.rows["row"] + 10
        self.bottom = self.locks_top + len(self.locks) * self.lock_row + len(lanes) * LANE
        self.folded = []
        if folded:
            words = f"{folded} lock{'' if folded == 1 else 's'}{', never parked' if folding == UNPARKED else ''}"
            self.folded.append((words, LEFT + 3, self.bottom + 10))
            self.bottom += FOLDED
        row_of = {lock: place for place, lock in enumerate(self.locks)}
        self.lane_y = {lane: self.locks_top + (row_of[lane[0]] + 1) * self.lock_row + place * LANE for place, lane in enumerate(lanes)}
        above = collections.Counter(lock for lock, _ in lanes)
        self.lock_y, y = {}, self.locks_top
        for lock in self.locks:
            self.lock_y[lock] = y
            y += self.lock_row + above[lock] * LANE
        self.rects, self.ticks = [], []
        for worker in range(run.workers):
            self.put(f"m{worker % 8}", 8, self.row(worker) + 4, 5, self.rows["row"] - 8)
            self.marks(worker, 8, self.row(worker) + 4, 5, self.rows["row"] - 8)
        for interval in shown:
            self.draw(interval)
        for entry in range(first, behind):
            self.draw_entry(entry)
        base = top + CURVE
        self.curves = [self.stairs(run.out, run.most_out()) + f"V{base}", self.stairs(run.queued, run.most_queued())]

    def x(self, entry):
        return LEFT + (entry - self.first) * self.per

    def row(self, worker):
        return self.top + CURVE + 24 + worker * self.rows["row"]

    def stairs(self, values, most):
        base = self.top + CURVE
        return f"M{LEFT} {base}" + "".join(
            f"V{base - CURVE * min(values[k], most) // most}H{self.x(k + 1)}" for k in range(self.first, self.behind))

    def put(self, kind, x, y, width, height, title=None):
        self.rects.append((kind, x, y, width, height, title))

    def marks(self, worker, x, y, width, height):
        if worker // 8 % 2:
            self.put("z", x, y + height // 4, width, max(height // 5, 1))
        if worker // 16 % 2:
            self.put("z", x, y + height * 5 // 8, width, max(height // 5, 1))

    def cap(self, x, y, width, height):
        if width > 5:
            self.put("z", x + width - 5, y, 1, height)
        self.put("r", x + width - min(width, 4), y, min(width, 4), height)

    def draw(self, interval):
        kind, hue = interval.subject[0], interval.worker % 8
        x = self.x(max(interval.since, self.first))
        width = self.x(min(interval.until, self.behind)) - x
        title = self.run.title_of(interval)
        fails = interval.how == "failed" and interval.until <= self.behind
        if kind in ("owned", "parked") and interval.subject[-1] not in self.lock_y:
            return
        if kind == "parked":
            self.put(f"m{hue}", x, self.lane_y[interval.subject[2], interval.subject[1]], width, 2, title)
            return
        if kind == "owned":
            y = self.lock_y[interval.subject[1]] + 1
            self.put(f"m{hue}", x, y, width, self.lock_row - 3, title)
            self.put(f"d{hue}", x, y, 1, self.lock_row - 3)
            self.marks(interval.worker, x, y, width, self.lock_row - 3)
            return
        place, height = self.rows[{"task": "task", "unit": "item"}.get(kind, "lane")]
        y = self.row(interval.worker) + place
        if kind == "task":
            self.put(f"p{hue}", x, y, width, height, title)
            self.put(f"d{hue}", x, y, width, 1)
            self.put(f"d{hue}", x, y, 1, height)
        elif kind == "unit":
            self.put(f"d{hue}", x, y, width, height, title)
            if self.run.is_fetch(interval):
                self.put("z", x + 1, y + 1, max(width - 2, 0), height - 2, title)
        else:
            self.put({"lease": f"m{hue}", "action": f"k{hue}", "blocked": "b"}[kind], x, y, width, height, title)
        if kind in ("task", "unit") and fails:
            self.cap(x, y, width, height)

    def draw_entry(self, entry):
        line = self.run.lines[entry]
        words = line.split()
        worker = int(words[1][1:])
        place, height = self.rows["tick"]
        self.ticks.append(line)
        self.put("t", self.x(entry), self.row(worker) + place, max(self.per // 2, 1), height, line)
        if words[2] == "skip" and not line.endswith("| failed"):
            place, height = self.rows["task"]
            step = entry % 2 if self.per == 1 else 0
            self.put("n", self.x(entry), self.row(worker) + place + step, max(self.per - 1, 1), height - step,
                     f"task {words[3]} is skipped by w{worker}, entry {entry}")


class Whole:
    """The whole run above the parts: a rectangle for each part, the two curves, and two areas for each worker."""

    def __init__(self, run):
        self.run = run
        self.size = max(-(-run.count // COLUMNS), 1)
        self.row = 12 if run.workers <= 16 else 10
        self.bottom = RUN_ROWS + run.workers * self.row
        most, base = run.most_queued(), RUN + CURVE
        out = [CURVE * sum(column) // (len(column) * run.most_out()) for column in self.columns(run.out[1:])]
        queued = [CURVE * max(column) // most for column in self.columns(run.queued[1:])]
        self.curves = [self.steps(base, out) + f"V{base}", self.steps(base, queued)]
        leased = self.held(("lease",))
        engaged = self.held(("lease", "blocked", "action"))
        self.fills = []
        for worker in range(run.workers):
            self.fills.append(self.fill("p", worker, engaged[worker], " has a lease, or is parked or blocked,"))
            self.fills.append(self.fill("m", worker, leased[worker], " has a lease"))

    def columns(self, values):
        return [values[k:k + self.size] for k in range(0, len(values), self.size)]

    def steps(self, foot, heights):
        return f"M{LEFT} {foot}" + "".join(f"V{foot - height}h{COLUMN}" for height in heights)

    def held(self, kinds):
        held = [[False] * self.run.count for _ in range(self.run.workers)]
        for interval in self.run.intervals:
            if interval.subject[0] in kinds:
                for entry in range(interval.since, interval.until):
                    held[interval.worker][entry - 1] = True
        return held

    def fill(self, kind, worker, held, words):
        foot = RUN_ROWS + (worker + 1) * self.row - 1
        heights = [(self.row - 2) * sum(column) // len(column) for column in self.columns(held)]
        return f"{kind}{worker % 8}", self.steps(foot, heights) + f"V{foot}", f"w{worker}{words} after {sum(held)} of {self.run.count} entries"

    def x(self, entry):
        return LEFT + (entry - 1) * COLUMN // self.size

    def strip(self, parts):
        return [("even" if number % 2 == 0 else "odd", self.x(part.first), STRIP, self.x(part.behind) - self.x(part.first), 12,
                 f"part {number}: entries {part.first} to {part.behind - 1}") for number, part in enumerate(parts, 1)]


def parts_in_format(run, plot, folding):
    per, size = scale_of(plot, run.workers, run.count)
    heading = 24 if run.count > size else 0
    top = Whole(run).bottom + 30 + heading if heading else 86
    for first in range(1, run.count + 1, size):
        part = Part(run, first, min(first + size, run.count + 1), per, top, folding)
        yield part
        top = part.bottom + 30 + heading


def height_of(parts):
    return parts[-1].bottom + 20 if parts else 76


def parts_of(run):
    """The width of the plot, and the parts in it."""
    for plot, folding in FORMATS:
        parts = list(parts_in_format(run, plot, folding))
        if height_of(parts) < VIEWED:
            return plot, parts
    return FORMATS[0][0], list(parts_in_format(run, *FORMATS[0]))


def ticks_in(root):
    """The titles of the ticks, in order."""
    return [rect.find(SVG + "title").text for rect in root.iter(SVG + "rect")
            if rect.get("class") == "t" and rect.find(SVG + "title") is not None]


def compare(name, text, picture):
    root = xml.fromstring(picture)
    run = Replay(history_of(text))
    plot, parts = parts_of(run)
    whole = Whole(run) if len(parts) > 1 else None
    found = collections.Counter()
    for rect in root.iter(SVG + "rect"):
        title = rect.find(SVG + "title")
        place = tuple(int(float(rect.get(word, "0"))) for word in ("x", "y", "width", "height"))
        if rect.get("class") is not None and (place[1] >= 86 or title is not None):
            found[rect.get("class"), *place, None if title is None else title.text] += 1
    wanted = collections.Counter(rect for part in parts for rect in part.rects)
    wanted.update(whole.strip(parts) if whole else [])
    wrong = (found - wanted) + (wanted - found)
    assert not wrong, f"{name}: {list(wrong)[:5]}"
    ticks = ticks_in(root)
    assert ticks == [line for part in parts for line in part.ticks], f"{name}: the ticks aren't the lines in order"
    curves = [path.get("d") for path in root.iter(SVG + "path")
              if path.get("class") in ("c", "q") and path.find(SVG + "title") is not None]
    wanted_curves = [curve for part in ([whole] if whole else []) + parts for curve in part.curves]
    assert curves == wanted_curves, f"{name}: a curve is wrong"
    fills = [(path.get("class"), path.get("d"), path.find(SVG + "title").text) for path in root.iter(SVG + "path")
             if path.get("class")[0] in "pm" and path.find(SVG + "title") is not None]
    assert fills == (whole.fills if whole else []), f"{name}: a worker's row of the whole run is wrong"
    folded = [(text.text, int(text.get("x")), int(text.get("y"))) for text in root.iter(SVG + "text")
              if text.get("class") == "a" and " lock" in text.text]
    assert folded == [row for part in parts for row in part.folded], f"{name}: the folded locks are {folded}"
    width, height = LEFT + plot + 14, height_of(parts)
    for words in ("width", str(width)), ("height", str(height)), ("viewBox", f"0 0 {width} {height}"):
        assert root.get(words[0]) == words[1], f"{name}: its {words[0]} is {root.get(words[0])}, not {words[1]}"
    return len(ticks), sum(found.values()), width, height


def browse(page, *words):
    """What chromium prints, without a window."""
    return subprocess.run(["chromium", "--headless", "--no-sandbox", "--disable-gpu", "--hide-scrollbars", *words, page.resolve().as_uri()],
                          check=True, stderr=subprocess.DEVNULL, stdout=subprocess.PIPE).stdout


def screenshot(picture, size, page, image):
    page.write_bytes(picture)
    browse(page, f"--window-size={size[0]},{size[1]}", f"--screenshot={image}")


def render(picture, size, to):
    subprocess.run(["rsvg-convert", "--unlimited", "-o", f"{to}-rsvg.png"], input=picture, check=True)
    grey = picture.replace(b"<svg ", b'<svg style="filter:grayscale(1)" ', 1)
    subprocess.run(["rsvg-convert", "--unlimited", "-o", f"{to}-rsvg-grey.png"], input=grey, check=True)
    if shutil.which("chromium") is None:
        return
    screenshot(picture, size, pathlib.Path(f"{to}.svg"), f"{to}-chromium.png")
    # Without a window there are no tooltips. What would be told where one points at a tick is its title in the browser's own tree.
    told = ticks_in(xml.fromstring(browse(pathlib.Path(f"{to}.svg"), "--dump-dom")))
    assert told == ticks_in(xml.fromstring(picture)), f"{to}: the browser has other titles"
    screenshot(grey, size, pathlib.Path(f"{to}-grey.svg"), f"{to}-grey.png")


def made_history(workers, locks, entries):
    lines = ["history 2", f"workers {workers} max {workers} parallel yes locks {locks}", *entries]
    return "\n".join(lines + [f"end {len(entries)}", ""]).encode()


def long_history(count, workers, locks):
    """Workers in turns lock something, skip a task now and then, and hand it back."""
    entries = []
    while len(entries) < count:
        worker, lock = len(entries) * 7 // 2 % workers, len(entries) // 2 % locks
        entries.append(f"{len(entries) + 1} w{worker} acquire | lock {lock}, take")
        entries.append(f"{len(entries) + 1} w{worker} handback | unlock {lock}, give")
    return made_history(workers, locks, entries)


def wide_history(count, locks):
    """One worker after the other locks everything, and hands it back."""
    taken, given = (", ".join(f"{word} {lock}" for lock in range(locks)) for word in ("lock", "unlock"))
    entries = [f"{n + 1} w{n // 2 % 8} " + (f"handback | give, {given}" if n % 2 else f"acquire | {taken}, take") for n in range(count)]
    return made_history(8, locks, entries)


def parked_history(workers, locks):
    """Each lock is parked by one worker after the other."""
    entries = [f"{n + 1} w{n // 2 % workers} " + ("park 0 | " + ", ".join(f"park {lock}" for lock in range(locks)) if n % 2 == 0
               else "resume 0 | " + ", ".join(f"unpark {lock}" for lock in range(locks))) for n in range(2 * workers)]
    return made_history(workers, locks, entries)


def drawn(program, name, text):
    """The picture that a program draws, and what that took."""
    before = resource.getrusage(resource.RUSAGE_CHILDREN)
    picture = subprocess.run([program], input=text, stdout=subprocess.PIPE, check=True).stdout
    after = resource.getrusage(resource.RUSAGE_CHILDREN)
    took = after.ru_utime + after.ru_stime - before.ru_utime - before.ru_stime
    return picture, f"{name}: {len(text)} bytes of text, {len(picture)} bytes, {took * 1000:.1f} ms of a processor"


def draw_made(program, folder):
    text = long_history(45056, 32, 90)
    picture, told = drawn(program, "45,056 entries", text)
    ticks, rects, width, height = compare("45,056 entries", text.decode(), picture)
    assert max(width, height) < VIEWED, f"{width} x {height} px"
    print(f"{told}, {ticks} ticks, {rects} rectangles, {width} x {height} px")
    render(picture, (width, height), folder / "long")
    for name, text in ("9 entries of 4,000 locks", wide_history(9, 4000)), ("parked locks", parked_history(8, 4000)):
        picture, told = drawn(program, name, text)
        ticks, rects, width, height = compare(name, text.decode(), picture)
        assert max(width, height) < VIEWED, f"{width} x {height} px"
        print(f"{told}, {ticks} ticks, {rects} rectangles, {width} x {height} px")
    for count, locks in (1, 32000), (1, 128000), (300, 4096), (1200, 4096):
        print(drawn(program, f"{count} entries of {locks} locks", wide_history(count, locks))[1])


def main(words):
    if words[1] == "--made":
        draw_made(words[0], pathlib.Path(words[2]))
        return
    folder = pathlib.Path(words[words.index("--render") + 1]) if "--render" in words else None
    names = [w for n, w in enumerate(words) if w != "--render" and words[n - 1] != "--render"]
    for name in names[1:]:
        text = pathlib.Path(name).read_bytes()
        picture, told = drawn(names[0], name, text)
        ticks, rects, width, height = compare(name, text.decode(), picture)
        print(f"{told}, {ticks} ticks, {rects} rectangles, {width} x {height} px")
        if folder:
            render(picture, (width, height), folder / pathlib.Path(name).stem)


main(sys.argv[1:])
