#!/usr/bin/env python3
"""Holds the table and the picture of a job's drift against the job, its stored answers and exact fractions reckoned here.

usage: drift.py JOB ANSWERS TABLE PICTURE [MEAN]
Without MEAN they have every mean that the job names.
"""

import csv
import re
import sys
import xml.etree.ElementTree as ET
from fractions import Fraction

UNIT = Fraction(1, 10)  # µm
HALF_UNIT = Fraction(1, 20)
ROUNDED = Fraction(1, 20_000)  # exact values are written to four digits
PIXEL = 0.04  # places are written to two digits, and the scales here are read from them
SVG = "{http://www.w3.org/2000/svg}"
RADIUS, LENGTH = 0, 1


def must(holds, what):
    if not holds:
        sys.exit(f"drift.py: {what}")


# The exact reckoning of a job from its lines and their answers.


class Wear:
    def __init__(self, value=0):
        self.stored, self.exact, self.bound = value, Fraction(value), Fraction(0)

    def lengths(self):
        return [self.stored * HALF_UNIT, self.exact * HALF_UNIT, self.bound * HALF_UNIT]


class Mean:
    def __init__(self):
        self.value, self.factor = Fraction(0), 0

    def take_in(self, deviation, k):
        self.value = ((k - 1) * self.value + deviation) / k
        self.factor = max(self.factor, k)

    def bound(self):
        return Fraction(self.factor, 2) * UNIT


class Part:
    """A measurement done: what its line and answer say, and the exact mean and wears that it led to."""


def corrected_wear(kind, axis, direction):
    """Which wear a kind corrects, and by how many h for each u."""
    if kind != 0:
        return RADIUS, 1 if kind in (1, 3) else -1
    return LENGTH if axis == 3 else RADIUS, -2 if direction == 1 else 2


def measured(part, mean, wears):
    """Takes a part in: branches 3 and 4 the mean, 2, 4 and 5 a wear."""
    which, factor = corrected_wear(*part.feature)
    wear = wears[which]
    if part.branch in (3, 4):
        mean.take_in(part.deviation, part.k)
    part.exact, part.bound = mean.value * UNIT, mean.bound()
    if part.branch in (2, 5):
        wear.exact += factor * part.deviation
        part.exact, part.bound = Fraction(0), Fraction(0)
    if part.branch == 4:
        wear.exact += factor * mean.value
        wear.bound += abs(factor) * Fraction(mean.factor, 2)
    wear.stored += factor * part.correction
    part.wears = [each.lengths() for each in wears]
    return Mean() if part.branch in (4, 5) else mean


def read_fields(letter, fields):
    """The numbers of a line; the raws of a G line are left out, as the answer has what came of them."""
    return [0 if letter == "G" and 7 <= place < 11 else int(field) for place, field in enumerate(fields)]


def read_part(line, fields, answer):
    part = Part()
    part.line, part.feature = line, (fields[0], fields[2], fields[3])
    part.tool, part.mv, part.k, part.tzl = fields[11], fields[13], fields[14], fields[15] * UNIT
    part.branch, part.verdict, part.deviation, part.correction = answer[2:6]
    return part


def reckon(job, answers):
    """The series by their mean: parts, and the refused lines with their refusals."""
    means, wears, series = {}, {}, {}
    for number, (line, answer) in enumerate(zip(job, answers), 1):
        letter, *fields = line.split(",")
        if letter == "W" and answer[1] == 0:
            tool, radius, length = map(int, fields)
            wears[tool] = [Wear(radius), Wear(length)]
        if letter not in ("T", "G") or answer[1] == 10:
            continue
        part = read_part(number, read_fields(letter, fields), answer)
        parts, refused = series.setdefault(part.mv, ([], []))
        if answer[1] != 0:
            refused.append((number, answer[1]))
            continue
        tool = wears.setdefault(part.tool, [Wear(), Wear()])
        mean = measured(part, means.get(part.mv, Mean()), tool)
        means[part.mv] = mean
        parts.append(part)
    return {mv: pair for mv, pair in series.items() if pair[0]}


# The table.

HEADER = (
    "mean,line,refusal,part,tool,k,branch,verdict,deviation_um,tzl_um,correction_um,stored_mean_um,exact_mean_um,mean_bound_um,"
    "stored_radius_wear_um,exact_radius_wear_um,radius_wear_bound_um,stored_length_wear_um,exact_length_wear_um,length_wear_bound_um,outside_bound"
)


def near(text, exact):
    return abs(Fraction(text) - exact) <= ROUNDED


def check_row(row, number, part):
    where = f"line {part.line}"
    whole = [part.mv, part.line, 0, number, part.tool, part.k, part.branch, part.verdict]
    must(row[:8] == list(map(str, whole)), f"{where}: the table has {row[:8]}")
    must(Fraction(row[8]) == part.deviation * UNIT, f"{where}: deviation {row[8]}")
    must(Fraction(row[9]) == part.tzl and Fraction(row[10]) == part.correction * UNIT, f"{where}: TZL {row[9]}, correction {row[10]}")
    for place, (stored, exact, bound) in zip((14, 17), part.wears):
        must(Fraction(row[place]) == stored and near(row[place + 1], exact) and Fraction(row[place + 2]) == bound, f"{where}: wear {row[place:place + 3]}")
        must(abs(stored - exact) <= bound, f"{where}: the wear lies outside its bound")
    must(row[20] == "0", f"{where}: a value outside its bound")


def check_mean(row, part):
    """The stored mean is the package's: it has to be within the bound, and the correction where it corrects."""
    where = f"line {part.line}"
    if part.mv == 0:
        return must(row[11:14] == ["", "", ""], f"{where}: a mean that none names")
    part.stored = Fraction(row[11])
    must(near(row[12], part.exact) and Fraction(row[13]) == part.bound, f"{where}: exact mean {row[12:14]}, here {float(part.exact)} ± {float(part.bound)}")
    must(abs(part.stored - part.exact) <= part.bound, f"{where}: stored mean {row[11]} outside {float(part.exact)} ± {float(part.bound)}")
    must(part.branch != 4 or part.stored == part.correction * UNIT, f"{where}: corrected by another mean than {row[11]}")


def check_table(file, series):
    with open(file, encoding="utf-8", newline="") as text:
        header, *rows = csv.reader(text)
    must(",".join(header) == HEADER, "the table's header is another")
    must(all(len(row) == len(header) for row in rows), "a row of the table has not the header's length")
    for mv, (parts, refused) in sorted(series.items()):
        own = [row for row in rows if row[0] == str(mv)]
        must([tuple(map(int, row[1:3])) for row in own if row[2] != "0"] == refused, f"mean {mv}: the table has other refused lines")
        done = [row for row in own if row[2] == "0"]
        must(len(done) == len(parts), f"mean {mv}: the table has {len(done)} parts, the job {len(parts)}")
        for number, (row, part) in enumerate(zip(done, parts), 1):
            check_row(row, number, part)
            check_mean(row, part)
    must(len(rows) == sum(len(parts) + len(refused) for parts, refused in series.values()), "the table has rows of other series")


# The picture.


class Scale:
    """Places of values, read from the numbers along an axis."""

    def __init__(self, ticks):
        must(len(ticks) > 1, "an axis has less than two numbers")
        (low, start), (high, end) = ticks[0], ticks[-1]
        self.start, self.low, self.step = start, low, (end - start) / (high - low)
        must(all(abs(self.place(value) - place) < PIXEL for value, place in ticks), "an axis is not even")

    def place(self, value):
        return self.start + float(value - self.low) * self.step


def with_class(group, tag, name):
    return [element for element in group.findall(SVG + tag) if element.get("class") == name]


def number(element, name):
    return float(element.get(name))


def path(element):
    """The runs of a path, each a list of places."""
    runs = re.findall(r"M[^M]*", element.get("d"))
    return [[(float(x), float(y)) for x, y in re.findall(r"(-?[\d.]+) (-?[\d.]+)", run)] for run in runs]


def one_path(group, name):
    found = with_class(group, "path", name)
    must(len(found) == 1, f"{len(found)} paths {name}")
    return path(found[0])


def scale_up(group):
    """Numbers stand four pixels below the height that they name."""
    texts = with_class(group, "text", "tick left")
    return Scale([(Fraction(text.text), number(text, "y") - 4) for text in texts])


def scale_right(series, frame, parts):
    """From the left edge of the first part to the right edge of the last; the part numbers stand along it."""
    left, right = number(frame, "x"), number(frame, "x") + number(frame, "width")
    named = [(int(text.text), number(text, "x")) for text in with_class(series, "text", "tick middle")]
    must(named and all(1 <= part <= parts for part, _ in named), "the parts are not numbered")
    return Scale([(Fraction(1, 2), left)] + named + [(parts + Fraction(1, 2), right)])


def close(a, b):
    return abs(a[0] - b[0]) < PIXEL and abs(a[1] - b[1]) < PIXEL


def passes(places, wanted):
    return any(close(place, wanted) for place in places)


def levels(run, x):
    """The heights of the level edges of an outline or a line at a place to the right."""
    edges = zip(run, run[1:])
    return [a[1] for a, b in edges if abs(a[1] - b[1]) < 0.001 and min(a[0], b[0]) <= x < max(a[0], b[0])]


def level_at(run, x, wanted):
    """Whether the level edges there are at the wanted heights and at no other."""
    found = levels(run, x)
    return all(any(abs(a - b) < PIXEL for b in found) for a in wanted) and all(any(abs(a - b) < PIXEL for b in wanted) for a in found)


def check_points(group, x, y, parts):
    points = with_class(group, "circle", "part")
    must(len(points) == len(parts), f"{len(points)} points for {len(parts)} parts")
    for index, (point, part) in enumerate(zip(points, parts), 1):
        place = (x.place(index), y.place(part.deviation * UNIT))
        must(close((number(point, "cx"), number(point, "cy")), place), f"the point of part {index} is not at its deviation")
        words = f"part {index}, line {part.line}: deviation {float(part.deviation * UNIT):g} µm"
        must(point.find(SVG + "title").text == words, f"the point of part {index} does not say '{words}'")


def check_band(group, x, y, parts):
    """The band stands where the exact mean is, stored and exact mean in it."""
    band = [place for run in one_path(group, "band") for place in run]
    exact = [place for run in one_path(group, "exact") for place in run]
    stored = [place for run in one_path(group, "stored") for place in run]
    for index, part in enumerate(parts, 1):
        at = x.place(index)
        for edge in (part.exact + part.bound, part.exact - part.bound):
            must(passes(band, (at, y.place(edge))), f"part {index}: the band has no edge at {float(edge)} µm")
        must(passes(exact, (at, y.place(part.exact))), f"part {index}: the exact mean is drawn elsewhere")
        must(passes(stored, (at, y.place(part.stored))), f"part {index}: the stored mean is drawn elsewhere")
    starts = 1 + sum(part.branch == 4 for part in parts)
    must(len(exact) == len(stored) == len(band) // 2 == len(parts) + starts, "the means have places of no part")


def check_limits(group, x, y, parts):
    upper, lower = one_path(group, "tzl")
    for index, part in enumerate(parts, 1):
        for run, tzl in ((upper, part.tzl), (lower, -part.tzl)):
            must(level_at(run, x.place(index), [y.place(tzl)]), f"part {index}: TZL is drawn elsewhere")


def check_corrections(group, x, y, parts):
    for branch, name in ((2, "by-deviation"), (4, "by-mean"), (5, "in-full")):
        signs = [path(sign)[0] for sign in with_class(group, "path", name)]
        corrected = [(index, part) for index, part in enumerate(parts, 1) if part.branch == branch]
        must(len(signs) == len(corrected), f"{len(signs)} corrections of branch {branch}, not {len(corrected)}")
        for sign, (index, part) in zip(signs, corrected):
            middle = [(min(place[axis] for place in sign) + max(place[axis] for place in sign)) / 2 for axis in (0, 1)]
            must(close(middle, (x.place(index), y.place(part.correction * UNIT))), f"part {index}: its correction is drawn elsewhere")


def check_refused(group, x, parts, refused):
    """A refused measurement stands between the parts before and behind it."""
    signs = with_class(group, "path", "refused")
    must(len(signs) == len(refused), f"{len(signs)} refused measurements, not {len(refused)}")
    for sign, (line, refusal) in zip(signs, refused):
        places = [place for run in path(sign) for place in run]
        middle = sum(place[0] for place in places) / len(places)
        before = sum(part.line < line for part in parts)
        must(abs(middle - x.place(before + Fraction(1, 2))) < PIXEL, f"line {line}: the refused measurement is marked elsewhere")
        must(sign.find(SVG + "title").text == f"line {line}: refused by {refusal}", f"line {line}: its mark says something else")


def check_distances(group, x, parts):
    y = scale_up(group)
    (band,) = one_path(group, "band")
    stored = [place for run in one_path(group, "stored") for place in run]
    for index, part in enumerate(parts, 1):
        at = x.place(index)
        must(level_at(band, at, [y.place(-part.bound), y.place(part.bound)]), f"part {index}: K/2 is drawn elsewhere")
        must(passes(stored, (at, y.place(part.stored - part.exact))), f"part {index}: the distance is drawn elsewhere")


def check_wear(group, x, parts):
    title = with_class(group, "text", "panel-title")[0].text
    which, tool = re.fullmatch(r"(Radius|Length) wear of tool (\d+)", title).groups()
    y = scale_up(group)
    (band,), (exact,), (stored,) = (one_path(group, name) for name in ("band", "exact", "stored"))
    for index, part in enumerate(parts, 1):
        if part.tool != int(tool):
            continue
        wear = part.wears[RADIUS if which == "Radius" else LENGTH]
        behind = x.place(index) + 0.1
        for run, wanted in ((stored, [wear[0]]), (exact, [wear[1]]), (band, [wear[1] - wear[2], wear[1] + wear[2]])):
            must(level_at(run, behind, list(map(y.place, wanted))), f"part {index}: {title} is drawn elsewhere")
    return int(tool)


def k_changes(parts):
    return [index + Fraction(1, 2) for index, (before, after) in enumerate(zip(parts, parts[1:]), 1) if before.k != after.k]


def check_factors(series, panels, x, parts):
    wanted = k_changes(parts)
    for panel in panels:
        lines = [number(line, "x1") for line in with_class(panel, "line", "k-change")]
        must(len(lines) == len(wanted) and all(abs(line - x.place(place)) < PIXEL for line, place in zip(lines, wanted)), "k changes elsewhere")
    spans = with_class(series, "rect", "k-span")
    must(len(spans) == len(wanted) + 1, f"{len(spans)} spans of k, not {len(wanted) + 1}")
    named = [text.text for text in with_class(series, "text", "middle")]
    must(len(parts) < 100 or named == ["k = " + str(parts[int(place)].k) for place in [0] + wanted], f"the strip names {named}")


def check_words(series, mv, parts, refused):
    words = [text.text for text in series.iter(SVG + "text")]
    count = "1 part" if len(parts) == 1 else f"{len(parts)} parts"
    wanted = [f"Mean value {mv} over {count}" if mv else f"{count} without a mean value", "deviation of a part", "deviation, µm", "wear, µm"]
    wanted += ["stored wear", "exact wear", "outside its bound: none"]
    if mv:
        wanted += ["stored mean", "exact mean N/P", "exact mean ± K/2", "distance, µm", "stored less exact mean"]
        wanted += [f"part, in the order of the measurements done with mean value {mv}"]
    wanted += ["refused measurement"] * bool(refused) + ["weighting factor k changed"] * bool(k_changes(parts))
    wanted += ["correction by the mean (branch 4)"] * any(part.branch == 4 for part in parts)
    for text in wanted:
        must(text in words, f"mean {mv}: the picture has no words '{text}'")
    must(any("TZL" in text for text in words), "TZL is not named")


def check_series(series, mv, parts, refused):
    (means,) = with_class(series, "g", "means")
    x = scale_right(series, with_class(means, "rect", "frame")[0], len(parts))
    distances, wears = with_class(series, "g", "distances"), with_class(series, "g", "wear")
    y = scale_up(means)
    check_points(means, x, y, parts)
    check_limits(means, x, y, parts)
    check_corrections(means, x, y, parts)
    check_refused(means, x, parts, refused)
    must(len(distances) == (mv != 0), f"{len(distances)} diagrams of distances")
    if mv:
        check_band(means, x, y, parts)
        check_distances(distances[0], x, parts)
    tools = {check_wear(wear, x, parts) for wear in wears}
    must(tools == {part.tool for part in parts}, f"the wears of tools {tools} are drawn")
    check_factors(series, [means] + distances + wears, x, parts)
    check_words(series, mv, parts, refused)
    for panel in [means] + distances + wears:
        must(not with_class(panel, "circle", "outside"), "a value outside its bound")


def check_picture(file, chosen):
    with open(file, encoding="utf-8") as text:
        source = text.read()
    for outside in ("href", "url(", "<script", "<image", "@import"):
        must(outside not in source, f"the picture does not stand alone: {outside}")
    root = ET.fromstring(source)
    must(root.find(SVG + "title").text and root.find(SVG + "desc").text, "the picture has no title or description")
    drawn = with_class(root, "g", "series")
    must(len(drawn) == len(chosen), f"{len(drawn)} series are drawn, not {len(chosen)}")
    for series, (mv, (parts, refused)) in zip(drawn, chosen):
        check_series(series, mv, parts, refused)
    check_colours(root.find(SVG + "style").text)


# Both sets of colours.


def luminance(colour):
    channels = [int(colour[place : place + 2], 16) / 255 for place in (1, 3, 5)]
    linear = [channel / 12.92 if channel <= 0.03928 else ((channel + 0.055) / 1.055) ** 2.4 for channel in channels]
    return 0.2126 * linear[0] + 0.7152 * linear[1] + 0.0722 * linear[2]


def contrast(a, b):
    dark, light = sorted((luminance(a), luminance(b)))
    return (light + 0.05) / (dark + 0.05)


def colours(style):
    """The colour of each class: a line's stroke, else the fill."""
    found = {}
    for names, rule in re.findall(r"^([^{}@]+) \{ (.*?) \}$", style, re.M):
        stroke, fill = re.search(r"stroke: (#\w{6})", rule), re.search(r"fill: (#\w{6})", rule)
        for name in names.strip().split(", "):
            colour = fill if fill else stroke
            if colour:
                found[name] = colour.group(1)
    return found


def check_colours(style):
    light, dark = style.split("@media (prefers-color-scheme: dark) {")
    first = colours(light)
    for scheme in (first, {**first, **colours(dark)}):
        for name in ("text", ".subtitle", ".tick", ".label", ".legend"):
            must(contrast(scheme[name], scheme[".background"]) >= 4.5, f"{name} is too pale on {scheme['.background']}")
        for name in (".part", ".stored", ".exact", ".tzl", ".by-mean", ".by-deviation", ".in-full", ".refused", ".k-change", ".wear-set", ".outside"):
            must(contrast(scheme[name], scheme[".background"]) >= 3, f"{name} is too pale on {scheme['.background']}")


def main():
    job, answers, table, picture, *mean = sys.argv[1:]
    with open(job, encoding="ascii", errors="replace") as lines, open(answers, encoding="ascii") as outcome:
        series = reckon(lines.read().split("\n")[:-1], [list(map(int, line.split(","))) for line in outcome])
    chosen = {mv: pair for mv, pair in series.items() if (str(mv) in mean if mean else mv != 0)}
    check_table(table, chosen)
    check_picture(picture, sorted(chosen.items()))
    print(sum(len(parts) for parts, _ in chosen.values()), "parts")


main()
