#!/usr/bin/env python3
"""Draws the plots of docs/BENCH.md from bench/rates.tsv.

    bench/plots.py

Run at the top of the repository, by a Python that has matplotlib (Debian: python3-matplotlib, for /usr/bin/python3). A line of the data has a plot, a
series, a number of rules or clients, the least and the most requests a second that were seen, a commit and a date. Each plot is the
file docs/PLOT.svg. The same data give the same files.
"""
import sys
from pathlib import Path

try:
    import matplotlib
except ModuleNotFoundError:
    sys.exit("plots.py: this Python has no matplotlib. Debian has it for /usr/bin/python3, as python3-matplotlib")
matplotlib.use("svg")
from matplotlib import pyplot

DATA = Path("bench/rates.tsv")
AXES = {
    "rate-by-rules": ("rules on the bus, none of which matches", "thousand requests for a processor second"),
    "rate-by-clients": ("clients at once", "thousand requests a second"),
}
MARKS = "osD^v"


def rows():
    for line in DATA.read_text(encoding="utf-8").splitlines():
        if line and not line.startswith("#"):
            plot, series, at, least, most, commit, date = line.split("\t")
            yield plot, f"{series} ({commit}, {date})", int(at), float(least), float(most)


def draw(plot, points):
    """One plot. A series is a line through the middles, with a bar from the least to the most."""
    figure, axes = pyplot.subplots(figsize=(7, 4))
    names = list(dict.fromkeys(series for series, *_ in points))
    for mark, name in zip(MARKS, names, strict=False):
        found = sorted((at, least, most) for series, at, least, most in points if series == name)
        middle = [(least + most) / 2 / 1_000 for _, least, most in found]
        spread = [(most - least) / 2 / 1_000 for _, least, most in found]
        line = "none" if len(found) < 3 else "-"
        axes.errorbar([at for at, _, _ in found], middle, spread, marker=mark, linestyle=line, capsize=3, label=name)
    axes.set_xlabel(AXES[plot][0])
    axes.set_ylabel(AXES[plot][1])
    axes.set_ylim(bottom=0)
    axes.grid(alpha=0.3)
    axes.legend(fontsize="small")
    figure.tight_layout()
    figure.savefig(f"docs/{plot}.svg", metadata={"Date": None})
    pyplot.close(figure)


def main():
    # Text stays text, and ids do not change from run to run.
    matplotlib.rcParams.update({"svg.fonttype": "none", "svg.hashsalt": "ebusd"})
    found = list(rows())
    for plot in AXES:
        points = [(series, *rest) for name, series, *rest in found if name == plot]
        if points:
            draw(plot, points)
        else:
            print(f"plots.py: {DATA} has no line of {plot}")


if __name__ == "__main__":
    main()
