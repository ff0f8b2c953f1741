"""Makes docs/relief.png: a small relief of kind 8, its rungs, its residues, and the balls of its list. Run by /usr/bin/python3."""
import os
import sys

HERE = os.path.dirname(os.path.abspath(__file__))
sys.path.insert(0, os.path.join(HERE, "..", "conformance"))

import matplotlib
import numpy as np

import peers

matplotlib.use("Agg")
import matplotlib.pyplot as plt
from matplotlib.patches import Rectangle

KIND = 8
RELIEF = np.array([
    [3, 3, 3, 3, 3, 0, 0, 0, 0],
    [3, 3, 3, 3, 3, 0, 6, 6, 6],
    [3, 3, 9, 3, 3, 2, 6, 6, 6],
    [3, 3, 3, 3, 3, 0, 6, 6, 6],
    [3, 3, 3, 3, 3, 0, 0, 0, 0],
    [0, 0, 0, 0, 0, 0, 4, 4, 0],
], np.uint8)
COLOURS = ["#c0392b", "#1f77b4", "#2e8b57"]     # of reaches 0, 1, 2


def grid(axes, numbers, title, colours):
    axes.imshow(numbers, cmap=colours, vmin=0, vmax=12)
    for (row, column), number in np.ndenumerate(numbers):
        axes.text(column, row, int(number), ha="center", va="center", fontsize=9, color="black" if number else "#b0b0b0")
    finish(axes, title)


def finish(axes, title):
    height, width = RELIEF.shape
    axes.set_xticks(range(width), range(width), fontsize=7, color="#808080")
    axes.set_yticks(range(height), range(height), fontsize=7, color="#808080")
    axes.set_xticks(np.arange(width + 1) - 0.5, minor=True)
    axes.set_yticks(np.arange(height + 1) - 0.5, minor=True)
    axes.grid(which="minor", color="white" if axes.images else "#dddddd", linewidth=1)
    axes.tick_params(which="both", length=0)
    axes.set_xlim(-0.5, width - 0.5)
    axes.set_ylim(height - 0.5, -0.5)
    axes.set_aspect("equal")
    axes.set_title(title, fontsize=10)


def balls(axes, plunges):
    """Each ball as an outline, drawn a little within its cells so that outlines stay apart; its depth at its centre."""
    for column, row, reach, depth in sorted(plunges.tolist(), key=lambda p: -p[2]):
        inset = 0.06 + 0.02 * reach
        wide = 2 * reach + 1 - 2 * inset
        axes.add_patch(Rectangle((column - reach - 0.5 + inset, row - reach - 0.5 + inset), wide, wide, facecolor=COLOURS[reach] + "30",
                                 edgecolor=COLOURS[reach], linewidth=2))
    for column, row, reach, depth in plunges.tolist():
        shift = 0.75 if (column, row) == (2, 2) and reach == 2 else 0
        axes.text(column, row + shift, depth, ha="center", va="center", fontsize=10, fontweight="bold", color=COLOURS[reach])
    finish(axes, "the balls of the list, with their depths")


def words(axes, plunges):
    axes.axis("off")
    lines = ["column  row  reach  depth"] + [f"{c:6d} {r:4d} {reach:6d} {depth:6d}" for c, r, reach, depth in plunges.tolist()]
    axes.set_title("the list: where a residue is above 0", fontsize=10)
    for number, line in enumerate(lines):
        reach = plunges[number - 1][2] if number else None
        axes.text(0.02, 0.92 - number * 0.125, line, transform=axes.transAxes, family="monospace", fontsize=9.5,
                  color=COLOURS[reach] if number else "black", fontweight="bold" if not number else "normal")


def main():
    climb = peers.rungs(RELIEF, KIND, True)
    remains = peers.residues(climb, KIND)
    plunges = peers.listing(climb, remains)
    assert len(climb) == 4 and (peers.drawn(KIND, *RELIEF.shape[::-1], plunges, True) == RELIEF).all()
    figure, axes = plt.subplots(2, 4, figsize=(14, 5.6))
    for k, title in enumerate(("the relief: rung 0", "rung 1: lowest within distance 1", "rung 2: lowest within distance 2")):
        grid(axes[0, k], climb[k], title, "YlGnBu")
    balls(axes[0, 3], plunges)
    for k in (1, 2, 3):
        grid(axes[1, k - 1], remains[k - 1], f"residue {k}: gives reach {k - 1}", "OrRd")
    words(axes[1, 3], plunges)
    figure.tight_layout()
    figure.savefig(os.path.join(HERE, "relief.png"), dpi=100)


if __name__ == "__main__":
    main()
