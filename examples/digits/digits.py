"""Reads 1,797 handwritten digits by their nearest others. Use: digits.py INDEX SHEET, where both files are made."""

import sys

import mtree
import numpy
from sheet import draw_sheet
from sklearn.datasets import load_digits

digits = load_digits()
rows = digits.data.astype(numpy.uint32)  # 8 by 8 pixels, each 0 to 16
index = mtree.Index.from_array(sys.argv[1], rows, metric="l1", tags=digits.target)

# The nearest digit of each one is itself, at the distance 0. The second is the nearest of the others, and its tag is the guess.
distances, ids, tags = index.kneighbors(rows, 6, return_tags=True)
is_right = tags[:, 1] == digits.target
print(f"{is_right.sum()} of {len(rows)} are right: {is_right.mean():.1%}")

shown = [*numpy.flatnonzero(is_right)[5:400:50], *numpy.flatnonzero(~is_right)[:6]]
draw_sheet(sys.argv[2], digits.images, digits.target, [list(zip(ids[i], distances[i])) for i in shown])
