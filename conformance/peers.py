"""The same answers from implementations that nobody here wrote: SciPy's ndimage and OpenCV.

Arrays are height by width, of bytes. Kind 4 is SciPy's connectivity 1 and metric 'taxicab', OpenCV's cross and DIST_L1;
kind 8 is connectivity 2 and 'chessboard', the 3 by 3 rectangle and DIST_C. Everything off the plate is 0.
"""
import functools

import cv2
import numpy as np
from scipy import ndimage
from scipy.spatial import distance

LAST_RUNG = 120
cv2.setNumThreads(1)


# ---- SciPy: erosions, residues, listing

def unit(kind):
    return ndimage.generate_binary_structure(2, 1 if kind == 4 else 2)


@functools.lru_cache(maxsize=None)
def ball(kind, reach):
    """The ball as a footprint."""
    return ndimage.iterate_structure(unit(kind), reach) if reach else np.ones((1, 1), bool)


def eroded(relief, footprint):
    return ndimage.grey_erosion(relief, footprint=footprint, mode="constant", cval=0)


def dilated(relief, footprint):
    return ndimage.grey_dilation(relief, footprint=footprint, mode="constant", cval=0)


def rungs(relief, kind, by_balls):
    """Rung 0, 1, ... up to the first that is 0 everywhere (all later ones are too: a lowest depth over more cells).

    By balls: each from the relief itself, with the ball of radius k as footprint. Else each from the one before.
    """
    climb = [relief]
    while climb[-1].any():
        k = len(climb)
        climb.append(eroded(relief, ball(kind, k)) if by_balls else eroded(climb[-1], ball(kind, 1)))
    return climb


def residues(climb, kind):
    """Residue 1, 2, ... up to the number of rungs climbed; later ones are 0."""
    made = []
    for k in range(1, len(climb)):
        residue = climb[k - 1].astype(int) - dilated(climb[k], ball(kind, 1))
        assert residue.min() >= 0
        made.append(residue.astype(np.uint8))
    return made


def listing(climb, remains):
    """The plunges of a relief from its rungs and residues, as rows of column, row, reach, depth."""
    found = [np.zeros((0, 4), int)]
    for reach, residue in enumerate(remains):
        rows, columns = np.nonzero(residue)
        found.append(np.stack([columns, rows, np.full(len(rows), reach), climb[reach][rows, columns]], axis=1))
    return np.concatenate(found)


# ---- SciPy: drawing

def drawn(kind, width, height, plunges, by_balls):
    """The relief that plunges draw. By balls: the centres of each reach, dilated by its ball. Else from the largest reach down,
    dilated by one step each."""
    relief = np.zeros((height, width), np.uint8)
    plunges = np.asarray(plunges, int).reshape(-1, 4)
    for reach in range(plunges[:, 2].max(initial=-1), -1, -1):
        column, row, _, depth = plunges[plunges[:, 2] == reach].T
        centres = np.zeros((height, width), np.uint8)
        np.maximum.at(centres, (row, column), depth.astype(np.uint8))
        if by_balls:
            if len(row):
                relief = np.maximum(relief, dilated(centres, ball(kind, reach)))
        else:
            relief = np.maximum(relief, centres)
            relief = dilated(relief, ball(kind, 1)) if reach else relief
    return relief


# ---- one level: SciPy and OpenCV

def ringed(relief, level):
    """The shape of a level, with a ring of cells about it that are not in it."""
    return np.pad((relief >= level).astype(np.uint8), 1)


def clearance(relief, kind, level):
    away = ndimage.distance_transform_cdt(ringed(relief, level), "taxicab" if kind == 4 else "chessboard")
    return away[1:-1, 1:-1].astype(np.uint8)


def cv_clearance(relief, kind, level):
    away = cv2.distanceTransform(ringed(relief, level), cv2.DIST_L1 if kind == 4 else cv2.DIST_C, 3)
    return away[1:-1, 1:-1].astype(np.uint8)


def axis(clear, kind):
    """From the clearance map: kept where no neighbour's is larger."""
    return np.where(dilated(clear, unit(kind)) > clear, 0, clear).astype(np.uint8)


def cv_axis(clear, kind):
    return np.where(cv2.dilate(clear, cross_or_square(kind), **OFF_PLATE) > clear, 0, clear).astype(np.uint8)


def drawn_back(numbers, kind):
    """A cell is 1 if, for some v, the nearest cell with v or more is nearer than v; the distances by SciPy."""
    out = np.zeros(numbers.shape, bool)
    for v in np.unique(numbers[numbers > 0]):
        out |= ndimage.distance_transform_cdt(numbers < v, "taxicab" if kind == 4 else "chessboard") < v
    return out.astype(np.uint8)


def cv_drawn_back(numbers, kind):
    """The same, the distances by OpenCV."""
    out = np.zeros(numbers.shape, bool)
    for v in np.unique(numbers[numbers > 0]):
        out |= cv2.distanceTransform((numbers < v).astype(np.uint8), cv2.DIST_L1 if kind == 4 else cv2.DIST_C, 3) < v
    return out.astype(np.uint8)


def drawn_back_by_pairs(numbers, kind):
    """The same by looking at every pair of cells (small plates)."""
    cells = np.indices(numbers.shape).reshape(2, -1).T
    apart = distance.cdist(cells, cells, "cityblock" if kind == 4 else "chebyshev")
    return (numbers.reshape(1, -1) > apart).any(axis=1).astype(np.uint8).reshape(numbers.shape)


# ---- OpenCV: rungs and residues; listing and drawing as one would write them for speed

def cross_or_square(kind):
    return cv2.getStructuringElement(cv2.MORPH_CROSS if kind == 4 else cv2.MORPH_RECT, (3, 3))


OFF_PLATE = {"borderType": cv2.BORDER_CONSTANT, "borderValue": 0}


def cv_rungs(relief, kind):
    climb = [relief]
    while climb[-1].any():
        climb.append(cv2.erode(climb[-1], cross_or_square(kind), **OFF_PLATE))
    return climb


def cv_residues(climb, kind):
    return [cv2.subtract(climb[k - 1], cv2.dilate(climb[k], cross_or_square(kind), **OFF_PLATE)) for k in range(1, len(climb))]


def file_of(kind, width, height, marks):
    """The bytes of a file from (reach, rows, columns, depths) of each rung."""
    number = sum(len(rows) for _, rows, _, _ in marks)
    file = np.empty(13 + 7 * number, np.uint8)
    file[:6] = 1, 0, 3, kind, width, height
    plunges = file[6:-7].reshape(number, 7)
    plunges[:, 0], plunges[:, 1], plunges[:, 2] = 2, 0, 4
    at = 0
    for reach, rows, columns, depths in marks:
        part = plunges[at:at + len(rows)]
        part[:, 3], part[:, 4], part[:, 5], part[:, 6] = columns, rows, reach, depths
        at += len(rows)
    file[-7:] = 3, 0, 4, number >> 24, number >> 16 & 255, number >> 8 & 255, number & 255
    return file


def listed_by(erode, dilate, relief, kind, region):
    """The file of a relief: erode, dilate, compare, up to an empty rung. What each step works on:

    plate   the whole plate
    ring    a region that shrinks by a ring at each step: rung k is 0 within k cells of the plate's edge
    box     the least rectangle that holds what is left
    """
    rung, left, top, reach, marks = relief, 0, 0, 0, []
    while True:
        lower = erode(rung)
        more = cv2.countNonZero(lower)
        mark = rung > dilate(lower) if more else rung > 0
        found = np.flatnonzero(mark)
        if len(found):
            rows, columns = np.divmod(found, mark.shape[1])
            marks.append((reach, rows + top, columns + left, rung[mark]))
        if not more:
            return file_of(kind, relief.shape[1], relief.shape[0], marks)
        if region == "ring":
            lower, left, top = lower[1:-1, 1:-1], left + 1, top + 1
        elif region == "box":
            x, y, width, height = cv2.boundingRect(lower)
            lower, left, top = lower[y:y + height, x:x + width], left + x, top + y
        rung, reach = lower, reach + 1


def cv_listing(relief, kind, region):
    kernel = cross_or_square(kind)
    return listed_by(lambda m: cv2.erode(m, kernel, **OFF_PLATE), lambda m: cv2.dilate(m, kernel, **OFF_PLATE), relief, kind, region)


def scipy_listing(relief, kind):
    return listed_by(lambda m: eroded(m, ball(kind, 1)), lambda m: dilated(m, ball(kind, 1)), relief, kind, "plate")


def drawn_by(dilate, file, width, height):
    """The relief of a tidy file: from its largest reach down, dilated by one step each. dilate(relief, reach) does it in place."""
    column, row, reach, depth = file[6:-7].reshape(-1, 7)[:, 3:].T
    relief = np.zeros((height, width), np.uint8)
    flat, centre = relief.reshape(-1), row.astype(np.intp) * width + column
    largest = int(reach[-1]) if len(reach) else -1
    ends = np.searchsorted(reach, np.arange(largest + 2))
    for r in range(largest, -1, -1):
        these = centre[ends[r]:ends[r + 1]]
        flat[these] = np.maximum(flat[these], depth[ends[r]:ends[r + 1]])
        if r:
            dilate(relief, r)
    return relief


def cv_drawing(file, kind, width, height, region):
    """ring: balls of reach r have their centres r cells from the plate's edge, so the first steps work on a small region."""
    kernel = cross_or_square(kind)

    def dilate(relief, r):
        part = relief[r - 1:height - r + 1, r - 1:width - r + 1] if region == "ring" else relief
        cv2.dilate(part, kernel, dst=part, **OFF_PLATE)
    return drawn_by(dilate, file, width, height)


def scipy_drawing(file, kind, width, height):
    def dilate(relief, r):
        relief[:] = dilated(relief, ball(kind, 1))
    return drawn_by(dilate, file, width, height)
