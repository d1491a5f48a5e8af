#!/usr/bin/env python3
"""make.py FOLDER: a made salt floor of full size, as a patch file with its script, what the program must say of it, and two pictures.

Writes FOLDER/floor.patch (docs/FORMATS.md), FOLDER/floor.said, FOLDER/before.svg and FOLDER/after.svg. The floor is a grid of 32 by 32
points with a step across it and a ridge; the script flips diagonals that cut the step, splits faces and border edges where the floor
steps, and collapses edges where it is flat, far enough from each other that a corner's number from the build still names the same edge.
So the mesh after the script is known here without the library: it is kept as plain triples of points."""
import math
import struct
import sys

SIDE = 32
COLLAPSE, FLIP, SPLIT_EDGE, SPLIT_FACE = 1, 2, 3, 4
NAMES = {1: "collapse edge", 2: "flip edge", 3: "split edge", 4: "split face"}


def height(x, y):
    """A step of 0.35 m along a slanted line, and a ridge of 0.4 m across one corner."""
    step = 0.35 if y > 18 + 0.25 * x else 0.0
    ridge = 0.4 * math.exp(-(((x + y - 16) / 2) ** 2))
    return step + (ridge if ridge > 0.02 else 0.0)


class Floor:
    def __init__(self):
        self.points = [(float(x), float(y), height(x, y)) for y in range(SIDE) for x in range(SIDE)]
        self.faces = []
        for y in range(SIDE - 1):
            for x in range(SIDE - 1):
                a, b, c, d = self.at(x, y), self.at(x + 1, y), self.at(x, y + 1), self.at(x + 1, y + 1)
                self.faces += [(a, b, d), (a, d, c)]
        self.built = list(self.faces)
        self.script, self.refused = [], []

    @staticmethod
    def at(x, y):
        return y * SIDE + x

    @staticmethod
    def quad(x, y):
        """The first of the two faces of a cell of the grid."""
        return 2 * (y * (SIDE - 1) + x)

    def middle(self, corners):
        return tuple(sum(self.points[v][k] for v in corners) / len(corners) for k in range(3))

    def rise(self, corners):
        heights = [self.points[v][2] for v in corners]
        return max(heights) - min(heights)

    def command(self, kind, target, point=(0.0, 0.0, 0.0), answer=None):
        if answer:
            self.refused.append((len(self.script), kind, target, answer))
        self.script.append((kind, target, point))

    # ---- the edits, on the triples

    def flip(self, x, y):
        """The cell's diagonal a-d becomes b-c. The edge is named by corner 1 of the cell's first face, which lies at b."""
        f = self.quad(x, y)
        (a, b, d), (_, _, c) = self.faces[f], self.faces[f + 1]
        self.command(FLIP, 3 * f + 1)
        self.faces[f], self.faces[f + 1] = (b, d, c), (b, c, a)

    def split_face(self, f):
        a, b, c = self.faces[f]
        new = len(self.points)
        point = self.middle((a, b, c))
        self.command(SPLIT_FACE, f, point)
        self.points.append(point)
        self.faces[f] = (a, b, new)
        self.faces += [(b, c, new), (c, a, new)]

    def split_border(self, f, k):
        """The border edge that faces corner k of face f: next's vertex moves to the middle, a new one takes its old place and corners."""
        apex, moved, _ = (self.faces[f][(k + i) % 3] for i in range(3))
        new = len(self.points)
        point = self.middle((moved, self.faces[f][(k + 2) % 3]))
        self.command(SPLIT_EDGE, 3 * f + k, point)
        self.points.append(self.points[moved])
        self.points[moved] = point
        self.faces = [face if g == f else tuple(new if v == moved else v for v in face) for g, face in enumerate(self.faces)]
        self.faces.append((apex, new, moved))

    def collapse(self, f, k):
        """The edge that faces corner k of face f: next's vertex stays and moves to the middle, previous's goes."""
        face = self.faces[f]
        kept, gone = face[(k + 1) % 3], face[(k + 2) % 3]
        point = self.middle((kept, gone))
        self.command(COLLAPSE, 3 * f + k, point)
        self.points[kept] = point
        moved = [face and tuple(kept if v == gone else v for v in face) for face in self.faces]
        self.faces = [face if face and len(set(face)) == 3 else None for face in moved]

    # ---- where

    def flat_around(self, x, y):
        """No rise within two steps of the edge from (x, y) to (x + 1, y), and none of it near the border."""
        if not (3 <= x < SIDE - 4 and 3 <= y < SIDE - 3):
            return False
        return self.rise([self.at(i, j) for i in range(x - 2, x + 4) for j in range(y - 2, y + 3)]) == 0.0

    def edit(self):
        for y in range(SIDE - 1):
            for x in range(SIDE - 1):
                a, b, c, d = self.at(x, y), self.at(x + 1, y), self.at(x, y + 1), self.at(x + 1, y + 1)
                if self.rise((b, c)) + 0.1 < self.rise((a, d)):
                    self.flip(x, y)
        for y in range(SIDE - 1):
            f = self.quad(0, y) + 1
            a, _, c = self.built[f]
            if self.faces[f] == self.built[f] and self.rise((a, c)) > 0.1:
                self.split_border(f, 1)
        for f in range(len(self.built)):
            if self.rise(self.faces[f]) > 0.2:
                self.split_face(f)
        taken = []
        for y in range(3, SIDE - 3, 4):
            for x in range(3, SIDE - 4, 4):
                if self.flat_around(x, y):
                    f = self.quad(x, y)
                    taken.append(f)
                    self.collapse(f, 2)
        self.command(COLLAPSE, 3 * self.quad(0, 0) + 2, answer="11, border")
        self.command(COLLAPSE, 3 * taken[0], answer="10, target deleted")
        self.command(FLIP, 3 * 65535, answer="9, no such target")
        self.command(SPLIT_FACE, 0, (math.nan, 0.0, 0.0), answer="4, point not finite")
        self.command(7, 0, answer="14, unknown kind")

    # ---- what comes of it

    def sizes(self, faces):
        faces = [face for face in faces if face]
        used = {v for face in faces for v in face}
        halves = {(face[k], face[(k + 1) % 3]) for face in faces for k in range(3)}
        border = sum((b, a) not in halves for a, b in halves)
        edges = border + (len(halves) - border) // 2
        euler = len(used) - edges + len(faces)
        return f"{len(used)} vertices, {edges} edges, {len(faces)} faces, V-E+F {euler}, {border} border edges"

    def said(self):
        lines = [f"build: {SIDE * SIDE} points, {len(self.built)} faces, 0 skipped", "check: 0, done"]
        for i, kind, target, answer in self.refused:
            lines.append(f"command {i}: {NAMES.get(kind, 'unknown kind')} at {target} refused: {answer}")
        for kind in (1, 2, 3, 4, 0):
            number = sum((k if k in NAMES else 0) == kind for k, _, _ in self.script)
            bad = sum((k if k in NAMES else 0) == kind for _, k, _, _ in self.refused)
            lines.append(f"{NAMES.get(kind, 'unknown kind')}: {number - bad} done of {number}")
        lines += ["before: " + self.sizes(self.built), "after: " + self.sizes(self.faces), "run: 0, done"]
        return "\n".join(lines) + "\n"

    def patch(self, points):
        words = struct.pack("<4I", 0x31525453, len(points), len(self.built), len(self.script))
        words += b"".join(struct.pack("<3f", *p) for p in points)
        words += b"".join(struct.pack("<3I", *f) for f in self.built)
        return words + b"".join(struct.pack("<2I3f", kind, target, *point) for kind, target, point in self.script)

    def picture(self, points, faces):
        def shade(face):
            z = sum(points[v][2] for v in face) / 3 / 0.6
            return "#%02x%02x%02x" % tuple(round(low + (high - low) * min(z, 1)) for low, high in ((236, 150), (240, 110), (242, 70)))

        scale, size = 20, 20 * (SIDE - 1) + 20
        out = [f'<svg xmlns="http://www.w3.org/2000/svg" viewBox="0 0 {size} {size}" width="{size}" height="{size}">',
               '<g stroke="#445" stroke-width="0.6" stroke-linejoin="round">']
        for face in faces:
            if face:
                path = " ".join(f"{10 + scale * points[v][0]:.1f},{10 + scale * points[v][1]:.1f}" for v in face)
                out.append(f'<polygon points="{path}" fill="{shade(face)}"/>')
        return "\n".join(out + ["</g>", "</svg>"]) + "\n"


def main(folder):
    floor = Floor()
    points = list(floor.points)
    floor.edit()
    files = {
        "floor.patch": floor.patch(points),
        "floor.said": floor.said().encode(),
        "before.svg": floor.picture(points, floor.built).encode(),
        "after.svg": floor.picture(floor.points, floor.faces).encode(),
    }
    for name, text in files.items():
        with open(f"{folder}/{name}", "wb") as out:
            out.write(text)


if __name__ == "__main__":
    if len(sys.argv) != 2:
        sys.exit(__doc__)
    main(sys.argv[1])
