"""Multipliers near the optimum by whole motions: rounds the central path of the multipliers (dual_path.py) in the
lattice of motions (motion_lattice.py), made short by the room that the multipliers have there, at many gaps and
scales; and walks from the best of them to better ones (motion_walk.py)."""

import random

import rows as exact
from dual_path import DualPath, field_vectors
from lattice import Lattice
from motion_lattice import MotionLattice
from motion_walk import Walk, step_of
from multiplier_search import NEAR, USED, multipliers_fit, neighbourhood

GAPS = (8.0, 4.0, 2.0, 1.0, 0.5, 0.25, 0.12, 0.06, 0.03, 0.015, 0.007, 0.0035, 0.0017)  # above the optimum, in parts
FILLINGS = [0.98 * 0.95**k for k in range(50)]  # how much of the limits roundings take
SPREAD = 3  # multipliers of a node may be spread over so many times as many sides
WALKS = 3  # of the roundings at one gap, so many are walked from
HIGH = 100  # from above this none is
LONGEST = 5.0  # seconds that the walks of one gap take at most
WORSE = 3  # gaps without anything better, after which no nearer one is tried
WARM, COLD = 0.02, 0.0002  # of the last walk: how much worse a step may be by chance
HOPELESS = 3.0  # from above this a walk doesn't come to what fits
WALKED = 3  # how many times the seconds of a search the last walk takes


def choices(mesh, rows, multipliers):
    """Which pairs may deform: all, those of nodes beside one that deforms at the optimum, or those that do. None
    whose soil has friction and is stronger one way, for its sums aren't answered."""
    pairs = exact.strength_pairs(mesh)
    first = len(rows) - len(pairs) * mesh.sides
    least = USED * max(multipliers[first:])
    begins = range(first, len(rows), mesh.sides)
    used = {pair for pair, k in enumerate(begins) if max(multipliers[k : k + mesh.sides]) > least}
    beside = neighbourhood(mesh, {pairs[pair][0] for pair in used})
    around = {pair for pair, (node, _) in enumerate(pairs) if node in beside}
    able = {pair for pair, (_, soil) in enumerate(pairs) if not (mesh.soils[soil].kind and mesh.soils[soil].p)}
    return dict.fromkeys(frozenset(some & able) for some in (able, around, used) if some & able)


class MotionSearch:
    """In the lattice of the motions that deform these pairs. vectors: as a DualPath has them."""

    def __init__(self, mesh, rows, solution, deform, vectors):
        self.motions, self.load = MotionLattice(mesh, rows, deform), solution.load
        self.path, self.answers = DualPath(self.motions, solution, vectors), {}
        self.best, self.steps = None, []
        self.chance = random.Random(1)

    def walk(self, vector):
        return Walk(self.motions, vector, self.load, self.answers)

    def scale(self, multipliers):
        """What makes these real multipliers as large as the limits let them be."""
        motions = self.motions
        largest = max(abs(multipliers[k]) for k in motions.equality)
        strength = max(multipliers[k] for pair in motions.deform for k in motions.strength_rows(pair))
        return min(exact.EQUALITY_MULTIPLIER[-1] / largest, SPREAD * motions.most / strength)

    def roundings(self, gap):
        """Walks from the roundings at this gap, the best first."""
        motions, real = self.motions, self.path.multipliers(gap)
        scale, target = self.scale(real), motions.target(real)
        lattice = Lattice(motions.vectors, motions.measure(real, scale))
        motions.vectors = lattice.vectors
        self.steps = [step_of(motions, vector) for vector in lattice.vectors]
        walks = [self.walk(lattice.nearest({k: f * scale * c for k, c in target.items()})) for f in FILLINGS]
        return sorted(walks, key=lambda walk: walk.height)

    def keep(self, height, vector):
        """Says whether it is better than the best one."""
        better = self.best is None or height < self.best[0]
        if better:
            self.best = height, dict(vector), self.steps
        return better

    def search(self, seconds):
        """Keeps the best motion of the roundings, whether it fits or not. seconds: at each gap."""
        worse, seconds = 0, min(seconds, LONGEST) / WALKS
        for gap in GAPS:
            better = False
            for walk in self.roundings(gap)[:WALKS]:
                if walk.height < HIGH:
                    walk.descend(self.steps, seconds)
                    better |= self.keep(walk.height, walk.vector)
            worse = 0 if better else worse + 1
            if worse == WORSE:
                break

    def walk_from(self, multipliers, seconds):
        """From a claim's multipliers, where they deform none but these pairs."""
        motions = self.motions
        others = set(range(len(motions.pairs))) - set(motions.deform)
        if any(multipliers[k] for pair in others for k in motions.strength_rows(pair)):
            return
        walk = self.walk({k: c for k, c in motions.target(multipliers).items() if c})
        walk.descend(self.best[2] if self.best else self.steps, seconds)
        self.keep(walk.height, walk.vector)

    def improve(self, seconds):
        """Walks on from the best one."""
        _, vector, steps = self.best
        found = self.walk(vector).wander(steps, seconds, self.chance, WARM, COLD)
        if found:
            walk = self.walk(found[1])
            walk.descend(steps, seconds)
            self.keep(walk.height, walk.vector)

    def multipliers(self):
        """A claim's, where the best motion fits, or None."""
        walk = self.walk(self.best[1])
        whole = walk.fits() and self.motions.finish(walk.vector)
        return whole if whole and multipliers_fit(self.motions.rows, self.motions.columns, whole) else None


def moved_multipliers(mesh, rows, solution, seconds, start=None, more=WALKED):
    """(multipliers, how) or None. seconds: of each search; start: multipliers to walk from as well; more: how many
    times the seconds the last walk takes."""
    vectors, found = field_vectors(rows, 3 * len(mesh.nodes)), []
    for deform in choices(mesh, rows, solution.multipliers):
        search = MotionSearch(mesh, rows, solution, deform, vectors)
        search.search(seconds)
        if start and not found:
            search.walk_from(start, seconds)
        if search.best:
            found.append(search)
            if search.best[0] < NEAR:
                break
    if not found:
        return None
    best = min(found, key=lambda search: search.best[0])
    if more and NEAR < best.best[0] < HOPELESS:
        best.improve(more * seconds)
    multipliers = best.multipliers()
    return multipliers and (multipliers, f"whole motions, {len(best.motions.deform)} pairs deform")
