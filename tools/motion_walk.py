"""A walk over a lattice of whole motions, from one to better ones by short steps.

Each motion has its W/m, where all of its pairs can be answered within the limits; what can't be counts as so much
more. The walk takes what is better, and, while it is warm, sometimes what is not."""

import math
import time
from collections import namedtuple

import rows as exact
from lattice import add_multiple

LIMIT = exact.EQUALITY_MULTIPLIER[-1]
UNANSWERED = 1.0  # what a pair without an answer counts, as a part of the optimum
OUTSIDE = 3.0  # the same without friction, where only the limits leave none
EASY = 1000.0  # equality multipliers beyond the limit by this much together count about as one such pair
TOGETHER = 20  # steps between two looks at the clock

# A lattice vector with what it does: see MotionLattice.effect.
Step = namedtuple("Step", "vector w m multiples")


def step_of(motions, vector):
    w, m, multiples = motions.effect(vector)
    return Step(vector, w, m, list(multiples.items()))


class Walk:
    """load: the optimum. answers: (pair, multiples) -> (W, what it counts without an answer), for walks of the same
    lattice to share."""

    def __init__(self, motions, vector, load, answers):
        self.motions, self.load, self.answers = motions, load, answers
        self.vector, (self.w, self.m, self.multiples) = dict(vector), motions.effect(vector)
        self.over = sum(max(0, abs(vector.get(k, 0)) - LIMIT) for k in motions.equality)
        self.bad = 0.0
        for pair, multiples in self.multiples.items():
            w, bad = self.answer(pair, multiples)
            self.w, self.bad = self.w + w, self.bad + bad
        self.height = self.height_of(self.m, self.w, self.bad, self.over)

    def fits(self):
        return self.m > 0 and not self.over and self.bad < UNANSWERED / 2

    def height_of(self, m, w, bad, over):
        """W/m above the optimum, as a part of it, and what doesn't fit."""
        if m <= 0:
            return math.inf
        return (w / m - self.load) / max(abs(self.load), 1e-9) + bad + math.log1p(over / EASY)

    def answer(self, pair, multiples):
        key = pair, multiples
        if key not in self.answers:
            y = self.motions.answer(pair, multiples)
            rights = (self.motions.rows[k].right for k in self.motions.strength_rows(pair))
            found = (sum(a * b for a, b in zip(y, rights) if a), 0.0) if y else self.unanswered(pair, multiples)
            self.answers[key] = found
        return self.answers[key]

    def unanswered(self, pair, multiples):
        """With friction the more, the farther Z is below its least for V."""
        soil, sides = self.motions.pairs[pair][1], self.motions.mesh.sides
        if soil.kind or not soil.p:
            return 0, OUTSIDE
        r, (sx, sy, t) = exact.radius(sides), self.motions.lattice_of(pair).sums(multiples)
        least = math.hypot(t, sx - sy) / (2 * soil.h)
        z = (sx + sy) / (2 * soil.p)
        return 2 * soil.q * soil.cohesion * max(z, 0), UNANSWERED * (1 + math.log1p(max(0.0, least - z) / r))

    def seen(self, step, times):
        """(height, m, w, bad, over, changed multiples) after so many times a step."""
        w, bad, changed = self.w + times * step.w, self.bad, []
        for pair, change in step.multiples:
            old = self.multiples.get(pair) or (0,) * len(change)
            new = tuple(a + times * b for a, b in zip(old, change))
            (before, bad_before), (after, bad_after) = self.answer(pair, old), self.answer(pair, new)
            w, bad = w + after - before, bad + bad_after - bad_before
            changed.append((pair, new))
        over, m = self.over, self.m + times * step.m
        for k, c in step.vector.items():
            if k < self.motions.first:
                old = self.vector.get(k, 0)
                over += max(0, abs(old + times * c) - LIMIT) - max(0, abs(old) - LIMIT)
        return self.height_of(m, w, bad, over), m, w, bad, over, changed

    def take(self, step, times, seen):
        self.height, self.m, self.w, self.bad, self.over, changed = seen
        self.multiples.update(changed)
        add_multiple(self.vector, step.vector, times)

    def descend(self, steps, seconds):
        """Takes each step that is better, until none is."""
        end, better = time.monotonic() + seconds, True
        while better:
            better = False
            for step in steps:
                for times in (1, -1):
                    seen = self.seen(step, times)
                    if seen[0] < self.height - 1e-12:
                        self.take(step, times, seen)
                        better = True
                        break
                if time.monotonic() > end:
                    return

    def wander(self, steps, seconds, chance, warm, cold):
        """Steps by chance, the worse ones ever less often; returns the best motion that fits, as (height, vector), or
        None."""
        begin, best = time.monotonic(), None
        while (part := (time.monotonic() - begin) / seconds) < 1:
            warmth = warm * (cold / warm) ** part
            for _ in range(TOGETHER):
                step, times = chance.choice(steps), chance.choice((1, -1))
                seen = self.seen(step, times)
                if seen[0] > self.height and chance.random() >= math.exp((self.height - seen[0]) / warmth):
                    continue
                self.take(step, times, seen)
                if self.fits() and (best is None or self.height < best[0]):
                    best = self.height, dict(self.vector)
        return best
