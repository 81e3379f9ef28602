"""Times of a step in rounds, in each of which ours is run between two runs of the yardstick."""
import statistics

# A round counts for the ratio only where the yardstick takes as long after ours as before it, but for a twentieth. Else
# the machine did other work meanwhile.
ALIKE = 1.05


class Rounds:
    """Times in milliseconds, and the answers of all runs, which must be one."""

    def __init__(self):
        self.ours, self.fast, self.vectors, self.plain, self.ratios = [], [], [], [], []
        self.answers = set()

    def note(self, ours, before, after, vectors, plain):
        """One round; each run is a time and an answer."""
        self.answers.update(answer for _, answer in (ours, before, after, vectors, plain))
        self.ours.append(ours[0])
        self.fast += [before[0], after[0]]
        self.vectors.append(vectors[0])
        self.plain.append(plain[0])
        if max(self.fast[-2:]) <= ALIKE * min(self.fast[-2:]):
            self.ratios.append(2 * ours[0] / sum(self.fast[-2:]))

    def bests(self):
        return min(self.ours), min(self.fast), min(self.vectors), min(self.plain)

    def over_fast(self):
        """The median of the ratios of quiet rounds; where fewer than half of the rounds were quiet, the ratio of best times."""
        quiet = 2 * len(self.ratios) >= len(self.ours)
        return statistics.median(self.ratios) if quiet else min(self.ours) / min(self.fast)

    def over_vectors(self):
        return min(self.ours) / min(self.vectors)
