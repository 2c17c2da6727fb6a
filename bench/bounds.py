"""Several runs of one figure, and bounds that say whether they held. The scripts of this folder share it."""

import statistics
import sys


def median_of(values):
    return statistics.median(values)


def spread_of(values):
    """Half the distance between the quartiles, so that one run beside other work doesn't count."""
    first, _, third = statistics.quantiles(values, n=4, method="inclusive")
    return (third - first) / 2


class Bounds:
    """The bounds that a script states. Its status says whether they held: 0 held, 1 broken, 2 not measurable here."""

    def __init__(self):
        self.broken = False
        self.unmeasured = False

    def at_most(self, what, value, bound):
        holds = value <= bound
        print(f"  {what}: {value:.2f}, at most {bound}: {'holds' if holds else 'BROKEN'}")
        self.broken = self.broken or not holds

    def ratio(self, what, whole, half, noise, bound):
        """Whole to half. Above the bound it is broken only beyond the noise, which the half has and the whole as well."""
        if half <= 3 * noise:
            print(f"  {what}: not measurable here: {half:.4g} s against a noise of {noise:.4g} s")
            self.unmeasured = True
        elif whole / half > bound >= (whole - noise) / (half + noise):
            print(f"  {what}: {whole / half:.2f}, at most {bound}: not measurable here: within a noise of {noise:.4g} s")
            self.unmeasured = True
        else:
            self.at_most(what, whole / half, bound)

    def end(self):
        sys.exit(1 if self.broken else 2 if self.unmeasured else 0)
