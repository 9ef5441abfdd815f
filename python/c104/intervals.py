"""Confidence intervals of a mean, at 95 %.

Two rules, of which each result says which one it is by:

- replications: of runs by different seeds each gives one mean; they are independent.
- batch means: of one run each of K equal parts of the window gives the mean of the packets that were sent in it. Parts next to one
  another aren't quite independent, so they should be much longer than a latency.

Either way n means with the average m and the sample deviation s give m ± t * s / sqrt(n), where t is the quantile 0.975 of
Student's distribution of n - 1 degrees of freedom. Below two means there is no interval.
"""

from __future__ import annotations

from collections.abc import Sequence
from math import sqrt
from statistics import fmean, stdev
from typing import NamedTuple

QUANTILES = (
    12.706, 4.303, 3.182, 2.776, 2.571, 2.447, 2.365, 2.306, 2.262, 2.228, 2.201, 2.179, 2.160, 2.145, 2.131,
    2.120, 2.110, 2.101, 2.093, 2.086, 2.080, 2.074, 2.069, 2.064, 2.060, 2.056, 2.052, 2.048, 2.045, 2.042,
)
NORMAL = 1.959964


class Interval(NamedTuple):
    """A mean, half the width of its interval where there is one, and of how many means it is."""

    mean: float
    half: float | None
    means: int
    rule: str  # replications, batches, or none

    def is_within(self, precision: float) -> bool:
        """Whether the interval is at most this share of the mean to each side."""
        return self.half is not None and self.half <= precision * self.mean


def quantile(freedom: int) -> float:
    """The quantile 0.975 of Student's distribution, to three decimals; from 31 degrees on by its series."""
    if freedom <= len(QUANTILES):
        return QUANTILES[freedom - 1]
    z = NORMAL
    first, second = (z**3 + z) / 4, (5 * z**5 + 16 * z**3 + 3 * z) / 96
    third = (3 * z**7 + 19 * z**5 + 17 * z**3 - 15 * z) / 384
    return z + first / freedom + second / freedom**2 + third / freedom**3


def interval(means: Sequence[float], rule: str) -> Interval:
    """The interval of these means, by the rule of that name."""
    if len(means) < 2:
        return Interval(means[0], None, len(means), "none")
    return Interval(fmean(means), quantile(len(means) - 1) * stdev(means) / sqrt(len(means)), len(means), rule)


def latency_interval(means: Sequence[float], parts: Sequence[Sequence[float]]) -> Interval | None:
    """That of the mean latencies of runs by different seeds; of a single run by the mean latencies of its parts. None where no run
    has one."""
    if not means:
        return None
    if len(means) > 1:
        return interval(means, "replications")
    if len(parts[0]) > 1:
        return interval(parts[0], "batches")._replace(mean=means[0])
    return interval(means, "none")
