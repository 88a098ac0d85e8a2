"""Random choices, the same ones each time."""
import random

rng = random.Random(1)
toss = rng.random


def below(n):
    return int(toss() * n)


def pick(rows):
    return rows[int(toss() * len(rows))]


def early(rows):
    """One of the rows, those in front more often."""
    return rows[int(toss() ** 2 * len(rows))]
