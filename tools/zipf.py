"""Requests with locality out of nothing, for tools/trace: paths by Zipf's law, sizes by a lognormal law.

draw(seed, files, alpha, requests) gives the sizes of the files and, of each request, the number of its file, from 0 on. All is
whole numbers and correctly rounded decimals, so a seed gives the same on every machine, for ever:

1. Each file in turn has the size exp(ln 8192 + 1.3 z), in whole bytes, but at least 200 and at most 2^18. z is nearly normal:
   the sum of twelve draws as fractions of 2^32, less 6.
2. The ranks are dealt to the files by Fisher's and Yates's shuffle, from the last file down.
3. Each request draws a word and another, together a number of 64 bits. Modulo the sum of all weights it is the place of a rank:
   rank i has the weight i^-alpha, in whole 2^-40.
"""

from bisect import bisect_right
from decimal import ROUND_HALF_EVEN, Context, Decimal
from itertools import accumulate

from pcg import Draws

EXACT = Context(prec=30, rounding=ROUND_HALF_EVEN)  # its ln and exp are correctly rounded
MEDIAN, DEVIATION = Decimal(8192), Decimal("1.3")
LEAST, GREATEST = 200, 2**18


def size(draws):
    z = EXACT.divide(Decimal(sum(draws.word() for _ in range(12))), Decimal(2**32)) - 6
    bytes_drawn = EXACT.exp(EXACT.fma(DEVIATION, z, EXACT.ln(MEDIAN)))
    return min(max(int(bytes_drawn), LEAST), GREATEST)


def weight(rank, alpha):
    return int(EXACT.multiply(EXACT.exp(EXACT.multiply(-alpha, EXACT.ln(Decimal(rank)))), Decimal(2**40)))


def shuffled(draws, count):
    numbers = list(range(count))
    for last in range(count - 1, 0, -1):
        other = draws.below(last + 1)
        numbers[last], numbers[other] = numbers[other], numbers[last]
    return numbers


def draw(seed, files, alpha, requests):
    draws = Draws(seed)
    sizes = [size(draws) for _ in range(files)]
    by_rank = shuffled(draws, files)
    places = list(accumulate(weight(rank, alpha) for rank in range(1, files + 1)))
    asked = ((draws.word() << 32 | draws.word()) % places[-1] for _ in range(requests))
    return sizes, [by_rank[bisect_right(places, place)] for place in asked]
