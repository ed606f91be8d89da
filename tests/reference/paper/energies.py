"""Sums of energies.

Document 01, section "Sums of energies", with the rounding of document 02,
"Halves by GB 8170", and c and k of section "Background and reverberation".
Every number is worked out from its power rule.
"""

from functools import lru_cache

from .search import count_from_one, greatest, least


@lru_cache(maxsize=None)
def F(d):
    """The greatest whole n with n^100 x 10^d <= 10^900; above 900 it is 0."""
    assert d >= 0
    if d > 900:
        return 0
    return greatest(lambda n: n ** 100 * 10 ** d <= 10 ** 900, 0, 10 ** 9 + 1)


@lru_cache(maxsize=None)
def H(j):
    """The least n with n^200 >= 10^(1799 + 2j)."""
    power = 10 ** (1799 + 2 * j)
    above = 10 ** (10 + j // 100)
    return least(lambda n: n ** 200 >= power, 0, above)


@lru_cache(maxsize=None)
def G(j):
    """The greatest n with n^200 x 10^(2j-1) <= 3^200 x 10^1800."""
    power = 3 ** 200 * 10 ** 1800
    return greatest(lambda n: n ** 200 * 10 ** (2 * j - 1) <= power, 0, 3 * 10 ** 9)


@lru_cache(maxsize=None)
def B(j):
    """The greatest n with n^200 x 10^(2j-1) <= 10^1800."""
    power = 10 ** 1800
    return greatest(lambda n: n ** 200 * 10 ** (2 * j - 1) <= power, 0, 10 ** 9)


def u(S):
    """The number of j >= 1 with H(j) <= S. H grows with j."""
    return count_from_one(lambda j: H(j) <= S)


def v(S):
    """The number of j >= 1 with S <= G(j). G falls with j."""
    return count_from_one(lambda j: S <= G(j))


def airborne_difference(values, spectrum):
    """The weighted difference in tenths: m - u, m the least a = x - 10L."""
    a = [x - 10 * L for x, L in zip(values, spectrum, strict=True)]
    m = min(a)
    S = sum(F(one - m) for one in a)
    return m - u(S)


def airborne_term_tenths(values, spectrum, rating):
    """The weighted difference less 10 times the rating."""
    return airborne_difference(values, spectrum) - 10 * rating


def impact_term_tenths(values, rating):
    """M + u - 150 - 10 times the rating, M the greatest x (000, C.1.2)."""
    M = max(values)
    S = sum(F(M - x) for x in values)
    return M + u(S) - 150 - 10 * rating


def whole_decibels(tenths):
    """A term rounded to a whole dB (02, "Halves by GB 8170").

    A half goes to the even whole number, by size and with the sign put back:
    0.5 gives 0, -1.5 gives -2, 2.5 gives 2.
    """
    whole, rest = divmod(abs(tenths), 10)
    if rest > 5 or rest == 5 and whole % 2 == 1:
        whole += 1
    return -whole if tenths < 0 else whole


def mean_of_three(first, second, third):
    """Mean of three x: m the least, S the sum of F(x - m); m + v."""
    m = min(first, second, third)
    S = F(first - m) + F(second - m) + F(third - m)
    return m + v(S)


# L in dB (000, table 3.1.3), thirds and octaves by their number of bands.
SPECTRUM_C = {
    16: (-29, -26, -23, -21, -19, -17, -15, -13, -12, -11, -10, -9, -9, -9, -9, -9),
    5: (-21, -14, -8, -5, -4),
}
SPECTRUM_CTR = {
    16: (-20, -20, -18, -16, -15, -14, -13, -12, -11, -9, -8, -9, -10, -11, -13, -15),
    5: (-14, -10, -7, -4, -6),
}


@lru_cache(maxsize=None)
def c(d):
    """Section "Background and reverberation": for d from 60 to 149.

    The number of j >= 1 with 10^9 - F(d) <= B(j). B falls with j.
    """
    assert 60 <= d <= 149
    return count_from_one(lambda j: 10 ** 9 - F(d) <= B(j))


@lru_cache(maxsize=None)
def k(T):
    """Section "Background and reverberation": what a time of T hundredths adds.

    The greatest whole k with T^200 >= 50^200 x 10^(2k-1); for k < 1 the power
    of ten stands on the other side.
    """
    assert T >= 1

    def holds(k):
        if k < 1:
            return T ** 200 * 10 ** (1 - 2 * k) >= 50 ** 200
        return T ** 200 >= 50 ** 200 * 10 ** (2 * k - 1)

    return greatest(holds, -200, 200 * len(str(T)))
