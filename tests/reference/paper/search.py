"""The greatest and the least whole number with a property that changes once."""


def greatest(holds, low, high):
    """The greatest whole n with holds(n).

    The property holds at low, fails at high, and once it fails it fails for
    every greater number; so what is found between them is the greatest of all.
    """
    assert holds(low) and not holds(high)
    while high - low > 1:
        middle = (low + high) // 2
        if holds(middle):
            low = middle
        else:
            high = middle
    return low


def least(holds, low, high):
    """The least whole n with holds(n): it fails at low and holds at high."""
    return -greatest(lambda n: holds(-n), -high, -low)


def count_from_one(holds):
    """The number of whole j >= 1 with holds(j), once failing failing for ever."""
    j = 0
    while holds(j + 1):
        j += 1
    return j
