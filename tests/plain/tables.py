"""Writes src/tables.rs: the numbers of document 01 that are defined by powers.

    python3 tables.py > src/tables.rs

Each number is found from its power rule in whole numbers of any size. The test
tests/power_rules.rs holds every entry to its rule again, in Rust.
"""


def greatest(holds, low, high):
    """The greatest n with holds(n), which holds at low, fails at high and changes once."""
    assert holds(low) and not holds(high)
    while high - low > 1:
        middle = (low + high) // 2
        low, high = (middle, high) if holds(middle) else (low, middle)
    return low


def energy(d):
    """F(d): the greatest n with n^100 x 10^d <= 10^900."""
    return greatest(lambda n: n ** 100 * 10 ** d <= 10 ** 900, 0, 10 ** 9 + 1)


def sum_step(j):
    """H(j): the least n with n^200 >= 10^(1799 + 2j)."""
    power = 10 ** (1799 + 2 * j)
    return greatest(lambda n: n ** 200 < power, 0, 10 ** 11) + 1


def mean_step(j):
    """G(j): the greatest n with n^200 x 10^(2j-1) <= 3^200 x 10^1800."""
    return greatest(lambda n: n ** 200 * 10 ** (2 * j - 1) <= 3 ** 200 * 10 ** 1800, 0, 3 * 10 ** 9)


def rest_step(j):
    """B(j): the greatest n with n^200 x 10^(2j-1) <= 10^1800."""
    return greatest(lambda n: n ** 200 * 10 ** (2 * j - 1) <= 10 ** 1800, 0, 10 ** 9)


def correction(d, steps):
    """c(d): the number of j >= 1 with 10^9 - F(d) <= B(j)."""
    rest = 10 ** 9 - energy(d)
    return sum(1 for step in steps if rest <= step)


def least_time(k):
    """The least T with T^200 >= 50^200 x 10^(2k-1), the power of ten on the other side for k < 1."""
    left, right = (10 ** (1 - 2 * k), 1) if k < 1 else (1, 10 ** (2 * k - 1))
    return greatest(lambda T: T ** 200 * left < 50 ** 200 * right, 0, 10 ** 4) + 1


# Sums of sixteen energies end at 16 x 10^9, means start at 10^9, times lie in
# 10..2000: the tables end with the first step past that.
SUM_STEPS = 121
MEAN_STEPS = 49
LEAST_SHIFT = -69
GREATEST_SHIFT = 160

HEAD = """\
//! The numbers of document 01 that are defined by powers. Written by tables.py.
"""


def table(name, kind, what, numbers):
    """One table as Rust text."""
    lines = [f"/// {what}", "#[rustfmt::skip]",
             f"pub static {name}: [{kind}; {len(numbers)}] = ["]
    line = "   "
    for number in numbers:
        if len(line) + len(str(number)) + 2 > 100:
            lines.append(line)
            line = "   "
        line += f" {number},"
    return "\n".join([*lines, line, "];"])


def main():
    steps = [rest_step(j) for j in range(1, 40)]
    print(HEAD)
    print(table("F", "u32", "F(d) for d from 0 to 900; above 900 it is 0.",
                [energy(d) for d in range(901)]), end="\n\n")
    print(table("H", "u64", "H(j) for j from 1.",
                [sum_step(j) for j in range(1, SUM_STEPS + 1)]), end="\n\n")
    print(table("G", "u64", "G(j) for j from 1.",
                [mean_step(j) for j in range(1, MEAN_STEPS + 1)]), end="\n\n")
    print(table("C", "i32", "c(d) for d from 60 to 149.",
                [correction(d, steps) for d in range(60, 150)]), end="\n\n")
    print("/// The k of the first entry of `TIMES`.")
    print(f"pub const FIRST_K: i32 = {LEAST_SHIFT};", end="\n\n")
    print(table("TIMES", "i32", "The least time in hundredths that adds k, for k from `FIRST_K`.",
                [least_time(k) for k in range(LEAST_SHIFT, GREATEST_SHIFT + 1)]))


if __name__ == "__main__":
    main()
