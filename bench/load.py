"""The script that the kill test runs, and what it leaves on a plain object store."""

MULTIPLIER, INCREMENT, MASK = 6364136223846793005, 1442695040888963407, 2**64 - 1


def numbers(count):
    """The numbers from which lines are made, each with the number of its line."""
    x = 1
    for k in range(1, count + 1):
        x = (x * MULTIPLIER + INCREMENT) & MASK
        yield k, x


def writes(lines, names):
    """Writes alone, as a list of their lines, each with its name and its bytes in hexadecimal digits."""
    return [(f"op {1 + (x >> 24) % 16} {k} o{(x >> 32) % names} writefull {x:016x}\n", f"o{(x >> 32) % names}", f"{x:016x}") for k, x in numbers(lines)]
