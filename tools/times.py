"""Times and shares in words, and how much of a time is left. Plain Python, NOT PROVED; it trusts nothing."""

import math


def share_told(share):
    """A share in percent, or in powers of ten where it is below a thousandth of a percent."""
    if share >= 1e-5:
        return f"about {100 * share:.3f} %"
    if share <= 0:
        return "about none"
    front, _, power = f"{share:.1e}".partition("e")
    return f"about {front} x 10^{int(power)}"


def span(seconds):
    """A time in words."""
    for most, unit, size in ((100, "s", 1), (6000, "min", 60), (48 * 3600, "hours", 3600), (1000 * 86400, "days", 86400)):
        if seconds < most:
            return f"{seconds / size:.{1 if seconds < 10 * size else 0}f} {unit}"
    years = seconds / 86400 / 365.25
    return f"{years:.0f} years" if years < 10000 else f"10^{int(math.log10(years))} years"


def left_told(left):
    """How much is left, from the least to the most; None where nobody can tell."""
    return f"{span(left[0])} to {span(left[1])} left" if left else "nobody can tell what is left"
