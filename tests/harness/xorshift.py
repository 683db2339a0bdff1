"""A fixed run of numbers that look random."""

MASK = 2**64 - 1


class Numbers:
    """George Marsaglia's xorshift of 64 bits with the shifts 13, 7 and 17; another run for each seed but 0."""

    def __init__(self, seed=1):
        self.last = seed * 0x9E3779B97F4A7C15 & MASK

    def next(self):
        number = self.last
        number ^= number << 13 & MASK
        number ^= number >> 7
        number ^= number << 17 & MASK
        self.last = number
        return number
