"""What made_runs and made_plans share: numbers that are drawn, and how a case tells that a line is refused."""


class Draws:
    """Numbers at random, the same for a seed each time."""

    def __init__(self, seed, passed_over=0):
        self.random = seed
        for _ in range(passed_over):
            self.below(1)

    def below(self, limit):
        """Returns a number below the limit."""
        self.random = (self.random * 6_364_136_223_846_793_005 + 1_442_695_040_888_963_407) % 2**64
        return (self.random >> 33) % limit

    def to(self, most):
        """Returns a number up to the greatest."""
        return self.below(most + 1)

    def among(self, things):
        """Returns one of these."""
        return things[self.below(len(things))]


def refusal(line, cause):
    """Returns the lines of a case that tell of a refused line of the input."""
    return [f"! pasis: line {line}: cause {cause}", "status 3"]
