"""Numbers for the scripts that make cases."""

class Dice:
    """Numbers that look random and are the same everywhere."""
    def __init__(self, seed):
        self.state = seed

    def between(self, least, most):
        self.state = (self.state * 6364136223846793005 + 1442695040888963407) % 2**64
        return least + (self.state >> 20) % (most - least + 1)
