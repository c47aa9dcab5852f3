"""PCG32 (XSH RR 64/32; O'Neill, "PCG: A Family of Simple Fast Space-Efficient Statistically Good Algorithms for Random Number
Generation", 2014): the generator of tools/generate-schedule and tools/trace. A seed gives the same draws for ever."""


class Draws:
    """The words of a seed and a stream: each draw is the next word, of 32 bits."""

    def __init__(self, seed, stream=1):
        self.state, self.odd = 0, 2 * stream + 1
        self.step()
        self.state = (self.state + seed) % 2**64
        self.step()

    def step(self):
        self.state = (self.state * 6364136223846793005 + self.odd) % 2**64

    def word(self):
        state = self.state
        self.step()
        mixed = ((state >> 18 ^ state) >> 27) % 2**32
        turn = state >> 59
        return (mixed >> turn | mixed << (32 - turn)) % 2**32

    def below(self, m):
        return self.word() % m
