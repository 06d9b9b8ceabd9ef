"""Numbers that are drawn from a seed, as `Draws` of p2p_runtime draws them: two words of 32 bits each, of a PCG generator."""

WORD = (1 << 32) - 1
WORDS = (1 << 64) - 1
MULTIPLIER = 6364136223846793005
SEED_INCREMENT = 11634580027462260723


def output(state):
    """The word of a state."""
    word = (((state >> 18) ^ state) >> 27) & WORD
    turn = state >> 59
    return (word >> turn | word << (-turn & 31)) & WORD


def seed_words(seed):
    """The two numbers of 64 bits that a seed is spread over."""
    words = []
    for _ in range(4):
        seed = (seed * MULTIPLIER + SEED_INCREMENT) & WORDS
        words.append(output(seed))
    return words[0] | words[1] << 32, words[2] | words[3] << 32


class Draws:

    def __init__(self, seed):
        state, increment = seed_words(seed)
        self.increment = increment | 1
        self.state = (state + self.increment) & WORDS
        self.word()

    def word(self):
        state = self.state
        self.state = (state * MULTIPLIER + self.increment) & WORDS
        return output(state)

    def up_to(self, most):
        """A number up to `most`."""
        low = self.word()
        return (low | self.word() << 32) % (most + 1)
