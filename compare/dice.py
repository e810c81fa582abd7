"""A small source of chance of our own: lists made with it are the same to the byte on every machine and Python."""
WORD = (1 << 64) - 1


class Dice:
    def __init__(self, seed):
        self.state = seed & WORD

    def word(self):
        """64 bits: a counter with a large odd step, mixed by two multiplications (the splitmix64 recipe)."""
        self.state = (self.state + 0x9E3779B97F4A7C15) & WORD
        mixed = self.state
        mixed = (mixed ^ mixed >> 30) * 0xBF58476D1CE4E5B9 & WORD
        mixed = (mixed ^ mixed >> 27) * 0x94D049BB133111EB & WORD
        return mixed ^ mixed >> 31

    def below(self, count):
        return self.word() * count >> 64

    def within(self, low, high):
        return low + self.below(high - low + 1)

    def one_of(self, choices):
        return choices[self.below(len(choices))]

    def chance(self, percent):
        return self.below(100) < percent

    def number(self, bits):
        value = 0
        for _ in range(0, bits, 64):
            value = value << 64 | self.word()
        return value & (1 << bits) - 1

    def bytes(self, count):
        return self.number(8 * count).to_bytes(count, "little")
