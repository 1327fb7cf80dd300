"""A hopper that reacts to the gates."""


class Hopper:
    """Whole display units; coarse, fine and third are what a gate moves in
    one tick, delay the ticks that filled material is in flight."""

    def __init__(self, fills, coarse, fine, third, delay, weight=0):
        self.fills = fills                  # the filling gates as output bits
        self.flow = {1: coarse, 2: fine, 4: third}
        self.flight = [0] * delay
        self.weight = weight
        self.shake = 0                      # greatest noise of a sample

    def moved(self, outputs):
        return sum(flow for bit, flow in self.flow.items() if outputs & bit)

    def sample(self, outputs, rng):
        """The next sample while these outputs stand."""
        self.flight.append(self.moved(outputs & self.fills))
        self.weight += self.flight.pop(0)
        taken = self.moved(outputs & 7 & ~self.fills)
        self.weight -= min(taken, max(self.weight, 0))
        return self.weight + rng.randint(-self.shake, self.shake)


def for_settings(s, rng):
    """A hopper that completes a dose of these settings in some ticks."""
    coarse = max(1, s.D // rng.randint(3, 20))
    fine = max(1, coarse // rng.randint(2, 6))
    delay = rng.choice([0, 1, 2, 5])
    if s.algorithm in (0, 1):
        weight = rng.choice([0, 0, rng.randint(-s.M, s.M)])
        third = max(1, s.D // rng.randint(2, 12))
        return Hopper(3, coarse, fine, third, delay, weight)
    third = max(1, s.M // rng.randint(2, 12))
    return Hopper(4, coarse, fine, third, delay, rng.choice([0, s.D, s.C]))


def matching_inputs(outputs, s):
    """Inputs 1 to 3 as the outputs and levels expect them."""
    levels = s.in1 | s.in2 << 1 | s.in3 << 2
    return (outputs ^ ~levels) & 7
