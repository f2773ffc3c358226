"""Steps of the halving counter, as one number for each plan, to be compared with the proved step.

The tests of crates/try_layers draw the same states with the same generator, and have the numbers
that this script prints.

    python3 bench/tools/halving_steps.py
"""

from halving_counter import LevelState, Plan, left_period_of, registers

PLANS = [
    (1, 0, 7),
    (4, 1, 10),
    (5, 1, 2),
    (7, 2, 10),
    (10, 3, 1000),
    (13, 4, 10),
    (15, 4, 7),
    (22, 7, 3),
    (40, 13, 1 << 40),
    (256, 85, 12),
]

CASES = 40

STRAYS = [1, 2, 8, 1_000_003]  # one time in how many a number is not that of the common clock

WORD = (1 << 64) - 1


class Numbers:
    """Numbers that are drawn by a shift register, whose first ones are left out."""

    def __init__(self, seed):
        self.word = seed * 0x9E3779B97F4A7C15 & WORD
        for _ in range(4):
            self.draw()

    def draw(self):
        a = self.word ^ self.word << 13 & WORD
        b = a ^ a >> 7
        self.word = b ^ b << 17 & WORD
        return self.word >> 16

    def number(self, clock, strays, modulus):
        drawn = self.draw()
        return (drawn // strays if drawn % strays == 0 else clock) % modulus

    def value(self, clock, strays, modulus):
        number = self.number(clock, strays, modulus)
        drawn = self.draw()
        return None if drawn % 3 == 0 and drawn // 4 % strays == 0 else number

    def level_state(self, group, clock, strays):
        before = (clock + left_period_of(group) - 1) & WORD
        return LevelState(
            (self.value(clock, strays, group.modulus), self.draw() % 2 == 0),
            self.number(before, strays, left_period_of(group)),
            self.draw() % 4 != 0,
        )

    def state(self, plan, v, clock, strays):
        drawn = []
        for group in plan.groups(v):
            if group.faults == 0:
                return plan.filled(self.number(clock, strays, group.modulus), drawn)
            drawn += registers(self.level_state(group, clock, strays))
        return plan.filled(0, drawn)

    def states(self, plan, strays):
        """States of all nodes, near to what they are when all has counted to one clock."""
        clock = self.draw()
        return [self.state(plan, v, clock, strays) for v in range(plan.nodes)]


def digested(digest, state):
    """A number that tells this state, and what was digested before, from others."""
    numbers = [state.number]
    for value, mark in state.registers:
        numbers += [0 if value is None else value + 1, int(mark)]
    for number in numbers:
        digest = (digest ^ number) * 0x100000001B3 & WORD
    return digest


def main():
    case = 0
    for nodes, faults, modulus in PLANS:
        plan = Plan(["halving 1", f"group {nodes} {faults} {modulus}", "end"])
        digest = 0xCBF29CE484222325
        for k in range(CASES):
            case += 1
            numbers = Numbers(case)
            heard = numbers.states(plan, STRAYS[k % 4])
            digest = digested(digest, plan.step(numbers.draw() % nodes, heard))
        print(f"{nodes} {faults} {modulus} {digest:#018x}")


if __name__ == "__main__":
    main()
