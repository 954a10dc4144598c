"""Four cards with rings of capacity 64 get 8 packets each per millisecond, and one run of polls has a budget: how many are
lost?"""
from fintaqush import Driver, What


class Cards:
    def __init__(self):
        self.waiting, self.masked, self.lost = [0] * 4, [True] * 4, 0

    def arrives(self, device):
        if self.waiting[device] == 64:
            self.lost += 1
        else:
            self.waiting[device] += 1

    def mask(self, device):
        self.masked[device] = True

    def unmask(self, device):
        self.masked[device] = False

    def look(self, device):
        return self.waiting[device] > 0

    def fetch(self, device, most):
        count = min(most, self.waiting[device])
        self.waiting[device] -= count
        return count


def simulate(budget):
    cards, driver = Cards(), Driver(4, budget, weight=16)
    for device in range(4):
        driver.open(device)
    for _ in range(1000):
        for device in [*range(4)] * 8:
            cards.arrives(device)
            if not cards.masked[device]:
                driver.interrupt(device)
        while driver.act(cards) not in (What.SLEEP, What.ENDED):
            pass
    return cards.lost


if __name__ == "__main__":
    for budget in 8, 16, 24, 32:
        print(budget, simulate(budget))
