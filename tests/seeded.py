"""Books of cases that are drawn at random, the same for the same seed."""
import datetime
import random
import typing

START = datetime.date(2024, 3, 11)


def record(*fields):
    return ",".join(map(str, fields)) + "\n"


class Drawn(typing.NamedTuple):
    """An instrument of a seeded book, with what is held of it."""

    name: str
    kind: str
    multiplier: int
    price: int
    position: int
    collateral: int
    limits: list


class SeededBook:
    """A book drawn at random, the same for the same seed.

    It can be closed by equal parts on all but two of the closing days, unless `shut` says otherwise: then one limit, or
    one pool's cap, is too small for its position. Where it is drained, as much cash goes out on the last day as its
    securities are worth at the first prices, so that the scenarios are told apart by what they gain and lose.

    From version 2 on some futures expire. In version 3 most instruments have further tiers, which take half of what may
    be closed of them.
    """

    version = 1

    def __init__(self, seed, digits, instruments, scenarios, horizon, pools=2, shut=None, sided=False, drained=True):
        self.draw = random.Random(seed)
        self.digits = digits
        self.scenarios = scenarios
        self.horizon = horizon
        self.last = 2 * horizon if sided else horizon + 4
        self.pools = pools
        self.shut = shut
        self.sided = sided
        self.drained = drained
        self.drawn = [self.instrument(number) for number in range(instruments)]

    def instrument(self, number):
        """An instrument; in a book that is sided each is a security with collateral beside the position."""
        draw = self.draw
        kind = "security" if self.sided else draw.choice(["future", "future", "security"])
        position = draw.randrange(20, 3_000)
        collateral = draw.randrange(20, 2_000) if kind == "security" and (self.sided or draw.random() < 0.5) else 0
        least = position // (self.horizon - 2) + 1
        limits = [draw.randrange(least, 2 * least + 1) for _ in range(self.horizon)]
        if self.shut == "limit" and number == 0:
            limits = [(position - 1) // self.horizon] * self.horizon
        multiplier = draw.choice([1, 1, 5, 10, 50])
        price = draw.randrange(2 * 10 ** (self.digits - 1), 8 * 10 ** (self.digits - 1))
        return Drawn(f"I{number}", kind, multiplier, price, draw.choice([1, -1]) * position, collateral, limits)

    def text(self):
        return "".join(
            [
                *self.frame(),
                *self.instrument_records(),
                *self.pool_records(),
                *self.scenario_records(),
                *self.line_records(),
                record("end"),
            ]
        )

    def of_version(self, version):
        self.version = version
        return self

    def frame(self):
        yield record("core", self.version)
        yield record("house", START, self.horizon, self.last)
        yield record("market", "EAST")
        yield record("market", "WEST")
        for market, day in [("EAST", 3), ("WEST", 9), ("HOUSE", 14)]:
            yield record("holiday", market, START + datetime.timedelta(days=day))

    def instrument_records(self):
        for drawn in self.drawn:
            market = self.draw.choice(["EAST", "WEST"])
            delay = self.draw.choice([1, 1, 2])
            lag = self.draw.choice([0, 1, 1, 2])
            expiry = [self.expiry(drawn)] if self.version > 1 else []
            yield record("instr", drawn.name, drawn.kind, market, drawn.multiplier, delay, lag, *expiry)
            yield from self.tiers(drawn) if self.version > 2 else [record("limit", drawn.name, *drawn.limits)]

    def expiry(self, drawn):
        return self.draw.choice([0, 0, *range(1, self.horizon + 1)]) if drawn.kind == "future" else 0

    def tiers(self, drawn):
        """The limits of an instrument, in half of which each unit costs something, once more in each further tier."""
        count = self.draw.choice([0, 1, 1, 2, 3])
        halves = [limit // 2 for limit in drawn.limits] if count else [0] * self.horizon
        yield record("limit", drawn.name, *[limit - half for limit, half in zip(drawn.limits, halves)])
        for number in range(1, count + 1):
            cost = self.draw.randrange(1, drawn.price * drawn.multiplier // 10 + 2) * number
            yield record("tier", drawn.name, cost, *[(half + number - 1) // count for half in halves])

    def pool_records(self):
        for number in range(self.pools):
            members = [drawn for drawn in self.drawn if self.draw.random() < 0.5] or self.drawn
            weights = [self.draw.randrange(1, 4) for _ in members]
            whole = sum(weight * abs(drawn.position) for weight, drawn in zip(weights, members))
            is_shut = self.shut == "pool" and number == 0
            cap = (whole - 1) // self.horizon if is_shut else whole * 5 // 4 // (self.horizon - 2) + 1
            yield record("pool", f"P{number}", cap)
            for weight, drawn in zip(weights, members):
                yield record("member", f"P{number}", drawn.name, weight)

    def scenario_records(self):
        for number in range(self.scenarios):
            yield record("scenario", f"S{number}")
            drift = self.draw.uniform(-0.02, 0.02)
            for drawn in self.drawn:
                path = self.path(drawn.price, drift * self.draw.uniform(-0.5, 1.5))
                yield record("path", f"S{number}", drawn.name, *path)

    def path(self, price, drift):
        yield price
        for _ in range(self.last):
            price = max(1, round(price * (1 + drift + self.draw.gauss(0, 0.015))))
            yield price

    def line_records(self):
        for drawn in self.drawn:
            yield record("position", drawn.name, drawn.position)
            if drawn.collateral > 0:
                yield record("collateral", drawn.name, drawn.collateral)
        securities = [drawn for drawn in self.drawn if drawn.kind == "security"]
        worth = [drawn.multiplier * drawn.price * (drawn.position + drawn.collateral) for drawn in securities]
        for day in sorted(self.draw.sample(range(self.last), 3)):
            yield record("cash", day, self.draw.randrange(-(10 ** (self.digits + 1)), 10 ** (self.digits + 1)))
        if self.drained:
            yield record("cash", self.last, -sum(worth))
