"""The sentence at the end of a sweep: whether to use a cache, its hottest functions in fast RAM, or neither."""
import dataclasses
import math

from shared.runs import Cache


@dataclasses.dataclass(frozen=True)
class Priced:
    """A cache in slots or a ring: what a step costs in it, beside one in slow memory; its instructions and slow loads; and all fast RAM
    that it takes."""
    cache: Cache
    cost: float
    instructions: float
    loads: float
    ram: int

    @property
    def noun(self):
        return "ring" if self.cache.ring else "cache"


@dataclasses.dataclass(frozen=True)
class Pair:
    """A cache beside functions in fast RAM: what a step costs, all fast RAM of both, and by how many of the steps."""
    cache: Cache
    functions: int
    bytes: int
    cost: float
    ram: int
    limit: str = ""

    def told(self, least):
        """What is said of both, beside the least cost of one of them."""
        said = f"{self.limit}both would cost {self.cost:.3f} in {self.ram} bytes: {self.cache}, and the {self.functions} hottest functions in {self.bytes}"
        return f"{said}; {'that is less, but ' if self.cost < least else ''}{NO_PAIR}"


class NoPair:
    """In place of a pair for a firmware."""

    def told(self, _least):
        return f"both are not priced for a firmware, since its runs on the board leave no trace of the jumps between them; {NO_PAIR}"


NO_PAIR = "no runtime here has both: that of native/ runs no function in RAM from the cache"


class Advice:
    """What is said of caches beside the alternatives. `limit` begins a sentence that is told by a part of the run alone, `budget` is the
    fast RAM that there is, where that is given."""

    def __init__(self, alternatives, limit="", budget=None, pair=None):
        self.alternatives, self.limit, self.budget, self.pair = alternatives, limit, budget, pair

    @property
    def stripped(self):
        """What is said where the functions have no names."""
        return ". The file names no functions" if self.alternatives.functions and not self.alternatives.named else ""

    @property
    def text(self):
        return self.alternatives.text

    def hot(self, ram):
        """What the hottest functions cost in so many bytes; None where no executions were counted."""
        return self.alternatives.hot(ram) if self.alternatives.functions else None

    def beside(self, ram):
        """What costs the least without a cache in so many bytes, and its cost."""
        hot = self.alternatives.hottest(ram) if self.alternatives.functions else None
        if hot and hot.size == self.text:
            return f"the whole text in {self.text} bytes of fast RAM costs", self.alternatives.whole
        if not hot or not hot.functions:
            return "slow memory costs", 1.0
        same = f"{hot.size} of the {'same ' if self.budget is None else ''}{ram} bytes"
        return f"the {len(hot.functions)} hottest {self.alternatives.what} in {same} cost", self.alternatives.hot(ram)

    def room(self, priced):
        """The bytes in which the alternatives are priced beside a cache."""
        return self.budget or priced.ram

    def sentence(self, priced, others):
        """One sentence on a cache, among others: it, or what costs less than it; and from how many wait states on it costs less."""
        what, cost = self.beside(self.room(priced))
        if priced.cost >= cost:
            said = f"use no cache: {what} {cost:.3f}, the {priced.noun} {priced.cost:.3f}; {self.even(priced)}{self.elsewhere(others)}"
        else:
            said = f"use the {priced.noun}: it costs {priced.cost:.3f}, {what} {cost:.3f}; {self.even(priced)}. {self.more(priced)}"
        return f"{self.limit}{said}{self.stripped}"

    def both(self, priced):
        """What a cache and functions together would cost, where that is asked for."""
        if self.pair is None:
            return None
        return self.pair.told(min(self.beside(self.room(priced))[1], priced.cost))

    def none(self, least):
        """The sentence where each cache takes more fast RAM than there is, or than the whole text."""
        if self.budget and self.budget < self.text:
            what, cost = self.beside(self.budget)
            return f"{self.limit}use no cache: the smallest with its runtime takes {least} bytes of fast RAM, and there are {self.budget}; {what} {cost:.3f}"
        return no_cache(self.text, least)

    def elsewhere(self, others):
        """The best of the caches that cost less than anything else in as much fast RAM, where it is not the one recommended."""
        pays = [each for each in others if each.cost < self.beside(self.room(each))[1]]
        if not pays:
            return ""
        best = min(pays, key=lambda each: each.cost)
        return f". Of these caches one pays: {best.cache} cost {best.cost:.3f} in {best.ram} bytes of fast RAM, without a cache {self.beside(self.room(best))[1]:.3f}"

    def even(self, priced):
        """From how many wait states on the cache costs less than what is beside it."""
        cold = self.alternatives.cold(self.room(priced)) if self.alternatives.functions else 1.0
        even = self.alternatives.even(priced.instructions, priced.loads, cold)
        noun = priced.noun
        return f"the {noun} costs less at no number of wait states" if even is None else f"the {noun} costs less from {math.floor(even) + 1} wait states on"

    def more(self, priced):
        """What costs less than the cache in more fast RAM."""
        whole = f"the whole text in {self.text} bytes of fast RAM"
        if not self.alternatives.functions:
            return f"T{whole[1:]} costs less; functions there were not priced (--counted 0)"
        room = self.alternatives.least_room(priced.cost)
        if room is None:
            return f"Only {whole} costs less"
        return f"The hottest {self.alternatives.what} cost less in {room} bytes of fast RAM, and {whole} {self.alternatives.whole:.3f}"


def no_cache(text, least):
    """The sentence that the size of the text decides alone."""
    return f"use no cache: the whole text takes {text} bytes of fast RAM, the smallest cache with its runtime {least}"
