"""Searches an exported net without a model checker: search.py FILE [--table TABLE] [--never NAME...].. [--most N]

The words and what is told are those of checker/spin (asked.py says them). Places have no capacity; a marking is a number with a bit for
each place, which suffices, since no place of an exported net ever has two tokens (doubled.py looks). Markings are gone through nearest
first, so that the way to one is a shortest. Transitions that put back all that they take lead to no other marking and are left out.
"""

import time
from collections import deque

import asked


class Game:
    """The markings of a net as numbers, and its transitions on them."""

    def __init__(self, net):
        bit = {place: 1 << index for index, place in enumerate(net.places)}
        self.bits = lambda places: sum(bit[place] for place in set(places))
        self.start = self.bits(place for place, tokens in net.places.items() if tokens)
        self.moves = [(self.bits(net.taken[t]), self.bits(lost), self.bits(gained), t) for t, lost, gained in net.moving()]

    def after(self, marking):
        """The markings after one transition, each with that transition."""
        for taken, lost, gained, transition in self.moves:
            if marking & taken == taken:
                yield (marking & ~lost) | gained, transition


def reached(game, most):
    """The markings that are reached, in order, each with the one before it and the transition between; and whether these are all."""
    came = {game.start: None}
    waiting = deque(came)
    while waiting:
        marking = waiting.popleft()
        for after, transition in game.after(marking):
            if after not in came:
                if len(came) == most:
                    return came, False
                came[after] = (marking, transition)
                waiting.append(after)
    return came, True


def way(came, marking):
    """The transitions from the start to a marking."""
    steps = []
    while came[marking]:
        marking, transition = came[marking]
        steps.append(transition)
    return steps[::-1]


def breaking(came, groups):
    """The nearest marking that has a token in each group, or None."""
    return next((marking for marking in came if all(marking & group for group in groups)), None)


def searched(net, properties, words, _):
    """What the search finds."""
    begun = time.process_time()
    game = Game(net)
    came, whole = reached(game, words.most)
    nearest = [breaking(came, [game.bits(group) for group in wanted.groups]) for wanted in properties]
    ways = [None if marking is None else way(came, marking) for marking in nearest]
    return asked.Found(len(came), whole, ways, {"searching": time.process_time() - begun})


def main():
    usage = asked.usage("checker/search", "[--most N]", "Searches the net of a table without a model checker, nearest markings first.")
    usage.add_argument("--most", type=asked.positive, default=1_000_000, metavar="N", help="the most markings (1000000)")
    return asked.answered("checker/search", usage.parse_args(), searched)


if __name__ == "__main__":
    asked.end(main)
