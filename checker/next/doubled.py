"""An exported net by its numbers, as both searches take it."""

import parse

# from the name of a place to that of the other place of its number
OTHER = str.maketrans("pq", "qp")


class Doubled:
    """An exported net: the tokens of its first and second places, and what its transitions take and put."""

    def __init__(self, net):
        half = len(net.places) // 2
        if list(net.places) != [f"p{n}" for n in range(half)] + [f"q{n}" for n in range(half)]:
            raise parse.Wrong("its places are not p0, p1, .. and then as many q0, q1, ..")
        tokens = list(net.places.values())
        self.places = net.places
        self.tokens = tokens[:half], tokens[half:]
        self.transitions = net.transitions
        self.taken = {transition: [] for transition in net.transitions}
        self.put = {transition: [] for transition in net.transitions}
        for source, target in net.arcs:
            into = target in self.taken
            (self.taken[target] if into else self.put[source]).append(source if into else target)
        self.one_token_suffices()

    def change(self, transition):
        """The places that a transition takes a token from and those that it gives one to, without those for which it does both."""
        taken, put = self.taken[transition], self.put[transition]
        return [place for place in taken if place not in put], [place for place in put if place not in taken]

    def moving(self):
        """The transitions that lead to another marking, each with the places that it takes from and that it gives to."""
        changes = ((transition, *self.change(transition)) for transition in self.transitions)
        return [(transition, lost, gained) for transition, lost, gained in changes if lost or gained]

    def one_token_suffices(self):
        """The two places of a number have one token together and keep it, so that no place ever has two."""
        if any(sum(pair) != 1 for pair in zip(*self.tokens)):
            raise parse.Wrong("two places of one number do not begin with one token")
        for transition in self.transitions:
            lost, gained = self.change(transition)
            other = {place.translate(OTHER) for place in lost}
            if other != set(gained) or len(set(lost)) != len(lost) or len(set(gained)) != len(gained):
                raise parse.Wrong(f"{transition} does not keep the token of two places of one number")
