"""Counts the markings that an exported net reaches, by a search of its own: search.py NET.pnml [MOST]

Places have no capacity. Transitions that put back what they take are left out, since they lead to no other marking. The search ends
where it would pass MOST markings (1,000,000 if it is not given); the exit status is then 1.
"""

import sys
import time

import parse


def plain(net):
    """The marking at the start, and for each transition what it takes and how it changes the marking, by the places' numbers."""
    number = {place: index for index, place in enumerate(net.places)}
    taken = {transition: {} for transition in net.transitions}
    changed = {transition: {} for transition in net.transitions}
    for source, target in net.arcs:
        into = source in number
        place, transition = (number[source], target) if into else (number[target], source)
        if into:
            taken[transition][place] = taken[transition].get(place, 0) + 1
        changed[transition][place] = changed[transition].get(place, 0) + (-1 if into else 1)
    changes = {t: [(p, n) for p, n in changed[t].items() if n] for t in net.transitions}
    return tuple(net.places.values()), [(list(taken[t].items()), changes[t]) for t in net.transitions]


def reached(start, transitions, most):
    """How many markings are reached, and whether that is all of them."""
    moving = [(taken, changes) for taken, changes in transitions if changes]
    seen = {start}
    waiting = [start]
    while waiting:
        marking = waiting.pop()
        for taken, changes in moving:
            if any(marking[place] < count for place, count in taken):
                continue
            after = list(marking)
            for place, change in changes:
                after[place] += change
            after = tuple(after)
            if after not in seen:
                if len(seen) == most:
                    return len(seen), False
                seen.add(after)
                waiting.append(after)
    return len(seen), True


def main(words):
    if len(words) not in (1, 2):
        print("usage: checker/search NET.pnml [MOST]", file=sys.stderr)
        return 2
    try:
        net = parse.read(words[0])
        most = int(words[1]) if words[1:] else 1_000_000
    except (parse.Wrong, OSError, ValueError) as wrong:
        print(f"checker/search: {words[0]}: {wrong}", file=sys.stderr)
        return 2
    begun = time.process_time()
    count, whole = reached(*plain(net), most)
    took = time.process_time() - begun
    print(f"{count} markings{'' if whole else ' and more'} (processor time: searching {took:.1f} s)")
    return 0 if whole else 1


if __name__ == "__main__":
    sys.exit(main(sys.argv[1:]))
