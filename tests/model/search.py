"""The common part of every search for a counterexample: the first random list that breaks a clause, shortened as far as possible."""


def shortened(events, runs):
    """Leaves events out as long as the list still breaks a clause; `runs` returns the clause and how many events it took."""
    events = events[:runs(events)[1]]
    size = max(1, len(events) // 2)
    while size:
        place, before = len(events) - size, len(events)
        while place >= 0:
            found = runs(events[:place] + events[place + size:])
            if found:
                events = (events[:place] + events[place + size:])[:found[1]]
            place = min(place - size, len(events) - size)
        size = 1 if size == 1 and len(events) < before else size // 2
    return events


def first_broken(make, runs, lists):
    """Returns the number of the first list for which a clause is false, and that list shortened; None if no list tried breaks one."""
    for seed in range(lists):
        events = make(seed)
        if events and runs(events):
            return seed, shortened(events, runs)
    return None
