"""Random genuine lists of events of two machines."""
import random

from machines import World

CHANGES = ['answers_repeated_request', 'moves_past_a_gap', 'takes_stale_response', 'takes_data_out_of_turn',
           'resends_without_the_first', 'confirms_what_was_sent', 'deadline_by_greater', 'lets_dead_pdus_in']


def settings(rng):
    t_max = rng.choice([30, 200, 60000])
    return (rng.randint(1, 4), t_max, rng.randint(1, t_max - 1), rng.randint(1, 4), 4294901760)


def next_event(rng, world, unit):
    end = rng.choice(['il', 'fe'])
    now = world.clock[end] + (rng.choice([1, 2, 5, 30]) if rng.random() < 0.3 else 0)
    machine, maker = world.now(end), world.now(world.peer(end))
    x = rng.random()
    if x < 0.62:
        if not maker or not maker.made:
            return ('tick', end, now, None)
        last = len(maker.made) - 1
        index = machine.expected + rng.choice([0, 0, 0, 0, 1, 1, 2]) if rng.random() < 0.5 else rng.randint(0, last)
        if machine.state == 'RetrReq' and rng.random() < 0.4:
            index = rng.choice([i for i, p in enumerate(maker.made) if p.kind in ('RetrResp', 'RetrReq')] or [last])
        return ('arrive', end, now, min(index, last))
    if x < 0.9:
        return ('send', end, now, unit)
    if x < 0.975:
        return ('tick', end, now, None)
    if x < 0.98:
        return ('close', end, now, None)
    return ('open', end, now, (settings(rng), rng.choice([100, 500, 2 ** 32 - 3])))


def random_events(seed, changes, steps=250):
    rng = random.Random(seed)
    world, events = World(changes), []
    order = ['fe', 'il'] if rng.random() < 0.85 else ['il', 'fe']
    opening = [('open', end, 0, (settings(rng), rng.choice([100, 500, 2 ** 32 - 3]))) for end in order]
    for step in range(steps):
        event = opening[step] if step < 2 else next_event(rng, world, step)
        if event[0] == 'open' and step >= 2 and rng.random() < 0.5:
            continue
        if world.happens(event):
            events.append(event)
            if world.broken():
                break
    return events
