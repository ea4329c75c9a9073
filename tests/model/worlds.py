"""Wrong worlds: changes of the rules of a pair, and which promises are then false; or that every promise holds, and why."""
from pair_lists import FaithfulMaker, GenuineMaker, run, simpler
from promises import bounded, confirmed_taken, freshness, headline, nothing_lost, settled
from search import shortened

STEPS = 120
PROMISES = {  # the lists over which each is tried; `bounded` is about one end
    'headline': (GenuineMaker, headline), 'freshness': (GenuineMaker, freshness), 'confirmed is taken': (GenuineMaker, confirmed_taken),
    'settled': (GenuineMaker, settled), 'nothing lost': (FaithfulMaker, nothing_lost), 'bounded': (GenuineMaker, bounded)}
LISTS = {  # all promises of a kind of lists
    'genuine': (GenuineMaker, (headline, freshness, confirmed_taken, settled, bounded)), 'faithful': (FaithfulMaker, (nothing_lost, bounded))}

SAFETY = ('headline', 'confirmed is taken', 'settled')
BROKEN = {  # the change: the promises that some list breaks
    # joined, live, and the state that an opening keeps
    'joined_overwritten_by_a_later_request': SAFETY,
    'notes_no_request': SAFETY,
    'pdus_before_the_later_opening_stay_live': ('headline', 'confirmed is taken'),
    'reopened_end_keeps_its_phase': ('confirmed is taken', 'settled'),
    # redundancy layer
    'deferral_deadline_a_millisecond_early': ('nothing lost',),
    'passes_early_parts': ('nothing lost',),
    'queue_of_one_less': ('nothing lost',),
    'queue_of_one_more': ('bounded',),
    # safety machine
    'arrivals_test_deadline_by_greater': ('freshness',),
    'deadline_in_tick_only': ('freshness',),
    'takes_strangers': ('headline', 'freshness', 'confirmed is taken', 'settled'),
    'compares_without_wrap': ('nothing lost',),
    'confirms_the_first_timestamp': ('freshness',),
    'forgets_the_number_of_a_heartbeat': ('freshness', 'nothing lost'),
    'takes_repeat_again': ('headline', 'freshness', 'confirmed is taken', 'settled'),
    'takes_data_out_of_turn': SAFETY,
    'answers_repeated_request': ('headline',),
    'moves_past_a_gap': SAFETY,
    'takes_stale_response': SAFETY,
    'resends_without_the_first': SAFETY,
    'confirms_what_was_sent': ('confirmed is taken', 'settled', 'nothing lost'),
    'own_window_in_place_of_the_peers': ('nothing lost', 'bounded'),
    # packing and session
    'later_messages_of_a_unit_stay_waiting': SAFETY + ('nothing lost',),
    'sent_messages_stay_waiting': ('nothing lost',),
    'up_at_the_end_of_the_call': ('nothing lost',),
    'makes_up_command': SAFETY + ('nothing lost',),
    'holds_back_initial_status': SAFETY + ('nothing lost',),
    'answers_first_version': ('nothing lost',),
}
CLAUSES = {  # each clause of a promise, and a change under which some list breaks it first
    'headline, joins': 'pdus_before_the_later_opening_stay_live',
    'headline, joined to none': 'notes_no_request',
    'headline, commands': 'takes_repeat_again',
    'headline, status': 'takes_repeat_again',
    'headline, nobody joined': 'notes_no_request',
    'freshness, made': 'takes_strangers',
    'freshness, basis': 'forgets_the_number_of_a_heartbeat',
    'freshness, number': 'forgets_the_number_of_a_heartbeat',
    'freshness, stamp': 'confirms_the_first_timestamp',
    'freshness, recent': 'arrivals_test_deadline_by_greater',
    'confirmed is taken': 'confirms_what_was_sent',
    'settled': 'confirms_what_was_sent',
    'nothing lost, asks nothing': 'passes_early_parts',
    'nothing lost, waits': 'own_window_in_place_of_the_peers',
    'nothing lost, all there': 'confirms_what_was_sent',
    'nothing lost, up': 'answers_first_version',
    'nothing lost, phases': 'compares_without_wrap',
}
NOT_BROKEN = {  # the change: the other rule that covers it
    'session_judged_on_after_it_ended': 'no row of the tables takes anything in Ended',
    'session_judged_on_as_if_it_had_not_ended': 'only a telegram of the establishment ends a session, and its peer has then put nothing in',
    'live_without_the_length_of_the_code': 'no opening made under one length of code has the length of one under the other, so no connection starts',
    'reopened_end_keeps_its_expected_number': 'fewer parts go up, and what goes up has still arrived',
    'reopened_machine_keeps_its_expected_number': 'the first PDU taken sets it anew, and nobody reads what the opening confirms',
    'takes_before_established': 'an interlocking puts nothing in before the field element is established',
    'no_heartbeat_at_the_mwa_th_unit': 'no promise says that a full window opens again',
}


def random_list(maker, changes, promises, seed):
    """Returns a list, and the clause that is false at its end or None."""
    made = maker(seed, changes, promises)
    return made.made(STEPS), made.clause


def counterexample(change, promise, lists, of=''):
    """Returns the number of the first list that breaks the promise by a clause of this name, the list, and the clause; None if no list does."""
    maker, function = PROMISES[promise]
    for seed in range(lists):
        events, clause = random_list(maker, (change,), (function,), seed)
        if clause and clause.startswith(of):
            return None if run(events, (), (function,)) else (seed, events, clause)
    return None


def short(events, change, promise):
    """Returns the list shortened as far as possible, with default settings if these suffice."""
    function = PROMISES[promise][1]

    def runs(less):
        return run(less, (change,), (function,))

    return simpler(shortened(events, runs), runs)
