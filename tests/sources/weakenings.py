"""The changes of promises that tests/gate/weakened tries: each says less than the promise, or of fewer histories, and some law or user must then fail."""
BEGINS = 'IsBeginning (taken_at f) (put_at g)'
FILED = 'HeadlineLaw = (es : List Event) → AreTyped es → Genuine es start → '
# For `instance_law`. The name: file of specs/, the old text, the new text, and the file of proofs/ that must then fail
WEAKENED = {
    'headline_without_joins_fall': (
        'Headline', 'JoinedBelow bound (Some number) = number < bound', 'JoinedBelow bound (Some number) = Unit {0}', 'Instances'),
    'headline_without_only_the_joined_take': (
        'Headline', 'OnlyJoinedTake fes (g ∷ before) = ((taken_at g ≡ []) ⊎ IsJoined (length before + 1) fes) × OnlyJoinedTake fes before',
        'OnlyJoinedTake fes (g ∷ before) = Unit {0}', 'Instances'),
    'headline_without_status': ('Headline', f'(λ g. {BEGINS} × IsBeginning (taken_at g) (put_at f))', f'(λ g. {BEGINS})', 'Instances'),
    'joined_to_none_takes_anything': (
        'Headline', 'TakesBeginnings ils f None = taken_at f ≡ []', 'TakesBeginnings ils f None = Unit {0}', 'Instances'),
    'freshness_without_fresh': (
        'Freshness', '(safe_seen (rule_of x.settings) octets ≡ Ok p) × Fresh x.machine p now peer', '(safe_seen (rule_of x.settings) octets ≡ Ok p)',
        'Forgery'),
    'settled_where_nothing_was_put_in': (
        'Settled', 'SettledAt x taken = is_settled x ≡ true → ', 'SettledAt x taken = is_settled x ≡ true → put_at x ≡ [] → ', 'Instances'),
    'arrived_with_one_more': ('Faithful', 'AllArrived x peer = (k : ℕ) → k < length', 'AllArrived x peer = (k : ℕ) → k ≤ length', 'LossInstances'),
    'match_that_none_has': (
        'Faithful', '  pub fe_name : fe.settings.addressing.own ≡ il.settings.addressing.peer\n',
        '  pub fe_name : fe.settings.addressing.own ≡ il.settings.addressing.peer\n  pub none : ⊥\n', 'LossInstances'),
    'closed_ends_keep_anything': (
        'Faithful', 'KeepsNothing x = is_shut x ≡ true → x.session.waiting ≡ []', 'KeepsNothing x = Unit {0}', 'LossInstances'),
    'headline_over_ends_opened_once': ('Headline', FILED, FILED + 'length (run es start).ils ≤ 1 → ', 'GenuineRow'),
    'headline_promised_of_faithful_lists': ('Promises', 'pub headline : Genuine es start → ', 'pub headline : Faithful es → ', 'GenuineRow'),
}
FULL = 'x.machine.window ≤ length '
PUT = 'put_at x ≡ confirmed ++ '
ESTABLISHED = 'was_established fe.session.history.phases ≡ '
BOTH_INITIALISE = '(phase_in il.session ≡ Initialising) × (phase_in fe.session ≡ Initialising)'
CERTAIN = 'use Rattle.stack_end.specs.Certain.{confirmed_of}\n'
UNITS = 'use Rattle.pdi_session.specs.Laws.{items_of}\nuse Rattle.safe_machine.specs.Made.{units}\n'
# For `promises_law`. The name: file of specs/, old and new texts, and the file of proofs/alike/ with the lemmas that must then fail
TOLD_TWICE = {
    'headline_of_the_first_two': (
        'Headline', {BEGINS: 'IsBeginning (take 2 (taken_at f)) (put_at g)', 'IsBeginning (taken_at g) (put_at f)':
                     'IsBeginning (take 2 (taken_at g)) (put_at f)', 'length, if◌then◌else◌}': 'length, take, if◌then◌else◌}'},
        'Headlines', ('has-partner', 'takes-beginnings')),
    'status_need_not_be_fresh': (
        'Freshness', {'FreshEvent (Calls Il c) w = AtOpened (FreshCall (made_of (present Fe w)) c) (present Il w)': 'FreshEvent (Calls Il c) w = Unit {0}'},
        'Freshes', ('event-fresh', 'fresh-event')),
    'all_that_was_ever_sent_counts_as_unconfirmed': (
        'Settled', {PUT + 'items_unconfirmed x': PUT + 'items_of (telegrams_in (messages_in (units x.machine.made)))', CERTAIN: CERTAIN + UNITS},
        'Settleds', ('accounted', 'was-taken')),
    'settled_has_the_first_taken': (
        'Settled', {'is_settled x ≡ true → IsBeginning (put_at x) taken': 'is_settled x ≡ true → IsBeginning (take 1 (put_at x)) taken'},
        'Settleds', ('settled-agrees', 'agrees-settled')),
    'waits_once_a_window_was_ever_sent': (
        'Faithful', {FULL + '(unconfirmed x.machine)': FULL + '(units x.machine.made)'}, 'Losses', ('waits-room', 'room-waits')),
    'genuine_where_no_damaged_part_goes_up': (
        'Premise', {'× AtCall (IsGenuine peer dead) c x':
                    '× AtCall (λ y octets. IsGenuine peer dead y octets × (is_shut y ≡ false → is_asked_of y octets ≡ true)) c x'},
        'Genuines', ('call-at', 'at-call')),
    'faithful_without_any_other_order': (
        'Faithful', {'QNear x.settings.q [] x.inputs × NoDeadlineFalls x.settings.t_seq no_wait x.inputs':
                     'QNear 0 [] x.inputs × NoDeadlineFalls 0 no_wait x.inputs'},
        'Faithfuls', ('by-place', 'by-recursion')),
    'ends_match_with_one_t_max': (
        'Faithful', {'  pub rule : rule_of il.settings ≡ rule_of fe.settings\n':
                     '  pub rule : rule_of il.settings ≡ rule_of fe.settings\n'
                     '  pub t_max : il.settings.connection.t_max ≡ fe.settings.connection.t_max\n'},
        'Losses', ('matches',)),
    'in_step_only_once_established': (
        'Faithful', {f'(({ESTABLISHED}false) × {BOTH_INITIALISE})': f'({ESTABLISHED}false)'}, 'Losses', ('one-phase', 'in-step')),
    'headline_promised_of_a_thousand_events': (
        'Promises', {'pub headline : Genuine es start → ': 'pub headline : nat_le (length es) 1000 ≡ true → Genuine es start → '},
        'Promised', ('genuine-promises', 'promises-genuine')),
    'faithful_of_short_parts': (
        'Faithful', {'AllByRecursion (CarriesPdu peer) (arrivals_of (Datagram octets now))':
                     'AllByRecursion (λ (p : Part). CarriesPdu peer p × (length p.1 ≤ 200)) (arrivals_of (Datagram octets now))'},
        'Faithfuls', ('carries-brought',)),
}

SHORT = 'nat_le (length es) 1000 ≡ true → '
NEVER_SAYS = {f'{word} : {premise} → ': f'{word} : {premise} → {SHORT}' for word, premise in (
    ('headline', 'Genuine es start'), ('fresh', 'Genuine es start'), ('confirmed', 'Genuine es start'), ('settled', 'Genuine es start'),
    ('certain', 'Genuine es start'), ('nothing_lost', 'Faithful es'))}
# The beginnings of clauses in crates/*/src/
PUT, POLL = 'pub fn put(', 'pub fn poll<'
OF_RUN, OF_APPLY = 'pub fn run(', 'pub fn apply('
# For a user of crates/promise_users. The name: crate, the user that must then have no proof, and for each file the old and new texts. A text with
# `..` is looked for behind the part before it: `pub fn put(..ensures refused { A }` is that clause of `put`.
OF_USERS = {
    'parts_need_not_go_up_in_order': (
        'red_layer', 'parts::gone_up', {'specs/Service.antt': {'pub rising : Rises 0 (parts_passed_in ms)': 'pub rising : ⊤'}}),
    'parts_go_up_that_never_came': (
        'red_layer', 'parts::gone_up', {'specs/Service.antt': {
            'HaveArrived before (m ∷ ms) = AreAmong m.passed (before ++ m.came) × HaveArrived (before ++ m.came) ms':
            'HaveArrived before (m ∷ ms) = HaveArrived (before ++ m.came) ms'}}),
    'waits_of_the_first_hundred_seconds': (
        'red_layer', 'parts::gone_up', {'specs/Masking.antt': {
            'IsInTime t_seq now (Some began) = now < began + t_seq': 'IsInTime t_seq now (Some began) = (now < began + t_seq) × (now < 100000)'}}),
    'a_join_says_nothing': (
        'safe_machine', 'pdus::requests', {'specs/Law.antt': {
            'JoinsEvent w (Arrive Fe p now) = w.fe.connection ≡ Down → (arrive p now w.fe).connection ≡ Start → Among p w.il.made':
            'JoinsEvent w (Arrive Fe p now) = Unit {0}'}}),
    'recent_in_up_alone': (
        'safe_machine', 'pdus::pdu', {'specs/Properties.antt': {
            'IsRecent (Ok p) now v = now < v.confirmed_at + cts_step v p + v.settings.t_max':
            'IsRecent (Ok p) now v = v.connection ≡ Up → now < v.confirmed_at + cts_step v p + v.settings.t_max'}}),
    'passes_after_a_thousand_pdus': (
        'safe_machine', 'pdus::pdu', {'specs/Properties.antt': {'  pub is_up : v.connection ≡ Up\n': '  pub is_up : v.connection ≡ Up\n  pub late : 1000 < v.expected\n'}}),
    'takes_of_empty_payloads': (
        'pdi_session', 'telegrams::handed_on', {'specs/Laws.antt': {
            'TakesLaw = (s : SessionState) (t : Tele) → taken_by': 'TakesLaw = (s : SessionState) (t : Tele) → t.payload ≡ [] → taken_by'}}),
    'hears_after_a_thousand_datagrams': (
        'stack_end', 'ends::arrive', {'specs/Reception.antt': {
            '  pub before : is_over v ≡ false  -- it is not closed\n':
            '  pub before : is_over v ≡ false  -- it is not closed\n  pub late : nat_le 1000 v.red.expected ≡ true\n'}}),
    'unconfirmed_up_to_the_greatest_window': (
        'stack_end', 'ends::bounds', {'specs/Bounds.antt': {
            'pub unconfirmed : length v.upper.machine.ring ≤ v.upper.machine.window': 'pub unconfirmed : length v.upper.machine.ring ≤ WINDOW_MAX'}}),
    'again_as_new_if_never_called': (
        'stack_end', 'reopened::opened_again', {'specs/Reopening.antt': {
            '(side : Side) (s : EndSettings) (first began : ℕ) (calls : List Call) (v : Inside)\n':
            '(side : Side) (s : EndSettings) (first began : ℕ) (calls : List Call) (v : Inside) → calls ≡ []\n'}}),
    'counts_of_channel_1_alone': (
        'stack_end', 'counts::datagrams', {'specs/StatisticsLaw.antt': {'→ place < CHANNELS_MAX → CountsDatagrams place is': '→ place < 1 → CountsDatagrams place is'}}),
    'run_promises_where_memory_fails': (
        'stack_engine', 'pair::run', {'src/pair.rt': {
            f'{OF_RUN}..ensures promises {{ Promises self.new }}': 'ensures promises { OnErr result (Promises self.new) }'}}),
    'promises_of_a_thousand_events': ('stack_engine', 'pair::run', {'specs/Promises.antt': NEVER_SAYS}),
    'breaks_premise_one_way': (
        'stack_engine', 'pair::is_genuine', {'specs/Premise.antt': {
            '→ (breaks_premise side octets w ≡ false) ↔ ArrivesGenuine side (Deliver channel octets now) w':
            '→ ArrivesGenuine side (Deliver channel octets now) w → breaks_premise side octets w ≡ false'}}),
    'a_put_may_lose_messages': (
        'stack_end', 'ends::put', {'specs/Outstanding.antt': {
            'pub messages : flat_map (λ u. u) units ++ w.waiting ≡ waited': 'pub messages : waited ≡ waited'}}),
    'quiet_though_parts_go_up': (
        'stack_end', 'ends::next_deadline', {'specs/Deadlines.antt': {'pub none : parts_passed (RedTick now) v.red ≡ []': 'pub none : v.red ≡ v.red'}}),
    'closed_ends_give': (
        'stack_end', 'ends::arrive', {'specs/Recent.antt': {
            'DatagramRecent takes now octets v t u = (is_over v ≡ true → t ≡ u) ×': 'DatagramRecent takes now octets v t u = (is_over v ≡ true → t ≡ t) ×'}}),
    'age_is_known_once_a_pdu_was_made': (
        'stack_end', 'counts::ages', {'specs/Timely.antt': {
            'pub taken : (t.taken ≡ []) ⊎ IsTimely now t.left': 'pub taken : (t.taken ≡ []) ⊎ (v.upper.machine.made ≡ 0) ⊎ IsTimely now t.left'}}),
    'headline_of_a_thousand_telegrams_in_both_forms': (
        'stack_engine', 'pair::run', {
            'specs/HeadlineByPlace.antt': {
                'TakesInPlace x y = AgreeUpTo (length x.session.history.taken) x': 'TakesInPlace x y = AgreeUpTo (length (take 1000 x.session.history.taken)) x'},
            'specs/Headline.antt': {
                'IsBeginning (taken_at f) (put_at g) × IsBeginning (taken_at g) (put_at f))':
                'IsBeginning (take 1000 (taken_at f)) (put_at g) × IsBeginning (take 1000 (taken_at g)) (put_at f))'}}),
    'apply_promises_of_accepted_events': (
        'stack_engine', 'pair::apply', {'src/pair.rt': {
            f'{OF_APPLY}..ensures promises {{ Promises self.new }}': 'ensures promises { OnOk result (Promises self.new) }'}}),
    'promises_of_pairs_with_a_history': (
        'stack_engine', 'pair::at_any_time', {'src/pair.rt': {
            'pub fn promises(..ensures promises { Promises self.now }': 'ensures promises { self.now ≡ self.now }'}}),
    'a_yes_of_breaks_premise_says_nothing': (
        'stack_engine', 'pair::is_genuine', {'src/pair.rt': {
            'pub fn breaks_premise(..ensures { result ≡ breaks_premise (side_of side) datagram.now (run self.now start) }':
            'ensures { breaks_premise (side_of side) datagram.now (run self.now start) ≡ true → result ≡ true }'}}),
    'a_refused_put_changes_what_it_likes': (
        'stack_end', 'ends::put', {'src/end.rt': {
            f'{PUT}..ensures refused {{ OnErr result (self.new ≡ self.old) }}': 'ensures refused { OnErr result (self.new.time ≡ self.old.time) }'}}),
    'a_put_keeps_back_what_it_may_send': (
        'stack_end', 'ends::put', {'src/end.rt': {
            f'{PUT}..ensures packs {{ OnOk result (can_pack (inside self.new).upper ≡ false) }}': 'ensures packs { OnOk result (self.new.time ≡ now) }'}}),
    'a_poll_fails_for_no_fault': (
        'stack_end', 'ends::poll', {'src/end.rt': {
            f'{POLL}..ensures failed {{ OnErr result (ProcessesUntilFault C.told T.takes most_datagrams now (self.old, taker.old) (self.new, taker.new)) }}':
            'ensures failed { OnErr result (self.new.time ≤ now) }'}}),
    'more_than_64_messages_wait': (
        'stack_end', 'ends::bounds', {'specs/Bounds.antt': {
            'pub waiting : length v.upper.waiting ≤ WAITING_MAX': 'pub waiting : length v.upper.waiting ≤ 2 * WAITING_MAX'}}),
    'settled_though_messages_wait': (
        'stack_end', 'ends::settled', {'src/end.rt': {
            'pub fn settled(..ensures { result ≡ is_settled (inside self.now) }': 'ensures { result ≡ true → is_over (inside self.now) ≡ false }'}}),
    'telegrams_are_taken_with_other_payloads': (
        'pdi_session', 'telegrams::handed_on', {'specs/Laws.antt': {
            '(is_reserved t.kind ≡ false) × (taken_by (Arrives t) s ≡ item_of t ∷ [])': '(is_reserved t.kind ≡ false)'}}),
    'stale_ends_take_no_first_request': (
        'stack_end', 'counts::first_requests', {'specs/Stale.antt': {
            '→ is_stale v ≡ false → v.upper.machine.connection ≡ Down': '→ is_stale v ≡ false → v.red.expected ≡ 1 → v.upper.machine.connection ≡ Down'}}),
}
