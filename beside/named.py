"""Which differing answers are known, and by what name docs/DIFFERENCES.md has them."""
import pathlib

DIFFERENCES = pathlib.Path(__file__).resolve().parent.parent / 'docs' / 'DIFFERENCES.md'

ANEW = 'A delivery that goes out anew keeps its old state'
BREAK = 'A break while the lists are worked off'
ENDED_AND_LISTED = 'A delivery that has ended, and that the peer still lists'
FRAME = 'A frame size smaller than the header'
HALVES = 'A message that goes out by halves'
NOT_SENT = 'A disposition that cannot be sent'
OPEN = 'Open after an incomplete attach'
OPEN_WITH_PART = 'Open with a part of our own map'
ORDER = 'The order of refusals'
OVERWRITTEN = 'A recorded outcome is overwritten'
PEER_ONLY = 'Deliveries that only the peer lists'
RESTATED = 'A restated entry loses its outcome'
RESUMING_STATE = 'The state of a resuming transfer'
SEND_STATE = 'A send in the wrong state'
SETTLE_BACK = 'Settling back is asked without an outcome'
WORK_STATE = 'Work and resend in any state'

NAMES = {ANEW, BREAK, ENDED_AND_LISTED, FRAME, HALVES, NOT_SENT, OPEN, OPEN_WITH_PART, ORDER, OVERWRITTEN, PEER_ONLY,
         RESTATED, RESUMING_STATE, SEND_STATE, SETTLE_BACK, WORK_STATE}


def open_name(theirs, ours):
    if (theirs, ours) == ('refused 2', 'IncompleteAttachExchanged'):
        return OPEN
    if (theirs, ours) == ('IncompleteAttachExchanged', 'Attached'):
        return OPEN_WITH_PART
    return None


def of_case(case, theirs, ours):
    """The heading of a case whose answers differ, or None where nothing explains it."""
    command = case.split()[0]
    if command == 'resume' and theirs.startswith('end ') and ours == theirs.replace('end', 'settle', 1):
        # The same outcome; there nobody is told, here the peer is.
        return ENDED_AND_LISTED
    if command == 'open':
        return open_name(theirs, ours)
    return None


# Of a scenario's first answers that differ: those of the call itself, of the frames that it put, and of the link after it.

def of_answer(command, theirs, ours):
    # A stopped channel takes the first of the frames without end.
    if ours == 'refused 14' and (theirs in ('panics', 'endless') or theirs.startswith('refused 15')):
        return FRAME
    if command == 'work' and (theirs, ours) == ('Worked', 'refused 14'):
        # The state that ours sends along leaves no room in a frame this short.
        return RESUMING_STATE
    if command == 'send' and ours == 'refused 2':
        return ORDER if theirs == 'refused 8' else SEND_STATE
    if command in ('work', 'resend') and ours == 'refused 2':
        return WORK_STATE
    if command == 'disposition' and (theirs, ours) == ('echo yes', 'echo no'):
        return SETTLE_BACK
    if command == 'open':
        return open_name(theirs, ours)
    return None


def of_frames(command, theirs, ours):
    """The records of either. The state takes room in each frame, so the payload may be cut elsewhere."""
    payload = lambda records: ''.join(record[-1] for record in records)
    return RESUMING_STATE if command == 'work' and payload(theirs) == payload(ours) else None


def of_state(call, answer, before, theirs, ours):
    """Of the link after a call, as `normal.state` has it; `before` is ours before the call."""
    command, *words = call.split()
    other = {key for key in ours if ours[key] != theirs[key]}
    stopped = answer.startswith('refused 15')
    if command == 'send' and other <= {'count', 'credit'}:
        return HALVES if stopped else SEND_STATE if answer == 'refused 2' else None
    if command in ('disposition', 'dispose') and other <= {'table', 'seats'}:
        known = state_of(tag_of(words), before['table'])
        return NOT_SENT if stopped else OVERWRITTEN if is_outcome(known) else None
    if command == 'attach' and other == {'resume'}:
        return of_lists(theirs['resume'], ours['resume'])
    if command in ('work', 'resend') and other == {'table'} and answer == 'Worked':
        return of_entries(before, theirs['table'], ours['table'])
    lost = command == 'detach' or stopped or answer == 'refused 2'
    if lost and (before['resume'] or before['resend']) and not {'state', 'output', 'input', 'limit'} & other:
        # What waited, or what was in hand when its turn failed.
        return BREAK
    return None


def tag_of(words):
    return next(word[len('tag='):] for word in words if word.startswith('tag='))


def state_of(tag, table):
    return next((entry.split(':')[2] for entry in table if entry.startswith(tag + ':')), 'none')


def is_outcome(state):
    return state != 'none' and not state.startswith('received')


def of_lists(theirs, ours):
    """Ours tells the peer of what has ended, theirs aborts what only the peer lists; the rest has to be the same."""
    settlings = [item for item in ours if item.startswith('settling:')]
    tags = {item.split(':')[1] for item in ours}
    leftovers = [item for item in theirs if item.startswith('abort:') and item.split(':')[1] not in tags]
    rest = [item for item in ours if item not in settlings]
    if rest != [item for item in theirs if item not in leftovers]:
        return None
    return ENDED_AND_LISTED if settlings else PEER_ONLY


def of_entries(before, theirs, ours):
    """Entries that differ in their states alone."""
    without = lambda table: [entry.split(':')[:2] + entry.split(':')[3:] for entry in table]
    if without(theirs) != without(ours):
        return None
    restated = before['resume'] and before['resume'][0].startswith('restate:')
    return RESTATED if restated else ANEW


def check_headings():
    """Each name is a heading there."""
    lines = DIFFERENCES.read_text(encoding='utf-8').splitlines()
    headings = {line.lstrip('#').strip() for line in lines if line.startswith('#')}
    missing = NAMES - headings
    if missing:
        raise SystemExit(f'docs/DIFFERENCES.md has no heading for: {", ".join(sorted(missing))}')
