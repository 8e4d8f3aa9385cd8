"""Random scenarios, made while the original's functions play them. docs/SCENARIO.md has their language.

After each call stand `empty`, for the frames that it put, and `state`. A *tame* scenario stays where both are meant to answer
alike; a wild one makes every call in every state.
"""
import random
import re
import subprocess

from answering import ORACLE
from generate import OUTCOMES, received, sections, text

PARTS = [received(0, 0), received(0, 3), received(0, 5), received(1, 0), received(1, 2), received(2, 0)]
REASONS = ['Ended', 'EndedWithError(4)', 'RemoteEnded', 'RemoteEndedWithError(13)',
           'ConnectionStopped(Closed)', 'ConnectionStopped(ClosedWithError(1))',
           'ConnectionStopped(RemoteClosed)', 'ConnectionStopped(RemoteClosedWithError(7))']
FRAMES = (90, 100, 150, 512, 4096)
SMALL_FRAMES = (24, 25, 26, 30, 41, 60)
MODES = ('mixed', 'mixed', 'unsettled', 'settled')
STATE = re.compile(r'state: (\w+) .* count=(\d+) credit=(\d+) .* table=\[(.*)\] resume=\[(.*)\] resend=\[(.*)\] seats=')


class Oracle:
    """The original's functions, as a program that answers each line."""

    def __init__(self):
        self.program = subprocess.Popen([ORACLE, 'scenario'], stdin=subprocess.PIPE, stdout=subprocess.PIPE,
                                        text=True, bufsize=1)

    def ask(self, line):
        self.program.stdin.write(line + '\n')
        return self.program.stdout.readline().rstrip('\n')


class Play:
    """A scenario so far: its lines, what was answered, and what the link holds."""

    def __init__(self, oracle, rng):
        self.oracle, self.rng = oracle, rng
        self.lines, self.answers = [], []
        self.tame = rng.random() < 0.5
        self.second = rng.random() < 0.4
        self.messages = [sections(rng) for _ in range(3)]

    def ask(self, line):
        self.lines.append(line)
        self.answers.append(self.oracle.ask(line))
        return self.answers[-1]

    def call(self, line):
        answer = self.ask(line)
        self.ask('empty')
        state, count, credit, table, resume, resend = STATE.match(self.ask('state')).groups()
        self.state, self.count, self.credit = state, int(count), int(credit)
        self.resuming, self.resending = bool(resume), bool(resend)
        entries = (entry.split(':') for entry in table.split())
        self.table = {entry[0]: entry[2] for entry in entries}
        return answer

    def pick(self, *choices):
        return self.rng.choice(choices)

    # Each call by its name.

    def link(self):
        small = not self.tame and self.rng.random() < 0.2
        frame = self.pick(*(SMALL_FRAMES if small else FRAMES))
        self.ask(f'link table=1000 resume=1000 resend=1000 seats=1000 sender={self.pick(*MODES)} '
                 f'receiver={self.receiver()} limit={self.pick(0, 0, 20, 2**64 - 1)} frame={frame} '
                 f'count={self.pick(0, 5, 2**32 - 3)}')
        self.ask('spool memory=4000000 widest=4096')
        self.ask(f'pool {text(b"".join(self.messages))}')

    def receiver(self):
        return 'second' if self.second else 'first'

    def open(self, incomplete='no'):
        self.call(f'open handle={self.rng.randrange(4)} incomplete={incomplete}')

    def attach(self, incomplete, pairs):
        mode, target = 'mixed', 'yes'
        if not self.tame:
            mode, target = self.pick(*MODES), self.pick(*['yes'] * 9, 'no')
        self.call(f'attach handle={self.rng.randrange(4)} incomplete={incomplete} receiver={self.receiver()} '
                  f'sender={mode} target={target} limit={self.pick(0, 0, 25, 2**64 - 1)} '
                  f'unsettled={";".join(pairs) or "none"}')

    def flow(self):
        told = self.pick('none', self.count, self.count, (self.count + 2) % 2**32)
        self.call(f'flow count={told} credit={self.pick("none", 0, 1, 3, 100, 2**32 - 1)} '
                  f'drain={self.pick(*["no"] * 9, "yes")} echo={self.pick("yes", "no")}')

    def send(self):
        i = self.rng.randrange(3)
        start, length = sum(map(len, self.messages[:i])), len(self.messages[i])
        if self.rng.random() < 0.1:
            start, length = 0, 0
        state = self.pick('none', 'none', 'none', *PARTS[:2], *OUTCOMES)
        self.call(f'send start={start} length={length} format={self.rng.randrange(3)} '
                  f'settled={self.pick("yes", "no", "none")} state={state} batchable={self.pick("yes", "no")}')

    def tag(self):
        return self.pick(*self.table, '-')

    def disposition(self):
        tag, settled = self.tag(), self.pick('yes', 'no')
        state = self.pick('none', *PARTS, *OUTCOMES)
        if self.tame:
            if self.table.get(tag) in OUTCOMES:
                return
            if self.second and settled == 'no':
                state = self.pick(*OUTCOMES)
        self.call(f'disposition tag={tag} settled={settled} state={state}')

    def dispose(self):
        tag = self.tag()
        settled = 'yes' if self.tame and self.table.get(tag) in OUTCOMES else self.pick('yes', 'no')
        self.call(f'dispose id={self.pick(0, 9, 2**32 - 1)} tag={tag} settled={settled} '
                  f'state={self.pick(*PARTS[:2], *OUTCOMES)} batchable={self.pick("yes", "no")}')

    def look(self):
        number = int(self.tag().replace('-', '7'), 16)
        self.call(f'{self.pick("look", "look", "collect")} {number}')

    def show(self):
        self.call(f'show reattaching={self.pick("no", "no", "yes")} '
                  f'denominator={self.pick(0, 1, 2, 3, 7, 1000)} room=1000')

    def detach(self, closed='no'):
        self.call(f'detach closed={closed} condition={self.pick(0, 0, 5, 13)}')

    def work(self):
        return self.call('work').endswith('Worked')

    def resend(self):
        return self.call('resend').endswith('Worked')

    def stop(self):
        # A session stops once.
        if not any(line.startswith('stop') for line in self.lines):
            self.call(f'stop {self.pick(*REASONS)}')

    # The link breaks and comes back.

    def peer_states(self, known, complete):
        """What the peer may say of a delivery; `absent` is what it does not list."""
        if not self.tame:
            return ['absent', 'absent', 'none', *PARTS, *OUTCOMES[:4], *([known] if known != 'none' else [])]
        if known == 'none':
            return ['none', *PARTS] + (['absent'] if complete else [])
        if known in OUTCOMES:
            return ['absent', 'none', *PARTS]
        return [part for part in ['none', *PARTS] if place(part) < place(known)]

    def pairs(self, complete):
        pairs = []
        for tag, known in self.table.items():
            state = self.pick(*(self.peer_states(known, complete) or ['absent']))
            if state != 'absent':
                pairs.append(f'{tag}={state}')
        if not self.tame and self.rng.random() < 0.2:
            pairs.append(f'ff{self.rng.randrange(256):02x}=none')
        self.rng.shuffle(pairs)
        return pairs

    def come_back(self):
        complete = not self.table or self.rng.random() < 0.7
        # The first part there is cannot be aborted: both go on, and ours forgets the part.
        if self.tame and received(0, 0) in self.table.values():
            return
        self.detach()
        self.open('no' if complete else 'yes')
        self.attach('no' if complete else self.pick('yes', 'no'), self.pairs(complete))
        while self.work():
            pass
        if complete:
            self.call('flow count=none credit=4294967295 drain=no echo=no')
            while self.credit and self.resend():
                pass
        elif self.tame:
            self.come_back()

    def tame_call(self):
        if self.state != 'Attached' or self.resuming or self.resending:
            return self.come_back()
        calls = [self.send] * 6 + [self.disposition] * 4 + [self.dispose] * 3
        self.pick(*calls, self.flow, self.look, self.show, self.come_back)()

    def wild_call(self):
        # The original's caller can send, and send again, only once what came before is done.
        waits = self.resuming or self.resending
        calls = [self.look if waits else self.send] * 6 + [self.disposition] * 5 + [self.dispose] * 3 + [self.come_back] * 3
        self.pick(*calls, self.flow, self.look, self.show, self.work, self.detach, self.open,
                  self.look if self.resuming else self.resend,
                  lambda: self.attach(self.pick('yes', 'no'), self.pairs(True)),
                  self.pick(self.stop, lambda: self.detach('yes'), self.look, self.show))()


def place(state):
    return (0, 0) if state == 'none' else tuple(map(int, re.findall(r'\d+', state)))


def play(oracle, seed):
    """One scenario, to its end."""
    game = Play(oracle, random.Random(f'scenario {seed}'))
    game.link()
    game.open()
    game.attach('no', [])
    game.call('flow count=none credit=100 drain=no echo=no')
    for _ in range(game.rng.randrange(5, 40)):
        (game.tame_call if game.tame else game.wild_call)()
    return game
