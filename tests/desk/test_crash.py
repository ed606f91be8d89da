"""Desks are ended by SIGKILL at random moments, hundreds of times, while customers send again.

What is owed and what was handed out must be what the customers themselves add up, from what they
sent and were answered alone.
"""

import random
import signal
import tempfile
import time
import unittest
from itertools import count
from pathlib import Path
from typing import NamedTuple

from desks import Running, line_of, ran

SEED = 20261115
LIVES = 200
CUSTOMERS = (1, 7, 1001, 2 ** 64 - 1)
KEYS = [b"key-%d" % number for number in range(60)]
KINDS = ((b"A3", 16), (b"A1", 5), (b"I3", 16), (b"I1", 5))
GREATEST_PRICE = 1_000_000


class Sent(NamedTuple):
    """A request line that a client sends at a price."""

    client: object
    key: bytes
    price: int
    request: bytes

    def line(self):
        return b"%d\t%d\t%s" % (self.client.customer, self.price, self.request)


def band_text(tenths, limit):
    return b"%s%s%d.%d" % (limit, b"-" if tenths < 0 else b"", *divmod(abs(tenths), 10))


class Client:
    """A customer's program: it sends each line until it is answered."""

    def __init__(self, customer, chance):
        self.customer = customer
        self.chance = chance
        self.waiting = {}  # by key, what was sent and not answered
        self.answered = {}  # by key, what was sent first, and its sheet; since the last closing
        self.handed_out = []

    def requests(self):
        """What waits, new keys, and some answered ones at any price; some of it twice."""
        keys = [key for key in KEYS if key not in self.waiting and key not in self.answered]
        new = [self.priced(key, self.request(key)) for key in keys[:max(0, 3 - len(self.waiting))]]
        old = [self.priced(key, sent.request) for key, (sent, _) in self.answered.items()
               if self.chance.random() < 0.1]
        now = [*self.waiting.values(), *new, *old]
        return now + [sent for sent in now if self.chance.random() < 0.2]

    def request(self, key):
        kind, count = self.chance.choice(KINDS)
        bands = (band_text(self.chance.randint(-200, 1500), self.chance.choice((b"", b"L")))
                 for _ in range(count))
        return line_of(kind, key, *bands)

    def priced(self, key, request):
        price = self.chance.choice((0, self.chance.randint(1, 5000), GREATEST_PRICE))
        return Sent(self, key, price, request)

    def take(self, test, sent, answer):
        """An answer: the sheet is the same each time, and the first price is charged once."""
        *sheet, charge = answer.rstrip(b"\n").split(b"\t")
        if sent.key in self.answered:
            test.assertEqual((sheet, charge), (self.answered[sent.key][1], b"0"))
            return
        test.assertEqual(sheet[:3], [*sent.request.split(b"\t")[:2], b"0"])
        test.assertIn(int(charge), [sent.price, 0] if sent.key in self.waiting else [sent.price])
        self.waiting.pop(sent.key, None)
        self.answered[sent.key] = sent, sheet

    def lose(self, sent):
        """No answer came."""
        if sent.key not in self.answered:
            self.waiting[sent.key] = sent

    def total(self):
        return sum(sent.price for sent, _ in self.answered.values())

    def take_closing(self, test, told):
        test.assertEqual(told, line_of(self.customer, len(self.handed_out) + 1, self.total()))
        self.handed_out.append(self.total())
        self.answered.clear()


class Crash(unittest.TestCase):
    def setUp(self):
        folder = tempfile.TemporaryDirectory()
        self.addCleanup(folder.cleanup)
        self.file = Path(folder.name) / "register"
        self.chance = random.Random(SEED)
        self.clients = [Client(customer, self.chance) for customer in CUSTOMERS]
        self.kills = 0

    def test_crashes(self):
        ran(self.file, "--open")
        for _ in range(LIVES):
            self.live()
        self.assertGreater(self.kills, LIVES)
        rest = [sent for client in self.clients for sent in client.waiting.values()]
        ended = ran(self.file, data=b"".join(sent.line() for sent in rest))
        self.assertEqual((ended.status, len(ended.answers)), (0, len(rest)))
        self.hand_on(rest, ended.answers)
        for client in self.clients:
            self.check(client)

    def live(self):
        """A desk from start to end; meanwhile a customer who waits for nothing may close."""
        idle = [client for client in self.clients if not client.waiting]
        closing = self.chance.choice(idle) if idle and self.chance.random() < 0.5 else None
        others = [client for client in self.clients if client is not closing]
        now = [sent for client in others for sent in client.requests()]
        self.chance.shuffle(now)
        running = Running(self.file)
        running.send(b"".join(sent.line() for sent in now))
        if closing is not None:
            self.close(closing)
        answers = [running.answer() for _ in range(self.chance.randint(0, min(len(now), 15)))]
        self.hand_on(now, answers + self.killed(running, 0.012))

    def close(self, client):
        """Asks for a closing until its total is told."""
        words = ("--close", str(client.customer), str(len(client.handed_out) + 1))
        patience = count(0.004, 0.002)
        told = []
        while not told:
            told = self.killed(Running(self.file, *words), next(patience))
        client.take_closing(self, *told)

    def killed(self, running, seconds):
        """What a desk still told before its end, at any moment within some seconds."""
        time.sleep(self.chance.uniform(0, seconds))
        ended = running.kill()
        self.assertEqual(ended.complaints, b"")
        self.kills += ended.status == -signal.SIGKILL
        return ended.answers

    def hand_on(self, now, answers):
        for sent, answer in zip(now, answers):
            sent.client.take(self, sent, answer)
        for sent in now[len(answers):]:
            sent.client.lose(sent)

    def check(self, client):
        self.assertGreater(sum(client.handed_out), 0)
        owed = ran(self.file, "--owed", str(client.customer))
        self.assertEqual(owed.answers, [line_of(client.customer, client.total())])
        closings = ran(self.file, "--closings", str(client.customer))
        self.assertEqual(closings.answers, [
            line_of(client.customer, number, total)
            for number, total in enumerate(client.handed_out, 1)])


if __name__ == "__main__":
    unittest.main()
