"""The calls on a register, by the examples of docs/API.md; its bytes, copies and threads."""

import copy
import pickle
import unittest
from threading import Thread

from common import DOOR, DOOR_SHEET, imbrolt, refusal_of
from imbrolt import Billed, Fen, Kind, Refusal, Register

OTHER_DOOR = [241, *DOOR[1:]]


def bill(register, key=b"K2", values=DOOR, price=500, customer=7, marks=0):
    return register.bill(customer, key, Kind.A1, values, price, marks)


class Bills(unittest.TestCase):
    def setUp(self):
        self.register = imbrolt.open_register()

    def refusal(self, **changes):
        """What a bill is refused for; it leaves the register as it was."""
        before = self.register.to_bytes()
        refusal = refusal_of(lambda: bill(self.register, **changes))
        self.assertEqual(self.register.to_bytes(), before)
        return refusal

    def test_open(self):
        self.assertIs(type(self.register), Register)
        self.assertEqual(self.register.to_bytes(), bytes(Register.SIZE))
        self.assertEqual(Register().to_bytes(), bytes(Register.SIZE))

    def test_bill_and_owed(self):
        self.assertEqual(bill(self.register), Billed(DOOR_SHEET, 500))
        self.assertEqual(bill(self.register, price=600), Billed(DOOR_SHEET, 0))
        self.assertEqual((self.register.owed(7), self.register.owed(8)), (500, 0))
        self.assertIs(type(self.register.owed(7)), Fen)
        self.assertIs(self.refusal(values=OTHER_DOOR), Refusal.OTHER_BANDS)
        self.assertIs(self.refusal(marks=1), Refusal.OTHER_BANDS)
        self.assertEqual(bill(self.register, marks=1 << 5).charged, 0)

    def test_refusals(self):
        for changes, refusal in (({"key": b""}, Refusal.NOT_A_REQUEST),
                                 ({"key": b"no key"}, Refusal.NOT_A_REQUEST),
                                 ({"key": 33 * b"K"}, Refusal.NOT_A_REQUEST),
                                 ({"values": DOOR[:4]}, Refusal.BAND_COUNT),
                                 ({"values": [1501, *DOOR[1:]]}, Refusal.BAND_RANGE),
                                 ({"price": 1_000_001}, Refusal.PRICE_RANGE),
                                 ({"price": -1}, Refusal.PRICE_RANGE)):
            self.assertIs(self.refusal(**changes), refusal)

    def test_full(self):
        for number in range(512):
            bill(self.register, key=b"K%d" % number, price=Fen(1))
        self.assertIs(self.refusal(key=b"new"), Refusal.REGISTER_FULL)
        self.assertEqual(self.register.close(7), 512)

    def test_close(self):
        bill(self.register)
        self.assertEqual((self.register.close(7), self.register.close(7)), (500, 0))
        self.assertEqual(self.register.to_bytes(), bytes(Register.SIZE))
        self.assertEqual(bill(self.register, values=OTHER_DOOR).charged, 500)

    def test_customers(self):
        for customer in (0, 2 ** 64 - 1):
            bill(self.register, customer=customer)
            self.assertEqual(self.register.owed(customer), 500)


class Kept(unittest.TestCase):
    def setUp(self):
        self.register = Register()
        bill(self.register)

    def test_bytes(self):
        data = self.register.to_bytes()
        for kept in (data, bytearray(data), memoryview(data)):
            again = Register.from_bytes(kept)
            self.assertEqual((again.owed(7), bill(again).charged), (500, 0))
            self.assertEqual(again.to_bytes(), data)

    def test_other_lengths(self):
        data = self.register.to_bytes()
        for other in (b"", data[:-1], data + b"\0"):
            with self.assertRaisesRegex(ValueError, "57352 bytes, not"):
                Register.from_bytes(other)

    def test_damaged(self):
        """A count above 512."""
        damaged = Register.from_bytes(self.register.to_bytes()[:-8] + 8 * b"\x7f")
        for call in (damaged.owed, damaged.close, lambda _: bill(damaged)):
            self.assertIs(refusal_of(call, 7), Refusal.REGISTER_DAMAGED)

    def test_copies(self):
        for again in (copy.copy(self.register), copy.deepcopy(self.register),
                      pickle.loads(pickle.dumps(self.register))):
            self.assertEqual(again.close(7), 500)
        self.assertEqual(self.register.owed(7), 500)

    def test_threads(self):
        """They take turns: nothing of what was entered is lost."""
        def work(name):
            for number in range(60):
                bill(self.register, key=b"%s-%d" % (name, number), price=1)

        threads = [Thread(target=work, args=(b"T%d" % number,)) for number in range(8)]
        for thread in threads:
            thread.start()
        for thread in threads:
            thread.join()
        self.assertEqual(self.register.close(7), 500 + 8 * 60)


if __name__ == "__main__":
    unittest.main()
