"""Histories of calls on a register: steps one after another.

A step is a word and what goes with it:

  open                 the register is opened empty
  put place data       its bytes from a place on are replaced
  bill call places     a call, with an output of so many places
  owed customer places
  close customer places
  read                 all bytes are shown
"""

from paper.quantities import BandSet, KINDS
from paper.register import (
    BILL_PLACES, CLOSE_PLACES, COUNT, COUNT_AT, Call, ENTRY, Entry, GREATEST_PRICE, MOST_ENTRIES,
    SIZE, bill_in, bytes_of_entry, close_in, open_in, owed_in)

from .curves import limit_marks
from .ratings import OUT_OF_RANGE, word
from .requests import KEYS as ODD_KEYS, KEY_BYTES, any_key, any_values


CALLS = {"bill": bill_in, "owed": owed_in, "close": close_in}


def taken(memory, step):
    """Takes a step on the bytes of a register; what its call answers, if it is one."""
    name, *rest = step
    if name in CALLS:
        return CALLS[name](memory, *rest)
    if name == "open":
        open_in(memory)
    elif name == "put":
        place, data = rest
        memory[place:place + len(data)] = data
    return None


PRICES = (0, 1, 250, 40000, GREATEST_PRICE)
WRONG_PRICES = (GREATEST_PRICE + 1, 2 ** 31, 2 ** 32 - 1)
NO_KINDS = (4, 5, 255, 256, 257, 2 ** 16, 2 ** 32 - 1)
SHORT_KEYS = (b"K", b"K1", b"K12", b"k1", b"-", b"K-1")


def any_bytes(seeded, count):
    words = (seeded.next().to_bytes(8, "little") for _ in range(0, count, 8))
    return b"".join(words)[:count]


class Caller:
    """A program that sends calls, and remembers those that may have been accepted."""

    def __init__(self, seeded, customers):
        self.seeded = seeded
        self.customers = customers
        self.sent = []

    def customer(self):
        return self.seeded.pick(self.customers)

    def new(self):
        """A good call, mostly with a key that was not there yet."""
        seeded = self.seeded
        number = seeded.below(4)
        kind = KINDS[number]
        marks = limit_marks(seeded, kind.bands) | seeded.below(2 ** 32) >> kind.bands << kind.bands
        band_set = BandSet(tuple(any_values(seeded, kind)), marks, kind.bands)
        key = seeded.pick(SHORT_KEYS) if seeded.chance(3) else any_key(seeded)
        price = seeded.pick(PRICES + (seeded.between(0, GREATEST_PRICE),))
        call = Call(self.customer(), key, number, band_set, price)
        self.sent.append(call)
        return call

    def again(self):
        """A call that was sent before: at any price, with any marks past the bands."""
        call = self.seeded.pick(self.sent)
        marks = call.band_set.marks ^ self.seeded.below(2 ** 16) << call.band_set.length
        return call._replace(price=self.seeded.pick(PRICES),
                             band_set=call.band_set._replace(marks=marks & 2 ** 32 - 1))

    def otherwise(self):
        """The key of a call that was sent before, with something else changed."""
        seeded = self.seeded
        call = self.again()
        band = seeded.below(call.band_set.length)
        way = seeded.below(4)
        if way == 0:
            return call._replace(number=call.number ^ 2)
        if way == 1:
            marks = call.band_set.marks ^ 1 << band
            return call._replace(band_set=call.band_set._replace(marks=marks))
        if way == 2:
            values = list(call.band_set.values)
            values[band] += -1 if values[band] > 0 else 1
            return call._replace(band_set=call.band_set._replace(values=tuple(values)))
        return call._replace(customer=self.customer())

    def faulty(self, call):
        """A call with one thing wrong."""
        seeded = self.seeded
        band_set = call.band_set
        way = seeded.below(5)
        if way == 0:
            return call._replace(key=wrong_key(seeded, call.key))
        if way == 1:
            return call._replace(number=seeded.pick(NO_KINDS))
        if way == 2:
            return call._replace(price=seeded.pick(WRONG_PRICES))
        if way == 3:
            length = seeded.pick((0, 4, 5, 6, 15, 16, 17, seeded.below(51)))
            values = (band_set.values + tuple(word(seeded) for _ in range(50)))[:length]
            return call._replace(band_set=BandSet(values, band_set.marks, length))
        values = list(band_set.values) or [0]
        values[seeded.below(len(values))] = seeded.pick(OUT_OF_RANGE)
        return call._replace(band_set=BandSet(tuple(values), band_set.marks, len(values)))

    def total(self, word):
        """A step that asks for a total: of one of the customers, or of any number."""
        seeded = self.seeded
        customer = seeded.pick((self.customer(), seeded.next()))
        return word, customer, 0 if seeded.chance(8) else seeded.between(1, 3)

    def step(self):
        """A step with any call."""
        seeded = self.seeded
        if seeded.chance(8):
            return self.total("owed")
        make = seeded.pick((self.new, self.new, self.again, self.again, self.otherwise))
        call = make() if self.sent else self.new()
        while seeded.chance(5):
            call = self.faulty(call)
        return "bill", call, seeded.below(9) if seeded.chance(8) else 7


class Closer(Caller):
    """One that closes customers, too; keys from before a closing are sent again after it."""

    def step(self):
        return self.total("close") if self.seeded.chance(6) else super().step()

    def month_end(self):
        """Some of the customers are closed, the first of them twice in a row."""
        count = self.seeded.between(1, min(4, len(self.customers)))
        closed = self.seeded.some(count, self.customers)
        return [("close", customer, CLOSE_PLACES) for customer in closed[:1] + closed]


def wrong_key(seeded, key):
    """A key of another shape: an odd one, too long, or with one odd byte."""
    way = seeded.below(3)
    if way == 0:
        return seeded.pick(ODD_KEYS)
    if way == 1:
        return key + bytes(seeded.pick(KEY_BYTES) for _ in range(33 - len(key) + seeded.below(3)))
    key = bytearray(key or b"k")
    key[seeded.below(len(key))] = seeded.pick(b"/:@[`{ _.,\0\x7f\x80\xad\xff\t\n")
    return bytes(key)


# Registers that are there at the start.

def many_calls(seeded, caller, count):
    """So many good calls, no customer and key twice."""
    names = set()
    calls = []
    while len(calls) < count:
        call = caller.new()
        if seeded.chance(2):
            call = call._replace(key=b"%d-%d" % (len(calls), seeded.below(10 ** 6)))
        if (call.customer, call.key) not in names:
            names.add((call.customer, call.key))
            calls.append(call)
    caller.sent = calls
    return calls


def with_junk(seeded, call, full_of_junk):
    """The entry of a call, with junk where it never matters."""
    kind = KINDS[call.number]
    marks = call.band_set.marks & (1 << kind.bands) - 1
    data = bytearray(bytes_of_entry(
        call.customer, call.key, Entry(kind, call.band_set.values, marks, call.price)))
    if full_of_junk:
        length = len(call.key)
        data[8 + length:40] = any_bytes(seeded, 32 - length)
        data[40 + 4 * kind.bands:104] = any_bytes(seeded, 64 - 4 * kind.bands)
        junk = marks | seeded.below(2 ** 16) >> kind.bands << kind.bands
        data[108:110] = junk.to_bytes(2, "little")
    return bytes(data)


def count_put(count):
    return "put", COUNT_AT, COUNT.pack(count)


def filled(seeded, caller, count):
    """A register of so many entries, and junk behind them."""
    full_of_junk = not seeded.chance(3)
    calls = many_calls(seeded, caller, count)
    data = b"".join(with_junk(seeded, call, full_of_junk) for call in calls)
    if full_of_junk:
        data += any_bytes(seeded, min(3 * ENTRY.size, COUNT_AT - len(data)))
    return [("open",), ("put", 0, data), count_put(count)]


def damage(seeded, calls):
    """What makes a register of these entries one that no calls could have left so."""
    place = seeded.below(len(calls))
    call, start = calls[place], place * ENTRY.size
    # That a count is above 512 shows by itself only where all 512 entries are sound.
    way = 0 if len(calls) == MOST_ENTRIES and seeded.chance(2) else seeded.below(6)
    if way == 0:
        return count_put(seeded.pick((513, 1000, 2 ** 16, 2 ** 32, 2 ** 32 + 1, 2 ** 63,
                                      2 ** 64 - 1)))
    if way == 1:
        return "put", start + 104, seeded.pick(WRONG_PRICES).to_bytes(4, "little")
    if way == 2:
        return "put", start + 111, bytes([seeded.pick((4, 5, 128, 255))])
    if way == 3:
        band = seeded.below(call.band_set.length)
        value = seeded.pick(OUT_OF_RANGE).to_bytes(4, "little", signed=True)
        return "put", start + 40 + 4 * band, value
    if way == 4:
        if seeded.chance(2):
            data = bytearray(with_junk(seeded, call, False))
            data[8 + len(call.key):40] = (32 - len(call.key)) * b"k"
            data[110] = seeded.pick((0, 33, 34, 64, 128, 255))
            return "put", start, bytes(data)
        return "put", start + 8 + seeded.below(len(call.key)), seeded.pick(
            (b"/", b":", b"@", b"[", b"`", b"{", b" ", b"_", b"\0", b"\x7f", b"\x80", b"\xe1"))
    other = calls[seeded.below(place)] if place else call
    twin = call._replace(customer=other.customer, key=other.key)
    return "put", start, with_junk(seeded, twin, True)


def calls_of(caller, count):
    return [caller.step() for _ in range(count)]


def opened_history(_seeded, caller):
    return [("open",), *calls_of(caller, 45)]


def filled_history(seeded, caller):
    return filled(seeded, caller, seeded.pick((0, 1, 2, 7, 40))) + calls_of(caller, 25)


def full_history(seeded, caller):
    return filled(seeded, caller, seeded.between(MOST_ENTRIES - 4, MOST_ENTRIES)) \
        + calls_of(caller, 30)


def damaged_history(seeded, caller):
    """Damaged in one way or several, then opened anew."""
    steps = filled(seeded, caller, seeded.pick((1, 2, 7, 40, 40, 7, 2, MOST_ENTRIES)))
    calls = list(caller.sent)
    steps += [damage(seeded, calls) for _ in range(seeded.pick((1, 1, 1, 2, 4)))]
    return steps + calls_of(caller, 8) + [("open",)] + calls_of(caller, 4)


def random_history(seeded, caller):
    """Random bytes, with any count, a small one, and none."""
    steps = [("put", 0, any_bytes(seeded, SIZE)), *calls_of(caller, 3)]
    steps += [count_put(seeded.between(1, MOST_ENTRIES)), *calls_of(caller, 3)]
    return steps + [count_put(0), *calls_of(caller, 12)]


def months_history(_seeded, closer):
    return [("open",)] + [step for _ in range(4)
                          for step in calls_of(closer, 15) + closer.month_end()]


def refilled_history(seeded, closer):
    """Full; a customer is closed, whose keys come with other bands until it is full again."""
    steps = filled(seeded, closer, MOST_ENTRIES)
    customer = closer.customer()
    closed = [call for call in closer.sent if call.customer == customer]
    others = [call for call in closer.sent if call.customer != customer]
    new = [closer.new()._replace(customer=customer, key=call.key) for call in closed]
    closer.sent = others + new
    steps += 2 * [("close", customer, CLOSE_PLACES)]
    steps += [("bill", call, BILL_PLACES) for call in new + [closer.new(), closer.new()]]
    return steps + calls_of(closer, 20)


SORTS = ((Caller, opened_history, 24), (Caller, filled_history, 24), (Caller, full_history, 8),
         (Caller, damaged_history, 40), (Caller, random_history, 2),
         (Closer, months_history, 24), (Closer, filled_history, 24), (Closer, full_history, 4),
         (Closer, refilled_history, 2), (Closer, damaged_history, 24), (Closer, random_history, 1))


def histories(seeded, times=1):
    """Histories of every sort, of few customers and of many."""
    made = []
    for sender, sort, count in SORTS:
        for _ in range(times * count):
            number = seeded.pick((1, 2, 3, 40))
            customers = [seeded.pick((place, 2 ** 32 + place, seeded.next()))
                         for place in range(number)]
            made.append(sort(seeded, sender(seeded, customers)) + [("read",)])
    return made
