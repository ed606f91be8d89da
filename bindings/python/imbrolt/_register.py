"""Registers: the keys that customers were charged for."""

from __future__ import annotations

from threading import RLock
from typing import Any, Callable, Iterable, SupportsIndex

from ._arguments import (
    BytesLike, band_values, bytes_of, customer_of, given, kind_of, marks_of, price_of)
from ._calls import sheet_of
from ._library import answer, functions, u64
from ._types import Billed, Fen


class Register:
    """The keys that customers were charged for, up to 512.

    A new key is entered and charged; the same customer, key, kind and bands again get the same
    sheet and no charge:

        >>> from imbrolt import Kind, Register
        >>> register = Register()
        >>> first = register.bill(7, b"door-1", Kind.A1, [240, 330, 400, 430, 440], 500)
        >>> again = register.bill(7, b"door-1", Kind.A1, [240, 330, 400, 430, 440], 500)
        >>> first.charged, again.charged, first.sheet == again.sheet, register.owed(7)
        (500, 0, True, 500)

    A register holds no sheets: in one that another version left, a key's sheet is this version's.

    Threads may share one, their calls take turns; a thread that calls needs 512 KB of stack.
    """

    SIZE: int = 57352
    _Words = u64 * (SIZE // 8)

    def __init__(self) -> None:
        self._words = self._Words()
        self._turn = RLock()
        functions()["open_register"](self._words)

    def bill(self, customer: SupportsIndex, key: BytesLike, kind: SupportsIndex,
             values: Iterable[SupportsIndex], price: SupportsIndex,
             marks: SupportsIndex = 0) -> Billed:
        """Rates a set of bands in tenths, and enters and charges its key if it is new.

        The key is bytes: 1 to 32 ASCII letters, digits or hyphens. The price is in fen; the first
        of a key counts.
        """
        *numbers, charged = self._answer(
            "bill", customer, *given(key), kind_of(kind), *band_values(values), marks_of(marks),
            price_of(price))
        return Billed(sheet_of(numbers), Fen(charged))

    def owed(self, customer: SupportsIndex) -> Fen:
        """The total of a customer, in fen: of the keys entered since the last close."""
        (total,) = self._answer("owed", customer)
        return Fen(total)

    def close(self, customer: SupportsIndex) -> Fen:
        """Hands out the total of a customer, in fen, and takes the customer's entries away.

        A key used before is new again. What was handed out is not in the register any more: keep
        it, and save the register, before the customer is told.

            >>> from imbrolt import Kind, Register
            >>> register = Register()
            >>> billed = register.bill(7, b"door-1", Kind.A1, [240, 330, 400, 430, 440], 500)
            >>> register.close(7), register.owed(7), register.close(7)
            (500, 0, 0)
            >>> register.bill(7, b"door-1", Kind.A1, [250, 345, 420, 445, 460], 600).charged
            600
        """
        (total,) = self._answer("close", customer)
        return Fen(total)

    def _answer(self, name: str, customer: SupportsIndex, *arguments: Any) -> list[int]:
        number = customer_of(customer)
        with self._turn:
            return answer(name, self._words, number, *arguments)

    def to_bytes(self) -> bytes:
        """Its bytes as they stand in memory, to be kept."""
        with self._turn:
            return bytes(self._words)

    @classmethod
    def from_bytes(cls, data: BytesLike) -> Register:
        """The register of such bytes. Calls refuse one that no calls could have left so."""
        copy = bytes_of(data)
        if len(copy) != cls.SIZE:
            raise ValueError(f"a register has {cls.SIZE} bytes, not {len(copy)}")
        register = cls()
        register._words = cls._Words.from_buffer_copy(copy)
        return register

    def __reduce__(self) -> tuple[Callable[[BytesLike], Register], tuple[bytes]]:
        """Copied and pickled by its bytes, for a lock can be neither."""
        return self.from_bytes, (self.to_bytes(),)


def open_register() -> Register:
    """A register without entries, as Register() gives it."""
    return Register()
