"""A month of a laboratory: sheets of two customers go on one register, which is closed at its end.

    python3 examples/month.py

The library that this needs is made by `make` in the repository, which writes
target/native/libimbrolt.so; or `pip install` the wheel, which has it.
"""

import sys
import tempfile
from pathlib import Path

sys.path.insert(0, str(Path(__file__).resolve().parents[1] / "bindings" / "python"))

from imbrolt import Kind, Refused, Register, open_register

DOORS, FLOORS = 1001, 1002  # customer numbers
DOOR = [240, 330, 400, 430, 440]
DOOR_WITH_SEAL = [250, 345, 420, 445, 460]
FLOOR = [670, 675, 680, 685, 690, 695, 700, 705, 710, 715] + 6 * [720]


def bill(register, customer, key, kind, values, price):
    """One request: its sheet and its charge, or why it was refused."""
    try:
        sheet, charged = register.bill(customer, key, kind, values, price)
    except Refused as refused:
        print(f"{customer} {key.decode()}: {refused}")
        return
    print(f"{customer} {key.decode()}: {sheet.rating} dB, {charged} fen")


def month(register):
    """The calls of a month."""
    bill(register, DOORS, b"door-1", Kind.A1, DOOR, 50000)
    bill(register, FLOORS, b"floor-1", Kind.I3, FLOOR, 80000)

    # The answer to this one was lost on the way, so the customer's program sends it again.
    bill(register, DOORS, b"door-2", Kind.A1, DOOR_WITH_SEAL, 50000)
    bill(register, DOORS, b"door-2", Kind.A1, DOOR_WITH_SEAL, 50000)

    # A key stands for one request; another customer may use the same.
    bill(register, DOORS, b"door-1", Kind.A1, DOOR_WITH_SEAL, 50000)
    bill(register, FLOORS, b"door-1", Kind.A1, DOOR, 50000)


def month_end(register, folder):
    """Closes both customers: their totals are handed out, and their entries go."""
    totals = {customer: register.close(customer) for customer in (DOORS, FLOORS)}

    # Before the customers are told all is saved, the totals first: as long as the register that
    # was saved has the entries, they can be closed again for the same totals.
    bills = "".join(f"{customer} is billed {total} fen\n" for customer, total in totals.items())
    (folder / "bills").write_text(bills)
    (folder / "register").write_bytes(register.to_bytes())
    print(bills, end="")


def main():
    register = open_register()
    month(register)
    with tempfile.TemporaryDirectory() as name:
        folder = Path(name)

        # The register outlives the program: its bytes are kept in a file.
        (folder / "register").write_bytes(register.to_bytes())
        register = Register.from_bytes((folder / "register").read_bytes())
        bill(register, FLOORS, b"floor-1", Kind.I3, FLOOR, 80000)
        month_end(register, folder)

    # A key of last month is new again.
    bill(register, DOORS, b"door-2", Kind.A1, DOOR_WITH_SEAL, 50000)
    print(f"{DOORS} owes {register.owed(DOORS)} fen")


if __name__ == "__main__":
    main()
