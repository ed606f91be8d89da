"""An example of each call: python3 -m imbrolt."""

from imbrolt import (
    ANSWER_MAX, Kind, Refused, Side, answer_line, correct_field, correct_laboratory, cover, grade,
    level, lift, limit, octaves, open_register, rate, rate_readings, specimens, standardized,
    take_reading, version)

WALL = [310, 340, 370, 400, 430, 460, 490, 400, 510, 520, 530, 540, 540, 540, 540, 540]
WINDOW = [level(30 + band) for band in range(16)]


def show_ratings() -> None:
    print("library:", version())
    print("wall:", rate(Kind.A3, WALL))
    print("bands to lift for 52 dB:", [f"{mask:016b}" for mask in lift(Kind.A3, WALL, 52)])
    print("octaves:", octaves(WALL))
    print("readings:", rate_readings(Kind.A1, [level(24.04), level(33), level(40), level(43),
                                               limit(44)]))
    print("reading:", take_reading(level(-0.25)))
    print("field:", correct_field(500, 440), "laboratory:", correct_laboratory(500, 440))
    print("raw band:", standardized(95.0, 55.0, 30.0, 1.0))
    print("cover:", cover([0, 0, 0, 20, 60, 100, 140, 180, 220, 260] + 6 * [300]))
    print("window:", grade(Side.OUTSIDE, 3 * WINDOW))
    print("means:", specimens(3 * WINDOW).values[:3])


def show_line() -> None:
    output = bytearray(ANSWER_MAX)
    length = answer_line(b"A1\tK2\t24.0\t33.0\t40.0\t43.0\t44.0\n", output)
    print("line:", bytes(output[:length]))


def show_register() -> None:
    register = open_register()
    print("billed:", register.bill(7, b"wall-1", Kind.A3, WALL, 800))
    print("billed again:", register.bill(7, b"wall-1", Kind.A3, WALL, 800).charged, "fen")
    print("owed:", register.owed(7), "fen")
    print("closed:", register.close(7), "fen, then owed:", register.owed(7), "fen")


def show_refusal() -> None:
    try:
        rate(Kind.A1, WALL)
    except Refused as refused:
        print("refused:", refused)


if __name__ == "__main__":
    show_ratings()
    show_line()
    show_register()
    show_refusal()
