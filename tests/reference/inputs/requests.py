"""Request lines of the program `rate`: realistic, at the edges, damaged."""

from paper.quantities import A1, A3, I1, I3, KINDS
from paper.rooms import REFERENCE_FLOOR

from .curves import limit_marks, measured
from .ratings import any_value_set, mixed_ends_set, near_limit_set, small_value_set
from .seeded import Seeded

SEED = 848520080

KEY_HEADS = ("W", "D", "F", "wall", "DOOR", "floor-2", "k", "7", "-", "site-12-room-3")
KEY_BYTES = b"ABCDEFGHIJKLMNOPQRSTUVWXYZabcdefghijklmnopqrstuvwxyz0123456789-"


def request_data(seed=SEED):
    """The whole input: lines, then a last piece without its line feed."""
    seeded = Seeded(seed)
    lines = whole_example()
    lines += [good_line(seeded) for _ in range(3000)]
    lines += edge_lines(seeded)
    lines += [refused_line(seeded) for _ in range(700)]
    lines += [damaged(seeded, good_line(seeded)) for _ in range(1200)]
    lines += [good_line(seeded) for _ in range(100)]
    lines = mingled(seeded, lines, long_lines(seeded))
    return b"".join(lines) + line_of(A1, b"LAST", [240, 330, 400, 430, 440])[:-1]


def level_text(tenths, limit=False):
    """A band as it is written in a request."""
    sign = "-" if tenths < 0 else ""
    whole, tenth = divmod(abs(tenths), 10)
    return f"{'L' if limit else ''}{sign}{whole}.{tenth}".encode()


def line_of_texts(kind_text, key, texts):
    return b"\t".join([kind_text, key, *texts]) + b"\n"


def line_of(kind, key, values, marks=0):
    """The request line of a kind, a key and values in tenths."""
    texts = [level_text(value, marks >> band & 1) for band, value in enumerate(values)]
    return line_of_texts(kind.name.encode(), key, texts)


def whole_example():
    """The four lines of the document."""
    return [
        line_of(A3, b"K1", 16 * [500]),
        line_of(A1, b"K2", [240, 330, 400, 430, 440]),
        line_of(I3, b"K3", REFERENCE_FLOOR),
        line_of(A1, b"K4", [240, 330, 400, 430]),
    ]


def any_key(seeded):
    """A key as a laboratory writes it, or 1 to 32 of the allowed characters."""
    if seeded.chance(10):
        return bytes(seeded.pick(KEY_BYTES) for _ in range(seeded.between(1, 32)))
    return f"{seeded.pick(KEY_HEADS)}{seeded.below(10000)}".encode()


def any_values(seeded, kind):
    """Mostly measured curves."""
    make = seeded.pick(6 * (measured,) + (near_limit_set, any_value_set, mixed_ends_set,
                                          small_value_set))
    return make(seeded, kind)


def good_line(seeded):
    kind = seeded.pick(KINDS)
    return line_of(kind, any_key(seeded), any_values(seeded, kind),
                   limit_marks(seeded, kind.bands))


def refused_line(seeded):
    """A request with a wrong count, missing bands, values out of range, or all."""
    kind = seeded.pick(KINDS)
    texts = [level_text(value) for value in any_values(seeded, kind)]
    for _ in range(seeded.between(0, 3)):
        texts[seeded.below(len(texts))] = seeded.pick((
            b"-", b"-", b"-", b"150.1", b"-20.1", b"999.9", b"-999.9", b"L150.1", b"L-20.1",
            b"150.0", b"-20.0", b"L-0.1", b"-0.1"))
    count = seeded.pick(9 * (kind.bands,) + (kind.bands - 1, kind.bands + 1, 21 - kind.bands,
                                             1, 2, 48, seeded.between(1, 60)))
    texts = (texts * 60)[:count]
    return line_of_texts(kind.name.encode(), any_key(seeded), texts)


def damaged(seeded, line):
    """A good line with one or two small damages, its line feed kept."""
    body = bytearray(line[:-1])
    for _ in range(seeded.between(1, 2)):
        place = seeded.below(len(body))
        odd = seeded.pick(b"\t\t\t.--LA013 \r\x00\xff,+eE") if seeded.chance(2) \
            else seeded.below(256)
        way = seeded.below(6)
        if way == 0:
            del body[place]
        elif way == 1:
            body.insert(place, odd)
        elif way == 2:
            body[place] = odd
        elif way == 3:
            body[place:place] = body[place:place + seeded.between(1, 12)]
        elif way == 4:
            del body[place:place + seeded.between(1, 12)]
        else:
            body[place:place + 2] = body[place:place + 2][::-1]
        if not body:
            break
    return bytes(body) + b"\n"


# Edges: each kind of text beside the one that is just allowed.

BAND_TEXTS = (
    b"-", b"--", b"", b" ", b".", b"0.0", b"-0.0", b"L0.0", b"L-0.0", b"-0.1", b"L-0.1", b"-0.9",
    b"00.0", b"01.0", b"-01.0", b"L00.5", b"000.0", b"001.0", b"10.0", b"100.0", b"-100.0",
    b"1000.0", b"9999.9", b"0001.0", b"150.0", b"150.1", b"-20.0", b"-20.1", b"L150.0", b"L150.1",
    b"L-20.0", b"L-20.1", b"999.9", b"-999.9", b"L999.9", b"L-999.9", b"50", b"50.", b".5",
    b"-.5", b"L.5", b"50.00", b"50.05", b"5.0.0", b"5,0", b"50..0", b"L", b"L-", b"-L5.0",
    b"LL5.0", b"l5.0", b"--5.0", b"+5.0", b"5.0L", b"5.0-", b"5-0", b"-5", b"1e1", b"5.0e0",
    b"0x5.0", b" 5.0", b"5.0 ", b"5 .0", b"5. 0", b"nan", b"inf", b"NaN", b"5.0\r", b"\x005.0",
    b"5.0\x00", b"5\x00.0", b"5.\xff", b"\xb25.0", b"\xd9\xa5.0", b"5\xc2\xb70", b"-0.00", b"-00.0",
    b"L- ", b"L-0", b"-0", b"0", b"L0", b"9.9", b"10.9", b"99.9", b"-9.9", b"-19.9")

KIND_TEXTS = (b"A3", b"A1", b"I3", b"I1", b"a3", b"a1", b"i3", b"i1", b"A", b"3", b"", b"A2", b"I2",
              b"A33", b"AA3", b" A3", b"A3 ", b"I", b"L3", b"A\xb3", b"A\x003", b"?", b"3A",
              b"I11", b"A3A1", b"-", b"A-3", b"A0", b"\xef\xbb\xbfA3")

KEYS = (b"", b"k", b"-", b"--", b"9", b"Z" * 31, b"Z" * 32, b"Z" * 33, b"a" * 64, b"-" * 32,
        b"-" * 33, b"a b", b" a", b"a ", b"a_b", b"a.b", b"a/b", b"a:b", b"a@b", b"a[b", b"a`b",
        b"a{b", b"\x00", b"a\x00", b"\x7f", b"\x80", b"\xff", b"\xc3\xa4", b"a\r", b"?", b"a,b",
        b"A3", b"0", b"K-1", b"+", b"a/", b"a*", b"\xe2\x80\x93")


def edge_lines(seeded):
    octaves = [b"24.0", b"33.0", b"40.0", b"43.0", b"44.0"]
    lines = []
    for place, text in enumerate(BAND_TEXTS):
        texts = list(octaves)
        texts[place % 5] = text
        lines.append(line_of_texts(b"A1", b"band-%d" % place, texts))
        lines.append(line_of_texts(b"I3", b"band-%d" % place, [text]))
    for place, text in enumerate(KIND_TEXTS):
        for bands in (5, 16):
            lines.append(line_of_texts(text, b"kind-%d" % place, bands * [b"48.5"]))
    lines += [line_of_texts(b"A1", key, octaves) for key in KEYS]
    lines += tab_lines() + count_lines() + order_lines() + length_lines(seeded)
    lines += ending_lines(seeded)
    return lines


def tab_lines():
    """Tabs too many, too few, in the wrong place, or another mark for them."""
    good = line_of(A1, b"tabs", [240, 330, 400, 430, 440])
    body = good[:-1]
    fields = body.split(b"\t")
    lines = [b"\t" + good, body + b"\t\n", body + b"\t\t\n", b"\t\n", b"\t\t\n", b"\t\t\t\n"]
    for place in range(1, len(fields)):
        head, tail = b"\t".join(fields[:place]), b"\t".join(fields[place:])
        for mark in (b"\t\t", b"", b" ", b",", b";", b" \t", b"\t ", b"\x0b", b"\x00", b"\t\x00"):
            lines.append(head + mark + tail + b"\n")
        lines.append(head + b"\n")
        lines.append(head + b"\t\n")
    return lines


def count_lines():
    """Every number of bands from 0 to 60 for each kind, and many missing ones."""
    lines = []
    for kind in KINDS:
        name = kind.name.encode()
        for count in range(61):
            lines.append(line_of_texts(name, b"n%d" % count, count * [b"45.5"]))
        for count in (100, 200, 240, 252, 253, 254, 300):
            lines.append(line_of_texts(name, b"n", count * [b"-"]))
    return lines


def order_lines():
    """Which refusal comes first."""
    lines = []
    for kind in (A1, I1, A3, I3):
        name = kind.name.encode()
        for first in (b"-", b"150.1", b"-20.1", b"-0.0"):
            for second in (b"-", b"150.1", b"999.9", b"x"):
                texts = kind.bands * [b"40.0"]
                texts[1], texts[3] = first, second
                lines.append(line_of_texts(name, b"order", texts))
                lines.append(line_of_texts(name, b"order", texts[:-1]))
                lines.append(line_of_texts(name, b"order", texts + [b"40.0"]))
        lines += [line_of_texts(name, b"ends", [b"150.1"] + (kind.bands - 1) * [b"40.0"]),
                  line_of_texts(name, b"ends", (kind.bands - 1) * [b"40.0"] + [b"-20.1"]),
                  line_of_texts(name, b"ends", [b"-"] + (kind.bands - 1) * [b"40.0"]),
                  line_of_texts(name, b"ends", (kind.bands - 1) * [b"40.0"] + [b"-"]),
                  line_of_texts(name, b"ends", kind.bands * [b"-"]),
                  line_of_texts(name, b"ends", kind.bands * [b"L1.0"]),
                  line_of_texts(name, b"ends", (kind.bands - 1) * [b"1.0"] + [b"L1.0"])]
    return lines


def line_of_length(kind_text, length):
    """A line of request shape with exactly so many bytes."""
    bands = [b"50.0"] * ((length - 4) // 5 - 1)
    rest = length - len(line_of_texts(kind_text, b"", bands))
    return line_of_texts(kind_text, b"K" * rest, bands)


def length_lines(seeded):
    """Around 512 bytes, in request shape and not; the longest that is rated."""
    lines = []
    for length in (500, 510, 511, 512, 513, 514, 515, 600):
        for kind_text in (b"A3", b"A1", b"I3", b"I1"):
            lines.append(line_of_length(kind_text, length))
        lines.append(line_of_length(b"B3", length))
        lines.append((length - 1) * b"x" + b"\n")
        lines.append((length - 1) * b"\t" + b"\n")
        lines.append(bytes(seeded.below(256) or 1 for _ in range(length - 1)).replace(b"\n", b".")
                     + b"\n")
    longest_key = b"k" * 32
    lines.append(line_of(A3, longest_key, 16 * [-200], 0xFFFF))
    lines.append(line_of(I1, longest_key, 5 * [-199], 0x1F))
    return lines


def ending_lines(seeded):
    """CR LF, empty lines, NULs, high bytes, other line marks."""
    good = [good_line(seeded) for _ in range(20)]
    lines = [line[:-1] + b"\r\n" for line in good]
    lines += 5 * [b"\n"] + 3 * [b"\r\n"] + [b"\r\r\n", b" \n", b"\x00\n", b"\x00\x00\x00\n"]
    lines += [line[:-1] + end + b"\n" for line in good[:4]
              for end in (b"\x00", b"\x0b", b"\x0c", b"\x1a", b"\x85", b"\xe2\x80\xa8", b" ", b"#")]
    lines += [b"\xef\xbb\xbf" + good[0], b"\xff\xfe" + good[1], b"\x00" + good[2]]
    lines += [b"#comment\n", b"?\t?\t11\n", b"A3\tK\t0\t50\t0\t0\t5\t=\n", b"quit\n", b"A3\n",
              b"A3\tK\n"]
    lines += [bytes([byte]) + b"\n" for byte in range(256) if byte != 10]
    lines += [line.lower() for line in good[:5]]
    return lines


def long_lines(seeded):
    """Lines much longer than 512 bytes, some ending in what looks like a request."""
    good = line_of(A1, b"TAIL", [240, 330, 400, 430, 440])
    many = line_of_texts(b"A3", b"many", 40000 * [b"50.0"])[:199999] + b"\n"
    lines = [many, b"-" * 1023 + b"\n", b"\t-" * 3000 + b"\n",
             line_of_texts(b"I3", b"many", 2000 * [b"-"])]
    for length in (65535, 65536, 65537):
        lines.append((length - len(good)) * b"z" + good)
    for length in (513, 1024, 1025, 4096, 8192, 20000):
        lines.append((length - len(good) - 1) * b"\x00" + b"\t" + good)
        lines.append(good[:-1] + (length - len(good)) * b"\r" + b"\n")
        lines.append(line_of_length(b"A1", 512)[:-1] + (length - 512) * b"0" + b"\n")
    return lines


def mingled(seeded, lines, others):
    """The others spread among the lines, after the first four."""
    result = list(lines)
    for other in others:
        result.insert(seeded.between(4, len(result)), other)
    return result
