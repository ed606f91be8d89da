"""Holds the C door and the Python binding to the reference.

    python3 tests/outside/reference.py PROGRAM [WORDS..]

The reference's seeded inputs, of several seeds, are answered by the program `outside` (PROGRAM cases
WORDS.., PROGRAM lines WORDS.. and PROGRAM steps WORDS..), by the Python binding and by the reference;
all have to agree, of a register on every byte after every step.
"""

import struct
import subprocess
import sys
from multiprocessing import Pool
from pathlib import Path

sys.dont_write_bytecode = True
ROOT = Path(__file__).resolve().parents[2]
sys.path[:0] = [str(ROOT / "tests" / "reference"), str(ROOT / "bindings" / "python")]

import imbrolt
from cases import answer_of_case, sheet_numbers, text_of_numbers
from paper.lines import answers_of
from paper.quantities import Refused
from paper.register import ENTRY, SIZE
from inputs import MAKERS, SEED
from inputs.histories import histories, taken
from inputs.requests import request_data
from inputs.seeded import Seeded

SEEDS = (1, 2, 3)

# Operation 4, the intake of a time, is no call of its own: raw bands have it.
OPERATIONS = tuple(operation for operation in MAKERS if operation != 4)


def cases_of(seed):
    """All cases of a seed."""
    return [[operation, *numbers] for operation in OPERATIONS
            for numbers in MAKERS[operation](Seeded(SEED + 1000 * seed + operation))]


# The binding's answers to cases, as numbers.

def float_of(bits):
    return struct.unpack("<f", struct.pack("<I", bits))[0]


def values_of(length, values):
    """As many values as the case says; the line has no more than sixteen."""
    return (list(values) + max(0, length - len(values)) * [0])[:length]


def readings_of(length, pairs):
    given = [imbrolt.Reading(mark, float_of(bits)) for mark, bits in zip(pairs[::2], pairs[1::2])]
    return (given + max(0, length - len(given)) * [imbrolt.MISSING])[:length]


def lifted(kind, length, _marks, target, _places, *values):
    masks = imbrolt.lift(kind, values_of(length, values), target)
    return [len(masks), *masks]


def flat(bands):
    return [*bands.values, bands.marks]


BINDING = {
    1: lambda kind, length, marks, *values: sheet_numbers(
        imbrolt.rate(kind, values_of(length, values), marks)),
    2: lambda mark, bits: imbrolt.take_reading(imbrolt.Reading(mark, float_of(bits))),
    3: lambda kind, length, *pairs: sheet_numbers(
        imbrolt.rate_readings(kind, readings_of(length, pairs))),
    5: imbrolt.correct_field,
    6: lambda *levels: [imbrolt.correct_laboratory(*levels)],
    7: lambda *bits: imbrolt.standardized(*map(float_of, bits)),
    8: lambda length, marks, *values: flat(imbrolt.octaves(values_of(length, values), marks)),
    9: lambda length, *pairs: flat(imbrolt.specimens(readings_of(length, pairs))),
    10: lambda length, marks, *values: imbrolt.cover(values_of(length, values), marks),
    11: lambda side, length, *pairs: imbrolt.grade(side, readings_of(length, pairs)),
    12: lifted,
}


def answer_by_binding(case):
    operation, *numbers = case
    try:
        return [0, *BINDING[operation](*numbers)]
    except imbrolt.Refused as refused:
        return [int(refused.refusal)]


def binding_can(case, answer):
    """The binding lends places enough, so that it is never refused for too few."""
    return case[0] != 12 or answer != [10]


# Steps on a register: their text, and their answers as the program `outside` writes them.

def text_of_step(step):
    """Words parted by one space; data and keys in hexadecimal, `-` for none."""
    name, *rest = step
    if name == "bill":
        call, places = rest
        rest = (call.customer, call.key, call.number, call.band_set.marks, call.price, places,
                *call.band_set.values)
    words = [(word.hex() or "-") if isinstance(word, bytes) else str(word) for word in rest]
    return " ".join([name, *words])


def changes(before, after):
    """Each run of bytes that changed, its place and what is there now."""
    if before == after:
        return ""
    blocks = [start for start in range(0, SIZE, ENTRY.size)
              if before[start:start + ENTRY.size] != after[start:start + ENTRY.size]]
    places = {place for start in blocks for place in range(start, min(start + ENTRY.size, SIZE))
              if before[place] != after[place]}
    starts = sorted(place for place in places if place - 1 not in places)
    ends = sorted(place + 1 for place in places if place + 1 not in places)
    return "".join(f" @{start}:{after[start:end].hex()}" for start, end in zip(starts, ends))


def text_of_answer(step, refused, answer, before, after):
    """A step's answer; of a call with what it changed."""
    if step[0] == "read":
        return after.hex()
    if step[0] in ("open", "put"):
        return "0"
    numbers = [refused]
    if refused == 0:
        numbers += [*sheet_numbers(answer[0]), answer[1]] if step[0] == "bill" else [answer]
    return text_of_numbers(numbers).rstrip() + changes(before, after)


def answer_by_reference(memory, step):
    """A step's answer by the reference, on the bytes of a register."""
    before = bytes(memory)
    refused, answer = 0, None
    try:
        answer = taken(memory, step)
    except Refused as refusal:
        refused = refusal.number
    return text_of_answer(step, refused, answer, before, bytes(memory))


def step_by_binding(register, step):
    """A step's answer by the binding, and the register after it."""
    before = register.to_bytes()
    refused, answer = 0, None
    try:
        if step[0] == "open":
            register = imbrolt.open_register()
        elif step[0] == "put":
            place, data = step[1:]
            register = imbrolt.Register.from_bytes(
                before[:place] + data + before[place + len(data):])
        elif step[0] == "bill":
            call = step[1]
            answer = register.bill(call.customer, call.key, call.number, call.band_set.values,
                                   call.price, call.band_set.marks)
        elif step[0] in ("owed", "close"):
            answer = getattr(register, step[0])(step[1])
    except imbrolt.Refused as refusal:
        refused = int(refusal.refusal)
    return text_of_answer(step, refused, answer, before, register.to_bytes()), register


# The comparison.

class Differs(Exception):
    """The program itself found a difference and named it on standard error."""


def asked(mode, data, program):
    """What the program answers."""
    done = subprocess.run([program[0], mode, *program[1:]], input=data, stdout=subprocess.PIPE)
    if done.returncode:
        raise Differs(f"{mode} ended with status {done.returncode}")
    return done.stdout


def compare_cases(seed, program):
    """The number of cases, and the first difference or None."""
    cases = cases_of(seed)
    texts = [text_of_numbers(case) for case in cases]
    answered = asked("cases", "".join(texts).encode(), program).decode().splitlines(keepends=True)
    if len(answered) != len(cases):
        return len(cases), f"{len(answered)} answers to {len(cases)} cases"
    for case, text, answer in zip(cases, texts, answered):
        numbers = answer_of_case(case)
        wanted = text_of_numbers(numbers)
        if answer != wanted:
            return len(cases), f"case {text}  desk_c {answer}  reference {wanted}"
        if binding_can(case, numbers):
            bound = text_of_numbers(answer_by_binding(case))
            if bound != wanted:
                return len(cases), f"case {text}  binding {bound}  reference {wanted}"
    return len(cases), None


def compare_lines(seed, program):
    """The number of request lines, and the first difference or None."""
    data = request_data(SEED + seed)
    count = data.count(b"\n") + 1
    wanted = answers_of(data).splitlines()
    answered = asked("lines", data, program).splitlines()
    lines = data.split(b"\n")
    for line, answer, want in zip(lines, answered, wanted):
        if answer != want:
            return count, f"line {line[:600]!r}\n  desk_c {answer}\n  reference {want}\n"
    if len(answered) != len(wanted):
        return count, f"{len(answered)} answers to {len(wanted)} lines\n"
    return count, None


def compare_histories(seed, program):
    """The number of steps, and the first difference or None."""
    runs = histories(Seeded(SEED + 1000 * seed), times=2)
    steps = [step for run in runs for step in run]
    asked_text = "".join(text_of_step(step) + "\n" for step in steps)
    answered = asked("steps", asked_text.encode(), program).decode().splitlines()
    if len(answered) != len(steps):
        return len(steps), f"{len(answered)} answers to {len(steps)} steps"
    memory, register = bytearray(SIZE), imbrolt.open_register()
    for place, (step, answer) in enumerate(zip(steps, answered)):
        wanted = answer_by_reference(memory, step)
        texts = {"desk_c": answer}
        if wanted != "10":  # the binding always lends places enough
            texts["binding"], register = step_by_binding(register, step)
        for name, text in texts.items():
            if text != wanted:
                return len(steps), (f"step {place}, {text_of_step(step)[:600]}\n"
                                    f"  {name} {text[:600]}\n  reference {wanted[:600]}\n")
    return len(steps), None


def compare(work):
    which, seed, program = work
    try:
        return which(seed, program)
    except Differs as differs:
        return 0, str(differs)


def main():
    program = sys.argv[1:]
    works = [(which, seed, program) for seed in SEEDS
             for which in (compare_cases, compare_lines, compare_histories)]
    compared = 0
    with Pool(2) as pool:
        for count, difference in pool.imap(compare, works):
            compared += count
            if difference:
                print(f"outside: differs from the reference: {difference}")
                return 1
    print(f"outside: {compared} compared with the reference, 0 differ")
    return 0


if __name__ == "__main__":
    sys.exit(main())
