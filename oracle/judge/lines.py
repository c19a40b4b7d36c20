"""Lines: inside the limits lenient must say the same as the Rust but for the name of code 38, beyond them each by its own rule; strict must be lenient
where no piece is bad."""

from itertools import product

from generate import keys, lines as generator
from judge.tally import Tally, ask, in_parts
from reading import line as reading, reasons

AT_ONCE = 20_000
# The one word in which an entry departs from the Rust's: the name of code 38 (document 02 d).
CODE_38, RUST_NAME, OWN_NAME = " event=38 ", " name=DP_CON_CHANGE ", " name=LINK_RECOVERY "
NAME_ALONE = "entry that departs from the Rust in the name of 38 alone"


def by_rust(oracle):
    """What the Rust's answer lets us expect: the same, but for the name of 38. If the Rust names 38 otherwise, a text that no reader answers, so that it
    shows as a difference."""
    if CODE_38 not in oracle:
        return oracle.replace("none ", "refused ")
    if RUST_NAME not in oracle:
        return f"another name of 38 than{RUST_NAME}: {oracle}"
    return oracle.replace(RUST_NAME, OWN_NAME)


def dwords(answer):
    """The number of dwords that an entry's answer names."""
    return int(answer.rsplit(" dwords=", 1)[1].split(" ")[0])


def beyond(line, oracle):
    """Why the line stands outside the comparison and what the reading must say; none if inside."""
    first = 1 if line[:1] == b"#" else None
    if len(line) > reading.LONGEST:
        return "over 4,096 bytes", first or 2
    if line and max(line) >= 128:
        return "a byte of 128 or more", first or 3
    if oracle.startswith("entry ") and dwords(oracle) > reading.MOST_DWORDS:
        return "over 256 dwords", 16
    # The judged file takes the newline for a line and looks for a colon in it.
    if line == b"\n" and oracle == "none 4":
        return "a newline alone", 1
    return None


def bad_piece(line):
    """Is a piece of the line's data no hex number of 32 bits? As the reading of reasons finds and reads the pieces, in its own way."""
    return any(said.what != "value" for said in reasons.Line(line).pieces)


def strictly(line, lenient):
    """Strict by what lenient says: 1 to 15 are the same; else 18 if a piece is bad; else the same."""
    as_far = lenient.startswith("entry ") or lenient in ("refused 16", "refused 17")
    return "refused 18" if as_far and bad_piece(line) else lenient


def word(answer):
    """An answer as it is counted."""
    return "entry" if answer.startswith("entry ") else answer


def both(lenient, strict):
    """The answers of both choices as they are counted."""
    return f"lenient {word(lenient)}", f"strict {word(strict)}"


def counted(lenient, strict):
    """Both answers to a line that the Rust decides, as they are counted, and a third count where they depart from it in the name of 38."""
    return both(lenient, strict) + ((NAME_ALONE,) if CODE_38 in lenient else ())


def judge(tally, name, line, oracle):
    """Lenient by the Rust, and strict by that."""
    outside = beyond(line, oracle)
    expected = by_rust(oracle) if outside is None else f"refused {outside[1]}"
    said = reading.answer(line), reading.answer(line, strict=True)
    if said != (expected, strictly(line, expected)):
        return tally.differ(name, line, (expected, strictly(line, expected)), said)
    if outside is not None:
        return tally.beyond(name, f"{outside[0]}: reading {', '.join(both(*said))}, oracle {word(oracle)}")
    return tally.all_same(name, counted(*said))


def compare(seed, count, short, generate=generator.generate):
    tally = Tally()
    for some in in_parts(generate(seed, count, short), AT_ONCE):
        judge_all(tally, some)
    tally.must_meet("strict refused 18")
    tally.must_meet(NAME_ALONE)
    return tally


def compare_keys(seed, count, short):
    """Lines of repeated keys, an entry and each number that hangs on a key among the answers."""
    tally = compare(seed, count, short, keys.generate)
    for choice, answer in product(("lenient", "strict"), keys.ANSWERS):
        tally.must_meet(f"{choice} {answer}")
    return tally


def judge_all(tally, some):
    for (name, line), oracle in zip(some, ask("lines", [line for _, line in some])):
        judge(tally, name, line, oracle)
