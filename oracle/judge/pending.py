"""The proved calls over a table of requests beside the reading: every report, every slot behind each step, and the counts."""

from generate import histories as generator
from generate.seed import Seed
from judge.table import Table
from judge.tally import Tally
from reading import pending
from reading.texts import Refused


# No rank, also where only its lower bits count.
PAST = 65, 129, 257, 2**16 + 1, 2**31 + 1, 2**32 - 1


def outcome(call, *given):
    """What the reading answers, or its number."""
    try:
        return call(*given)
    except Refused as refusal:
        return refusal.number


def asked(table, reading, slots, ks):
    """What `waiting` and `oldest` say, and what the reading would have them say."""
    waiting = outcome(reading.queue, slots)
    refused = isinstance(waiting, int)
    expected, got = [waiting if refused else ("count", len(waiting))], [table.waiting()]
    for k in ks:
        lies = ("at", waiting[k - 1]) if not refused and 1 <= k <= len(waiting) else "nowhere"
        expected.append(waiting if refused else lies)
        got.append(table.oldest(k))
    return expected, got


def judge_step(table, reading, slots, made, ks):
    """What is expected and what was seen of one step, and the reading's slots behind it."""
    said = outcome(reading.step, reading.heard(made), slots)
    report, behind = (said, slots) if isinstance(said, int) else (said[:2], said[2])
    got = table.step(made)
    questions, answers = asked(table, reading, behind, ks)
    return (report, list(behind), questions), (got, table.held(), answers), behind


class Counts:
    """A history from a good table, counted from its reports, and the plain list of what waits."""

    def __init__(self, reading, slots):
        self.reading, self.most, self.moved = reading, len(slots), 0
        waiting = outcome(reading.queue, slots)
        self.good = not isinstance(waiting, int)
        self.line = [reading.four_in(slots[place]) for place in waiting] if self.good else []
        self.before = len(self.line)

    def agrees(self, made, report, slots):
        """Waiting before and taken are answered and waiting after; and the list's word and fours are the table's."""
        if not self.good:
            return True
        word, self.line = self.reading.on_list(self.reading.heard(made), self.line, self.most)
        self.moved += {"taken": 1, "answered": -1}.get(report[0], 0)
        waiting = outcome(self.reading.queue, slots)
        return not isinstance(waiting, int) and len(waiting) == self.before + self.moved and (
            word == report[0]) and [self.reading.four_in(slots[place]) for place in waiting] == self.line


def judge_history(table, tally, reading, source, name, slots, listed):
    """Step by step until something differs; then all ranks, and the cleared table."""
    given, counts = generator.encoded(slots, listed), Counts(reading, slots)
    table.load(slots, b"".join(source.next().to_bytes(8, "little") for _ in range(15)))
    for number, made in enumerate(listed):
        expected, got, slots = judge_step(table, reading, slots, made, (number % (len(slots) + 2),))
        if expected != got:
            return tally.differ(name, given, f"step {number}: {expected}", str(got))
        if not counts.agrees(made, expected[0] if isinstance(expected[0], tuple) else ("refused",), slots):
            return tally.differ(name, given, f"step {number}: counts and list", str(got))
        tally.same(name, expected[0][0] if isinstance(expected[0], tuple) else f"refused {expected[0]}")
    expected, got = asked(table, reading, slots, (*range(len(slots) + 2), *PAST))
    if expected != got:
        return tally.differ(name, given, f"behind the last: {expected}", str(got))
    table.clear()
    if table.held() != [reading.FREE] * len(slots):
        return tally.differ(name, given, "a cleared table", str(table.held()))
    return None


def compare(seed, count, short=0, reading=pending, table=None, most=None):
    """All histories of `short` steps, if any; then generated ones of `count` steps or a few more. Ends earlier with `most` differences."""
    tally, source = Tally(), Seed(seed + 1)
    table = table or Table()
    for name, slots, listed in generator.all_short(short) if short else ():
        judge_history(table, tally, reading, source, name, slots, listed)
    before = tally.compared
    for name, slots, listed in generator.generate(seed):
        if tally.compared >= before + count or most is not None and len(tally.differences) >= most:
            return tally
        judge_history(table, tally, reading, source, name, slots, listed)
    return tally


# Frozen histories

def replay(table, data):
    """The rows of a history as the proved calls give them."""
    slots, listed = pending.decoded(data)
    table.load(slots, bytes(120))
    rows = []
    for made in listed:
        said = table.step(made)
        if not isinstance(said, tuple):
            rows.append(f"refused {said}")
            continue
        waiting = table.waiting()
        places = [table.oldest(k) for k in range(1, waiting[1] + 1)] if isinstance(waiting, tuple) else [waiting]
        rows.append(pending.row(*said, [place[1] if isinstance(place, tuple) else place for place in places]))
    behind = table.held()
    return "\n".join(rows + ["torn" if behind is None else pending.table_row(behind)])
