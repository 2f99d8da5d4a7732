"""The tables of docs/BENCHMARK.md."""

from measuring import SIZES

# The seventeen works, each with the name of its case.
WORKS = {
    "write": "write",
    "read": "read",
    "repair-clean": "repair, clean tile",
    "repair-column": "repair, one hurt column",
    "repair-text-column": "repair, one hurt column of the text",
    "repair-row": "repair, one hurt row",
    "inspect-column": "inspect, one hurt column",
    "recover-clean": "recover, clean tile",
    "recover-text-column": "recover, one hurt column of the text",
    "recover-row": "recover, one hurt row",
    "fill-columns": "fill, two columns",
    "fill-rows": "fill, two rows",
    "fill-crossed": "fill, a row with a column",
    "judge": "judge, a row with a column",
    "correct-1": "correct, 1 record",
    "correct-100": "correct, 100 records",
    "lay": "lay, a flagged record",
}

# Who else does a work: the peer, how the table names it, and its case.
OTHERS = {
    "write": [("ISA-L", "ISA-L, encode", "isal-encode"), ("Jerasure", "Jerasure, encode", "jerasure-encode")],
    "fill-columns": [
        ("ISA-L", "ISA-L, matrix inverted before", "isal-decode"),
        ("ISA-L", "ISA-L, matrix inverted in the call", "isal-invert-and-decode"),
        ("Jerasure", "Jerasure, matrix inverted in the call", "jerasure-invert-and-decode"),
    ],
}

# Bursts at the end of the last column or row: of 2 to 8 bytes, each with a random change of its own, or all with the same.
BURSTS = {
    line: [f"repair-{line}-burst-{change}-{count}" for change in ["random", "same"] for count in range(2, 9)] for line in ["column", "row"]}

# Damages at the far end of the search, each with its cases, which the library alone is held to. Of several the table shows the dearest.
WORST = "the worst that was found"
DAMAGES = {
    "a lone byte": ["repair-byte"],
    "a burst of 2 to 8 bytes in the last column": BURSTS["column"],
    "a burst of 2 to 8 bytes in the last row": BURSTS["row"],
    "the last column overwritten with one byte": ["repair-column-overwritten"],
    "the last row overwritten with one byte": ["repair-row-overwritten"],
    "the last column XORed with random bytes": ["repair-column"],
    "the last row XORed with random bytes": ["repair-row"],
    WORST: ["repair-worst"],
}

# Those of them that are timed.
TIMED = {"repair-byte": "repair, a lone byte in the last cell", "repair-worst": "repair, the worst damage that was found"}

# What cases cost before, at version 0.6.0: their instructions, by case and size. They were counted once, by this benchmark, with the
# archive of that version and the C library of Debian 12. Where a size is missing, the case is not held to what it cost there.
BEFORE = {
    "read": {17: 3916, 127: 45280, 257: 116709},
    "repair-clean": {17: 3673, 127: 41752, 257: 107363},
    "repair-byte": {127: 132135, 257: 469386},
    "repair-column-burst-random-2": {127: 130282, 257: 465583},
    "repair-column-burst-random-3": {127: 128455, 257: 461806},
    "repair-column-burst-random-4": {127: 126658, 257: 458059},
    "repair-column-burst-random-5": {127: 124891, 257: 454342},
    "repair-column-burst-random-6": {127: 123139, 257: 450640},
    "repair-column-burst-random-7": {127: 121417, 257: 446968},
    "repair-column-burst-random-8": {127: 119725, 257: 443326},
    "repair-column-burst-same-2": {127: 130282, 257: 465583},
    "repair-column-burst-same-3": {127: 128455, 257: 461806},
    "repair-column-burst-same-4": {127: 126658, 257: 458059},
    "repair-column-burst-same-5": {127: 124906, 257: 454357},
    "repair-column-burst-same-6": {127: 123154, 257: 450655},
    "repair-column-burst-same-7": {127: 121432, 257: 446983},
    "repair-column-burst-same-8": {127: 119770, 257: 443371},
    "repair-row-burst-random-2": {127: 213212, 257: 811975},
    "repair-row-burst-random-3": {127: 207801, 257: 800714},
    "repair-row-burst-random-4": {127: 202495, 257: 789558},
    "repair-row-burst-random-5": {127: 197294, 257: 778507},
    "repair-row-burst-random-6": {127: 192183, 257: 767546},
    "repair-row-burst-random-7": {127: 187177, 257: 756690},
    "repair-row-burst-random-8": {127: 182276, 257: 745939},
    "repair-row-burst-same-2": {127: 213212, 257: 811975},
    "repair-row-burst-same-3": {127: 207801, 257: 800714},
    "repair-row-burst-same-4": {127: 202495, 257: 789558},
    "repair-row-burst-same-5": {127: 197309, 257: 778522},
    "repair-row-burst-same-6": {127: 192198, 257: 767561},
    "repair-row-burst-same-7": {127: 187192, 257: 756705},
    "repair-row-burst-same-8": {127: 182321, 257: 745984},
    "repair-column-overwritten": {127: 48706, 257: 120487},
    "repair-row-overwritten": {127: 50200, 257: 123483},
    "repair-column": {127: 48694, 257: 120490},
    "repair-row": {127: 50203, 257: 123521},
    "repair-worst": {127: 139066, 257: 498117},
}

FLOORS = [("each byte read once", "plain XOR", "plain-xor"), ("each byte copied", "memcpy", "plain-memcpy")]

# The goals: instructions of read for each byte; how many times what they cost before read and repair may cost; how many times what read
# costs the others may cost; how many times what repair or read of the same tile costs it may cost to recover or inspect that tile; and how
# much more a further row may cost a correction at the larger sizes than at the smaller ones. To copy the tile once, by memcpy, would make
# the last one about 1.3.
READ_GOALS = {127: 3.5, 257: 2.2}
# Each case is held beside what this very case cost before. The worst damage has no goal.
BESIDE_BEFORE_GOALS = {"read": (["read"], 1), "repair, clean tile": (["repair-clean"], 1)} | {
    "repair, " + damage: (cases, 5) for damage, cases in DAMAGES.items() if damage != WORST}
BESIDE_READ_GOALS = {"repair-clean": 1} | dict.fromkeys(["fill-columns", "fill-rows", "fill-crossed", "judge", "write"], 2)
# Recover is held beside the dearer of repair and read; of a hurt tile that is repair, since read refuses it.
SAME_TILE_GOALS = {
    "recover-clean": ("the dearer of repair and read", ["repair-clean", "read"], 1.1),
    "recover-text-column": ("repair", ["repair-text-column"], 1.1),
    "recover-row": ("repair", ["repair-row"], 1.1),
    "inspect-column": ("repair", ["repair-column"], 1),
}
FURTHER_ROW_GOAL = 1.05


def entries(peers, alone=()):
    """Each row of the large tables: the work, who does it, and the case; no case where the peer is not installed. `alone` are cases, and
    their works, that only the library is given."""
    for case, work in WORKS.items():
        yield work, "**Counterfrost**", "cf-" + case
        yield "", "independent implementation", "peer-" + case
        for peer, who, other in OTHERS.get(case, []):
            yield "", who, other if peer in peers else None
    for case, work in alone:
        yield work, "**Counterfrost**", "cf-" + case
    yield from FLOORS


def timed_entries(peers):
    return entries(peers, TIMED.items())


def cases_in(rows):
    return [case for _, _, case in rows if case is not None]


def counted_cases(peers):
    """The cases whose instructions are counted, each once."""
    damaged = ["cf-" + case for cases in DAMAGES.values() for case in cases]
    return list(dict.fromkeys(cases_in(entries(peers)) + damaged))


def timed_cases(peers):
    return cases_in(timed_entries(peers))


def table(head, rows):
    lines = ["| " + " | ".join(map(str, row)) + " |\n" for row in [head, *rows]]
    return lines[0] + "|---" * len(head) + "|\n" + "".join(lines[1:])


def figure(number):
    """Three digits that count, and all those before the point."""
    if number >= 100:
        return f"{number:,.0f}"
    if number >= 10:
        return f"{number:.1f}"
    return f"{number:.2f}" if number >= 0.1 else f"{number:.3f}"


def sizes(form):
    return [form.format(p) for p in SIZES]


def large_table(columns, cells, rows):
    """A table with a row for each entry and with these columns; `cells` gives those of a case."""
    missing = ["not installed"] + [""] * (len(columns) - 1)
    filled = ([work, who, *(missing if case is None else cells(case))] for work, who, case in rows)
    return table(["work", "by", *columns], filled)


def instructions_table(counts, peers):
    def cells(case):
        return [figure(counts[case, p] / (p - 1) ** 2) for p in SIZES]

    return large_table(sizes("p {}"), cells, entries(peers))


def time_table(times, peers):
    def cells(case):
        each = [figure(times[case, p] / (p - 1) ** 2) for p in SIZES]
        beside = [figure(times[case, p] / times["plain-xor", p]) for p in SIZES]
        return each + beside

    return large_table(sizes("p {}, ns") + sizes("p {}, of XOR"), cells, timed_entries(peers))


def times_before(counts, case, p):
    """How many times what it cost at version 0.6.0 a case costs now."""
    return counts["cf-" + case, p] / BEFORE[case][p]


def damages_table(counts):
    """Each damage by its dearest case at each size; where that is held beside what it cost before, also this and the ratio."""
    def cells(cases, p):
        case = max(cases, key=lambda each: counts["cf-" + each, p])
        now = figure(counts["cf-" + case, p])
        return [now, figure(BEFORE[case][p]), figure(times_before(counts, case, p))] if p in BEFORE[case] else [now]

    rows = ([damage, *(cell for p in SIZES for cell in cells(cases, p))] for damage, cases in DAMAGES.items())
    return table(["damage", "p 17", "p 127", "before", "times", "p 257", "before", "times"], rows)


def further_rows(counts):
    """What a row more costs a correction, between each size and the one before it."""
    def cost(p):
        return counts["cf-correct-1", p]

    return [(cost(p) - cost(before)) / (p - before) for before, p in zip(SIZES, SIZES[1:])]


def correct_table(counts):
    def row(p, further):
        one, hundred = counts["cf-correct-1", p], counts["cf-correct-100", p]
        return [p, figure((p - 1) ** 2), figure(one), further, figure(hundred), figure((hundred - one) / 99)]

    head = ["p", "bytes of the tile", "1 record", "each row more than at the size before", "100 records", "each record more"]
    return table(head, map(row, SIZES, ["", *map(figure, further_rows(counts))]))


def judged(measured, most):
    """What was measured, and whether it is at most what the goal says; it is judged before it is rounded."""
    return f"{figure(measured)}: {'met' if measured <= most else '**not met**'}"


def read_goal(counts, p):
    each = counts["cf-read", p] / (p - 1) ** 2
    return judged(each, READ_GOALS[p]) if p in READ_GOALS else figure(each)


def beside_before(counts, work, cases, most):
    """The row of a goal: how many times what it cost at version 0.6.0 a work costs; of several cases, the one that grew most."""
    def cell(p):
        measured = [times_before(counts, case, p) for case in cases if p in BEFORE[case]]
        return judged(max(measured), most) if measured else ""

    return [f"{work}: times what it was at 0.6.0", most, *map(cell, SIZES)]


def beside(counts, case, named, others, most):
    """The row of a goal: a work's instructions beside those of another work or, of several, of the dearest at each size."""
    measured = [counts["cf-" + case, p] / max(counts["cf-" + other, p] for other in others) for p in SIZES]
    return [f"{WORKS[case]}: instructions beside those of {named}", most, *(judged(each, most) for each in measured)]


def goals_table(counts):
    reading = ", ".join(f"{most} at p {p}" for p, most in READ_GOALS.items())
    rows = [["read, instructions for each byte", reading, *(read_goal(counts, p) for p in SIZES)]]
    rows += [beside_before(counts, work, *goal) for work, goal in BESIDE_BEFORE_GOALS.items()]
    rows += [beside(counts, case, "read", ["read"], most) for case, most in BESIDE_READ_GOALS.items()]
    rows += [beside(counts, case, *goal) for case, goal in SAME_TILE_GOALS.items()]
    small, large = further_rows(counts)
    growth = judged(large / small, FURTHER_ROW_GOAL)
    rows.append(["correct: a row more, beside a row more at the sizes before", FURTHER_ROW_GOAL, "", "", growth])
    return table(["what", "at most", *sizes("p {}")], rows)


def tables(counts, times, peers, made):
    timed = time_table(times, peers) if times else "Not measured: the machine only emulates the program.\n"
    parts = [
        made,
        "### The goals\n", goals_table(counts),
        "### Instructions for each byte of the tile\n", instructions_table(counts, peers),
        "### Instructions of a repair at the far end of the search\n", damages_table(counts),
        "### Instructions of a correction\n", correct_table(counts),
        "### Time for each byte of the tile\n", timed,
    ]
    return "\n".join(parts)
