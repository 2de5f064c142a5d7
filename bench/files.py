"""The files that are measured. They are made the same each time."""

MOST_FILE = 65_535
MOST_TEXT = 2_048
WORTH = {"1": 10, "0": 0, "=": 5, "W": 10, "L": 0, "D": 5, "+": 10, "-": 0, "H": 5, "F": 10, "U": 10, "Z": 0, " ": 5}
UNKNOWN = ["  "]
GAMES = ["10", "01", "==", "10", "01", "WL", "LW", "DD", "+-", "10", "=="]
SET_BY_ARBITER = ["00", "=0", "0=", "=0", "0="]  # five: of three, `entries` would give every game of a round the same one
TITLES = ["GM ", "IM ", "WGM", "FM ", "WIM", "CM ", "WFM", "WCM", "   "]


def pairings(players, rounds):
    """Everybody meets another in each round (the circle method): per round the pairs of places. One of an odd number is left over, a new one each time."""
    circle = list(range(players + players % 2))
    for _ in range(rounds):
        yield [pair for pair in zip(circle, reversed(circle[len(circle) // 2:])) if max(pair) < players]
        circle = [circle[0], circle[-1]] + circle[1:-1]


def entries(players, rounds, starts, byes, games):
    """Per player the entries of its rounds: opponent, colour, result. Who is left over has U. With byes, one pair of each round has two of them.
    The games end as the list says, in turn."""
    table = [[(0, "-", "U")] * rounds for _ in range(players)]
    for r, pairs in enumerate(pairings(players, rounds)):
        for i, (one, other) in enumerate(pairs):
            if byes and i == r % len(pairs):
                table[one][r], table[other][r] = (0, "-", "U"), (0, "-", "HFZ"[r % 3])
                continue
            white, black = (one, other) if (r + i) % 2 else (other, one)
            results = games[(7 * r + 3 * i) % len(games)]
            table[white][r], table[black][r] = (starts[black], "w", results[0]), (starts[white], "b", results[1])
    return table


def misfit(table, players):
    """The two results of one game no longer fit: of all games the one whose first player stands last."""
    one, r, other = max((min(pair), r, max(pair)) for r, pairs in enumerate(pairings(players, len(table[0]))) for pair in pairs)
    for place in (one, other):
        table[place][r] = (*table[place][r][:2], "1")


def points(tenths, fill=" "):
    return f"{tenths // 10:{fill}>2d}.{tenths % 10}"


def player_line(start, place, row, more=0):
    name = f"Familyname{chr(97 + place % 26) * (place % 9 + 3)}, Givenname{chr(97 + place % 23)}"
    kept = (f"{'mw '[place % 3]}{TITLES[place % 9]} {name:33.33s} {1200 + 7 * place % 1600:4d} {['GER', 'NOR', 'ITA', 'IND'][place % 4]} "
            f"{1_000_000 + 8_191 * place:11d} {1950 + place % 60}/{place % 12 + 1:02d}/{place % 28 + 1:02d}")
    assert len(kept) == 70
    total = sum(WORTH[result] for _, _, result in row) + more
    rounds = "".join(f"  {'0000' if opponent == 0 else f'{opponent:4d}'} {colour} {result}" for opponent, colour, result in row)
    return f"001 {start:4d} {kept} {points(total)} {place + 1:4d}{rounds}\r"


def text_of(size):
    """Kept lines of a usual kind, filled up to the size by long lines of 112."""
    lines = "012 Open of the Town\r022 Town\r032 GER\r042 2026/01/02\r052 2026/01/11\r062 200\r092 Individual: Swiss-System\r102 A. Arbiter\r122 90 min, 30 s\r"
    while len(lines) < size:
        room = min(513, size - len(lines))
        lines += "112 " + "x" * (room - 5) + "\r"
    return lines


def report(players, rounds, accelerations=0, text="012 Cup\r", starts=None, byes=False, wrong_last=False, misfits=False, games=GAMES):
    starts = starts or list(range(1, players + 1))
    table = entries(players, rounds, starts, byes, games)
    if misfits:
        misfit(table, players)
    lines = [text, f"142 {rounds}\r", "152 W\r", "162  W 1.0    D 0.5    L 0.0    A 0.0    P 1.0    X 0.5\r"]
    lines += [f"250      01.0 {i % 20 + 1:03d} {i % 20 + 1:03d} {1 + 100 * (i // 20):04d} {100 + 100 * (i // 20):04d}\r" for i in range(accelerations)]
    lines += [player_line(starts[p], p, table[p], 1 if wrong_last and p == players - 1 else 0) for p in range(players)]
    return "".join(lines).encode()


def filled(line):
    """A file of the greatest size that holds this line again and again, then empty lines."""
    return (line * (MOST_FILE // len(line))).ljust(MOST_FILE, b"\r")


def largest(**more):
    return report(200, 20, 32, text_of(MOST_TEXT), **more)


def measured():
    """Name, file, and where that is refused by the last check also the file whose reading, with the last points wrong, the writer and the question refuse so."""
    return [
        ("small: 2 players, 1 round", report(2, 1), None),
        ("middle: 60 players, 9 rounds, byes", report(60, 9, text=text_of(200), byes=True), None),
        ("largest: 200 players, 20 rounds, 32 accelerations, 2,048 bytes of text", largest(), None),
        ("largest, start numbers from 9999 down", largest(starts=list(range(9999, 9799, -1))), None),
        ("largest, text in 511 lines", report(200, 20, 32, "012 xyz\r" + "112\r" * 510), None),
        ("largest, refused at the last check (16 at the last player)", largest(wrong_last=True), largest()),
        ("65,535 bytes of CR", filled(b"\r"), None),
        ("65,535 bytes of comments", filled(b"###\r"), None),
        ("65,535 bytes of long comments", filled(b"###" + b"x" * 509 + b"\r"), None),
        ("65,535 bytes of long lines of blanks", filled(b" " * 512 + b"\r"), None),
        ("one line of 65,535 bytes", b"x" * MOST_FILE, None),
        ("largest, every game set by the arbiter (0 with 0, = with 0)", largest(games=SET_BY_ARBITER), None),
        ("largest, refused by 14 at the last game that 14 can name", largest(misfits=True), None),
        ("largest, no result of a game known yet", largest(games=UNKNOWN), None),
    ]


def growing():
    """Two series: what grows, and its sizes with their files."""
    return [
        ("player", [(players, report(players, 20)) for players in (25, 50, 100, 200)]),
        ("round", [(rounds, report(200, rounds)) for rounds in (5, 10, 20)]),
    ]
