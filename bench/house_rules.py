#!/usr/bin/env python3
"""Works the house rules of crates/scripts/data out anew, in Python, and compares.

    house_rules.py INTERPRETER [--write]

For each NAME.com there must be NAME.in, NAME.out, and here a function that says what the script has to write for that
input. The function knows the rule and the crosstable and nothing of the script. The last line of NAME.out has the steps,
which only an interpreter can tell: it comes from INTERPRETER. With --write the files NAME.out are written anew.
"""

import subprocess
import sys
from fractions import Fraction
from pathlib import Path

DATA = Path(__file__).resolve().parent.parent / "crates" / "scripts" / "data"

WORTH = {"1": 2, "+": 2, "U": 2, "=": 1, "H": 1, "0": 0, "-": 0, "Z": 0}


class Entry:
    """One round of a player: an opponent by number, a colour and a result, or a letter alone."""

    def __init__(self, word):
        self.is_game = word[0].isdigit()
        self.opponent = int(word[:-2]) if self.is_game else None
        self.colour = word[-2] if self.is_game else None
        self.mark = word[-1]
        self.halves = WORTH[self.mark]
        self.at_board = self.is_game and self.mark in "1=0"


class Player:
    """A line of the table. The text has one character for each byte, so twelve of a name are twelve bytes."""

    def __init__(self, number, line):
        words = [word for word in line.split(" ") if word]
        self.number = number
        self.name = words[0][:12]
        self.rating = int(words[1])
        self.entries = [Entry(word) for word in words[2:]]
        self.games = [entry for entry in self.entries if entry.is_game]
        self.board_games = [entry for entry in self.entries if entry.at_board]
        self.halves = sum(entry.halves for entry in self.entries)


def table(text):
    lines = [line for line in text.split("\n") if line]
    return [Player(number, line) for number, line in enumerate(lines, 1)]


def points(halves):
    return f"{halves // 2}.{5 * (halves % 2)}"


def each(players, row):
    """A line for each player."""
    return "".join(f"{row(player)}\n" for player in players)


def standings(players):
    return sorted(players, key=lambda p: (-p.halves, -p.rating))


def with_points(tiebreak):
    """The rule that shows names, points and a tie-break of the player and all players."""
    return lambda players: each(players, lambda p: f"{p.name} {points(p.halves)} {tiebreak(p, players)}")


def met(player, players):
    return [players[entry.opponent - 1] for entry in player.games]


def nearest(number):
    """Rounded to an int, a half upwards."""
    return (2 * number + 1) // 2 if number >= 0 else -((-2 * number + 1) // 2)


def rating_order(players):
    ordered = sorted(players, key=lambda p: -p.rating)
    return "".join(f"{place}. {p.name} {p.rating}\n" for place, p in enumerate(ordered, 1))


def next_bye(players):
    if len(players) % 2 == 0:
        return "nobody needs a bye\n"
    able = [p for p in players if not any(entry.mark in "U+" for entry in p.entries)]
    if not able:
        return "everybody has had one\n"
    return min(able, key=lambda p: (p.halves, p.rating)).name + "\n"


def forfeits(player):
    missed = sum(entry.mark in "-Z" for entry in player.entries)
    off = " struck off" if missed >= 2 else ""
    return f"{player.name} {points(player.halves)} of {len(player.board_games)}{off}"


def buchholz(player, players):
    return points(sum(p.halves for p in met(player, players)))


def median_buchholz(player, players):
    scores = sorted(p.halves for p in met(player, players))
    return points(sum(scores[1:-1]) if len(scores) > 2 else 0)


def buchholz_cut(player, players):
    scores = [players[e.opponent - 1].halves if e.at_board else player.halves for e in player.entries]
    return points(sum(scores) - min(scores, default=0))


def sonneborn_berger(player, players):
    total = sum(Fraction(e.halves, 2) * Fraction(players[e.opponent - 1].halves, 2) for e in player.board_games)
    return f"{float(total):.2f}"


def direct_encounter(player, players):
    return points(sum(e.halves for e in player.games if players[e.opponent - 1].halves == player.halves))


def koya(player, players):
    rounds = len(player.entries)
    return points(sum(e.halves for e in player.games if Fraction(players[e.opponent - 1].halves, 2) >= Fraction(rounds, 2)))


def progressive(player):
    total = sum(sum(e.halves for e in player.entries[: last + 1]) for last in range(len(player.entries)))
    return f"{player.name} {points(total)}"


def wins(player):
    won = [entry for entry in player.entries if entry.mark == "1"]
    return f"{player.name} {len(won)} {sum(entry.colour == 'b' for entry in won)}"


def colour_due(player):
    colours = "".join(entry.colour for entry in player.board_games)
    if not colours:
        return f"{player.name} either"
    other = {"w": "black", "b": "white"}
    balance = colours.count("w") - colours.count("b")
    if colours[-2:] in ("ww", "bb"):
        return f"{player.name} must {other[colours[-1]]}"
    if abs(balance) >= 2:
        return f"{player.name} must {'white' if balance < 0 else 'black'}"
    if balance == 0:
        return f"{player.name} may {other[colours[-1]]}"
    return f"{player.name} should {'white' if balance < 0 else 'black'}"


def average_rating(player, players):
    ratings = [players[e.opponent - 1].rating for e in player.board_games]
    return nearest(Fraction(sum(ratings), len(ratings))) if ratings else None


def average_opponent(players):
    return each(players, lambda p: f"{p.name} {'-' if (a := average_rating(p, players)) is None else a}")


DIFFERENCES = """0 7 14 21 29 36 43 50 57 65 72 80 87 95 102 110 117 125 133 141 149 158 166 175 184 193 202 211 220 230
240 251 262 273 284 296 309 322 336 351 366 383 401 422 444 470 501 538 589 677 800"""


def performance(players):
    differences = [int(word) for word in DIFFERENCES.split()]

    def row(player):
        average = average_rating(player, players)
        if average is None:
            return f"{player.name} -"
        share = nearest(Fraction(50 * sum(e.halves for e in player.board_games), len(player.board_games)))
        difference = differences[share - 50] if share >= 50 else -differences[50 - share]
        return f"{player.name} {average + difference}"

    return each(players, row)


EXPECTED_STEPS = """3 10 17 25 32 39 46 53 61 68 76 83 91 98 106 113 121 129 137 145 153 162 170 179 188 197 206 215 225 235
245 256 267 278 290 302 315 328 344 357 374 391"""


def rating_change(players):
    steps = [int(word) for word in EXPECTED_STEPS.split()]

    def expected(ahead):
        if ahead < 0:
            return 100 - expected(-ahead)
        return 50 + sum(min(ahead, 400) > step for step in steps)

    def row(player):
        gained = sum(50 * e.halves - expected(player.rating - players[e.opponent - 1].rating) for e in player.board_games)
        tenths = 2 * gained
        return f"{player.name} {'-' if tenths < 0 else '+'}{abs(tenths) // 10}.{abs(tenths) % 10}"

    return each(players, row)


def accelerated(players):
    upper = (len(players) + 1) // 2
    bonus = lambda p: 2 if p.number <= upper and len(p.entries) < 2 else 0
    return each(players, lambda p: f"{p.name} {points(p.halves + bonus(p))}")


def teams(players):
    told = ""
    for team in range(len(players) // 4):
        boards = players[4 * team : 4 * team + 4]
        rounds = [sum(match) for match in zip(*([e.halves for e in p.entries] for p in boards))]
        match_points = sum(2 if halves > 4 else halves == 4 for halves in rounds)
        told += f"team {team + 1}: {match_points} match points, {points(sum(rounds))} board points\n"
    return told


def half_byes(players):
    told = ""
    for player in players:
        marks = [entry.mark for entry in player.entries]
        if marks.count("H") > 2:
            told += f"{player.name} has too many\n"
        if "H" in marks[-2:]:
            told += f"{player.name} has one too late\n"
    return told


def late_entries(player):
    marks = "".join(entry.mark for entry in player.entries)
    missed = len(marks) - len(marks.lstrip("Z"))
    halves = player.halves + (0 if missed > 3 else min(missed, 2))
    return f"{player.name} {points(halves)}" + (f", came after round {missed}" if missed else "")


def prizes(players):
    purse = [50000, 30000, 20000, 10000]
    ordered = standings(players)
    told = ""
    place = 0
    while place < min(4, len(ordered)):
        group = [p for p in ordered if p.halves == ordered[place].halves]
        amount = sum(purse[place : place + len(group)]) // len(group)
        to = f"-{place + len(group)}" if len(group) > 1 else ""
        for p in group:
            told += f"{place + 1}{to}. {p.name} {points(p.halves)} {amount // 100}.{amount % 100:02}\n"
        place += len(group)
    return told


def floats(players):
    before = {p.number: sum(e.halves for e in p.entries[:-1]) for p in players}

    def direction(player):
        last = player.entries[-1]
        if last.mark == "U":
            return "down"
        if not last.is_game or last.mark == "-":
            return "-"
        own, other = before[player.number], before[last.opponent]
        return "down" if own > other else "up" if own < other else "-"

    return each(players, lambda p: f"{p.name} {direction(p)}")


def top_half(players):
    half = len(players) // 2
    told = ""
    for board, pair in enumerate(zip(players[:half], players[half:]), 1):
        first, second = pair if board % 2 else pair[::-1]
        told += f"{board}. {first.name} - {second.name}\n"
    return told + (f"{players[-1].name} has a bye\n" if len(players) % 2 else "")


def report(players):
    line = "+-----+--------------+------+------+\n"
    row = lambda place, p: f"| {place:3} | {p.name:12} | {p.rating:4} | {points(p.halves):>4} |\n"
    return line + "".join(row(place, p) for place, p in enumerate(standings(players), 1)) + line


def score_groups(players):
    told = ""
    for score in sorted({p.halves for p in players}, reverse=True):
        members = "".join(f" {p.number}" for p in players if p.halves == score)
        told += f"{points(score)}:{members}\n"
    return told


def mirror(players):
    answers = {"1": "0", "0": "1", "=": "=", "+": "-", "-": "+-"}
    told = ""
    wrong = 0
    for player in players:
        for number, entry in enumerate(player.entries, 1):
            if not entry.is_game:
                continue
            lines = [p for p in players if p.number == entry.opponent]
            other = lines[0].entries[number - 1] if lines and len(lines[0].entries) >= number else None
            fits = other is not None and other.is_game and other.opponent == player.number
            if not (fits and other.colour != entry.colour and other.mark in answers[entry.mark]):
                told += f"player {player.number}, round {number}\n"
                wrong += 1
    return f"{told}{wrong} wrong\n"


def not_yet_met(players):
    def row(player):
        seen = {entry.opponent for entry in player.games} | {player.number}
        return f"{player.number}:" + "".join(f" {p.number}" for p in players if p.number not in seen)

    return each(players, row)


def any_order(players):
    keys = [lambda p: -p.halves, lambda p: p.rating, lambda p: -len(p.games)]
    lists = (each(sorted(players, key=key), lambda p, key=key: f"{p.name} {abs(key(p))}") + "\n" for key in keys)
    return "".join(lists)


def certificate(players):
    winner = standings(players)[0]
    frame = "\\\\----------------------------------\\\\\n"
    told = frame + 'The club\'s "Spring Open"\nwas won by\n    ' + winner.name + "\n"
    told += f"with {points(winner.halves)} points.\nfalse unit\n"
    sign = ": '___________' ; [x] (arbiter)\n"
    return told + "signed" + sign + "Praha\\Brno" + sign + frame


def backwards(text):
    first = text.encode("latin-1")[:240]
    check = 7
    for byte in first:
        check = (byte + 31 * check) % 1000003
    return f"{check}\n{first[::-1].decode('latin-1')}\n"


def simultaneous(player):
    entry = player.entries[0]
    sign = {"0": "1", "=": "=", "1": "0"}.get(entry.mark, entry.mark) if entry.is_game else entry.mark
    return f"{sign} {player.name}" + (" medal" if entry.is_game and entry.mark in "1=" else "")


def rows(row):
    return lambda players: each(players, row)


RULES = {
    "points": rows(lambda p: f"{p.number} {p.name} {points(p.halves)}"),
    "rating-order": rating_order,
    "next-bye": next_bye,
    "forfeits": rows(forfeits),
    "buchholz": with_points(buchholz),
    "median-buchholz": with_points(median_buchholz),
    "buchholz-cut": with_points(buchholz_cut),
    "sonneborn-berger": with_points(sonneborn_berger),
    "direct-encounter": with_points(direct_encounter),
    "koya": with_points(koya),
    "progressive": rows(progressive),
    "wins": rows(wins),
    "colour-due": rows(colour_due),
    "average-opponent": average_opponent,
    "performance": performance,
    "rating-change": rating_change,
    "accelerated": accelerated,
    "teams": teams,
    "half-byes": half_byes,
    "late-entries": rows(late_entries),
    "prizes": prizes,
    "floats": floats,
    "top-half": top_half,
    "report": report,
    "score-groups": score_groups,
    "mirror": mirror,
    "not-yet-met": not_yet_met,
    "any-order": any_order,
    "certificate": certificate,
    "simultaneous": rows(simultaneous),
}


def at(needle, further=0):
    """Where something stands in a script, or further on from there."""
    return lambda script: script.index(needle) + further


# Scripts that are refused, or stop: what they write before, the number, the place, and the function that is named. The
# step at which an allowance is spent is left to the interpreter.
STOPS = {
    "stop-no-branch": ("1\n1\n", 31, at("(case it"), "worth"),
    "stop-no-games": ("2041\n", 32, at("(/ total games)"), "/"),
    "stop-ninth-board": (f"{0x2222}\n{0x22222222}\n", 33, at("(<< 2"), "<<"),
    # Of 1,000 cells 4, 9, 19, 39, 79, 159, 319 and 639 are in use before the copies.
    "stop-copies": ("".join(f"{n}\n" for n in range(9, 1, -1)), 34, at("(dup kept)"), "double"),
    # Three entries for each byte, one before the first and one for the print: the 333rd call finds one left for its `if`.
    "stop-too-deep": ("", 35, at("(< byte 0)"), "length"),
    "stop-all-orders": (f"{5 * 4 * 3 * 2}\n", 37, None, "orders"),
    "refused-used-twice": ("", 10, at("(count points)", 7), None),
    "refused-fresh-name": ("", 6, at("(more next rest)", 11), None),
    "refused-types": ("", 9, at("(if"), None),
    "refused-bracket": ("", 3, len, None),
}


def expected(name, script, source, last):
    """The output, and the last line. `last` is the interpreter's, for what only a run can tell."""
    if name not in STOPS:
        told = backwards(source) if name == "backwards" else RULES[name](table(source))
        return told, last if last.startswith("ended ") else "ended"
    told, number, place, function = STOPS[name]
    if place is None:
        place = lambda _: int(last.split()[3])
    if function is None:
        return told, f"refused {number} at {place(script)}"
    return told, f"fault {number} at {place(script)} in {function}"


def main():
    interpreter = sys.argv[1]
    write = "--write" in sys.argv
    agree = wrong = 0
    for path in sorted(DATA.glob("*.com")):
        source = path.with_suffix(".in").read_bytes()
        answer = subprocess.run([interpreter, path], input=source, stdout=subprocess.PIPE, check=True).stdout
        last = answer.decode("latin-1")[:-1].rsplit("\n", 1)[-1]
        script = path.read_bytes().decode("latin-1")
        wanted = "\n".join(expected(path.stem, script, source.decode("latin-1"), last)) + "\n"
        wanted = wanted.encode("latin-1")
        if write:
            path.with_suffix(".out").write_bytes(wanted)
        if answer == wanted == path.with_suffix(".out").read_bytes():
            agree += 1
        else:
            wrong += 1
            print(f"{path.stem}: wanted\n{wanted.decode('latin-1')}answered\n{answer.decode('latin-1')}")
    print(f"{agree} of {agree + wrong} agree")
    sys.exit(wrong > 0 or agree == 0)


main()
