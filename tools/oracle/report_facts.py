#!/usr/bin/env python3
"""Lays out the pages of studies from facts of an independent program, and compares the pages of studyreport with them.

    tools/oracle/report_facts.py check TABLES [NAME ..]    lines and pages of gallery scripts, each alone and all in one run, byte by byte
    tools/oracle/report_facts.py agree TABLES [SCRIPT ..]  the lines and the page of any script by one program: each fact of the lines has to
                                                           be in the page, and no other (without scripts, those of the gallery)
    tools/oracle/report_facts.py print NAME ..             what is expected of the scripts in one run: the whole file of pages
    tools/oracle/report_facts.py gate                      writes what the gate expects of the lines and pages of gallery, and of studyreport
    tools/oracle/report_facts.py facts                     writes into examples/NAME.lines which faults lose time alone, by the other lines, and which
                                                           nodes are mutual zugzwangs, by tools/oracle/finding/zugzwangs.txt

The facts are those of examples/NAME.lines and the games of PGN in examples/NAME.expected; both come from a program that shares
nothing with this repository; so does the list of all mutual zugzwangs. `agree` takes the lines of studyreport itself, and the games of
studybench. The layout is that of docs/REPORT.md, written here once more.
"""
import copy
import html
import os
import re
import subprocess
import sys
import unicodedata

TOP = os.path.abspath(os.path.join(os.path.dirname(os.path.abspath(__file__)), "..", ".."))
EXAMPLES = os.path.join(TOP, "examples")
KINDS = "KQRBNP"


# ---- positions, as far as moves in SAN need them

class Position:
    def __init__(self, men, white, passed=None):
        self.men, self.white, self.passed = men, white, passed  # {square: (is white, kind)}; the square that a pawn has just jumped over

    @staticmethod
    def of(fen):
        places, side, _, passed = fen.split()[:4]
        men = {}
        for row, rank in enumerate(places.split("/")):
            file = 0
            for letter in rank:
                if letter.isdigit():
                    file += int(letter)
                else:
                    men[(file, 7 - row)] = (letter.isupper(), letter.upper())
                    file += 1
        return Position(men, side == "w", None if passed == "-" else (ord(passed[0]) - 97, int(passed[1]) - 1))

    def known(self):
        """What tells it from other positions: the men, the side to move, and the square that a pawn has just jumped over."""
        return sorted(self.men.items()), self.white, self.passed

    def sorted(self):
        return sorted(self.men.items(), key=lambda m: (not m[1][0], KINDS.index(m[1][1]), m[0][1] * 8 + m[0][0]))

    def reaches(self, start, end, kind):
        (a, b), (c, d) = start, end
        x, y = c - a, d - b
        if kind == "N":
            return {abs(x), abs(y)} == {1, 2}
        if kind == "K":
            return max(abs(x), abs(y)) == 1
        straight, slanted = x == 0 or y == 0, abs(x) == abs(y)
        if (x, y) == (0, 0) or not (kind in "RQ" and straight or kind in "BQ" and slanted):
            return False
        step = ((x > 0) - (x < 0), (y > 0) - (y < 0))
        at = (a + step[0], b + step[1])
        while at != end:
            if at in self.men:
                return False
            at = (at[0] + step[0], at[1] + step[1])
        return True

    def attacked(self, square, white):
        for at, (side, kind) in self.men.items():
            if side != white:
                continue
            if kind == "P":
                if abs(at[0] - square[0]) == 1 and square[1] - at[1] == (1 if white else -1):
                    return True
            elif self.reaches(at, square, kind):
                return True
        return False

    def moves(self):
        """The legal moves: from, to, and what a pawn becomes."""
        found = []
        for at, (side, kind) in self.men.items():
            for end in ((x, y) for x in range(8) for y in range(8)):
                there = self.men.get(end)
                if side != self.white or end == at or there and there[0] == side:
                    continue
                if kind != "P":
                    fits = self.reaches(at, end, kind)
                else:
                    ahead = 1 if side else -1
                    far = at[1] == (1 if side else 6) and (at[0], at[1] + ahead) not in self.men
                    straight = at[0] == end[0] and there is None and (end[1] - at[1] == ahead or far and end[1] - at[1] == 2 * ahead)
                    takes = there is not None or end == self.passed
                    fits = straight or abs(at[0] - end[0]) == 1 and end[1] - at[1] == ahead and takes
                if not fits:
                    continue
                men = {square: man for square, man in self.men.items() if square not in (at, end)}
                if kind == "P" and end == self.passed:
                    men.pop((end[0], at[1]), None)
                men[end] = (side, kind)
                king = next(s for s, m in men.items() if m == (side, "K"))
                if not Position(men, not side).attacked(king, not side):
                    found += [(at, end, k) for k in ("QRBN" if kind == "P" and end[1] in (0, 7) else " ")]
        return found

    def played(self, san):
        move = re.fullmatch(r"([KQRBN])?([a-h])?([1-8])?(x)?([a-h][1-8])(=([QRBN]))?[+#]?", san)
        kind, file, rank, takes, end, _, promoted = move.groups()
        kind, end = kind or "P", (ord(end[0]) - 97, int(end[1]) - 1)
        ahead = 1 if self.white else -1
        found = []
        for at, (side, own) in self.men.items():
            if side != self.white or own != kind or file and at[0] != ord(file) - 97 or rank and at[1] != int(rank) - 1:
                continue
            if kind == "P":
                if takes:
                    fits = abs(at[0] - end[0]) == 1 and end[1] - at[1] == ahead
                else:
                    far = at[1] == (1 if self.white else 6) and (at[0], at[1] + ahead) not in self.men
                    fits = at[0] == end[0] and (end[1] - at[1] == ahead or far and end[1] - at[1] == 2 * ahead)
            else:
                fits = self.reaches(at, end, kind)
            if not fits:
                continue
            men = dict(self.men)
            del men[at]
            if kind == "P" and takes and end not in men:
                del men[(end[0], at[1])]
            men[end] = (self.white, promoted or kind)
            jumped = (at[0], at[1] + ahead) if kind == "P" and abs(end[1] - at[1]) == 2 else None
            after = Position(men, not self.white, jumped)
            king = next(s for s, m in men.items() if m == (self.white, "K"))
            if not after.attacked(king, not self.white):
                found.append(after)
        assert len(found) == 1, (san, self.men, found)
        return found[0]


# ---- a study: the tree of a game of PGN, and lines of facts

class Node:
    def __init__(self, san=None):
        self.san, self.value, self.mark, self.children = san, None, None, []


class Study:
    """The tree of a game, with positions and facts by path."""

    def __init__(self, pgn, facts):
        self.tags = dict(re.findall(r'^\[(\w+) "(.*)"\]$', pgn, re.M))
        self.unread = None  # the first line of it that was refused
        self.names = {}  # the originals of its tags
        self.fen = self.tags["FEN"]
        fields = self.fen.split()
        self.number = int(fields[5])
        self.facts = [f.split(" ") for f in facts]
        self.asked = re.search(r"^stipulation (.*): ", "\n".join(facts), re.M).group(1)
        self.verdict = re.search(r"^stipulation .*: (.*?), ", "\n".join(facts), re.M).group(1)
        self.start_value = re.search(r"^stipulation .*: .*?, (.*)$", "\n".join(facts), re.M).group(1)
        self.hero_white = self.asked.startswith("White")
        self.white_first = fields[1] == "w"
        body = pgn.split("\n\n", 1)[1]
        self.root = Node()
        self.parse(re.findall(r"\{[^}]*\}|\(|\)|\$\d+|[^\s(){}]+", " ".join(body.split())))
        self.position = {(): Position.of(self.fen)}
        self.node = {(): self.root}
        self.order = []
        self.walk((), self.root)

    def parse(self, tokens):
        tokens = tokens[1:]  # what the opening comment says is in the lines
        stack, at, before = [], self.root, None
        for token in tokens:
            if token == "(":
                stack.append((at, before))
                at = before
            elif token == ")":
                at, before = stack.pop()
            elif token.startswith("{"):
                words = token[1:-1].split("; ")
                at.value = words[0]
                if len(words) > 1:
                    at.mark = words[1]
            elif token == "$1":
                at.mark = "only"
            elif token == "$4":
                at.mark = "mistake"
            elif re.fullmatch(r"\d+\.+", token) or token in ("1-0", "0-1", "1/2-1/2", "*"):
                pass
            else:
                before, node = at, Node(token)
                at.children.append(node)
                at = node

    def walk(self, path, node):
        self.order.append(path)
        for place, child in enumerate(node.children):
            below = path + (place,)
            self.node[below] = child
            self.position[below] = self.position[path].played(child.san)
            self.walk(below, child)

    def hero(self, path):
        return self.position[path].white == self.hero_white

    def elsewhere(self, path, san):
        """The first move of the tree that leads to where this one from the node leads, by its name, if one does."""
        there = self.position[path].played(san).known()
        return next((self.label(other) for other in self.order if other and self.position[other].known() == there), "")

    def front(self, path):
        """The number before a move from the node at a path."""
        number = self.number + (len(path) + (0 if self.white_first else 1)) // 2
        return f"{number}{'.' if self.position[path].white else '...'} "

    def label(self, path):
        if not path:
            return "the start"
        return self.front(path[:-1]) + self.node[path].san

    def of(self, kind, path=None):
        wanted = None if path is None else ("root" if not path else ".".join(map(str, path)))
        return [f[1:] for f in self.facts if f[0] == kind and (wanted is None or f[1] == wanted)]


# ---- facts that follow from others

def sound_but_for(faults, time):
    """The verdict on a solution with so many faults, of which so many lose time alone."""
    if time == faults:
        return "sound but for loss of time"
    return f"unsound {faults}, {time} lose{'s' if time == 1 else ''} time alone"


def time_faults(facts):
    """How many `fault` lines are duals of which each other move loses time."""
    words = [fact.split(" ") for fact in facts if fact.startswith("fault ")]
    return sum(w[-4] == "dual" and w[-3] == w[-1] for w in words if w[-1] != "mistake")


def images(men):
    """The men in each placement that a symmetry gives, and whether colours are exchanged in it."""
    pawns = any(kind == "P" for _, kind in men.values())
    for swapped in (False, True):
        for turn in range(2 if pawns else 8):
            image = {}
            for (file, rank), (white, kind) in men.items():
                file = 7 - file if turn & 1 else file
                rank = 7 - rank if (turn & 2) // 2 != swapped else rank
                if turn & 4:
                    file, rank = rank, file
                image[(file, rank)] = (white != swapped, kind)
            yield frozenset(image.items()), swapped


def zugzwangs():
    """The men of all mutual zugzwangs, each in one placement, with what it is: `full`, `half white` or `half black`."""
    found = {}
    for line in read(TOP, "tools/oracle/finding/zugzwangs.txt").splitlines():
        if not line.startswith("#"):
            white, black = re.fullmatch(r".* 0 1 (draw|loss|win)(?: \d+)? (draw|loss|win)(?: \d+)?", line).groups()
            kind = {("loss", "loss"): "full", ("draw", "loss"): "half white", ("loss", "draw"): "half black"}[white, black]
            found[frozenset(Position.of(line).men.items())] = kind
    return found


ZUGZWANGS = {}


def zugzwang(position):
    """Of which kind of mutual zugzwang the position is, or None."""
    ZUGZWANGS.update(ZUGZWANGS or zugzwangs())
    captures = any(end == position.passed and position.men[at][1] == "P" and at[0] != end[0] for at, end, _ in position.moves())
    for image, swapped in [] if captures else images(position.men):
        if image in ZUGZWANGS:
            kind = ZUGZWANGS[image]
            return {"half white": "half black", "half black": "half white"}.get(kind, kind) if swapped else kind
    return None


def path_words(path):
    return ".".join(map(str, path)) or "root"


def with_facts(study, facts):
    """The lines of a study with those that follow from others."""
    plain = [fact for fact in facts if fact.split(" ")[0] not in ("waste", "zugzwang")]
    head = [fact for fact in plain if fact.split(" ")[0] in ("study", "stipulation", "empty", "fault")]
    time, verdict = time_faults(facts), study.verdict.split()
    if verdict[0] == "unsound" and time:
        head.append("waste " + sound_but_for(int(verdict[1]), time))
    rest = plain[len([fact for fact in head if not fact.startswith("waste ")]):]
    for path in study.order:
        words = path_words(path)
        head += [fact for fact in rest if fact.split(" ")[1] == words]
        if kind := zugzwang(study.position[path]):
            head.append(f"zugzwang {words} {kind}")
    assert len(head) >= len(plain)
    return head


# ---- words

def say(text):
    text = html.escape(text, quote=True).replace("&#x27;", "&#39;")
    return re.sub(r"[^\x20-\x7e]", lambda m: "\\x%02X" % ord(m.group()), text)


def inside(name, text, attributes=""):
    return f"<{name}{' ' + attributes if attributes else ''}>{text}</{name}>"


def moves_of(value):
    """In how many moves a value mates: of `win 45`, or of `White mates in 23`, or None."""
    if value == "mate":
        return 0
    if match := re.fullmatch(r"(?:White|Black) mates in (\d+)", value):
        return int(match.group(1))
    if match := re.fullmatch(r"(win|loss) (\d+)", value):
        n = int(match.group(2))
        return n // 2 + n % 2 if match.group(1) == "win" else n // 2
    return None


def value_words(white_to_move, value):
    """`win 45` in words."""
    if value == "draw":
        return "draw"
    if value == "loss 0":
        return "mate"
    winner = white_to_move == value.startswith("win")
    return f"{'White' if winner else 'Black'} mates in {moves_of(value)}"


def short(study, words):
    if words == "draw":
        return "="
    if words == "mate":
        return "#"
    return ("" if (words.startswith("White") == study.hero_white) else "-") + str(moves_of(words))


def spoken(square):
    return "abcdefgh"[square[0]] + str(square[1] + 1)


def control(position, white):
    return "".join(f" {kind}{spoken(at)}" for at, (side, kind) in position.sorted() if side == white)


def board(position, mini):
    words = f"White{control(position, True)}; Black{control(position, False)}; {'White' if position.white else 'Black'} to move"
    text = inside("title", say(words)) + '<use href="#board"/>' + ("" if mini else '<use href="#coordinates"/>')
    for at, (white, kind) in sorted(position.men.items(), key=lambda man: (man[0][1], man[0][0])):  # from a1 on
        text += f'<use class="{"w" if white else "b"}" href="#m{kind}" x="{45 * at[0]}" y="{45 * (7 - at[1])}" width="45" height="45"/>'
    if mini:
        return inside("svg", text, 'class="mini" role="img" viewBox="-3 -3 366 366"')
    return inside("svg", text, 'class="board" role="img" viewBox="-14 -3 377 380"')


def counts(position):
    men = list(position.men.values())
    white, black = sum(m[0] for m in men), sum(not m[0] for m in men)
    digits = "".join(str(men.count((True, k)) + 3 * men.count((False, k))) for k in "QRBN")
    kings = "".join(spoken(next(s for s, m in position.men.items() if m == (side, "K"))) for side in (True, False))
    return f"{white} + {black}, {digits}.{men.count((True, 'P'))}{men.count((False, 'P'))} {kings}"


# ---- the parts of a page

CYRILLIC = dict(zip("абвгдезийклмнопрстуфхцъыьэё", "a b v g d e z i j k l m n o p r s t u f kh c ' y ' e yo".split()),
                ж="zh", ч="ch", ш="sh", щ="shch", ю="yu", я="ya", і="i", ї="yi", є="ye", ў="u")
OTHERS = {"ß": "ss", "æ": "ae", "ø": "o", "ł": "l", "đ": "d", "ð": "d", "þ": "th", "œ": "oe", "ı": "i", "½": "1/2"}


def plain_letter(letter):
    """The plain letters for one letter of a name."""
    small = letter.lower()
    if found := CYRILLIC.get(small) or OTHERS.get(small):
        return found if letter == small else found[0].upper() + found[1:]
    bare = unicodedata.normalize("NFKD", letter)[0]
    return bare if " " <= bare <= "~" else "?"


def plain(original):
    """What studyimport writes for the text of a tag, read as bytes."""
    try:
        text = original.encode("latin-1").decode("utf-8")
    except UnicodeDecodeError:
        text = original
    return "".join(map(plain_letter, text)).strip()[:60].strip()


def printed(study, name):
    """What is printed for a tag, as HTML: its own letters, if the tag is what studyimport makes of them; nothing if it is not known."""
    tag, original = study.tags[name], study.names.get(name)
    if original and plain(original) == tag:
        return in_its_letters(original)
    return "" if tag in ("?", "????.??.??") else say(tag)


def head(study):
    by = [printed(study, "White"), printed(study, "Site"), re.sub(r"(\.\?\?){1,2}$", "", printed(study, "Date"))]
    by.append("entry " + printed(study, "Round") if printed(study, "Round") else "")
    return inside("header", inside("h1", printed(study, "Event") or "Untitled") + inside("p", " &#183; ".join(filter(None, by)), 'class="by"'))


def figure(study):
    p = study.position[()]
    caption = inside("b", say(study.asked)) + ("" if study.white_first else ", Black to move") + \
        inside("span", say(counts(p)), 'class="cnt"') + "<br>" + say(f"{control(p, True)} /{control(p, False)}") + \
        "<br>" + inside("code", say(study.fen))
    return inside("figure", board(p, False) + inside("figcaption", caption))


def longer(study, path, value):
    """How much later another move mates than the one that leads to the node."""
    other, own = moves_of(value), moves_of(study.node[path].value)
    if other is None or own is None or study.position[path].white == study.hero_white:
        return ""
    if other == own:
        return ", as quick"
    return f", {abs(other - own)} move{'' if abs(other - own) == 1 else 's'} {'longer' if own < other else 'quicker'}"


def lost_time(fact):
    """Whether another move loses time: what follows `time`, or None."""
    return int(fact[fact.index("time") + 1]) if "time" in fact else None


def also_value(fact):
    return " ".join(fact[2:fact.index("time")] if "time" in fact else fact[2:])


def named(study, path, fact):
    """Another move that holds beside the one that leads to the node, with what it costs in brackets."""
    later = longer(study, path, also_value(fact))
    cost = later + (", wastes time" if lost_time(fact) is not None and not later.endswith("quicker") else "")
    return fact[1] + (f" ({cost[2:]})" if cost else "")


def late(study, path):
    """By how many of his moves the hero mates too late for `mate in k`, at a node: 0 where he does not."""
    asked, value = re.fullmatch(r"(White|Black) to mate in (\d+)", study.asked), study.node[path].value
    if not asked or moves_of(value) is None or not (value.startswith(asked.group(1)) or value == "mate" and not study.hero(path)):
        return 0
    return max(0, sum(study.hero(path[:n]) for n in range(len(path))) + moves_of(value) - int(asked.group(2)))


def late_words(moves):
    return "" if moves == 0 else ", one move too late" if moves == 1 else f", {moves} moves too late"


def is_try(study, path):
    """Whether the hero's move to a node is a mistake, or the first idle move on a path to which the solution leads."""
    def idle(n):
        return study.hero(path[:n]) and study.node[path[:n + 1]].mark is None

    if not path or not study.hero(path[:-1]):
        return False
    mark, front = study.node[path].mark, range(len(path) - 1)
    leads = all(path[n] == 0 or not study.hero(path[:n]) for n in front)
    return mark == "mistake" or idle(len(path) - 1) and leads and not any(idle(n) for n in front)


def faults(study):
    items = ""
    for fact in study.of("fault"):
        path = () if fact[0] == "root" else tuple(map(int, fact[0].split(".")))
        label = study.label(path)
        if fact[-1] == "mistake":
            items += inside("li", say(f"{label} throws it away: {study.node[path].value}{late_words(late(study, path))}"))
        else:
            others = [named(study, path, also) for also in study.of("also", path)]
            more = f" and {len(others) - 6} more" if len(others) > 6 else ""
            items += inside("li", say(f"{label}: also {', '.join(others[:6])}{more}"))
    return inside("ul", items, 'class="faults"') if items else ""


def wrong_claim(asked, start, white_first):
    """What is wrong with a stipulation at a start of this value, as words after `wrong: ` or in place of a verdict; None if it is correct."""
    hero, goal = re.fullmatch(r"(White|Black) to (.*)", asked).groups()
    winner = ("Black" if white_first else "White") if start == "mate" else start.split()[0] if "mates" in start else None
    if goal == "draw":
        return f"wrong: {hero} wins" if winner == hero else None if winner is None else "does not draw"
    if goal == "win":
        return None if winner == hero else "does not win"
    asked_for = int(goal.split()[2])
    if winner == hero and moves_of(start) <= asked_for:
        return None if moves_of(start) == asked_for else f"wrong: {start}"
    return f"does not {goal}"


# how bad a dual is, the worst first
KINDS_OF_DUALS = ("cook", "main", "variations", "last", "time")


def is_main_defence(fact, given):
    """Whether a missing defence lasts at least as long as the one that is given, after which this is the value, and has one answer. A draw lasts longer
    than any mate, and as long as another draw; behind a move of the hero that fails nothing is asked."""
    draws = fact[2] == "draw"
    if given is None or fact[2] == "loss" or fact[3 if draws else 4] != "1":
        return False
    return draws or "mates" in given and moves_of(f"win {fact[3]}") >= moves_of(given)


class Facts:
    """What a judge asks of a solution beside its marks: its duals by their kinds and the worst in words, a refutation of its first mistake, and the
    first main defence that is not given. `of(kind)` has the facts of the lines, `label` names the node at a path, `front` is the number before a move
    from it, `children` has the numbers of children of its children, and `elsewhere` the move of the tree that leads to where another leads."""

    def __init__(self, faults, also, refuted, missing, value, label, front, children, elsewhere):
        self.counts, self.worst, self.reply, self.missing, self.mistake = dict.fromkeys(KINDS_OF_DUALS, 0), None, "", "", None
        found = {}
        for fact in faults:
            path = tuple(map(int, fact[0].split(".")))
            if fact[-1] == "mistake":
                if self.mistake is None:
                    self.mistake = label(path)
                    replies = [r[1] for r in refuted if r[0] == fact[0] and r[1] != "stalemate"]
                    self.reply = f": {front(path)}{replies[0]}" if replies else ""
                continue
            kind = "time" if fact[-3] == fact[-1] else "cook" if len(path) < 3 else "last" if not any(children(path)) else \
                "main" if not any(path) else "variations"
            self.counts[kind] += 1
            found.setdefault(kind, (path, fact[0]))
        for kind in reversed(KINDS_OF_DUALS):
            if kind in found:
                path, words = found[kind]
                others = [a for a in also if a[0] == words]
                other = next((a for a in others if lost_time(a) is None), others[0])[1]
                self.cook = f"cook: {front(path[:-1])}{other}" if kind == "cook" else None
                more = f" and {len(others) - 1} more" if len(others) > 1 else ""
                turn = max((n for n in range(1, len(path) + 1) if path[n - 1]), default=0)
                after = f" (after {label(path[:turn])})" if turn else ""
                self.worst = f"{label(path)}: also {other}{more}{', wastes time' if kind == 'time' else ''}{after}"
        for fact in missing:
            path = () if fact[0] == "root" else tuple(map(int, fact[0].split(".")))
            if not any(path) and is_main_defence(fact, value(path + (0,))) and not elsewhere(path, fact[1]):
                self.missing = f"{front(path)}{fact[1]}"
                break


def facts_of(study):
    """The facts of a study by its lines."""
    def value(path):
        return study.node[path].value if path in study.node else None

    return Facts(study.of("fault"), study.of("also"), study.of("refuted"), study.of("missing"), value, study.label, study.front,
                 lambda path: [len(child.children) for child in study.node[path].children], study.elsewhere)


def several(number, one, many):
    return "" if not number else f", {number} {one if number == 1 else many}"


class Judged:
    """The verdict on a study as a judge reads it: by what is asked for, the start's value and who moves there, the verdict of the lines, whether no move
    of the hero is given, and the facts of the solution."""

    def __init__(self, asked, start, white_first, verdict, empty, facts):
        wrong = wrong_claim(asked, start, white_first)
        duals = int(verdict.split()[1]) if verdict.startswith("unsound") else 0
        counts, self.worst = facts.counts, ""
        self.frame, self.shows = "sound", not wrong
        missing = f"; main defence {facts.missing} not given" if facts.missing else ""
        says = f" The main defence {facts.missing} is not given." if facts.missing else ""
        if wrong:
            self.stamp, self.frame = wrong, "wrong"
            self.words = "The stipulation is wrong: " + (wrong[7:] if wrong.startswith("wrong: ") else f"{asked.split()[0]} {wrong}") + "."
        elif facts.mistake:
            self.stamp, self.frame = f"fails at {facts.mistake}{facts.reply}", "wrong"
            self.words = f"The stipulation is correct, but the solution {self.stamp}."
        elif not duals:
            self.stamp = "correct, no solution yet" if empty else "sound" + missing
            self.words = "The stipulation is correct." if empty else \
                "The stipulation is correct, and every move of the solution is the only one that works." + says
        elif counts["time"] == duals:
            self.stamp, self.worst = "sound, duals waste time" + missing, facts.worst
            self.words = "The stipulation is correct, and the duals of the solution only waste time." + says
        elif facts.cook:
            self.stamp, self.frame, self.worst = facts.cook, "wrong", facts.worst
            self.words = f"The stipulation is correct, but another first move works: {facts.cook[6:]}."
        else:
            self.frame, self.worst = "unsound", facts.worst
            if counts["variations"] == duals:
                apart = " in a variation, none in the main line" if duals == 1 else " in variations, none in the main line"
            elif counts["last"] == duals:
                apart = " in the last move" if duals == 1 else " in last moves"
            else:
                apart = several(counts["variations"], "in a variation", "in variations") + several(counts["last"], "in a last move", "in last moves") \
                    + several(counts["time"], "wastes time", "waste time")
            self.stamp = f"{duals} dual{'' if duals == 1 else 's'}{apart}"
            self.words = f"The stipulation is correct; the solution has {self.stamp}."
            if counts["last"] + counts["time"] == duals:
                self.stamp, self.words = self.stamp + missing, self.words + says
        if empty:
            self.words += " The solution is not given yet."


def judged(study):
    """The verdict on a study."""
    found = Judged(study.asked, study.start_value, study.white_first, study.verdict, ["empty"] in study.facts, facts_of(study))
    if study.unread:
        found.stamp, found.frame, found.worst, found.shows = f"not read: line {study.unread}", "unsound", "", True
        found.words = "A line of this study could not be read, so there is no verdict."
    return found


def verdict(study):
    found = judged(study)
    return inside("section", inside("h2", inside("span", say(found.stamp), f'class="stamp {found.frame}"')) + inside("p", say(found.words))
                  + inside("p", say(f"At the start: {study.start_value}.")) + (faults(study) if found.shows else ""), 'class="verdict"')


def move_in_tree(study, path, numbered):
    node, before = study.node[path], study.position[path[:-1]]
    mark = (node.mark or ("reply" if before.white != study.hero_white else "idle")).split()
    text = (study.front(path[:-1]) if numbered or before.white else "") + node.san
    sign = {"only": inside("b", "!", 'class="s"'), "mistake": inside("b", "?", 'class="s"')}.get(mark[0], "")
    out = inside("span", say(text) + sign, f'class="m {mark[0]}"') + inside("sub", say(short(study, node.value)))
    if mark[0] == "dual":
        out += " " + inside("span", f"dual {mark[1]}", 'class="tag"')
    return out + " "


def following(study, path, numbered):
    children = study.node[path].children
    if not children:
        return ""
    out = move_in_tree(study, path + (0,), numbered)
    items = ""
    for place in range(1, len(children)):
        below = path + (place,)
        items += inside("li", move_in_tree(study, below, True) + following(study, below, False))
    return out + (inside("ul", items) if items else "") + following(study, path + (0,), len(children) > 1)


def facts_about(study, kind):
    """The nodes that have facts of a kind, in written order, with those facts."""
    for path in study.order:
        facts = study.of(kind, path)
        if facts:
            yield path, facts


def cards(study):
    out = ""
    if not judged(study).shows:
        return out
    for path, also in facts_about(study, "also"):
        before = study.position[path[:-1]]
        items = ""
        for fact in also:
            time, later = lost_time(fact), longer(study, path, also_value(fact))
            words = f": {value_words(not before.white, also_value(fact))}{later}"
            if time is not None and not later.endswith("quicker"):
                words += ", wastes time" + (f" ({time + 1} moves)" if time else "")
            items += inside("li", inside("b", say(fact[1])) + say(words))
        title = inside("h3", say(study.label(path) + " ") + inside("span", f"dual {len(also)}", 'class="tag"'))
        out += inside("div", board(before, True) + inside("div", title + inside("p", say(study.node[path].value + ". Also:"))
                                                          + inside("ul", items, 'class="also"')), 'class="card"')
    if not out:
        return ""
    note = "A move wastes time if the opponent can force the play back into the same line; if that takes him more than one move, their number is given."
    return inside("section", inside("h2", "Duals: other moves that also work") + inside("p", note, 'class="note"')
                  + inside("div", out, 'class="cards"'))


def table(heading, heads, rows):
    if not rows:
        return ""
    top = inside("thead", inside("tr", "".join(inside("th", h) for h in heads)))
    return inside("section", inside("h2", heading) + inside("table", top + inside("tbody", rows)))


def move_and_value(study, path, san, value):
    """A move of the opponent from the node at the path, and small the value after it."""
    words = value_words(not study.position[path].white, value)
    return inside("b", say(san)) + inside("sub", say(short(study, words)))


def legal(study, path):
    """How many legal moves the position at a path has."""
    return len(study.position[path].moves())


def tries(study):
    rows = ""
    for path in study.order:
        refuted, cell = study.of("refuted", path), ""
        if is_try(study, path) and study.node[path].value == "mate":  # of which the lines have no refutation
            cell = "mate" + late_words(late(study, path))
        elif not refuted:
            continue
        for fact in refuted:
            if fact[1:] == ["stalemate"]:
                cell += "stalemate"
            else:
                cell += inside("span", move_and_value(study, path, fact[1], " ".join(fact[2:])), 'class="nb"') + " "
        if refuted and refuted[0][1:] != ["stalemate"]:
            cell += inside("b", "only") if len(refuted) == 1 else inside("small", f"({len(refuted)} of {legal(study, path)})")
        rows += inside("tr", inside("td", say(study.label(path))) + inside("td", say(study.node[path].value)) + inside("td", cell))
    return table("Tries and their refutations", ("After", "Result", "Refuted by"), rows)


def zugzwang_rows(study):
    rows = ""
    for path, facts in facts_about(study, "zugzwang"):
        kind = facts[0][1:]
        white = "draw" if kind == ["half", "white"] else "Black wins"
        black = "draw" if kind == ["half", "black"] else "White wins"
        label = inside("span", "full point" if kind == ["full"] else "half a point", 'class="tag"')
        rows += inside("tr", inside("td", say(study.label(path)) + " " + label) + inside("td", white) + inside("td", black))
    return table("Mutual zugzwangs", ("After", "White to move", "Black to move"), rows)


def defences(study):
    rows = ""
    for path, missing in facts_about(study, "missing"):
        first = study.node.get(path + (0,))
        main = [f for f in missing if is_main_defence(f, first.value if first else None) and not study.elsewhere(path, f[1])]
        groups = {}
        for fact in main:
            value = "draw" if fact[2] == "draw" else " ".join(fact[2:4])
            groups[fact[-1]] = groups.get(fact[-1], "") + inside("span", move_and_value(study, path, fact[1], value), 'class="nb"') + " "
        named = "".join(inside("div", inside("i", say(answer)) + " after " + moves) for answer, moves in groups.items())
        all_moves, others = legal(study, path), len(missing) - len(main)
        twins = [(fact[1], study.elsewhere(path, fact[1])) for fact in missing]
        answered = inside("small", say(f"answers {all_moves - len(missing)} of {all_moves}" +
                                       "".join(f", {san} (as after {twin})" for san, twin in twins if twin)))
        rows += inside("tr", inside("td", say(study.label(path)) + "<br>" + answered) + inside("td", named) +
                       inside("td", say(f"{others} other{'' if others == 1 else 's'}" if others else "")))
    return table("Defences not given", ("After", "Main defences", "Others"), rows)


def ends(study):
    rows = ""
    for path in study.order:
        words = ""
        for fact in study.of("play", path):
            moves, at = fact[3:], study.position[path]
            for k, san in enumerate(moves):
                number = study.number + (len(path) + k + (0 if study.white_first else 1)) // 2
                if k == 0 or at.white:
                    words += f"{number}{'.' if at.white else '...'} "
                words += san + " "
                at = at.played(san)
        for fact in study.of("keep", path):
            words = f"{fact[1]} of {fact[2]} moves keep the draw:" + "".join(" " + san for san in fact[3:])
        if words:
            value = study.node[path].value if path else study.start_value
            rows += inside("tr", inside("td", say(study.label(path))) + inside("td", say(value)) + inside("td", say(words)))
    return table("Best play after the last move given", ("After", "Value", "Continuation"), rows)


FOOT = ("Values come from complete distance-to-mate tables for two to four men, without castling, the fifty-move rule and repetition. "
        "A dual is another move that also wins, or draws if the task is to draw, even if it only wastes time. "
        "A small number is the number of moves to mate; with a minus sign, the side that has the task is mated; = is a draw, and # is mate.")


def page(study, number):
    return inside("article", inside("p", f"No. {number}", 'class="note"') + head(study) + inside("div", figure(study) + verdict(study), 'class="top"')
                  + inside("section", inside("h2", "Solution") + inside("div", following(study, (), True), 'class="tree"'))
                  + cards(study) + tries(study) + zugzwang_rows(study) + defences(study) + ends(study) + inside("footer", FOOT), f'id="e{number}"')


def left_out_row(line, number):
    """The row of a game without a block, from its comment: its number, its place among the games, and why."""
    place, _, why = line[3:].partition(":")
    return inside("tr", inside("td", str(number)) + inside("td", say(place)) + inside("td", "") + inside("td", "")
                  + inside("td", say(why[1:] + meaning(line))))


def verdict_cell(found):
    """A verdict, and the worst dual below it."""
    return inside("td", say(found.stamp) + ("<br>" + inside("small", say(found.worst)) if found.worst else ""))


def summary(entries):
    """The list of entries: studies, and comments on games without a block."""
    rows = ""
    for number, study in enumerate(entries, 1):
        if isinstance(study, str):
            rows += left_out_row(study, number)
            continue
        event, white = printed(study, "Event") or "Untitled", printed(study, "White")
        rows += inside("tr", inside("td", str(number)) + inside("td", inside("a", event, f'href="#e{number}"')) + inside("td", white)
                       + inside("td", say(study.asked)) + verdict_cell(judged(study)))
    heads = "".join(inside("th", h) for h in ("No.", "Title", "Author", "Stipulation", "Verdict"))
    return inside("article", inside("header", inside("h1", "Entries and verdicts"))
                  + inside("table", inside("thead", inside("tr", heads)) + inside("tbody", rows)), 'class="sum"')


# ---- a script's file of pages

REASONS = {
    "BadByte": "a letter outside plain ASCII",
    "UnknownCommand": "the first word is no command",
    "BadArguments": "a word too few or too many, or a path or number not of its form",
    "UnknownStipulation": "no stipulation of a known form",
    "UnknownTag": "not one of the six tags",
    "TagText": "more than 60 characters",
    "NoPosition": "no position yet",
    "NoStudy": "no stipulation yet",
    "NoSuchNode": "no move stands at this place of the tree",
    "NotSan": "not the text of a move, which stands without its number",
    "CastlingLeftOut": "castling is left out",
    "NoSuchMove": "no legal move of this position",
    "Ambiguous": "several men can make this move",
    "AlreadyThere": "the move stands there already",
    "RootNotAllowed": "the start can be neither deleted nor promoted",
    "AlreadyFirst": "it is the first already",
    "TooDeep": "more than 256 plies below the start",
    "TreeFull": "more than 4,096 nodes",
    "ShiftBroken": "a move of the tree is not legal from the new start",
    "FieldCount": "not six fields, and not four",
    "Placement": "the first field does not fill eight ranks of eight squares",
    "TooManyMen": "more than four men",
    "KingCount": "not one king each",
    "PawnOnEndRank": "a pawn on the first or last rank",
    "SideField": "neither w nor b is to move",
    "OpponentInCheck": "the side that is not to move is in check",
    "Castling": "castling is left out: write -",
    "EnPassantField": "neither a square nor -",
    "EnPassantImpossible": "no pawn can just have passed over that square",
    "Clock": "not one to four digits",
    "MoveNumber": "not one to four digits",
    "NotAClass": "no such material, or its men in another order",
    "NoTable": "the table of this material is not in the folder",
    "TableRead": "the file of a table could not be read",
    "OutOfMemory": "no memory is left",
}


# why a game was left out that a script would not be refused for
GAME_REASONS = {
    "GameTooLarge": "more than 1,048,576 bytes",
    "TagForm": "a tag that is not a name and a text in quotation marks",
    "OpenString": "a tag whose text is not closed in its line",
    "NoStipulation": "it does not say what is to be done",
    "StipulationUnread": "a stipulation that is not understood",
    "TagTwice": "a second tag of this name, so perhaps two games that run together",
    "TagInMoves": "a tag among the moves",
    "Numbering": "a move number that does not fit",
    "NullMove": "a null move in the main line",
    "BehindResult": "moves behind the result",
    "Byte": "a letter that begins no move",
    "OpenComment": "a comment that is not closed",
    "NoMoveBefore": "a variation before the first move",
    "NotOpened": "a ) without its (",
    "OpenVariation": "a ( without its )",
    "TooNested": "more than 256 variations within one another",
}


def refusal(number, line, name, reason=None):
    return inside("p", say(f"Line {number} was refused: ") + inside("code", say(line)) + " " + inside("b", say(name)) + ": "
                  + say(reason or REASONS[name.split()[0]]), 'class="warn"')


def in_its_letters(text):
    """The original text of a tag, in UTF-8 as read in Latin 1: it is UTF-8 if all of it is, else Latin 1."""
    try:
        text.encode("latin-1").decode("utf-8")
        first = "\x80"
    except UnicodeDecodeError:
        first = "\xa0"
    return "".join(say(c) if c < first else c if first == "\x80" else c.encode("utf-8").decode("latin-1") for c in text)


def is_left_out(line):
    """Whether a line is the comment of studyimport on a game without a block."""
    return bool(re.match(r"#! game \d*, line ", line)) and not re.match(r"[^:]*: (stipulated by |not read: )", line)


def is_not_read(line):
    """Whether a line is the comment of studyimport on a game whose block has only what stands before its first fault."""
    return bool(re.match(r"#! game \d*, line [^:]*: not read: ", line))


def meaning(line):
    """What the fault means that the comment names, if it names one."""
    why = re.match(r"[^:]*: (?:not read: )?(.*)", line)[1]
    return "" if why.startswith("left out: ") else ": " + {**REASONS, **GAME_REASONS}[why.split()[0]]


def remark(line, number):
    """The paragraph of a comment of studyimport: a game without a block, which is the entry with this number, one that was read only up to a fault, the
    original of the tag Black, which no head shows, or what a block does not have. Other comments have none."""
    if is_left_out(line):
        return inside("p", say(f"No page for entry {number}: {line[3:]}{meaning(line)}"), 'class="warn"')
    if is_not_read(line):
        return inside("p", say(f"The game is read only up to here: {line[3:].replace(': not read', '', 1)}{meaning(line)}"), 'class="warn"')
    if re.match(r"#! (Black was: |(not taken over|behind the result|a tail): |the stipulation )", line):
        return inside("p", in_its_letters(line[3:]), 'class="note"')
    return ""


def read(*names):
    with open(os.path.join(*names), encoding="latin-1") as file:
        return file.read()


def games_in(replies):
    return re.findall(r'^\[Event .*?(?:1-0|0-1|1/2-1/2|\*)\n\n', replies, re.S | re.M)


def studies_by(lines, replies):
    """The studies of a script, by the lines of a report over it and the replies of studybench to it."""
    parts = re.split(r"^(?=study )", "\n".join(l for l in lines.splitlines() if not l.startswith(("refused ", "unread "))) + "\n", flags=re.M)[1:]
    games = games_in(replies)
    assert len(games) == len(parts), (len(games), len(parts))
    return [Study(game, facts.splitlines()) for game, facts in zip(games, parts)]


def studies_in(name):
    """The studies of a gallery script."""
    return studies_by(read(EXAMPLES, name + ".lines"), read(EXAMPLES, name + ".expected"))


QUESTIONS = "mark moves fen solve pgn build load save verify".split()


ALL_READ = (None, None, False)


def names_after(names, line, refused):
    """The originals of the tags of the study in the document, and of the next one, after this line."""
    own, ahead = names
    if match := re.match(r"#! (Event|Site|Date|Round|White) was: (.*)", line):
        return own, {**ahead, match[1]: match[2]}
    if re.match(r"#! tail (?!1 of )", line):
        return own, own
    word = (line.split() or [""])[0]
    if word == "position" and not refused:
        return ahead, {}
    return own, {} if word == "pgn" else ahead


def unread_after(unread, number, line, refused):
    """The line for which the study in the document is not read, that for which the next one is not, and whether the study was reported, after this line:
    questions and lines of tables are of no study."""
    own, ahead, reported = unread
    word = (line.split() or [""])[0]
    if refused and word == "pgn":
        return own, None, reported
    if refused:
        return unread if word in QUESTIONS else (own or number, (ahead or number) if reported else ahead, reported)
    if is_not_read(line):
        return own, ahead or number, reported
    return {"position": (ahead, None, False), "pgn": (own, None, True)}.get(word, unread)


def part(studies, number, script, refused, tags, count):
    """What the lines of a script add to the pages, after so many entries: studies come from the list, refused lines by their numbers, and remarks. With
    each study come its number and the comments on games without a block since the one before."""
    out, games = "", []
    for n, line in enumerate(script, 1):
        tags["unread"] = unread_after(tags.get("unread", ALL_READ), n + number, line, n in refused)
        tags["names"] = names_after(tags.get("names", ({}, {})), line, n in refused)
        if n in refused:
            out += refusal(n + number, line, refused[n])
        elif line.startswith("#"):
            count += is_left_out(line)
            out += remark(line, count)
            games += [line] if is_left_out(line) else []
        elif line.startswith("tag "):
            _, name, *words = line.split(" ", 2)
            tags[name] = words[0].rstrip(" ") if words else "?"
        elif line == "pgn":
            study = studies.pop(0)
            study.tags.update(tags)
            study.unread = tags["unread"][0]
            study.names = tags["names"][0]
            count += 1
            yield study, count, out, games
            out, games = "", []
    yield None, count, out, games


def expected_file(names, more=(), front=""):
    """The file of pages of some lines without a study, of gallery scripts one after the other, and then of lines that are refused, each with its name."""
    texts = [(front, "", "")] + [(read(EXAMPLES, name + ".script"), read(EXAMPLES, name + ".lines"), read(EXAMPLES, name + ".expected")) for name in names]
    return file_of(texts, more)


def file_of(texts, more=()):
    """The file of pages of scripts one after the other, each with the lines and the replies to it.

    Tags, and the line of a study that was refused, go on from script to script, as they do in one run."""
    count, number, tags, studies, entries, body = 0, 0, {}, [], [], ""
    for script, lines, replies in texts:
        refused = {int(l.split(" ", 2)[1]): l.split(" ", 2)[2] for l in lines.splitlines() if l.startswith("refused ")}
        script = script.split("\n")[:-1]
        for study, count, text, games in part(studies_by(lines, replies), number, script, refused, tags, count):
            body += text
            entries += games
            if study:
                body += page(study, count)
                studies.append(study)
                entries.append(study)
        number += len(script)
    unread = tags.get("unread", ALL_READ)
    for line, name in more:
        number += 1
        unread = unread_after(unread, number, line, name not in (None, "again"))
        if name == "again":  # the last study once more, with the tags that were set since
            count += 1
            again = copy.copy(studies[-1])
            again.unread = unread[0]
            again.tags = {**again.tags, **dict(line.split(" ", 2)[1:] for line, fault in more if fault is None and line.startswith("tag "))}
            studies.append(again)
            entries.append(again)
            body += page(again, count)
        elif name:
            body += refusal(number, line, name)
        else:
            count += is_left_out(line)
            body += remark(line, count)
            entries += [line] if is_left_out(line) else []
    return opening() + body + (summary(entries) if len(entries) > 1 else "") + "</body></html>\n"


def opening():
    """The frame, which has no facts."""
    text = read(TOP, "crates/study_html/specs/Frame.antt")
    parts = re.findall(r'codes "((?:[^"\\]|\\.)*)"', text[text.index("front ="):text.index("sheet_style :")])
    return "".join(parts).replace("\\n", "\n").replace('\\"', '"')


def gallery():
    return sorted(f[:-6] for f in os.listdir(EXAMPLES) if f.endswith(".lines"))


def difference(a, b):
    at = next((i for i in range(min(len(a), len(b))) if a[i] != b[i]), min(len(a), len(b)))
    return f"byte {at}: wanted ..{a[max(0, at - 60):at + 60]!r}, had ..{b[max(0, at - 60):at + 60]!r}"


def answer_of(tables, text, *words, name="studyreport"):
    program = os.environ.get(name.upper(), os.path.join(TOP, "crates", name, "out", name))
    run = subprocess.run([program, "--tables", tables, *words], input=text.encode("latin-1"), capture_output=True)
    return run.returncode, run.stdout.decode("latin-1")


def agree(tables, scripts):
    wrong, facts = 0, 0
    load_all = read(EXAMPLES, "load_all.script")
    for path in scripts:
        script = read(path)
        (status, lines), (printed, had) = answer_of(tables, script, "--lines"), answer_of(tables, script)
        _, replies = answer_of(tables, load_all + re.sub(r"(?m)^(build|load|save|verify) .*\n", "", script), "--pages", "1024", name="studybench")
        wanted = file_of([(script, lines, replies)])
        facts += lines.count("\n")
        if status != printed or had != wanted:
            wrong += 1
            print(f"WRONG {path} (status {status} and {printed}): {difference(wanted, had)}")
    print(f"{len(scripts)} scripts with {facts} facts, the lines and the page agree in {len(scripts) - wrong}")
    return wrong == 0


def check(tables, names):
    wrong, facts = 0, 0

    def answer(text, *words):
        return answer_of(tables, text, *words)

    for name in names:
        script, lines = read(EXAMPLES, name + ".script"), read(EXAMPLES, name + ".lines")
        refused = 1 if "refused " in lines else 0
        for what, wanted, (status, had) in (("lines", lines, answer(script, "--lines")), ("pages", expected_file([name]), answer(script))):
            if had != wanted or status != refused:
                wrong += 1
                print(f"WRONG {name}, {what} (status {status}): {difference(wanted, had)}")
        facts += lines.count("\n")
    wanted, (_, had) = expected_file(names), answer("".join(read(EXAMPLES, name + ".script") for name in names))
    if had != wanted:
        wrong += 1
        print(f"WRONG all in one run: {difference(wanted, had)}")
    print(f"{len(names)} scripts with {facts} facts, {wrong} wrong")
    return wrong == 0


GATE = ["kqk_stalemate_duals"]
# Above the position: the original of a tag, and that of one which the study gets later.
GATE_FRONT = "#! Event was: B\xe9ware of stalemate\n#! White was: \xd0\x96\xd1\x83\xd0\xba <b>\n"
# In the folder are the tables of KQK and KBK, and none of KK.
GATE_MORE = [
    ("# Lines that are refused, and remarks of studyimport.", None),
    ("build QK", "NotAClass"),
    ('tag Event <script>alert("1 & 2")</script>', None),
    ("tag Site ?", None),
    ("tag Date 2026.??.??", None),
    ("tag Round 3", None),
    ("tag White <script>Caf\xe9", "BadByte"),
    ("#! game 2, line 14: stipulated by its comment", None),
    ("# White was: a comment by hand", None),
    ("#! the stipulation differs from its tag Result", None),
    ("#! White was: <b>Caf\xe9", None),
    ("#! Black was: <b>Caf\xe9", None),
    ("#! Black was: \xd0\x9c\xd0\xb0\xd1\x82 & \"", None),
    ("tag White Zhuk <b>", None),
    ("pgn", "again"),
    ("#! game 3, line 31 (Kasparyan, G.): left out: 7 men", None),
    ("#! game 4, line 52, column 17: NoSuchMove at Kb6", None),
    ("#! game 5, line 60: StipulationUnread at its comment", None),
    ("#! game 6, line 71 (Kling, J.): TagTwice at White", None),
    ("# game 7, line 80: a comment by hand", None),
    ("moves 0.0.0.0.0", "NoSuchNode"),
    ("insert root 1.Qg8", "NotSan"),
    ("dance <script>'root'", "UnknownCommand"),
    # (a refused position leaves no study, and without a study a position needs no table: so the missing table comes first)
    ("position 8/8/8/4k3/8/2R5/1R6/K7 w - - 0 1", "NoTable KRRK"),
    ("position k7/8/1K6/8/8/8/8/6Q1 w - - 0 b", "MoveNumber"),
    ("# A study that is left out: a bishop may be given away, and of two bare kings there is no table.", None),
    ("position 8/8/8/3k4/8/2B5/8/K7 w - - 0 1", None),
    ("stipulate black draw", None),
    ("pgn", "NoTable KK"),
]


if __name__ == "__main__":
    words = sys.argv[1:]
    if len(words) >= 2 and words[0] == "check":
        sys.exit(0 if check(words[1], words[2:] or gallery()) else 1)
    if len(words) >= 2 and words[0] == "agree":
        sys.exit(0 if agree(words[1], words[2:] or [os.path.join(EXAMPLES, name + ".script") for name in gallery()]) else 1)
    if len(words) >= 2 and words[0] == "print":
        sys.stdout.write(expected_file(words[1:]))
    elif words == ["facts"]:
        for name in gallery():
            lines, studies = read(EXAMPLES, name + ".lines"), studies_in(name)
            parts = re.split(r"^(?=study |refused |unread )", lines, flags=re.M)[1:]
            text = "".join(part if part.startswith(("refused ", "unread ")) else "\n".join(with_facts(studies.pop(0), part.splitlines())) + "\n" for part in parts)
            if text != lines:
                print(name)
                with open(os.path.join(EXAMPLES, name + ".lines"), "w", encoding="latin-1") as file:
                    file.write(text)
    elif words == ["gate"]:
        two = studies_in("krk_waiting")
        front = read(TOP, "crates/gallery/stdout").split("== pages\n")[0]
        front = re.sub(r"(?m)^(== (\S+), lines of a report\n)(?:(?!== ).*\n)*", lambda m: m.group(1) + read(EXAMPLES, m.group(2) + ".lines"), front)
        with open(os.path.join(TOP, "crates/gallery/stdout"), "w", encoding="latin-1") as file:
            file.write(front + "== pages\n" + opening() + "".join(page(study, number) for number, study in enumerate(two, 1))
                       + refusal(7, "insert root <b>\xe9", "BadByte", "a letter outside plain ASCII & 'so'") + summary(two) + "</body></html>\n")
        crate = os.path.join(TOP, "crates/studyreport")
        with open(os.path.join(crate, "stdin"), "w", encoding="latin-1") as file:
            file.write(GATE_FRONT + "".join(read(EXAMPLES, name + ".script") for name in GATE) + "".join(line + "\n" for line, _ in GATE_MORE))
        with open(os.path.join(crate, "stdout"), "w", encoding="latin-1") as file:
            file.write(expected_file(GATE, GATE_MORE, GATE_FRONT))
    else:
        sys.exit(__doc__)
