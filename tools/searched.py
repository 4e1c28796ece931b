"""What a session with the debugger shows, state by state, for tools/session and tools/page: each state in words, the tree of the search so
far, and the covers found. Plain Python, NOT PROVED; it walks Algorithm X by sets of its own, and trusts the replies where it doesn't."""

import functools
import re

from cells import DIGITS
from colours import DISTANCES, PALETTE
from frame import stop

NUMBER = re.compile("[1-9][0-9]{0,8}")
LABELS = ("X1", "X2", "X3", "X4", "X5", "X6", "X7", "X8", "Done")
# So many steps of a search are walked here to draw its tree, with so many looks at an item and an option; what lies beyond is told as replied.
WALKED, LOOKS = 5000, 50000000


def moves(command, replies):
    """Whether the search may stand elsewhere after a command, or in another branch: its replies tell where, or that a branch was parted."""
    word = command.partition(" ")[0]
    return word == "split" or (word != "show" and any(reply.startswith("at ") for reply in replies))


def named(option, options):
    """An option with its items."""
    return f"{option} = {options[option]}" if options.get(option) else str(option)


def named_in(reply):
    """The options that a line of a reply names."""
    words = reply.split()
    if words[:1] == ["visit"]:
        return words[1:]
    if words[:1] in (["at"], ["untried"]):
        return words[2:]
    if words[:1] in (["chosen"], ["active"], ["second"]):
        return words[3:]
    return words[2:] if words[:2] in (["break", "option"], ["set", "option"]) or words[:1] == ["branch"] else []


def says(row, options):
    """What the step that comes next does, in words. A row has the state's label, cursor and path, and what `show` replied of it."""
    label, cursor, path = row["label"], row["cursor"], row["path"]
    chosen = row["chosen"][0] if row["chosen"] else "the chosen item"
    least = min(row["active"], key=lambda item: len(item[1]), default=None)
    if label == "X1":
        return "begins: nothing is covered"
    if label == "X2":
        if not row["shown"]:
            return "looks whether an item is left to cover"
        return f"finds {counted(len(row['active']), 'item')} left to cover" if least else "finds nothing left to cover: an exact cover"
    if label == "X3":
        return f"chooses {least[0]}, which has the fewest options left, {len(least[1]) or 'none'}" if least else "chooses an item"
    if label == "X4":
        first = row["chosen"][1][0] if row["chosen"] and row["chosen"][1] else None
        return f"covers {chosen}, {f'and takes up option {named(first, options)}' if first else 'which has no option to take up'}"
    if label == "X5" and cursor == "past":
        return f"finds no option of {chosen} left to try"
    if label == "X5":
        return f"tries option {named(cursor, options)}: covers its other items"
    if label == "X6":
        return f"takes option {named(cursor, options)} back: uncovers its other items"
    if label == "X7":
        return f"uncovers {chosen}"
    if label == "X8":
        return "goes back to the choice before" if path else "finds no choice before: the search ends"
    return "the search has ended"


def counted(many, what):
    """So many things, as `1 item`."""
    return f"{many} {what}{'' if many == 1 else 's'}"


class Row:
    """Reads a state from the lines that tell it."""

    def __init__(self, command):
        self.command, self.replies, self.joins, self.moved = command, [], False, None
        self.told = {"label": "", "cursor": "", "path": [], "shown": False, "covered": [], "chosen": None, "active": [], "second": []}

    def read(self, line):
        """One line of a reply; what it doesn't know says nothing of the state."""
        words = line.split()
        if not self.joins:
            self.replies.append(line)
        if words[:1] == ["moved"] and len(words) == 2 and words[1].isdecimal():
            self.moved = int(words[1])
        elif words[:1] == ["at"] and len(words) > 2:
            self.told.update(label=words[1], cursor=words[2], path=words[3:])
        elif words[:1] == ["covered"]:
            self.told.update(covered=[word for word in words[1:] if word != "-"], shown=True)
        elif words[:1] == ["chosen"] and len(words) > 1:
            self.told.update(chosen=[words[1], words[3:]], shown=True)
        elif words[:1] in (["active"], ["second"]) and len(words) > 1:
            self.told[words[0]].append([words[1], words[3:]])
            self.told["shown"] = True

    def settled(self):
        """What was told: an item that is chosen is neither covered by an option nor still to be covered."""
        told = dict(self.told)
        if told["chosen"]:
            name = told["chosen"][0]
            told["covered"] = [item for item in told["covered"] if item != name]
            told["active"] = [item for item in told["active"] if item[0] != name]
        return told


class Walk:
    """The states of a search from its start, each as the words after `at`, as many as were asked for."""

    def __init__(self, must, options):
        self.options = options
        self.bits = {item: 1 << number for number, item in enumerate(dict.fromkeys([*must, *(it for option in options for it in option)]))}
        self.must = [self.bits[item] for item in must]
        self.sets = [sum(self.bits[item] for item in option) for option in options]
        self.states, self.at, self.looks = [], {}, 0
        self.add(("X1", "-"))

    def add(self, state):
        self.at[state] = len(self.states)
        self.states.append(state)

    @functools.lru_cache(maxsize=None)
    def choice(self, path):
        """The options of the item that is chosen after these options; None where none is left to cover."""
        used = 0
        self.looks += len(self.must) * len(self.sets)
        for option in path:
            used |= self.sets[option - 1]
        free = [(number, own) for number, own in enumerate(self.sets, 1) if not own & used]
        left = [[number for number, own in free if own & item] for item in self.must if not item & used]
        return min(left, key=len, default=None)

    def next(self, label, cursor, *path):
        """The state after one."""
        if label in ("X1", "X3", "X7"):
            return ({"X1": "X2", "X3": "X4", "X7": "X8"}[label], "-", *path)
        if label == "X2":
            return ("X8" if self.choice(path) is None else "X3", "-", *path)
        if label == "X5":
            return ("X7", "-", *path) if cursor == "past" else ("X2", "-", *path, cursor)
        if label == "X8":
            return ("X6", path[-1], *path[:-1]) if path else ("Done", "-")
        left = self.choice(path)
        later = left if label == "X4" else left[left.index(cursor) + 1 :]
        return ("X5", later[0] if later else "past", *path)

    def number(self, row):
        """The number of the state of a row, or None where the walk doesn't come to it."""
        state = (row["label"], *(int(word) if word.isdecimal() else word for word in [row["cursor"], *row["path"]]))
        while state not in self.at and len(self.states) < WALKED and self.looks < LOOKS and self.states[-1][0] != "Done":
            self.add(self.next(*self.states[-1]))
        return self.at.get(state)


class Tree:
    """The choices that the search came to, each with the row at which it came there first, had nothing to try, was done, and was a visit."""

    def __init__(self):
        self.nodes, self.numbers = [[-1, 0, 0, -1, -1, -1]], {(): 0}

    def node(self, path, row):
        """The number of a path's node, which is made where the path is new."""
        if path not in self.numbers:
            above = self.node(path[:-1], row)
            self.numbers[path] = len(self.nodes)
            self.nodes.append([above, int(path[-1]), row, -1, -1, -1])
        return self.numbers[path]

    def note(self, path, row, what):
        """At a row a path has nothing to try (3), is done (4) or is a visit (5)."""
        node = self.nodes[self.node(path, row)]
        if node[what] < 0:
            node[what] = row

    def take(self, row, label, cursor, path, is_dead):
        """A state of the search at a row; it is dead where the item that is chosen has no option."""
        self.node(path, row)
        if label == "X5" and cursor == "past" and is_dead:
            self.note(path, row, 3)
        if label in ("X7", "X8") or cursor == "past":
            self.note(path, row, 4)
        if label == "X6":
            self.note((*path, str(cursor)), row, 4)


def spoilt(number, what):
    """Ends the script: a line of a transcript isn't what tools/session prints."""
    stop(f"line {number} isn't what tools/session prints: {what}")


def check_state(number, words, options):
    """Ends the script unless a line `at` tells a state: a label, a cursor, and the options taken, which are among those that were told."""
    if len(words) < 3 or words[1] not in LABELS or not all(map(NUMBER.fullmatch, words[3:])):
        spoilt(number, f"`{' '.join(words)[:60]}` tells no state")
    if words[2] not in ("-", "past") and not NUMBER.fullmatch(words[2]):
        spoilt(number, f"`{words[2][:20]}` is no cursor: these are `-`, `past`, and options")
    strange = [word for word in words[2:] if word not in ("-", "past", *options)]
    if options and strange:
        spoilt(number, f"there is no option {strange[0]}: the problem has {len(options)}")


def check_options(number, options):
    """Ends the script unless the options that were told of a problem are all up to the last."""
    missing = next((at for at in range(1, len(options) + 1) if str(at) not in options), None)
    if missing:
        spoilt(number, f"the problem has no option {missing} before it, and has {len(options)} others")


class Transcript:
    """Reads what tools/session printed: the commands with their replies, where a `show` that follows a command joins it, and the lines that tell the
    problem, and whether they tell all of it before the first command."""

    def __init__(self, lines):
        self.rows, self.problem, self.options, self.is_puzzle, self.is_whole = [], {"items": [], "maybe": []}, {}, False, False
        for number, line in enumerate(lines, 1):
            words = line.split()
            if line.startswith("> "):
                self.command(number, line, words)
            elif line.startswith("#"):
                self.comment(number, words)
            elif not self.rows:
                stop("this isn't what tools/session prints: no line `> COMMAND` comes first")
            else:
                self.reply(number, line, words)
        if not self.rows:
            stop("no command was read: there is nothing to show")

    def command(self, number, line, words):
        """A line of a command."""
        last = self.rows[-1] if self.rows else None
        if last is None and self.problem["items"] and self.options:
            check_options(number, self.options)
            self.is_whole = True
        if words[1:] == ["show"] and last and not last.joins and moves(last.command, last.replies):
            last.joins = True
        else:
            self.rows.append(Row(line[2:]))

    def comment(self, number, words):
        """A line of the problem, or of an option that a reply named."""
        if words[2:3] == ["="]:
            if not NUMBER.fullmatch(words[1]):
                spoilt(number, f"`{words[1][:20]}` is no number of an option")
            self.options[words[1]] = " ".join(words[3:])
        elif words[1:2] in (["items"], ["maybe"]):
            self.problem[words[1]] = words[2:]
        self.is_puzzle = self.is_puzzle or words[1:] == ["puzzle"]

    def reply(self, number, line, words):
        """A line of a reply."""
        if words[:1] == ["at"]:
            check_state(number, words, self.options if self.is_whole else {})
        if words[:1] == ["moved"] and len(words) == 2 and not re.fullmatch("[0-9]{1,20}", words[1]):
            spoilt(number, f"`{words[1][:20]}` is no number of steps")
        self.rows[-1].read(line)


def walk_of(problem, options):
    """The search, where all of its problem was told."""
    if not problem["items"] or not options or sorted(map(int, options)) != list(range(1, len(options) + 1)):
        return None
    return Walk(problem["items"], [options[str(number)].split() for number in range(1, len(options) + 1)])


def search_of(lines):
    """All that a page shows of a transcript."""
    read = Transcript(lines)
    rows, problem, options, is_puzzle = read.rows, read.problem, read.options, read.is_puzzle
    walk, tree, covers, shown, before = walk_of(problem, options), Tree(), [], [], None
    for at, row in enumerate(rows):
        told = row.settled()
        number = number_of(row, told, walk, before)
        if told["label"]:
            goes_on = walk and row.moved is not None and before is not None and number is not None
            for label, cursor, *path in walk.states[before + 1 : number + 1] if goes_on else []:
                tree.take(at, label, cursor, tuple(map(str, path)), walk.choice(tuple(path)) == [])
            tree.take(at, told["label"], told["cursor"], tuple(told["path"]), told["chosen"] and not told["chosen"][1])
            before = number
        for words in map(str.split, row.replies):
            if words[:1] == ["visit"]:
                tree.note(tuple(words[1:]), at, 5)
                if words[1:] not in [cover for _, cover in covers]:
                    covers.append([at, words[1:]])
        # (at X6 the option that will be taken back is still taken)
        taken = (*told["path"], told["cursor"]) if told["label"] == "X6" else tuple(told["path"])
        node = tree.node(taken, at) if told["label"] else None
        state = " ".join([told["label"], told["cursor"], *told["path"]])
        replies = row.replies if row.command != "show" else []
        names = dict.fromkeys(it for reply in replies for it in named_in(reply) if it.isdecimal() and it in options)
        shown.append({**told, "command": row.command, "replies": replies, "named": list(names), "number": number, "node": node,
            "row": f"{'-' if number is None else number} {state}" if told["label"] else row.command,
            "says": says(told, options) if told["label"] else ""})
    return {"rows": shown, "options": options, "tree": tree.nodes, "covers": covers, "board": board(problem, options) if is_puzzle else None,
        "palette": PALETTE, "distances": DISTANCES}


def number_of(row, told, walk, before):
    """The number of a row's state: as it was walked here, or by the number of the state before and how far the command went."""
    if not told["label"]:
        return None
    number = walk.number(told) if walk else None
    if number is None and row.moved is not None and before is not None:
        number = before + (-row.moved if row.command.split()[:1] == ["back"] else row.moved)
    if number is None and (told["label"], told["cursor"]) == ("X1", "-"):
        number = 0
    return number


def cells_in(items):
    """The cells among the items of a puzzle; the others are pieces, and nodes that keep equal pieces in order."""
    return [[DIGITS.index(digit) for digit in item] for item in items if is_cell(item)]


def board(problem, options):
    """The cells of a puzzle, those that may stay empty, and for each option its piece and cells."""
    cells = {kind: cells_in(problem[kind]) for kind in ("items", "maybe")}
    laid = {number: [[item for item in text.split() if len(item) == 1][:1], cells_in(text.split())] for number, text in options.items()}
    return {"cells": cells["items"] + cells["maybe"], "spare": cells["maybe"], "laid": laid}


def is_cell(item):
    return len(item) == 3 and all(digit in DIGITS for digit in item)
