"""What the command says of a table: its export, its conditions and events, which of these are lossy, and the places of each condition.

The command is the one at the top of the repository, or the one that the variable DOVETRELLIS names. Nothing about the table is worked
out here: what cannot be taken from the command's answers is an error.
"""

import functools
import json
import os
import re
import subprocess

import parse

TOP = os.path.dirname(os.path.dirname(os.path.dirname(os.path.abspath(__file__))))

# a line on an unfolded condition: its number, and what its condition is called
UNFOLDED = re.compile(r"(\d+): (\S+)(?: by .*)?\n")


class Refused(Exception):
    """A table is refused, or the file is no table; the lines are the command's own."""


@functools.cache
def command():
    """The command; the repository's own first builds what is not built, and shows it."""
    named = os.environ.get("DOVETRELLIS")
    if named:
        return named
    own = os.path.join(TOP, "dovetrellis")
    if subprocess.run([own, "build", "library", "export"], stdin=subprocess.DEVNULL, check=False).returncode:
        raise parse.Wrong("the command was not built")
    return own


def ask(*words, into, fine=(0,)):
    """Has the command write into a file, and gives its exit status, if that is fine; what it says besides is passed on only where it is
    not."""
    told = subprocess.run([command(), *words], stdin=subprocess.DEVNULL, stdout=into, stderr=subprocess.PIPE, check=False)
    said = told.stderr.decode("utf-8", "replace")
    if told.returncode in fine:
        return told.returncode
    if told.returncode == 1 and said:
        raise Refused(said)
    if told.returncode == 1:
        raise parse.Wrong(f"'{command()} {' '.join(words)}' ended with 1 and said nothing; is it the command of Dovetrellis?")
    raise parse.Wrong(f"'dovetrellis {' '.join(words)}' failed ({told.returncode})\n{said}".rstrip())


def is_name(name):
    """A name as the command tells it, or that there is none."""
    return name is None or (isinstance(name, str) and name != "")


class Table:
    """A table as the command tells it: of each condition its name and whether it is persistent, of each event its name."""

    def __init__(self, told):
        self.conditions = [(condition["name"], condition["persistent"]) for condition in told["conditions"]]
        self.events = [event["name"] for event in told["events"]]
        self.lossy = list(told["lossy"])
        self.unfolding = told["unfolding"]["conditions"], told["unfolding"]["events"]
        names = all(map(is_name, [name for name, _ in self.conditions] + self.events))
        persistent = all(isinstance(persistent, bool) for _, persistent in self.conditions)
        lossy = all(type(number) is int and 0 <= number < len(self.events) for number in self.lossy)
        if not (names and persistent and lossy):
            raise ValueError
        self.numbers = {name or str(number): number for number, (name, _) in enumerate(self.conditions)}

    def event(self, number):
        """What an event is called."""
        name = self.events[number]
        return f"`{name}`" if name else f"event {number}"

    def condition(self, number):
        """What a condition is called."""
        name = self.conditions[number][0]
        return f"condition {number} `{name}`" if name else f"condition {number}"

    def persistent(self, number):
        """Whether a condition is persistent."""
        return self.conditions[number][1]


def exported(path, to):
    """Has the command export a table to a file."""
    with open(to, "wb") as file:
        ask("export", path, into=file)


def judged(path, room):
    """The table as the command tells it."""
    with open(os.path.join(room, "judged"), "w+", encoding="utf-8") as file:
        status = ask("judge", "--json", path, into=file, fine=(0, 1))
        file.seek(0)
        try:
            told = json.load(file)
            if status == 0 and told["refused"] is None:
                return Table(told)
            line = told["refused"]["line"]
        except (KeyError, TypeError, ValueError) as error:
            raise parse.Wrong(f"what 'dovetrellis judge --json {path}' writes is not what is expected of it") from error
    raise Refused(f"{line}\n")


def places(path, table, room):
    """For each condition of a table its places in the exported net, by the list at the end of what the command unfolds."""
    found = [[] for _ in table.conditions]
    count = 0
    with open(os.path.join(room, "unfolded"), "w+", encoding="utf-8") as file:
        ask("unfold", path, into=file)
        file.seek(0)
        while file.readline() not in ("unfolded conditions\n", ""):
            pass
        for line in file:
            told = UNFOLDED.fullmatch(line)
            if not told or int(told[1]) != count or told[2] not in table.numbers:
                raise parse.Wrong(f"'{line.rstrip()}' in what 'dovetrellis unfold {path}' writes is not what is expected of it")
            found[table.numbers[told[2]]].append(f"p{count}")
            count += 1
    if count != table.unfolding[0]:
        raise parse.Wrong(f"'dovetrellis unfold {path}' tells of {count} unfolded conditions, and 'judge' of {table.unfolding[0]}")
    return found
