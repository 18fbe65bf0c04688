"""What checker/spin and checker/search have in common where DOVETRELLIS_NEXT is 1, so that they answer as is meant for the next version:
their words, what a NAME stands for, and what is told of each property.

FILE is a table, as text or records, which is exported first, or an exported net. A net alone is searched by its places, and with --table
it must be, byte for byte, what the table is exported to. Each --never has one or more NAMEs, which must not hold all at once: a condition
by its name or number, or a place as p3 or q3; where a NAME is both, condition:NAME and place:NAME tell which.

What is told goes to the error output, a line for each property. The way to a marking that must not be goes to the standard output as
`dovetrellis witness` reads it, of the first property that has one; with --keep FOLDER all of them stay there as way-1, way-2, ..

The exit status is 1 where a property does not hold or the table is refused, 2 where something is wrong or the bounds did not suffice,
3 where every property holds in the net but one of them is not shown for every run of the table, and else 0.
"""

import argparse
import difflib
import filecmp
import os
import re
import shutil
import sys
import tempfile
import traceback

# what the next version takes as it is stands beside this folder
sys.path.append(os.path.dirname(os.path.dirname(os.path.abspath(__file__))))

import parse
import table as tables
from doubled import Doubled

# how many events are named in the line of a property
NAMED = 4

# what the help says of the exit status
STATUS = """exit status:
  0  each property holds in every run of the table (or none was asked)
  1  one does not hold, or the table is refused
  2  something is wrong, or the bounds did not suffice
  3  each holds in the net, but one is not shown for every run of the table
docs/CHECKER.md tells more."""

# what is said where the NAMEs of a property took all words
FILE_FIRST = "; --never takes all words up to the next option, so FILE stands before it, or after --"

# what is said of a condition of which the net does not tell
NO_PLACE = """has no place: it is persistent and no event reads it, so the net does not tell of it
  to do: give the table an event that reads it, or ask 'dovetrellis replay' or 'dovetrellis judge' of single runs"""

# the files that a folder keeps of a search: the exported net, the ways, and Spin's model, program and trail
KEPT = re.compile(r"net\.pnml|way-[1-9][0-9]*|net\.pml(\.trail)?|pan(\.[bchmpt])?")

# the words before a NAME that tell what it names
CONDITION, PLACE = "condition:", "place:"


def positive(word):
    """A whole number from 1 on."""
    number = int(word)
    if number < 1:
        raise ValueError
    return number


class Words(argparse.ArgumentParser):
    """The words of a program; where FILE is missing after a list of NAMEs it may have been taken for one of them."""

    def error(self, message):
        """Says what is wrong with the words, and ends with 2."""
        hint = FILE_FIRST if message.endswith(" required: FILE") and "--never" in sys.argv else ""
        super().error(message + hint)


def usage(program, more, description):
    """The words that both programs take, and a line with those that one takes besides."""
    words = f"{program} FILE [--table TABLE] [--never NAME...].. [--keep FOLDER] {more}"
    layout = argparse.RawDescriptionHelpFormatter
    parser = Words(
        prog=program, usage=words, description=description, epilog=STATUS, formatter_class=layout, allow_abbrev=False
    )
    parser.add_argument("file", metavar="FILE", help="a table, or what 'dovetrellis export' wrote")
    parser.add_argument("--table", help="the table of which FILE is the export; the two are compared")
    never = "conditions (by name or number) or places (p3, q3) that must not hold all at once, up to the next option or --"
    parser.add_argument("--never", nargs="+", action="append", default=[], metavar="NAME", help=f"{never}; each --never is checked")
    parser.add_argument("--keep", metavar="FOLDER", help="where files are to stay, among them each way that was found: way-1, way-2, ..")
    return parser


class Untold(Exception):
    """What is to be told cannot be written."""


def pass_on(text):
    """Writes to the error output; where that fails nothing more can be told, so it is no use to go on."""
    left = text.encode("utf-8", "surrogateescape")
    try:
        while left:
            left = left[os.write(2, left) :]
    except OSError as error:
        raise Untold from error


def say(what):
    """Tells something."""
    pass_on(f"{what}\n")


def fill():
    """Opens what is closed of the standard input and the two outputs, so that nothing else comes to stand there; writing still fails."""
    for number in range(3):
        try:
            os.fstat(number)
        except OSError:
            os.set_inheritable(os.open(os.devnull, os.O_RDONLY), True)
    sys.stdout = sys.stdout or open(1, "w", encoding="utf-8", closefd=False)
    sys.stderr = sys.stderr or open(2, "w", encoding="utf-8", closefd=False)


def status_of(main):
    """The exit status of a program, also where it ends itself or fails."""
    try:
        return main()
    except SystemExit as stop:
        return stop.code
    except Untold:
        return 2
    except Exception:
        sys.stderr.write(traceback.format_exc())
        return 2


def end(main):
    """Runs a program and ends with its exit status, or with 2 where something that it says cannot be written."""
    fill()
    try:
        status = status_of(main)
        sys.stdout.flush()
        sys.stderr.flush()
    except OSError:
        status = 2
    os._exit(status)


def counted(number, what):
    """A number of things."""
    return f"{number} {what}{'' if number == 1 else 's'}"


class Found:
    """What a search found: how many markings, whether these are all, for each property the way to a marking that breaks it or None, and
    the processor time by what it was used for."""

    def __init__(self, markings, whole, ways, took):
        self.markings = markings
        self.whole = whole
        self.ways = ways
        self.took = took


class Property:
    """What must never be: NAMEs that hold all at once, each with the places of which one must have a token."""

    def __init__(self, names, groups, unsure):
        self.said = f"never {' and '.join(names)}"
        self.groups = groups
        # why the net does not tell all of it: it is not shown for the table if it holds, and the table may have a shorter way if not
        self.unsure = unsure


class Names:
    """What NAMEs stand for in a net, and in its table if that is known."""

    def __init__(self, net, table, places):
        self.net = net
        self.table = table
        self.places = places
        self.owner = {place: number for number, own in enumerate(places) for place in own}

    def condition(self, name):
        """The number of the condition of a name or number, or None."""
        if not self.table:
            return None
        number = int(name) if re.fullmatch("[0-9]{1,9}", name) else self.table.numbers.get(name)
        return number if number is not None and number < len(self.table.conditions) else None

    def group(self, name):
        """The places of which one must have a token for a NAME to hold."""
        condition = None if name.startswith(PLACE) else self.condition(name.removeprefix(CONDITION))
        place = None if name.startswith(CONDITION) else name.removeprefix(PLACE)
        if place not in self.net.places:
            place = None
        if condition is None and place is None:
            raise parse.Wrong(self.unknown(name))
        if condition is not None and place is not None:
            raise parse.Wrong(f"'{name}' is a condition and a place: say {CONDITION}{name} or {PLACE}{name}")
        if place:
            return [place]
        if not self.places[condition]:
            called = self.table.condition(condition)
            raise parse.Wrong(f"{called} {NO_PLACE}")
        return self.places[condition]

    def unknown(self, name):
        """What is said of a NAME that names nothing."""
        plain = name.removeprefix(CONDITION).removeprefix(PLACE)
        last = len(self.net.places) // 2 - 1
        if name.startswith(PLACE) or re.fullmatch("[pq][0-9]+", name):
            return f"there is no place '{plain}': the net has places p0 to p{last} and q0 to q{last}"
        if not self.table:
            return f"'{name}' is no place of the net; for conditions give the table, as FILE or with --table"
        if re.fullmatch("[0-9]+", plain):
            return f"there is no condition {plain}: the table has conditions 0 to {len(self.table.conditions) - 1}"
        near = difflib.get_close_matches(plain, [known for known, _ in self.table.conditions if known], 1)
        meant = f" (is `{near[0]}` meant?)" if near else ""
        return f"'{name}' is no condition of the table and no place of the net{meant}"

    def copies(self, group):
        """Why a property of these places says nothing of the table: a place of a copy is no condition."""
        number = self.owner.get(f"p{group[0][1:]}")
        if number is None or group == self.places[number] or not self.table.persistent(number):
            return []
        return [f"{group[0]} tells of one copy of {self.table.condition(number)}, and the table has no copies"]

    def property(self, names):
        """The property of the NAMEs of one --never."""
        groups = [self.group(name) for name in names]
        unsure = [reason for group in groups for reason in self.copies(group)]
        if not self.table:
            unsure = ["which of its runs the net lacks cannot be told without the table"]
        elif self.table.lossy:
            unsure.insert(0, f"runs in which {lossy(self.table, NAMED)} may be missing from the net")
        return Property(names, groups, unsure)


def lossy(table, most):
    """That one of the lossy events of a table comes again, with so many of them named."""
    called = [table.event(number) for number in table.lossy]
    if len(called) > most:
        called[most - 1 :] = [f"one of {len(called) - most + 1} others"]
    return f"{' or '.join(called)} comes again"


def files_given(asked):
    """FILE and TABLE can be read as often as they must be, and FOLDER has a name."""
    if asked.keep == "":
        raise parse.Wrong("--keep: the name of the folder is empty")
    if "-" in (asked.file, asked.table):
        raise parse.Wrong("'-': the table must be a file, since it is read more than once")
    if asked.table and os.path.exists(asked.table) and not os.path.isfile(asked.table):
        raise parse.Wrong(f"{asked.table}: this is no file")


def is_net(path):
    """Whether a file is an exported net, and no table; a table of 60 conditions begins with the same byte as a net, and then a 0."""
    if not os.path.isfile(path):
        raise parse.Wrong(f"{path}: {'this is no file' if os.path.exists(path) else 'there is no such file'}")
    with open(path, "rb") as file:
        first = file.read(2)
    return first[:1] == b"<" and first != b"<\0"


def compared(net, table, room):
    """An exported net is the export of a table."""
    anew = os.path.join(room, "anew.pnml")
    tables.exported(table, anew)
    if not filecmp.cmp(net, anew, shallow=False):
        raise parse.Wrong(f"{net} is not the export of {table} (another table, or an older one)")


def replaced(name, net_given):
    """Whether a file of that name in a folder that keeps files is written or removed; the exported net is not where a net is given."""
    return KEPT.fullmatch(name) and not (net_given and name == "net.pnml")


def spare(asked, net_given):
    """What is given is no file that the folder would lose."""
    given = [path for path in (asked.file, asked.table) if path and os.path.exists(path)]
    for name in filter(lambda name: replaced(name, net_given), os.listdir(asked.keep)):
        there = os.path.join(asked.keep, name)
        for path in given:
            if os.path.exists(there) and os.path.samefile(path, there):
                lost = f"--keep {asked.keep} writes or removes {name} there"
                raise parse.Wrong(f"{path} would be replaced: {lost}; keep files in another folder")


def subject(asked, room):
    """The paths of the net to search and of its table, if that is known."""
    net_given = is_net(asked.file)
    if asked.keep:
        spare(asked, net_given)
    if net_given:
        if asked.table:
            compared(asked.file, asked.table, room)
        return asked.file, asked.table
    if asked.table:
        raise parse.Wrong(f"{asked.file} is no exported net, so there is nothing to compare with --table; a table is given as FILE alone")
    net = os.path.join(room, "net.pnml")
    tables.exported(asked.file, net)
    return net, asked.file


def opened(path, called):
    """The net of an exported file."""
    try:
        return Doubled(parse.read(path))
    except parse.Wrong as wrong:
        raise parse.Wrong(f"{called}: {wrong}") from wrong


def known(net, path, asked, room):
    """What NAMEs stand for; where none is asked for the places of conditions are not looked for."""
    if not path:
        return Names(net, None, [])
    table = tables.judged(path, room)
    if table.unfolding != (len(net.places) // 2, len(net.transitions)):
        raise parse.Wrong("what the command exports and what it says of the unfolding differ in size")
    return Names(net, table, tables.places(path, table, room) if asked.never else [])


def verdict(wanted, way, whole):
    """What is told of a property, and the exit status that it asks for."""
    if way == []:
        return "does not hold; it is broken at the start, and the way there has no steps", 1
    if way is not None:
        there = "there in the net" if wanted.unsure else "there"
        return f"does not hold; the shortest way {there} has {counted(len(way), 'step')}", 1
    if not whole:
        return "not decided; no marking that was searched breaks it", 2
    if wanted.unsure:
        return f"holds in every run of the net, but NOT SHOWN for the table: {'; '.join(wanted.unsure)}", 3
    return "holds in every run of the table", 0


def trace(wanted, way):
    """The way to a marking that must not be, as a trace."""
    lines = [f"# {wanted.said}", *way]
    if not way:
        lines.append("# broken at the start: the way there has no steps")
    return "".join(f"{line}\n" for line in lines)


def keep_files(properties, ways, room, folder):
    """Puts what a search made into a folder, and then removes there what is left of an earlier one."""
    for number, way in enumerate(ways):
        if way is not None:
            with open(os.path.join(room, f"way-{number + 1}"), "w", encoding="utf-8") as file:
                file.write(trace(properties[number], way))
    fresh = set(filter(KEPT.fullmatch, os.listdir(room)))
    for name in fresh:
        shutil.copy(os.path.join(room, name), os.path.join(folder, name))
    for name in os.listdir(folder):
        if name not in fresh and replaced(name, "net.pnml" not in fresh):
            os.remove(os.path.join(folder, name))


def write(properties, ways):
    """Writes the first way to the standard output."""
    for number in [number for number, way in enumerate(ways) if way is not None][:1]:
        with open(1, "w", encoding="utf-8", closefd=False) as file:
            file.write(trace(properties[number], ways[number]))


def tell(properties, found, keep):
    """Tells what was found of each property; gives the exit status."""
    statuses = [0 if found.whole else 2]
    for number, (wanted, way) in enumerate(zip(properties, found.ways), 1):
        told, status = verdict(wanted, way, found.whole)
        if status == 1 and 1 in statuses:
            told += "; " + (f"way-{number} in {keep} has it" if keep else "it is not written, only the first is (--keep FOLDER keeps all)")
        say(f"{wanted.said}: {told}")
        statuses.append(status)
    return next(status for status in (1, 2, 3, 0) if status in statuses)


def check(asked, search, room):
    """Searches a net and tells what comes of it; gives the exit status."""
    path, table = subject(asked, room)
    net = opened(path, asked.file)
    names = known(net, table, asked, room)
    properties = [names.property(never) for never in asked.never]
    idle = len(net.transitions) - len(net.moving())
    say(f"{asked.file}: {len(net.places)} places, {len(net.transitions)} transitions, {idle} of them without effect")
    if names.table and names.table.lossy:
        events = len(names.table.events)
        say(f"{table}: the net may lack runs of the table in which {lossy(names.table, events)}")
    found = search(net, properties, asked, room)
    took = ", ".join(f"{what} {seconds:.1f} s" for what, seconds in found.took.items())
    whole = "all of them searched" if found.whole else "and there are more"
    say(f"{counted(found.markings, 'marking')}, {whole} (processor time: {took})")
    status = tell(properties, found, asked.keep)
    if asked.keep:
        keep_files(properties, found.ways, room, asked.keep)
    write(properties, found.ways)
    return status


def answered(program, asked, search):
    """Does what is asked of a program; gives the exit status."""
    try:
        files_given(asked)
        if asked.keep:
            os.makedirs(asked.keep, exist_ok=True)
        with tempfile.TemporaryDirectory() as room:
            return check(asked, search, room)
    except tables.Refused as refused:
        pass_on(str(refused))
        return 1
    except parse.Wrong as wrong:
        say(f"{program}: {wrong}")
    except OSError as error:
        say(f"{program}: {error.filename or 'what is to be written'}: {error.strerror}")
    return 2
