"""Has Spin search an exported net: spin.py NET.pnml [--table TABLE] [--never NAME...] and what argparse tells

The net becomes a Promela model: two arrays of bytes for its places, and one indivisible step for each transition, which waits for the
tokens that the transition takes. Spin makes a program of it that goes through all markings, nearest first. How many there are is told
on the error output, and with --never whether one of them has all the NAMEs at once. If so, the shortest way there goes to the standard
output, one transition a line, as `dovetrellis witness` reads it.

A NAME is a place of the net, as p3, or with --table the name of a condition of the table that was exported; a persistent condition
counts as soon as one of its copies has a token. Transitions that put back all that they take lead to no other marking and are left out.

The exit status is 0 where nothing speaks against it, 1 where a marking has all the NAMEs, and 2 where something is wrong or the bounds
of time and memory did not suffice.
"""

import argparse
import os
import re
import resource
import shutil
import subprocess
import sys
import tempfile
import time

import parse

TOP = os.path.dirname(os.path.dirname(os.path.abspath(__file__)))

# from the name of a place to that of the other place of its number
OTHER = str.maketrans("pq", "qp")


class Doubled:
    """An exported net by its numbers: the tokens of its first and second places, and what its transitions take and change."""

    def __init__(self, net):
        half = len(net.places) // 2
        if list(net.places) != [f"p{n}" for n in range(half)] + [f"q{n}" for n in range(half)]:
            raise parse.Wrong("its places are not p0, p1, .. and then as many q0, q1, ..")
        tokens = list(net.places.values())
        self.tokens = tokens[:half], tokens[half:]
        self.transitions = net.transitions
        self.taken = {transition: [] for transition in net.transitions}
        self.put = {transition: [] for transition in net.transitions}
        for source, target in net.arcs:
            into = target in self.taken
            (self.taken[target] if into else self.put[source]).append(source if into else target)
        self.bytes_suffice()

    def change(self, transition):
        """The places that a transition takes a token from and those that it gives one to, without those for which it does both."""
        taken, put = self.taken[transition], self.put[transition]
        return [place for place in taken if place not in put], [place for place in put if place not in taken]

    def bytes_suffice(self):
        """The two places of a number have one token together and keep it, so that no place ever has two."""
        if any(sum(pair) != 1 for pair in zip(*self.tokens)):
            raise parse.Wrong("two places of one number do not begin with one token")
        for transition in self.transitions:
            lost, gained = self.change(transition)
            other = {place.translate(OTHER) for place in lost}
            if other != set(gained) or len(set(lost)) != len(lost) or len(set(gained)) != len(gained):
                raise parse.Wrong(f"{transition} does not keep the token of two places of one number")


def element(place):
    """A place as Promela names it."""
    return f"{place[0]}[{place[1:]}]"


def array(name, tokens):
    """The places of one letter; an array has one element at least."""
    return f"byte {name}[{len(tokens) or 1}] = {{{', '.join(map(str, tokens or [0]))}}};\n"


def promela(net, never):
    """The model; `never` has for each name the places of which one must have a token."""
    steps = []
    if never:
        held = " && ".join("(" + " || ".join(map(element, places)) + ")" for places in never)
        steps.append(f"{held} -> assert(false)")
    for transition in net.transitions:
        lost, gained = net.change(transition)
        if lost or gained:
            guard = " && ".join(map(element, net.taken[transition])) or "true"
            effect = [f"{element(place)}--" for place in lost] + [f"{element(place)}++" for place in gained]
            steps.append(f"{guard} -> {'; '.join(effect)}; printf(\"{transition}\\n\")")
    body = "".join(f"    :: d_step {{ {step} }}\n" for step in steps or ["false -> skip"])
    arrays = array("p", net.tokens[0]) + array("q", net.tokens[1])
    return f"{arrays}\nactive proctype net() {{\nend:\n    do\n{body}    od\n}}\n"


def processor():
    """The processor time of all tools that have ended."""
    used = resource.getrusage(resource.RUSAGE_CHILDREN)
    return used.ru_utime + used.ru_stime


class Bounded:
    """Runs tools in a folder, within bounds of time and memory, and adds up their processor time."""

    def __init__(self, folder, seconds, megabytes):
        self.folder = folder
        self.until = time.monotonic() + seconds
        self.megabytes = megabytes
        self.seconds = seconds
        self.took = {}

    def run(self, what, *words):
        """What a tool writes."""
        before = processor()
        most = self.megabytes << 20
        try:
            done = subprocess.run(
                words,
                cwd=self.folder,
                timeout=max(self.until - time.monotonic(), 0.1),
                preexec_fn=lambda: resource.setrlimit(resource.RLIMIT_AS, (most, most)),
                stdin=subprocess.DEVNULL,
                stdout=subprocess.PIPE,
                stderr=subprocess.STDOUT,
                encoding="utf-8",
                errors="replace",
                check=False,
            )
        except subprocess.TimeoutExpired as error:
            raise parse.Wrong(f"{what} came to no end in {self.seconds} seconds together with what was before") from error
        finally:
            self.took[what] = self.took.get(what, 0) + processor() - before
        if done.returncode:
            last = "\n".join(done.stdout.splitlines()[-5:])
            raise parse.Wrong(f"{what} failed ({done.returncode}) within {self.megabytes} megabytes:\n{last}")
        return done.stdout


def searched(tools, places):
    """The number of markings, and the way to one that must not be, if there is one."""
    tools.run("translating", "spin", "-a", "net.pml")
    # all markings, nearest first, none left out; the last is how long a marking may be
    flags = ["-O0", "-w", "-DBFS", "-DSAFETY", "-DNOREDUCE", f"-DVECTORSZ={max(1024, 2 * places + 64)}"]
    tools.run("compiling", "cc", *flags, "-o", "pan", "pan.c")
    told = tools.run("searching", "./pan", "-c0")
    states = re.search(r"^ *([0-9.e+]+) states, stored$", told, re.M)
    errors = re.search(r"errors: (\d+)$", told, re.M)
    if not states or not errors or "Search not completed" in told:
        raise parse.Wrong(f"the search did not come to its end:\n{told}")
    if errors[1] == "0":
        return int(float(states[1])), None
    tools.run("searching", "./pan")
    replayed = tools.run("searching", "./pan", "-S")
    return int(float(states[1])), re.findall(r"^t\d+$", replayed, re.M)


def conditions(table):
    """The places of each condition of a table, by its name, as the command tells them."""
    words = [os.path.join(TOP, "dovetrellis"), "unfold", table]
    told = subprocess.run(words, stdout=subprocess.PIPE, encoding="utf-8", check=False)
    if told.returncode:
        raise parse.Wrong(f"'{' '.join(words)}' failed")
    places = {}
    for line in told.stdout.partition("\nunfolded conditions\n")[2].splitlines():
        number, name = line.split(" ")[:2]
        places.setdefault(name, []).append("p" + number.rstrip(":"))
    return places


def places_of(asked, net, table):
    """For each name that is asked the places that it stands for."""
    known = conditions(table) if table else {}
    pairs = [letter + str(number) for letter in "pq" for number in range(len(net.tokens[0]))]
    own = {place: [place] for place in pairs}
    for name in asked:
        if name not in known and name not in own:
            more = f", nor a condition of {table} that it tells of" if table else "; for conditions give --table"
            raise parse.Wrong(f"'{name}' is no place of the net{more}")
    return [known.get(name) or own[name] for name in asked]


def words():
    """The words of the command."""
    usage = argparse.ArgumentParser(prog="checker/spin", description="Has Spin search an exported net.")
    usage.add_argument("net", metavar="NET.pnml", help="what 'dovetrellis export' wrote")
    usage.add_argument("--table", help="the table that was exported, for the names of conditions")
    usage.add_argument("--never", nargs="+", default=[], metavar="NAME", help="places or conditions that must not hold all at once")
    usage.add_argument("--keep", metavar="FOLDER", help="where the model and Spin's files are to stay")
    usage.add_argument("--seconds", type=int, default=600, help="the most time (600)")
    usage.add_argument("--megabytes", type=int, default=4000, help="the most memory (4000)")
    return usage.parse_args()


def say(*what):
    print(*what, file=sys.stderr)


def check(asked, folder):
    """Searches a net and tells what comes of it; gives the exit status."""
    net = Doubled(parse.read(asked.net))
    never = places_of(asked.never, net, asked.table)
    idle = sum(1 for transition in net.transitions if not any(net.change(transition)))
    half = len(net.tokens[0])
    say(f"{asked.net}: {2 * half} places, {len(net.transitions)} transitions, {idle} of them without effect")
    with open(os.path.join(folder, "net.pml"), "w", encoding="utf-8") as file:
        file.write(promela(net, never))
    tools = Bounded(folder, asked.seconds, asked.megabytes)
    states, way = searched(tools, half)
    took = ", ".join(f"{what} {seconds:.1f} s" for what, seconds in tools.took.items())
    say(f"{states} markings, all of them searched (processor time: {took})")
    if not never:
        return 0
    wanted = f"never {' and '.join(asked.never)}"
    if way is None:
        say(f"{wanted}: holds")
        return 0
    say(f"{wanted}: does not hold; the shortest way there has {len(way)} steps")
    print("".join(f"{transition}\n" for transition in way), end="")
    return 1


def main():
    asked = words()
    for tool, package in (("spin", "spin"), ("cc", "gcc")):
        if not shutil.which(tool):
            say(f"checker/spin: there is no '{tool}' (Debian: apt-get install {package})")
            return 2
    try:
        if asked.keep:
            os.makedirs(asked.keep, exist_ok=True)
            return check(asked, asked.keep)
        with tempfile.TemporaryDirectory() as folder:
            return check(asked, folder)
    except (parse.Wrong, OSError) as wrong:
        say(f"checker/spin: {asked.net}: {wrong}")
        return 2


if __name__ == "__main__":
    sys.exit(main())
