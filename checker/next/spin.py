"""Has Spin search an exported net: spin.py FILE [--table TABLE] [--never NAME...].. [--keep FOLDER] [--seconds N] [--megabytes N]

The words and what is told are those of checker/search (asked.py says them). The net becomes a Promela model: two arrays of bytes for its
places, and one indivisible step for each transition, which waits for the tokens that the transition takes; for each property one more,
which waits for a marking that must not be and asserts the contrary of the property's number. Spin makes a program of it that goes through
all markings, nearest first. Transitions that put back all that they take lead to no other marking and are left out.
"""

import re
import resource
import shutil
import subprocess
import time

import asked
import parse


def element(place):
    """A place as Promela names it."""
    return f"{place[0]}[{place[1:]}]"


def array(name, tokens):
    """The places of one letter; an array has one element at least."""
    return f"byte {name}[{len(tokens) or 1}] = {{{', '.join(map(str, tokens or [0]))}}};\n"


def promela(net, properties):
    """The model, with the properties as groups of places; each is broken where every group has a token."""
    steps = []
    for number, groups in enumerate(properties, 1):
        held = " && ".join("(" + " || ".join(map(element, group)) + ")" for group in groups)
        steps.append(f"{held} -> assert(!{number})")
    for transition, lost, gained in net.moving():
        guard = " && ".join(map(element, net.taken[transition])) or "true"
        effect = [f"{element(place)}--" for place in lost] + [f"{element(place)}++" for place in gained]
        steps.append(f"{guard} -> {'; '.join(effect)}; printf(\"{transition}\\n\")")
    body = "".join(f"    :: d_step {{ {step} }}\n" for step in steps or ["false -> skip"])
    arrays = array("p", net.tokens[0]) + array("q", net.tokens[1])
    return f"{arrays}\nactive proctype net() {{\nend:\n    do\n{body}    od\n}}\n"


def processor():
    """The processor time of all tools that have ended."""
    used = resource.getrusage(resource.RUSAGE_CHILDREN)
    return used.ru_utime + used.ru_stime


class Bounded:
    """Runs tools in a folder, within bounds of time and memory, and adds up their processor time."""

    def __init__(self, folder, seconds, megabytes):
        self.folder = folder
        self.until = time.monotonic() + seconds
        self.megabytes = megabytes
        self.seconds = seconds
        self.took = {}

    def run(self, what, *words):
        """What a tool writes."""
        before = processor()
        most = self.megabytes << 20
        try:
            done = subprocess.run(
                words,
                cwd=self.folder,
                timeout=max(self.until - time.monotonic(), 0.1),
                preexec_fn=lambda: resource.setrlimit(resource.RLIMIT_AS, (most, most)),
                stdin=subprocess.DEVNULL,
                stdout=subprocess.PIPE,
                stderr=subprocess.STDOUT,
                encoding="utf-8",
                errors="replace",
                check=False,
            )
        except subprocess.TimeoutExpired as error:
            raise parse.Wrong(f"{what} came to no end in {self.seconds} seconds together with what was before") from error
        finally:
            self.took[what] = self.took.get(what, 0) + processor() - before
        if done.returncode:
            last = "\n".join(done.stdout.splitlines()[-5:])
            raise parse.Wrong(f"{what} failed ({done.returncode}) within {self.megabytes} megabytes:\n{last}")
        return done.stdout


def first_errors(told):
    """The number of markings of a search that came to its end, and for each property that is broken the number of its first error.

    Spin leaves out an error that is the same as the one before it, which is never a property's first.
    """
    states = re.search(r"^ *([0-9.e+]+) states, stored$", told, re.M)
    errors = re.search(r"errors: (\d+)$", told, re.M)
    if not states or not errors or "Search not completed" in told:
        raise parse.Wrong(f"the search did not come to its end:\n{told}")
    first = {}
    for error, what in re.findall(r"^pan:(\d+): (.*)$", told, re.M):
        broken = re.match(r"assertion violated +!\((\d+)\) ", what)
        if not broken:
            raise parse.Wrong(f"the search found an error that is no property's: {what}")
        first.setdefault(int(broken[1]), error)
    if (errors[1] != "0") != bool(first):
        raise parse.Wrong(f"the search does not tell the errors that it counts:\n{told}")
    return int(float(states[1])), first


def way(tools, number, error):
    """The way to a property's first error, as the search writes it when it stops there."""
    tools.run("searching", "./pan", f"-c{error}")
    replayed = tools.run("searching", "./pan", "-S")
    if not re.search(rf"assertion violated +!\({number}\) ", replayed):
        raise parse.Wrong(f"the way that Spin tells leads elsewhere:\n{replayed}")
    return re.findall(r"^t\d+$", replayed, re.M)


def searched(net, properties, words, folder):
    """What Spin finds."""
    with open(f"{folder}/net.pml", "w", encoding="utf-8") as file:
        file.write(promela(net, [wanted.groups for wanted in properties]))
    tools = Bounded(folder, words.seconds, words.megabytes)
    tools.run("translating", "spin", "-a", "net.pml")
    # all markings, nearest first, none left out; the last is how long a marking may be
    flags = ["-O0", "-w", "-DBFS", "-DSAFETY", "-DNOREDUCE", f"-DVECTORSZ={max(1024, len(net.places) + 64)}"]
    tools.run("compiling", "cc", *flags, "-o", "pan", "pan.c")
    markings, first = first_errors(tools.run("searching", "./pan", "-c0"))
    numbers = range(1, len(properties) + 1)
    ways = [way(tools, number, first[number]) if number in first else None for number in numbers]
    return asked.Found(markings, True, ways, tools.took)


def main():
    usage = asked.usage("checker/spin", "[--seconds N] [--megabytes N]", "Has Spin search the net of a table, nearest markings first.")
    usage.add_argument("--seconds", type=asked.positive, default=600, metavar="N", help="the most time (600)")
    usage.add_argument("--megabytes", type=asked.positive, default=4000, metavar="N", help="the most memory (4000)")
    words = usage.parse_args()
    for tool, package in (("spin", "spin"), ("cc", "gcc")):
        if not shutil.which(tool):
            asked.say(f"checker/spin: there is no '{tool}' (Debian: apt-get install {package})")
            return 2
    return asked.answered("checker/spin", words, searched)


if __name__ == "__main__":
    asked.end(main)
