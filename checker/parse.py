"""Takes exported nets apart with a real XML parser: parse.py FILE...

Each file must be well-formed XML in PNML's namespace, with one net of the type of place/transition nets, on one page, whose ids differ
and whose arcs join a place and a transition. What is not in an exported net (names, graphics, inscriptions) is refused, since here
nobody would heed it. The net is written to the standard output as lines, with one space between words:

    net NAME              the file's name without its ending
    place ID TOKENS       the tokens at the start
    transition ID
    arc SOURCE TARGET     an arc of weight 1

The exit status is 0 where every file is fine, 1 where one is not, and then what is wrong stands on the error output; 2 for wrong use.
"""

import os
import re
import sys
from xml.parsers import expat

NAMESPACE = "http://www.pnml.org/version-2009/grammar/pnml"
TYPE = "http://www.pnml.org/version-2009/grammar/ptnet"

# each element with the one that must stand around it and the attributes that it must have
ELEMENTS = {
    "pnml": (None, set()),
    "net": ("pnml", {"id", "type"}),
    "page": ("net", {"id"}),
    "place": ("page", {"id"}),
    "transition": ("page", {"id"}),
    "arc": ("page", {"id", "source", "target"}),
    "initialMarking": ("place", set()),
    "text": ("initialMarking", set()),
}

# elements that must have another one in them, and those of which there may be one at most in the element around them
NEEDED = {"pnml": "net", "net": "page", "initialMarking": "text"}
ONCE = {"net", "page", "initialMarking", "text"}

# what an arc may join
JOINED = {("place", "transition"), ("transition", "place")}

# an id of XML, without the letters that no id here has
ID = re.compile(r"[A-Za-z_][A-Za-z0-9_.-]*\Z")


class Wrong(Exception):
    """What is wrong with a file."""


class Net:
    """A net as it is read: its places with their tokens, its transitions and its arcs, in the order of the file."""

    def __init__(self):
        self.places = {}
        self.transitions = []
        self.arcs = []
        self.ids = {}
        self.open = []
        self.place = None

    def begin(self, name, attributes):
        """Takes the beginning of an element."""
        space, _, name = name.rpartition(" ")
        if space != NAMESPACE:
            raise Wrong(f"'{name}' is not in the namespace {NAMESPACE}")
        around = self.open[-1][0] if self.open else None
        if name not in ELEMENTS or ELEMENTS[name][0] != around:
            raise Wrong(f"'{name}' may not stand in '{around or 'the file'}'")
        if attributes.keys() != ELEMENTS[name][1]:
            raise Wrong(f"'{name}' has the attributes {sorted(attributes)}")
        if name in ONCE:
            self.first(name)
        if "id" in attributes:
            self.named(attributes["id"], name)
        if name == "net" and attributes["type"] != TYPE:
            raise Wrong(f"the net's type is {attributes['type']}")
        if name == "place":
            self.place = attributes["id"]
            self.places[self.place] = 0
        elif name == "transition":
            self.transitions.append(attributes["id"])
        elif name == "arc":
            self.arcs.append((attributes["source"], attributes["target"]))
        self.open.append((name, set(), []))

    def first(self, name):
        """An element is the first of its name in the one around it."""
        around, inner, _ = self.open[-1]
        if name in inner:
            raise Wrong(f"there is a second '{name}' in one '{around}'")
        inner.add(name)

    def named(self, name, what):
        """Gives an id its meaning."""
        if not ID.match(name):
            raise Wrong(f"'{name}' is no id")
        if name in self.ids:
            raise Wrong(f"the id '{name}' is there twice")
        self.ids[name] = what

    def said(self, text):
        """Takes text between tags."""
        name, _, said = self.open[-1]
        if name == "text":
            said.append(text)
        elif text.strip():
            raise Wrong(f"there is text in '{name}'")

    def end(self, _):
        """Takes the end of an element."""
        name, inner, said = self.open.pop()
        needed = NEEDED.get(name)
        if needed and needed not in inner:
            raise Wrong(f"there is no '{needed}' in '{name}'")
        if name == "text":
            tokens = "".join(said).strip()
            if not re.match(r"[0-9]{1,9}\Z", tokens):
                raise Wrong(f"'{tokens}' is no number of tokens")
            self.places[self.place] = int(tokens)

    def joined(self):
        """Each arc joins a place and a transition."""
        for source, target in self.arcs:
            ends = (self.ids.get(source), self.ids.get(target))
            if ends not in JOINED:
                raise Wrong(f"an arc from '{source}' to '{target}' does not join a place and a transition")


def no_doctype(*_):
    """An exported net declares no type of document, and so no entities."""
    raise Wrong("there is a DOCTYPE")


def read(path):
    """The net of a file."""
    net = Net()
    parser = expat.ParserCreate(namespace_separator=" ")
    parser.StartElementHandler = net.begin
    parser.EndElementHandler = net.end
    parser.CharacterDataHandler = net.said
    parser.StartDoctypeDeclHandler = no_doctype
    try:
        with open(path, "rb") as file:
            parser.ParseFile(file)
        net.joined()
    except expat.ExpatError as error:
        raise Wrong(f"byte {parser.ErrorByteIndex}: no XML: {expat.ErrorString(error.code)}") from error
    except Wrong as wrong:
        raise Wrong(f"byte {parser.CurrentByteIndex}: {wrong}") from wrong
    return net


def lines(name, net):
    """The lines of a net."""
    yield f"net {name}\n"
    for place, tokens in net.places.items():
        yield f"place {place} {tokens}\n"
    for transition in net.transitions:
        yield f"transition {transition}\n"
    for source, target in net.arcs:
        yield f"arc {source} {target}\n"


def main(paths):
    if not paths:
        print("usage: checker/parse FILE...", file=sys.stderr)
        return 2
    for path in paths:
        name = os.path.splitext(os.path.basename(path))[0]
        try:
            sys.stdout.writelines(lines("_".join(name.split()) or "_", read(path)))
        except (Wrong, OSError) as wrong:
            print(f"checker/parse: {path}: {getattr(wrong, 'strerror', wrong)}", file=sys.stderr)
            return 1
    return 0


if __name__ == "__main__":
    sys.exit(main(sys.argv[1:]))
