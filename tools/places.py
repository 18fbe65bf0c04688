#!/usr/bin/env python3
"""Counts the places that docs/DESIGN-PASS.md speaks of, point by point.

usage: python3 tools/places.py [--list] [--point N] [--crate NAME] [--functions] [COMMIT]

It reads crates/*/src of the checkout, and for point 8 crates/*/proofs too; with COMMIT it reads that commit's. It prints a row for each
kind of place of each point with how many there are, and with --list each place: file, line, and what it is. --functions prints each
function with the points that touch it, crate by crate as crates.txt has them.

It goes by text alone: comments, strings and characters are blanked first, then the rules below are asked. What a rule finds is a place to
look at, not a verdict; that a place stays, and why, stands in the page.

1  own-option  an enum of which one variant is bare and each other carries something: Option, or Result with ()
   own-result  an enum of which one variant carries a Refusal: Result
   beside      a struct with a flag, or with one of these enums, beside other fields
   refusal     a refusal by its number: refused or refused_by called with a literal
   kind        a record's kind compared: kind or found with anything, or a word of the table with a number, by == or !=
   code        a number that stands for one of several things: a parameter or field kind, code, codes, `number: u8` or `marker: u32`, one of
               the constants RUN, LIFTED and START, a function named .._code
   flag        a byte or a number that is a flag: compared with 1 or 0, made by `if .. { 1 } else { 0 }` or `as u8` of a truth, set to 1
   passed-up   `let .. else { return ..` or `if let .. { return ..`: a refusal passed up, or a nothing, by hand
2  twin        two functions or types that differ only in a type, a size, a constant or a name. TWINS below has them, row by row, with the
               test by which each is one; besides, each two bodies of 25 words or more of which 85 in 100 stand in both in order, and each
               two of 14 or more that are one when names and numbers are left out. n of a kind count n - 1
   for-c       the same where both are calls for C, in ffi or ffi_c
3  loop        a while or loop in whose body a number is raised or lowered by a constant
   recursion   a function that calls itself with what is left, `.. - ..`, in place of such a loop
4  (of functions that are no method of a trait)
   match       a function that is one match on what it is given, with no call in it but of such functions: From, Display, a derive
   number      a function that turns a number into a variant by comparing it: TryFrom
   built       a function that only puts its arguments or constants into a struct: From, Default, a constant
   copied      a struct of which two fields or more are copied from another one by one: struct update, Copy
   swapped     two elements exchanged through two names: swap
   printed     a function that writes words or numbers piece by piece: Display
   taken-apart a number put together of bytes, digits or bits by 256, 10 or 64, or taken apart: from_le_bytes, to_le_bytes, Display, a type
5  fact        a fact that the contracts of three functions or more state: a word of specs/ with a capital, or a premise, its names left out
   view        a reading of one value, as `held_in held`, in the contracts of three functions or more: impl Model
   together    a parameter of three functions or more that in four of five of them, or more, comes with certain others; those of calls for
               C are left out, and as such others table and out, which most functions take
   made        a buffer that three functions or more make beside certain others
6  length      a slice or array with a count beside it: a loop up to a count that indexes it, a part up to a count, a struct of both
   parallel    a function that reads or writes two slices at one index
   searched    a loop that returns from within: a search by hand; or one that halves
   walk        the step to the next record written out: at + 4 + the word at it
   index       a parameter that holds places in another slice: of type &[usize] or &mut [usize]
7  truth       a parameter that is a bool
   choice      a function that takes an enum of which no variant carries anything: which step is to run
   told        a call with true or false written out
8  answers     for measure, not a place: an answer to a goal, `pub X : goal.X` in proofs/*/Answers.antt
   alone       of these, such as only say what the check tries itself: search rules, omega arith, refl, tt, simp or rw of what is at hand
   repeated    of these, such as three functions or more have, of 40 letters or more, the name of the loop left out
   lemma       for measure, not a place: a helper lemma, or what else the files of proofs/ declare beside answers
   of-std      of these, such as have the statement of one of std's, as far as text tells (needs the kit: it is found by `rt doc`)
"""

import difflib
import io
import re
import subprocess
import sys
import tarfile
from collections import Counter, defaultdict
from pathlib import Path

# The twins that were read in the sources, a row for each lot, with the test by which it is one:
#   alike   the bodies are one when names and numbers are left out
#   near N  N in 100 of the words of the bodies stand in both in order, of the first and each other one
#   calls   each body is one call, of the same function
#   wraps   the second's body is one call of the first
#   fields  the types have the same fields or variants, whatever these hold, and where they have no names, as many
#   read    no test by text: they do the same work, as the words say; it counts while not both bodies are one call
TWINS = [
    ("near 78", "refusal::number_of refusal::place_of refusal::by_of refusal::value_of", "one field of an answer, or its default"),
    ("fields", "refusal::TableEvent refusal::UnfoldedEvent refusal::TableCondition refusal::UnfoldedCondition", "a number of two bytes"),
    ("alike", "words::byte tally::number outward::word_at", "an element or a default: get_or of bytes, of numbers, of markers"),
    ("read", "words::word words::word_within", "two bytes as a number, with and without a test of the end"),
    ("read", "words::all_bits game::first_above", "where the first byte above 1 is, or whether there is one"),
    ("wraps", "records::shown records::part_of", "a part of a slice, with and without where it lies"),
    ("near 74", "records::pre_at records::post_at records::marking_at", "a list of a record"),
    ("calls", "runs::read_run runs::read_lifted", "differ in the kind"),
    ("calls", "writing::write_run writing::write_lifted", "differ in the kind"),
    ("read", "runs::RUN runs::LIFTED", "a kind, for which the two callers above are written twice"),
    ("near 75", "parts::pre_part parts::post_part parts::marking_part", "a list shown as a part of the table"),
    ("near 80", "parts::asked parts::asked_condition game::ready", "an event or a condition asked for, else 10"),
    ("alike", "asking::preconditions asking::postconditions", "differ in the list"),
    ("read", "asking::preconditions parts::pre_part", "an event's list asked for: copied, or shown"),
    ("near 75", "listing::write pnml::write", "a text measured in too few bytes, then written, else 16"),
    ("alike", "listing::put_condition pnml::put_transition_name pnml::put_arc_id", "a text and a number"),
    ("near 75", "held::both held::either held::without", "four words put together by an operation"),
    ("read", "tally::fill copies::fill walking::set_range", "elements set to the same"),
    ("read", "held::spread copies::fill", "elements set from a place on"),
    ("fields", "step::Cause unfolded_step::Cause", "differ in the type of a condition"),
    ("fields", "step::Step unfolded_step::Step", "differ in the type of a cause"),
    ("fields", "step::Failing walking::Failing", "differ in the type of a condition"),
    ("alike", "step::cause_number unfolded_step::cause_number", "differ in the type of a cause"),
    ("alike", "step::cause_by unfolded_step::cause_by", "differ in the type of a cause"),
    ("alike", "step::cause_place unfolded_step::cause_place outward::by_number", "the number of a condition, or 0"),
    ("alike", "step::stopped_at unfolded_step::stopped_at", "differ in the type of a cause"),
    ("alike", "step::answered unfolded_step::answered", "differ in the type of a step"),
    ("read", "step::told walking::test decided::decide", "what lacks, else what meets, else it goes"),
    ("read", "step::test step::move_at", "what stops a step, on bytes and on words"),
    ("read", "step::step_at project::fire_at", "a firing on bytes"),
    ("near 80", "played::step_event played::move_event", "a step by the number of an event, on bytes and on words"),
    ("read", "played::start played::start_held", "the start, as bytes and as words"),
    ("near 80", "game::concession game::fire", "an event tested, or fired"),
    ("near 78", "game::judge_lent firing::lend", "a marking that is lent, judged"),
    ("near 85", "replay::replay replay::replay_from", "differ in where a run begins"),
    ("near 85", "tally::raise tally::raise_low", "differ in how a condition's number is read"),
    ("near 85", "tally::nth tally::place", "an event by its place among some, and the place of an event"),
    ("read", "segments::choose decided::choose_down events::picked", "a colour's number taken apart into the places of its markers"),
    ("near 75", "colours::colours_down decided::choose_down", "a walk down the persistent preconditions by recursion"),
    ("near 80", "layout::width segments::choices", "something of a persistent condition, else 1"),
    ("near 85", "across::sizes_before unfolding::colours_before", "the colours of events added up, kept or not"),
    ("read", "layout::sums located::base", "the copies of conditions added up, kept or not"),
    ("near 80", "unfolding::event_count unfolding::condition_count elements::element_count", "a count of a table that is laid out"),
    ("read", "unfolding::marker_of outward::marker_of", "a number as a marker, by two codes"),
    ("read", "unfolding::marker_code unfolding::marker_at", "the marker at a place, as a number and as itself"),
    ("fields", "events::Pick firsts::Slot", "one value in a struct of its own"),
    ("read", "conditions::owner across::event_of", "where a number falls among sums, step by step and by halving"),
    ("alike", "outward::put_value outward::put_number", "differ in the size of a number"),
    ("near 75", "outward::put_value outward::put_event", "a value put where the call worked"),
    ("near 80", "outward::put_condition outward::put_copy outward::put_marker outward::put_user", "one part of an origin, put where there is one"),
    ("read", "asking::write_list outward::write_markers project::write_back", "numbers written where there is room, else 16"),
    ("calls", "unfolded_lists::unfolded_pre unfolded_lists::unfolded_post", "differ in the list"),
    ("read", "starting::write_start ends::write_marking", "copies written, of two markings"),
    ("near 85", "decided::first_lacking decided::first_meeting", "the first condition of a list that fails a test"),
    ("near 75", "losses::is_kept losses::is_spent", "a persistent condition, or one that passes a test"),
    ("near 75", "apart::all_pass losses::ordinary_in losses::spends repeats::marks_for_others", "whether all or some of a list pass a test"),
    ("read", "later::only_user repeats::used_by_others", "whether an event alone uses a condition"),
    ("near 85", "repeats::once_only losses::write_lossy later::own_markers", "something done for each event and its two lists"),
    ("read", "located::lacked located::met", "the number of a copy, by marker and user"),
    ("near 85", "ends::unfolded_replay project::project", "an unfolded run replayed, then its end or its events written"),
    ("near 80", "ends::lift_end opening::reach_end", "a lift and its end, with the lift lent or not"),
    ("fields", "elements::Opened opening::Opened", "an answer and three counts"),
    ("alike", "elements::refused opening::refused", "a refusal, and nothing opened"),
    ("fields", "elements::Written lines::Written", "differ in the type of a place"),
    ("near 75", "export_places::goes_on lines::goes_on", "a place that is not the last"),
    ("alike", "lines::step_from lines::more_from", "a place up to a count, else what comes after"),
    ("near 75", "segments::lay sides::lay_side", "a segment of each condition, laid as two ranges"),
    ("read", "segments::segment_at sides::share_at", "what a condition adds to a list or a side"),
    ("read", "segments::ranges arcs::open_transition", "the shares of an event counted, its colour chosen, its ranges laid"),
    ("read", "unfolded_lists::put_ranges walking::set_ranges", "something done for each of so many ranges"),
    ("near 75", "judging::verdict playing::tell", "an answer in words"),
    ("read", "judging::verdict showing::tell numbers::net files::refuse", "an answer in words"),
    ("near 85", "playing::replays playing::replays_from", "differ in where a run begins"),
    ("near 80", "playing::concedes playing::fires", "an event tested, or fired"),
    ("near 80", "playing::replays_from showing::replayed", "a run replayed from a marking, and its end"),
    ("read", "playing::number showing::number playing::condition", "a number after a word"),
    ("read", "playing::cause listing::put_by", "what stopped a step, in words"),
    ("alike", "showing::events showing::conditions", "all up to one past the last, and the highest"),
    ("read", "list::show export::show", "a text written from place to place"),
]

NAMED_CODES = {"RUN", "LIFTED", "START"}
FLAGS = r"(?:seen|once|state|marking|start|flags|held|begun|kept)"


def blank(text):
    """The text with comments, strings and characters blanked, of the same length."""
    out, i, n = list(text), 0, len(text)
    char = re.compile(r"b?'(?:\\(?:x[0-9a-fA-F]{2}|.)|[^'\\\n])'")
    while i < n:
        if text.startswith("//", i):
            j = text.find("\n", i)
            j = n if j < 0 else j
        elif text[i] == '"' or text.startswith('b"', i):
            j = text.index('"', i) + 1
            while text[j] != '"':
                j += 2 if text[j] == "\\" else 1
            j += 1
        elif found := char.match(text, i):
            j = found.end()
        else:
            i += 1
            continue
        for k in range(i, j):
            if out[k] != "\n":
                out[k] = "0" if k == i and text[i] != "/" else " "
        i = j
    return "".join(out)


def closing(text, i):
    """Where the bracket at i is closed."""
    pairs = {"(": ")", "{": "}", "[": "]"}
    deep, a, b = 0, text[i], pairs[text[i]]
    for k in range(i, len(text)):
        deep += (text[k] == a) - (text[k] == b)
        if not deep:
            return k
    return len(text) - 1


def pieces(text):
    """The text cut at commas that stand in no bracket."""
    parts, deep, begun = [], 0, 0
    for k, c in enumerate(text):
        if c in "([{":
            deep += 1
        elif c in ")]}":
            deep -= 1
        elif c == "," and not deep:
            parts.append(text[begun:k])
            begun = k + 1
    parts.append(text[begun:])
    return [part.strip() for part in parts if part.strip()]


TOKEN = re.compile(r"[A-Za-z_]\w*|\d\w*|[^\s\w]")
WORDS = set("let mut if else return while loop match fn true false as for in break continue ref".split())


class Function:
    """A function: its crate and name, parameters with their types, clauses, and body."""

    def __init__(self, source, path, line, name, params, result, clauses, body, at, text):
        self.crate, self.words, self.path, self.line, self.name = source.crate, source.words, path, line, name
        self.params, self.result, self.clauses, self.body = params, result, clauses, body
        self.at, self.text = at, text
        self.tokens = TOKEN.findall(body)
        self.public, self.trait = False, ""

    @property
    def key(self):
        return f"{self.crate}::{self.name}"

    def shape(self):
        return tuple(t if t in WORDS or not (t[0].isalnum() or t[0] == "_") else "_" for t in self.tokens)

    def line_of(self, k):
        """The line of a place in the body."""
        return self.text.count("\n", 0, self.at + k) + 1


class Type:
    """A struct or an enum: fields or variants, each with its name and what it holds."""

    def __init__(self, crate, path, line, word, name, parts):
        self.crate, self.path, self.line, self.word, self.name, self.parts = crate, path, line, word, name, parts

    @property
    def key(self):
        return f"{self.crate}::{self.name}"


class Source:
    """A source file that was read: functions, types and constants."""

    def __init__(self, path, raw):
        self.path, self.crate = path, path.split("/")[1]
        self.text = text = blank(raw)
        self.functions, self.types, self.constants = [], [], {}
        self.words = {}
        for m in re.finditer(r"\bghost use Rattle\.(\w+)\.[\w.]+?\.\{([^}]*)\}", text):
            for word in m[2].split(","):
                self.words[word.split(" as ")[-1].strip()] = m[1]
        inside = []
        for m in re.finditer(r"^ *(?:unsafe )?impl\b([^{;]*)\{", text, re.M):
            head = re.sub(r"\bwhere\b[\s\S]*", "", m[1])
            while (plain := re.sub(r"<[^<>]*>", "", head.replace("->", ""))) != head:
                head = plain
            trait, _, owner = head.rpartition(" for ")
            inside.append((m.start(), closing(text, m.end() - 1), owner.split("::")[-1].strip(), trait.split("::")[-1].strip()))
        for m in re.finditer(r"\bfn (\w+)", text):
            i = m.end()
            if text[i] == "<":
                deep = 0
                while deep or text[i] != "(":
                    deep += (text[i] == "<") - (text[i] == ">" and text[i - 1] not in "-=")
                    i += 1
            i = text.index("(", i)
            j = closing(text, i)
            params = []
            for part in pieces(text[i + 1 : j]):
                name, _, kind = part.partition(":")
                name = name.replace("mut ", "").strip().lstrip("&").replace("'a ", "").strip()
                params.append((name, re.sub(r"'\w+ ", "", " ".join(kind.split())) or "Self"))
            k, clauses, body, start = j + 1, [], "", 0
            head = re.compile(r"\b(requires|ensures)\b\*?\s*(\w+)?\s*$")
            first = k
            while first < len(text) and text[first] not in "{;":
                first = closing(text, first) + 1 if text[first] in "([" else first + 1
            result = re.split(r"\b(?:requires|ensures|where)\b", text[k:first])[0].replace("->", "").strip()
            while text[first : first + 1] == "{" and 0 <= (b := text.find("{", k)):
                e = closing(text, b)
                found = head.search(text[k:b])
                if not found:
                    body, start = text[b : e + 1], b
                    break
                clauses.append((found[1], found[2] or "", " ".join(text[b + 1 : e].split())))
                k = e + 1
                rest = re.match(r"\s*;", text[k:])
                if rest:
                    break
            owner, trait = next(((owner, trait) for a, z, owner, trait in inside if a < m.start() < z), ("", ""))
            name = f"{owner}::{m[1]}" if owner else m[1]
            made = Function(self, path, text.count("\n", 0, m.start()) + 1, name, params, result, clauses, body, start, text)
            made.trait = trait
            made.public = bool(re.search(r"\bpub\b[^;{}]*$", text[text.rfind("\n", 0, m.start()) + 1 : m.start()]))
            self.functions.append(made)
        for m in re.finditer(r"\b(struct|enum) (\w+)(?:<[^{(;]*>)?\s*([({;])", text):
            parts = []
            if m[3] != ";":
                b = m.end() - 1
                for number, part in enumerate(pieces(re.sub(r"#\[[^\]]*\]", "", text[b + 1 : closing(text, b)]))):
                    part = re.sub(r"^pub(\([^)]*\))? ", "", part)
                    if part.startswith("ghost"):
                        continue
                    if m[1] == "enum":
                        found = re.match(r"(\w+)\s*([\s\S]*)", part)
                        parts.append((found[1], found[2].strip()))
                    elif m[3] == "(":
                        parts.append((str(number), part))
                    else:
                        name, _, kind = part.partition(":")
                        parts.append((name.strip(), kind.strip()))
            self.types.append(Type(self.crate, path, text.count("\n", 0, m.start()) + 1, m[1], m[2], parts))
        for m in re.finditer(r"\bconst (\w+): ([^=]+)=", text):
            self.constants[m[1]] = (text.count("\n", 0, m.start()) + 1, m[2].strip())


class Places:
    """The places of all points: each is kept as (point, kind, path, line, words, function)."""

    def __init__(self, files):
        self.files = files
        self.order = [line.split(":")[0].split()[0] for line in files.get("crates.txt", "").splitlines() if line.strip() and line[0] != "#"]
        self.sources = [Source(path, files[path]) for path in sorted(files) if re.fullmatch(r"crates/\w+/src/.*\.rt", path)]
        self.sources.sort(key=lambda s: self.order.index(s.crate) if s.crate in self.order else len(self.order))
        self.functions = [f for s in self.sources for f in s.functions]
        self.types = [t for s in self.sources for t in s.types]
        self.found, self.twinned, self.travelling = [], set(), set()
        for point in (self.one, self.two, self.three, self.four, self.five, self.six, self.seven, self.eight):
            point()

    def place(self, point, kind, path, line, words, function=None):
        self.found.append((point, kind, path, line, words, function))

    def at(self, point, kind, f, m, words=None):
        """A place in a function's body."""
        self.place(point, kind, f.path, f.line_of(m.start()), words or " ".join(m[0].split()), f)

    # ---- 1: own enums, flags and numbers

    def one(self):
        self.optional = {}
        for t in self.types:
            if t.word != "enum":
                continue
            bare = [name for name, held in t.parts if not held]
            if any(re.search(r"\b(Refusal|\w*Error)\b", held) for _, held in t.parts):
                self.optional[t.name] = "own-result"
            elif len(bare) == 1 and len(t.parts) > 1:
                self.optional[t.name] = "own-option"
            else:
                continue
            self.place(1, self.optional[t.name], t.path, t.line, f"enum {t.name}: {', '.join(name + ('(..)' if held else '') for name, held in t.parts)}")
        for t in self.types:
            if t.word == "struct" and len(t.parts) > 1:
                flags = [name for name, kind in t.parts if kind == "bool" or kind.split("::")[-1] in self.optional]
                if flags:
                    self.place(1, "beside", t.path, t.line, f"struct {t.name}: {', '.join(flags)} beside {', '.join(n for n, _ in t.parts if n not in flags)}")
            for name, kind in t.parts:
                if self.coded(name, kind):
                    self.place(1, "code", t.path, t.line, f"{t.name}: field {name}: {kind}")
                for m in re.finditer(r"\b(kind|code|codes): (u\d+)", kind):
                    self.place(1, "code", t.path, t.line, f"{t.name}::{name}: {m[0]}")
        for s in self.sources:
            for name, (line, _) in s.constants.items():
                if name in NAMED_CODES:
                    self.place(1, "code", s.path, line, f"const {name}")
        for f in self.functions:
            for name, kind in f.params:
                if self.coded(name, kind):
                    self.place(1, "code", f.path, f.line, f"{f.name}: {name}: {kind}", f)
            if f.name.endswith("_code"):
                self.place(1, "code", f.path, f.line, f"fn {f.name}", f)
            for m in re.finditer(r"\brefused(?:_by)?\(\s*\d+", f.body):
                self.at(1, "refusal", f, m)
            for m in re.finditer(r"\b(?:kind|found) [=!]= \w+|words::word\([^()]*\) [=!]= \d+", f.body):
                self.at(1, "kind", f, m)
            flag = (
                rf"words::byte\((?:[^()]|\([^()]*\))*\) [=!]= [01]\b|\bbyte\((?:[^()]|\([^()]*\))*\) == 1\b|\b{FLAGS}\[[^\]]*\] (?:[=!]= [01]\b|= [01];)|\b1 == {FLAGS}\[\w+\]"
                r"|\b(?:once|takes|back|share\.takes) == 1\b|tally::number\((?:members|taken|before|after), \w+\) == 1\b|\{\s*1\s*\} else \{\s*0\s*\}|\bholds as u8\b"
            )
            for m in re.finditer(flag, f.body):
                self.at(1, "flag", f, m)
            if any(name == "once" and kind == "u8" for name, kind in f.params):
                self.place(1, "flag", f.path, f.line, f"{f.name}: once: u8", f)
            for m in re.finditer(r"\blet [^;{}=]+?(?:\{[^{}]*\})? = [^;{}]+ else \{\s*return\b[^;]*;|\bif let [^{}=]+ = [^{}]+ \{\s*return\b", f.body):
                self.at(1, "passed-up", f, m)

    @staticmethod
    def coded(name, kind):
        plain = kind.replace("&mut ", "").replace("&", "")
        number = re.fullmatch(r"\[?u(8|16|32|64)(; \d+)?\]?", plain)
        return bool(number) and (name in ("kind", "code", "codes") or (name, plain) in (("number", "u8"), ("marker", "u32")))

    # ---- 2: twins

    def two(self):
        named = {f.key: f for f in self.functions}
        typed = {t.key: t for t in self.types}
        consts = {f"{s.crate}::{name}": (s.path, line) for s in self.sources for name, (line, _) in s.constants.items()}
        one_of = {}

        def root(key):
            while one_of.get(key, key) != key:
                key = one_of[key]
            return key

        def join(a, b, words):
            if root(a) == root(b):
                return
            one_of[root(b)] = root(a)
            thing = named.get(b) or typed.get(b)
            path, line = (thing.path, thing.line) if thing else consts[b]
            both_c = a.split("::")[0] in ("ffi", "ffi_c") and b.split("::")[0] in ("ffi", "ffi_c")
            self.place(2, "for-c" if both_c else "twin", path, line, f"{b} ~ {a}: {words}", named.get(b))
            if named.get(a):
                self.twinned.add(named[a])

        for test, row, words in TWINS:
            standing = [key for key in row.split() if key in named or key in typed or key in consts]
            for key in standing[1:]:
                if self.twins(test, standing[0], key, named, typed):
                    join(standing[0], key, f"{test}: {words}")
        for f in self.functions:
            if f.crate == "ffi_c" and f"ffi::{f.name}" in named:
                join(f"ffi::{f.name}", f.key, "the export of a function of ffi")
        shapes = defaultdict(list)
        for f in self.functions:
            if len(f.tokens) >= 14 and f.body:
                shapes[f.crate in ("ffi", "ffi_c"), f.shape()].append(f)
        for lot in shapes.values():
            for f in lot[1:]:
                join(lot[0].key, f.key, "found: alike")
        large = [f for f in self.functions if len(f.tokens) >= 25]
        for k, f in enumerate(large):
            for g in large[:k]:
                if root(f.key) != root(g.key) and self.near(g, f) >= 85:
                    join(g.key, f.key, f"found: near {int(self.near(g, f))}")

    @staticmethod
    def near(f, g):
        a, b = len(f.tokens), len(g.tokens)
        if 200 * min(a, b) / max(1, a + b) < 70:
            return 0
        match = difflib.SequenceMatcher(None, f.tokens, g.tokens, autojunk=False)
        if match.quick_ratio() < 0.7:
            return 0
        return 100 * max(match.ratio(), difflib.SequenceMatcher(None, g.tokens, f.tokens, autojunk=False).ratio())

    def twins(self, test, a, b, named, typed):
        if test == "fields":
            if a not in typed or b not in typed:
                return False
            one, other = typed[a], typed[b]
            names = [n for n, _ in one.parts], [n for n, _ in other.parts]
            return one.word == other.word and (names[0] == names[1] or len(names[0]) == len(names[1]) and names[0][0] == names[1][0])
        if a not in named or b not in named:
            return test == "read"
        f, g = named[a], named[b]
        called = [re.fullmatch(r"\{\s*([\w:]+)\([^;{}]*\)\s*\}", h.body) for h in (f, g)]
        if test == "read":
            return not (called[0] and called[1])
        if test == "calls":
            return bool(called[0] and called[1] and called[0][1] == called[1][1])
        if test == "wraps":
            return bool(called[1] and called[1][1].split("::")[-1] == f.name)
        if test == "alike":
            return f.shape() == g.shape()
        return self.near(f, g) >= int(test.split()[1])

    # ---- 3: loops that count by hand

    def three(self):
        for f in self.functions:
            for m in re.finditer(r"\b(while|loop)\b([^{;]*)\{", f.body):
                b = m.end() - 1
                inner = f.body[b : closing(f.body, b) + 1]
                counted = re.search(r"\b(\w+) (?:= \1 [+-] \d+|[+-]= \d+)", inner)
                if counted:
                    self.at(3, "loop", f, m, f"{' '.join(m[0].split())} .. {counted[0]}")
            name = f.name.split("::")[-1]
            for m in re.finditer(rf"(?<![:\w]){name}\(", f.body):
                args = f.body[m.end() - 1 : closing(f.body, m.end() - 1) + 1]
                if re.search(r"\w+ - \w+", args):
                    self.at(3, "recursion", f, m, f"{name} calls itself")

    # ---- 4: equality, copying, conversion and printing by hand

    def four(self):
        enums = {t.name for t in self.types if t.word == "enum"}
        structs = {t.name for t in self.types if t.word == "struct"}
        lets = r"\{\s*(?:let (?:mut )?\w+(?:: \w+)? = [\w.\[\]]+;\s*)*"
        matching, more = set(), True
        while more:
            more = False
            for f in self.functions:
                if f in matching or f.trait:
                    continue
                found = re.match(lets + r"match ([\w.]+) (\{)", f.body)
                if not found or closing(f.body, found.start(2)) + 1 < len(f.body.rstrip()[:-1].rstrip()):
                    continue
                inner = f.body[found.start(2) :]
                calls = re.findall(r"\b([a-z_]\w*)\(", inner)
                if all(call in {g.name for g in matching} for call in calls) and "rt." not in inner:
                    matching.add(f)
                    more = True
        for f in self.functions:
            if f.trait:
                continue
            if f in matching:
                self.place(4, "match", f.path, f.line, f"fn {f.name}: one match", f)
            result = f.result.split("::")[-1]
            if result in enums and not re.search(r"\b(while|loop|for|match)\b", f.body):
                tested = re.findall(r"\bif (\w+) (?:==|<) (\d+|[A-Z_]+) \{\s*return " + result, f.body)
                if tested and not re.search(r"\b[a-z]\w*\(", f.body):
                    self.place(4, "number", f.path, f.line, f"fn {f.name}: {tested[0][0]} to {result}", f)
            built = re.fullmatch(r"\{\s*(?:let \w+ = [^;]*;\s*)*(?:return )?((?:\w+::)*[A-Z]\w*)\s*(?:\{[\s\S]*\}|\([\s\S]*\))\s*\}", f.body)
            if built and not re.search(r"\b(if|match|while)\b", f.body) and not re.search(r"(?<!segments::)\b(?!own\b)[a-z]\w*\(", f.body):
                self.place(4, "built", f.path, f.line, f"fn {f.name}: a {built[1]}", f)
            for m in re.finditer(r"\b([A-Z]\w*) (\{)", f.body):
                if m[1] in structs:
                    inner = f.body[m.start(2) : closing(f.body, m.start(2))]
                    copied = Counter(x for n, x, y in re.findall(r"\b(\w+): (\w+)\.(\w+)\s*(?=[,}]|$)", inner) if n == y)
                    for whole, times in copied.items():
                        if times > 1:
                            self.at(4, "copied", f, m, f"{m[1]}: {times} fields of {whole}")
            m = re.search(r"let (\w+) = (\w+)\[([^\]]+)\];\s*let (\w+) = \2\[([^\]]+)\];\s*\2\[\3\] = \4;\s*\2\[\5\] = \1;", f.body)
            if m:
                self.at(4, "swapped", f, m, f"{m[2]}[{m[3]}] and {m[2]}[{m[5]}]")
            if re.search(r"\.(?:write_all|print)\(|\bspelling::put\w*\(", f.body) or f.crate == "spelling" and re.search(r"\bput\(", f.body):
                self.place(4, "printed", f.path, f.line, f"fn {f.name}", f)
            apart = re.search(r"256 \* \(|[/%] 256\b|[/%] 10\b|[/%] 64\b|>> |1 << ", f.body)
            if apart:
                self.at(4, "taken-apart", f, apart, f"fn {f.name}: {apart[0].strip()}")

    # ---- 5: facts and parameters that go together

    def five(self):
        facts, views = defaultdict(list), defaultdict(list)
        for f in self.functions:
            if f.crate == "ffi_c":
                continue
            kinds = dict(f.params)
            said, seen = set(), set()
            for word, _, clause in f.clauses:
                for part in self.conjuncts(clause):
                    head = re.match(r"(?:\w+\.)?([A-Z]\w*)\b", part)
                    if head:
                        said.add(f"{f.words.get(head[1], f.crate)}'s {head[1]}")
                    elif word == "requires":
                        said.add(re.sub(r"\b([a-z_]\w*)(?:\.(?:now|old|new))?\b", lambda m: "_" if m[1] in kinds else m[0], part))
                for m in re.finditer(r"\(([a-z]\w*_(?:in|of)|net_of|words|marking|judge_of|bytes) (\w+)(?:\.(?:now|old|new))?\)|\b(held_in|marking|words) (\w+)(?:\.(?:now|old|new))?", clause):
                    reading, value = (m[1], m[2]) if m[1] else (m[3], m[4])
                    if value in kinds or value == "result":
                        seen.add(f"{f.words.get(reading, f.crate)}'s {reading} _: {kinds.get(value, f.result)}")
            for fact in said:
                facts[fact].append(f)
            for view in seen:
                views[view].append(f)
        for kind, table in (("fact", facts), ("view", views)):
            for words, users in sorted(table.items(), key=lambda item: -len(item[1])):
                if len(users) >= 3:
                    self.place(5, kind, users[0].path, users[0].line, f"{words} in {len(users)}: {' '.join(f.key for f in users)}")
                    self.shared(users)
        takers = defaultdict(set)
        for f in self.functions:
            if f.crate not in ("ffi", "ffi_c"):
                for name, _ in f.params:
                    if name != "rt":
                        takers[name].add(f)
        self.company("together", takers, lambda a, b: b not in ("table", "out") and len(takers[a] & takers[b]) >= max(3, 0.8 * len(takers[a])))
        makers = defaultdict(set)
        for f in self.functions:
            for name in re.findall(r"\blet mut (\w+)(?:: [^=]+)? = \[[^;\]]+; \d+\]", f.body):
                makers[name].add(f)
        self.company("made", makers, lambda a, b: len(makers[a] & makers[b]) >= 3)

    def shared(self, users):
        self.travelling |= set(users)

    def company(self, kind, table, goes):
        """A place for each name that three functions or more have, and have only with certain others."""
        for name in sorted(table):
            others = [other for other in sorted(table) if other != name and goes(name, other)]
            if len(table[name]) >= 3 and others:
                first = min(table[name], key=lambda f: (f.path, f.line))
                users = " ".join(sorted(f.key for f in table[name]))
                self.place(5, kind, first.path, first.line, f"{name} with {', '.join(others)} in {len(table[name])}: {users}")
                self.shared(table[name])

    @staticmethod
    def conjuncts(clause):
        parts, deep, begun = [], 0, 0
        for k, c in enumerate(clause):
            deep += (c in "([{") - (c in ")]}")
            if c == "×" and not deep:
                parts.append(clause[begun:k])
                begun = k + 1
        parts.append(clause[begun:])
        trimmed = []
        for part in parts:
            part = part.strip()
            while part.startswith("(") and closing(part, 0) == len(part) - 1:
                part = part[1:-1].strip()
            trimmed += Places.conjuncts(part) if "×" in part and part != clause.strip() else [part]
        return trimmed

    # ---- 6: lengths beside, parallel arrays, searches, indices

    def six(self):
        for t in self.types:
            if t.word == "struct" and any(kind.startswith(("[", "&[")) for _, kind in t.parts) and any(kind in ("usize", "u32", "u16") for _, kind in t.parts):
                self.place(6, "length", t.path, t.line, f"struct {t.name}: {', '.join(f'{n}: {k}' for n, k in t.parts)}")
        for f in self.functions:
            slices = {name for name, kind in f.params if "[" in kind} | set(re.findall(r"\blet mut (\w+)(?:: [^=]+)? = \[", f.body))
            counts = {name for name, kind in f.params if kind in ("usize", "u32", "u16")}
            for m in re.finditer(r"\b(while|loop)\b([^{;]*)\{", f.body):
                b = m.end() - 1
                inner = f.body[b : closing(f.body, b) + 1]
                test = re.fullmatch(r"\s*(\w+) < (\w+)\s*", m[2])
                if test and test[2] in counts:
                    indexed = [s for s in sorted(slices) if re.search(rf"\b{s}\[[^\]]*\b{test[1]}\b[^\]]*\]|tally::number\({s}, {test[1]}\)", inner)]
                    if indexed:
                        self.at(6, "length", f, m, f"{', '.join(indexed)} up to {test[2]}")
                if re.search(r"\breturn\b", inner) and not re.search(r"\bwhile\b", inner):
                    self.at(6, "searched", f, m, f"{' '.join(m[0].split())} .. return")
                if re.search(r"/ 2\b", inner):
                    self.at(6, "searched", f, m, f"{' '.join(m[0].split())} by halving")
            for m in re.finditer(r"&(?:mut )?(\w+)\[(?:0)?\.\.([a-z]\w*)\]", f.body):
                if m[1] in slices:
                    self.at(6, "length", f, m, f"{m[0]}")
            used = defaultdict(set)
            for s, i in re.findall(r"\b(\w+)\[([^\]\.]+)\]", f.body) + re.findall(r"tally::number\(&?(\w+), ([^()]+)\)", f.body) + re.findall(r"words::byte\(&?(\w+), ([^()]+)\)", f.body):
                if re.search(r"[a-z]", i):
                    used[i.replace(" as usize", "")].add(s)
            for i, names in used.items():
                if len(names) > 1:
                    self.place(6, "parallel", f.path, f.line, f"fn {f.name}: {', '.join(sorted(names))} at {i}", f)
                    break
            for m in re.finditer(r"\bat \+ 4 \+ (?:words::word\(|len)|\bown\.at \+ 4 \+ words::word\(", f.body):
                self.at(6, "walk", f, m)
            for name, kind in f.params:
                if re.fullmatch(r"&(mut )?\[usize\]", kind):
                    self.place(6, "index", f.path, f.line, f"fn {f.name}: {name}: {kind}", f)

    # ---- 7: switches

    def seven(self):
        plain = {t.name for t in self.types if t.word == "enum" and t.parts and not any(held for _, held in t.parts)}
        for f in self.functions:
            for name, kind in f.params:
                if kind in ("bool", "&mut bool"):
                    self.place(7, "truth", f.path, f.line, f"fn {f.name}: {name}", f)
                if kind.split("::")[-1] in plain:
                    self.place(7, "choice", f.path, f.line, f"fn {f.name}: {name}: {kind}", f)
            if f.result.split("::")[-1] in plain:
                self.place(7, "choice", f.path, f.line, f"fn {f.name} answers {f.result}", f)
            for m in re.finditer(r"\b([a-z_][\w:]*)\(", f.body):
                args = pieces(f.body[m.end() : closing(f.body, m.end() - 1)])
                told = [a for a in args if a in ("true", "false")]
                if told:
                    self.at(7, "told", f, m, f"{m[1]}(.. {', '.join(told)} ..)")

    # ---- 8: proofs

    ALONE = re.compile(
        r"(?:search rules|omega arith|omega \(arith(?:, [^()\s,]+)*\)|refl|tt|(?:rw|simp) (?:[^()\s]+|\([^()\s,]+(?:, [^()\s,]+)*\))|ring arith|c(?:\.[^\s()]+)+|\((?:search rules|omega arith|refl|tt)(?:, (?:search rules|omega arith|refl|tt))*\))"
    )

    def eight(self):
        std, said = standard() if self.wants_std else {}, defaultdict(list)
        for path in sorted(self.files):
            if not re.fullmatch(r"crates/\w+/proofs/.*\.antt", path):
                continue
            text = self.files[path]
            answers = path.endswith("/Answers.antt")
            for name, line, statement, body in declared(text):
                goal = answers and re.fullmatch(r"goal\.\S+", statement)
                if goal:
                    self.place(8, "answers", path, line, name)
                    if self.ALONE.fullmatch(body):
                        self.place(8, "alone", path, line, f"{name}: {body}")
                    elif len(body) >= 40:
                        said[re.sub(r"\bloop-\w+", "loop", body).replace("loop.e", "loop.i")].append((path, line, name, body))
                elif not path.endswith("/Invariants.antt"):
                    self.place(8, "lemma", path, line, name)
                    same = std.get(plain_statement(statement))
                    if same and re.search(r"[≡≤<⊥]|\bT\b|∈", statement):
                        self.place(8, "of-std", path, line, f"{name} : {statement} is {same}")

        for lot in said.values():
            if len({path for path, _, _, _ in lot}) >= 3:
                for path, line, name, body in lot:
                    self.place(8, "repeated", path, line, f"{name}: {body}")

    wants_std = True


DECLARED = re.compile(r"^(?:(?:pub|abbrev|unfoldable|opaque) )*([^\s(){}.,;:λ\"]+)((?: [({][^:]*:[^)}]*[)}])*) : (.*)")


def declared(text):
    """What a file of proofs declares at its left edge: name, line, statement and, as one line, what stands under it up to the next."""
    lines, k = text.splitlines(), 0
    while k < len(lines):
        found = DECLARED.match(lines[k])
        if found and not lines[k].startswith(("use ", "--", "data ", "record ")):
            statement, line, k = (found[2].strip() + " " + found[3]).strip(), k + 1, k + 1
            while k < len(lines) and lines[k].startswith(" "):
                statement, k = statement + " " + lines[k].strip(), k + 1
            body, first = [], True
            while k < len(lines) and not DECLARED.match(lines[k]):
                if lines[k].strip() and not lines[k].lstrip().startswith("--"):
                    body.append(re.sub(r"^\S.*?= ?", "", lines[k]).strip() if first else lines[k].strip())
                    first = False
                k += 1
            yield found[1], line, statement, " ".join(body).strip()
        else:
            k += 1


def plain_statement(text):
    """A statement with its bound names numbered, and spaces, levels and the paths of names left out."""
    text = re.sub(r"\{ℓ\}|\{ℓ : [^}]*\}|Type ℓ\b|Type 0\b", lambda m: "Type" if m[0].startswith("Type") else "", text)
    text = text.replace("{", "(").replace("}", ")")
    names = {}
    for group in re.findall(r"\(([^():]+):", text):
        for name in group.split():
            names.setdefault(name, f"#{len(names)}")
    text = re.sub(r"\) \(", ") → (", text)
    parts = re.findall(r"[^\s()→,]+|[()→,]", text)
    return " ".join(names.get(p, p) for p in parts)


def standard():
    """The statements of the kit's own lemmas, each with where it stands, as far as text tells; none where there is no kit."""
    try:
        page = subprocess.run(["rt", "doc"], capture_output=True, text=True, check=True).stdout.strip()
    except (OSError, subprocess.CalledProcessError):
        print("no kit: of-std is left out", file=sys.stderr)
        return {}
    kit, known = Path(page).parent / "rattle", {}
    for folder in ("std", "core", "std_alloc", "std_collections", "logic/Lib", "logic/Prim", "antt/port/mathlib/src", "antt/lib"):
        for path in sorted((kit / folder).rglob("*.antt")):
            for name, _, statement, _ in declared(path.read_text(errors="replace")):
                known.setdefault(plain_statement(statement), f"{name} of {path.relative_to(kit)}")
        for path in sorted((kit / folder).rglob("*.md")):
            for m in re.finditer(r"^ *(?:pub )?(\S+) : (.+)$", path.read_text(errors="replace"), re.M):
                known.setdefault(plain_statement(m[2]), f"{m[1]} of {path.relative_to(kit)}")
    return known


def read(commit):
    """The files that are looked at, of a commit or of the checkout."""
    top = Path(__file__).resolve().parent.parent
    if commit:
        packed = subprocess.run(["git", "archive", commit, "crates.txt", "crates"], cwd=top, capture_output=True, check=True).stdout
        with tarfile.open(fileobj=io.BytesIO(packed)) as archive:
            return {m.name: archive.extractfile(m).read().decode() for m in archive if m.isfile() and m.name.endswith((".rt", ".antt", ".txt"))}
    paths = [top / "crates.txt", *top.glob("crates/*/src/**/*.rt"), *top.glob("crates/*/proofs/**/*.antt")]
    return {str(path.relative_to(top)): path.read_text() for path in paths}


KINDS, number = [], 0
for row in __doc__.splitlines():
    if found := re.match(r"(\d| )  (\(|[a-z][\w-]* +\S)", row):
        number = int(found[1]) if found[1] != " " else number
        if found[2] != "(":
            KINDS.append((number, found[2].split()[0]))


def main(words):
    point = crate = None
    commit, listed, functions = None, False, False
    while words:
        word = words.pop(0)
        if word == "--list":
            listed = True
        elif word == "--functions":
            functions = True
        elif word == "--point":
            point = int(words.pop(0))
        elif word == "--crate":
            crate = words.pop(0)
        elif word.startswith("-"):
            print(__doc__)
            return 2
        else:
            commit = word
    Places.wants_std = not functions and point in (None, 8)
    places = Places(read(commit))
    if functions:
        touched = defaultdict(set)
        for number, kind, _, _, _, f in places.found:
            if f:
                touched[f].add(number)
        for f in places.twinned:
            touched[f].add(2)
        for f in places.travelling:
            touched[f].add(5)
        for f in places.functions:
            print(f"{f.path}:{f.line} {'pub ' if f.public else ''}{f.key} {' '.join(map(str, sorted(touched[f]))) or '-'}")
        return 0
    found = [p for p in places.found if (point is None or p[0] == point) and (crate is None or p[2].split("/")[1] == crate)]
    counts = Counter((p[0], p[1]) for p in found)
    for number in range(1, 9):
        if point not in (None, number):
            continue
        kinds = [kind for n, kind in KINDS if n == number]
        for kind in kinds:
            print(f"{number} {kind:<12}{counts[number, kind]:>6}")
            for p in found if listed else ():
                if p[:2] == (number, kind):
                    print(f"    {p[2]}:{p[3]}: {p[4]}")
        print(f"{number} {'in all':<12}{sum(counts[number, kind] for kind in kinds if kind not in ('answers', 'lemma')):>6}")
    return 0


if __name__ == "__main__":
    try:
        sys.exit(main(sys.argv[1:]))
    except BrokenPipeError:
        sys.exit(0)
