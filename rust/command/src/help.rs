//! What `dovetrellis help` says.

/// The whole of it: a paragraph for each word of the command, then what goes for all of them.
pub const HELP: &str = "\
dovetrellis: net tables with persistent conditions

  dovetrellis list [TABLE [RUN]]  list a run: the start, each step with its event, its unfolded
                                  event and the marking after it, and the end in the unfolded net,
                                  as the proved program writes it. A - stands where nothing holds.
                                  --names lists by names, tables of any size, a run that is refused
                                  up to the step that is, and one that plays but does not lift; with
                                  it and with --json several runs are listed one after another.
                                  Without RUN, the text's first run. Without TABLE: examples/net-a.txt
  dovetrellis judge TABLE [RUN...] [--strict] [--json]
                                  judge a table, count its unfolding, and try the runs that stand
                                  with it in a text; the exit status tells of the table alone. With
                                  --strict it is 1 too where a run is refused, which one that only
                                  plays is not, and more is told: the table's digest, the events
                                  whose repeats the unfolded net may lack, what looks like a slip,
                                  and how many runs fare how. With it and with --json RUN may be
                                  given, and then those runs are tried
  dovetrellis replay TABLE [RUN...]
                                  play runs in the table alone: each step with its event and what
                                  holds after it. Without RUN, the text's first run
  dovetrellis fire TABLE EVENT [--at MARKING]
                                  fire an event at the start, or at a marking such as '{a, b}', and
                                  tell what holds then
  dovetrellis enabled TABLE [RUN] [--at MARKING]
                                  tell what can fire at the start, after a run or at a marking, and
                                  for each other event the lowest condition that stops it
  dovetrellis exchange TABLE RUN K
                                  let steps K and K+1 of a run change places, counted from 0, and
                                  write the run; or tell why they may not
  dovetrellis unfold TABLE [--json]
                                  write the unfolding: its counts and start, then each unfolded event
                                  with its number, its event, the marker that it picks for each
                                  persistent precondition, and its two lists, then each unfolded
                                  condition with its condition, marker and user. With --json only
                                  the counts
  dovetrellis export TABLE        write the unfolding as a place/transition net in PNML, for a model
                                  checker: place pN is unfolded condition N, place qN has a token
                                  while pN has none, transition tN is unfolded event N
  dovetrellis witness TABLE TRACE read a checker's trace back as a run of the table, with what holds
                                  at its end. TRACE is a file with transitions as t12 or 12 between
                                  blanks, commas or ends of lines; a comment goes from # to the end
                                  of its line
  dovetrellis pack FILE [-o FOLDER]
                                  turn a text table into records: NAME.net.bin, and
                                  NAME.RUN.run.bin for each run, in FOLDER or else right here. They
                                  are written first and judged then, so refused ones are there too
  dovetrellis show TABLE [RUN...] write a table, and runs of it, as text that packs to the same bytes.
                                  RUN is a file of records; the runs of a text table are written
                                  anyway
  dovetrellis install PREFIX      put the command, the archive and header for C, the manual page and
                                  the completion for bash under PREFIX, for use without the kit
  dovetrellis build [WHAT...]     build 'library', 'list' and 'export' now, or 'archive', the library
                                  for C; other commands build what they need
  dovetrellis help [COMMAND]      this, or what it says of one command; --version tells the version

TABLE is a file of records (docs/FORMAT.md) or a text table (docs/TEXT.md); its bytes tell which.
RUN is the name of a run in a text table, or a file: a Run record, or text with 'run NAME: ..'
statements or bare steps; FILE:NAME is one run of such a text. For a trace, and wherever a file may
stand after replay, fire, enabled and exchange, - is the standard input, once in a command. Options
may stand anywhere; after -- nothing is an option.

What is refused is answered by one line, 'refused NUMBER at PLACE', with ' by CONDITION' after it
where a condition stopped a step (11 and 12), the lowest that did; what that means is said beside
it, on the error output (docs/REFUSALS.md has the list). Of an export that is refused the line goes
there too, so that no file of a net begins with it. With --json a refusal is told as JSON on the
output.

Exit status: 0 fine; 1 the table, the run or the step that is asked about is refused, or 'list' is
asked for a run that plays but does not lift, or a text is no table, no run or no trace; 2 wrong use
(no word at all is wrong use too), or something that is needed could not be read, written or built.

Where 'export' or 'unfold' takes over a second, a line on the error output tells how far it is, if
that is a terminal and the answer goes elsewhere, or if DOVETRELLIS_PROGRESS is 1. TMPDIR says where
files are kept that are needed for a moment, else /tmp.

Where DOVETRELLIS_NEXT is 1 all answers are as they are meant for the next version: any number of
runs is taken, a text of runs by every word, and - as any file; of a table that is accepted the
digest is told, what its net may lack and what looks like a slip, of a run that is refused what came
before the stop and what held there, of a number that is no condition its own place; a trace of
comments alone is one of no steps; and an output that is closed before all is written is a failure.
";

/// The commands, 'build' and 'install' among them, which the script does itself.
pub const COMMANDS: [&str; 14] = [
    "list", "judge", "replay", "fire", "enabled", "exchange", "unfold", "export", "witness",
    "pack", "show", "install", "build", "help",
];

/// What the help says of one command, and of all.
pub fn help_of(command: &str) -> String {
    let begins = |line: &&str| line.starts_with("  dovetrellis ");
    let own = format!("  dovetrellis {command} ");
    let mut lines = HELP.lines().skip_while(|line| !line.starts_with(&own));
    let first = lines.next().unwrap_or_default();
    let more = lines.take_while(|line| !begins(line) && !line.is_empty());
    let said: Vec<&str> = [first].into_iter().chain(more).collect();
    let of_all: Vec<&str> = HELP.split("\n\n").skip(2).collect();
    format!("{}\n\n{}", said.join("\n"), of_all.join("\n\n"))
}
