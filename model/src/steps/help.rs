//! What `--help` says.

const ALL: &str =
    "./steps: step files in words, and what a run of one did. Nothing of it is proved;
the answers that it shows are always those of the proved run program.

    ./steps pack FILE.txt > FILE.steps          makes a step file of sentences
    ./steps text FILE.steps                     a step file as sentences
    ./steps explain FILE.steps [FROM TO]        each record with its answer, and why
    ./steps state FILE.steps N                  what the engine holds after record N
    ./steps picture FILE.steps [FROM TO] > run.svg    the run as a picture

./run FILE.steps prints the answers as lines of numbers, ./forecast FILE.steps the records standing and
the dirty pages after each record; both are proved programs.

FILE may be - for standard input. Each has --help. Status: 0, or 1 where something is wrong,
which is said on standard error.
";

const PACK: &str = "./steps pack FILE.txt > FILE.steps

Makes a step file of a text: a sentence a line, the opening first.

    open 2 cards, 1 page, 1 lock
    card 1 acquires lock 0
    card 1 writes 700 to word 3
    card 1 releases lock 0
    card 2 reads word 3
    card 2 arrives
    card 2 wants collection
    card 1 adds 5 to tally 3
    card 2 reads tally 3
    card 1 enqueues 77
    card 2 dequeues
    raw 07 01 00 00 00 00 00 00      eight bytes in base sixteen, for a record that has no sentence;
                                     the last record may have fewer

What stands behind # is a comment; lines with nothing else are passed over. Numbers are in base ten.
A number need not fit the opening: the run refuses what does not. Where there is a mistake, each line
that has one is named with its column and with what was expected, and nothing is written.
";

const TEXT: &str = "./steps text FILE.steps

Prints a step file as sentences, a record a line: record N is line N + 1. Every file has a text, and
./steps pack makes the same bytes of it. ./steps pack --help has the sentences.
";

const EXPLAIN: &str = "./steps explain FILE.steps [FROM TO]

Runs the file by the proved program and says of each record, or of those from FROM to TO, what it was
and what came of it. Of a read it says one of three things, by happens-before-1 over the accepted steps:

    ordered                 the write that it must show, and a chain of steps that orders the two
    ordered, none written   no accepted write to the word stands before it: it must show 0
    not ordered             it may show 0 or any value written before: which writes are not ordered
                            with it or with one another, and how far the news of them had come

Of a refusal it says what would have to be different. The summary at the end is of the whole run.
";

const STATE: &str = "./steps state FILE.steps N

Prints what the engine holds after record N, from its own memory: the clocks of cards, locks and
barrier, the clocks applied to pages, who holds and awaits which lock, who has arrived, dirty pages,
records, tallies and the jobs that wait, with their values and clocks. The static library runs the file; it is built first where it is missing.
";

const PICTURE: &str = "./steps picture FILE.steps [FROM TO] > run.svg

Draws the run, or the records from FROM to TO: a lane for each card, time downwards. A picture shows at
most 400 records; of a longer run it shows a window, and says so. It is one file for any browser, light
or dark, and for print.
";

/// The help for one command, or for all.
pub fn text(command: &str) -> &'static str {
    match command {
        "pack" => PACK,
        "text" => TEXT,
        "explain" => EXPLAIN,
        "state" => STATE,
        "picture" => PICTURE,
        _ => ALL,
    }
}
