//! The commands with their options, and the help texts.

use crate::manual::{
    ASM, BOUNDS, CHECK, COMPLETION, DEBUG, DIS, EXPLAIN, FMT, JOIN, LINT, MEND, MOVE, POOL, RUN,
    TEST, TRACE,
};
use crate::options::{Opt, Takes};

/// A command with its help text.
#[derive(Debug)]
pub struct Topic {
    /// The command's name.
    pub name: &'static str,
    /// What it is given besides options.
    pub given: &'static str,
    /// What it does, in a line.
    pub summary: &'static str,
    /// The options it knows.
    pub options: &'static [Opt],
    /// What it does, at length.
    pub words: &'static str,
    /// What its exit status says.
    pub status: &'static str,
}

impl Topic {
    /// How it is written: `fir check FILE..`, with its options in short.
    fn usage(&self) -> String {
        let options = match self.options.len() {
            0 => "",
            _ => " [OPTION..]",
        };
        format!("fir {} {}{options}", self.name, self.given)
    }

    /// What `--help` prints.
    pub fn help(&self) -> String {
        let (usage, words) = (self.usage(), self.words);
        let mut help = format!("usage: {usage}\n\n{words}\n");
        if !self.options.is_empty() {
            help += "options:\n";
        }
        for option in self.options {
            help += &format!("  {:<22} {}\n", option.usage(), option.words);
        }
        if !self.options.is_empty() {
            help += "--NAME VALUE may be written --NAME=VALUE.\n\n";
        }
        help + &format!("exit status: {}\n", self.status)
    }
}

/// What `fir --help` prints.
pub fn all() -> String {
    let mut help =
        "fir: checks, mends, runs, moves and joins FIR images, by the proved library\n\n"
            .to_string();
    help += "usage:\n";
    for topic in &COMMANDS {
        help += &format!("  {}\n      {}\n", topic.usage(), topic.summary);
    }
    help + ALL
}

/// What `fir --help` prints behind the commands.
const ALL: &str = "  fir help COMMAND, fir COMMAND --help
      says more of a command, and its options
  fir --version
      the tool's version

FILE is a text or an image's bytes by what it holds, and always a text where its
name ends in .fir; `-` is standard input. A message on a text begins with
FILE:LINE:COLUMN.

exit status:
  0  accepted; mended; DONE; moved; joined; assembled; nothing found by lint; no
     entry over a bound; all tests passed; texts laid out
  1  refused; a text that does not assemble; something found by lint; an entry over
     the steps that bounds --under allows; a test that failed or is malformed, or
     none at all; a text that fmt --check would lay out otherwise; a trace or a
     conversion whose reader has gone
  2  bad usage, or a file that cannot be read or written
  3  UNDEF
  4  a stop: DEEP, VECTORS or PROMISES
  5  STEPS: the budget is used up
";

/// The status of a run.
const RUN_STATUS: &str = "0 DONE, 1 refused, 2 bad usage, 3 UNDEF, 4 a stop (DEEP,
VECTORS, PROMISES), 5 the budget is used up";

/// The level of a run.
pub const LEVEL: Opt = Opt {
    name: "--level",
    takes: Takes::One(&["portal", "staff", "factory", "0", "1", "2"]),
    words: "the level that the run states; factory if none is named",
};

const BUDGET: Opt = Opt {
    name: "--budget",
    takes: Takes::Value("N"),
    words: "the most steps, 0 to 4,294,967,295",
};

const THEN: Opt = Opt {
    name: "--then",
    takes: Takes::File("IMAGE@STEP"),
    words: "goes on under IMAGE once STEP steps are taken; several may stand",
};

const JSON: Opt = Opt {
    name: "--json",
    takes: Takes::Nothing,
    words: "prints JSON, an object on each line",
};

const STATS: Opt = Opt {
    name: "--stats",
    takes: Takes::Nothing,
    words: "counts steps, calls and searches, and says the bound",
};

const ENTRY: Opt = Opt {
    name: "--entry",
    takes: Takes::Value("F.V"),
    words: "a version that runs enter; several may stand",
};

const OUT: Opt = Opt {
    name: "-o",
    takes: Takes::File("OUT"),
    words: "the file to write to",
};

/// The two forms of images, by the bits of their literals.
const FORMS: Takes = Takes::One(&["32", "64"]);

/// The shells that completion is made for.
const SHELLS: &str = "bash|zsh|fish";

/// The commands.
pub const COMMANDS: [Topic; 16] = [
    Topic {
        name: "check",
        given: "FILE..",
        summary: "is the image accepted, and if not, why?",
        options: &[
            Opt {
                name: "--form",
                takes: FORMS,
                words: "the form whose questions are put; 64 bits if none is named",
            },
            Opt {
                name: "--no-mend",
                takes: Takes::Nothing,
                words: "offers no mend beside a refusal",
            },
            JSON,
        ],
        words: CHECK,
        status: "0 all accepted, 1 one refused or a text that does not assemble,\n2 bad usage or a file that cannot be read",
    },
    Topic {
        name: "mend",
        given: "FILE",
        summary: "the type of one register that makes a refused image accepted",
        options: &[OUT, JSON],
        words: MEND,
        status: "0 accepted, or mended and written to OUT, 1 refused or a text that does\nnot assemble, 2 bad usage or a file that cannot be read or written",
    },
    Topic {
        name: "run",
        given: "FILE F.V [ARGUMENT..]",
        summary: "runs version V of function F",
        options: &[
            LEVEL,
            BUDGET,
            THEN,
            STATS,
            JSON,
        ],
        words: RUN,
        status: RUN_STATUS,
    },
    Topic {
        name: "trace",
        given: "FILE F.V [ARGUMENT..]",
        summary: "the same, step by step",
        options: &[
            LEVEL,
            BUDGET,
            THEN,
            STATS,
            JSON,
            Opt {
                name: "--html",
                takes: Takes::File("PAGE"),
                words: "writes a page that shows the run, in place of the lines",
            },
        ],
        words: TRACE,
        status: RUN_STATUS,
    },
    Topic {
        name: "debug",
        given: "FILE F.V [ARGUMENT..]",
        summary: "goes through a run by commands, forward and back",
        options: &[LEVEL, BUDGET],
        words: DEBUG,
        status: "0 the debugger was left, 1 refused, 2 bad usage",
    },
    Topic {
        name: "pool",
        given: "PLAN",
        summary: "runs up to eight runs that share 64 vectors, in turn",
        options: &[
            Opt {
                name: "--stats",
                takes: Takes::Nothing,
                words: "says the most vectors that each had",
            },
            JSON,
        ],
        words: POOL,
        status: "that of the worst run: 0 DONE, 1 refused, 2 bad usage, 3 UNDEF,\n4 a stop (DEEP, VECTORS, PROMISES), 5 rounds are used up",
    },
    Topic {
        name: "bounds",
        given: "FILE..",
        summary: "how many steps a run of each version takes at most",
        options: &[
            Opt {
                name: "--under",
                takes: Takes::Value("N"),
                words: "fails where an entry may take more than N steps",
            },
            ENTRY,
            Opt {
                name: "--why",
                takes: Takes::Nothing,
                words: "says what each bound is made of",
            },
            JSON,
        ],
        words: BOUNDS,
        status: "0 listed, 1 an entry over N, or refused, 2 bad usage or a file that\ncannot be read",
    },
    Topic {
        name: "lint",
        given: "FILE..",
        summary: "what an accepted image has and does not need",
        options: &[ENTRY, JSON],
        words: LINT,
        status: "0 nothing found, 1 something found, or refused, 2 bad usage",
    },
    Topic {
        name: "test",
        given: "FILE..",
        summary: "do scripts give what the tests in their comments expect?",
        options: &[
            Opt {
                name: "--filter",
                takes: Takes::Value("TEXT"),
                words: "tries only tests whose line holds TEXT",
            },
            JSON,
        ],
        words: TEST,
        status: "0 all passed, 1 one failed or is malformed, none was tried, or a text that\ndoes not assemble, 2 bad usage or a file that cannot be read",
    },
    Topic {
        name: "move",
        given: "FILE.. -o OUT",
        summary: "stored images to 64 bits, or back",
        options: &[
            OUT,
            Opt {
                name: "--to",
                takes: FORMS,
                words: "the form that they are moved to; 64 bits if none is named",
            },
        ],
        words: MOVE,
        status: "0 all moved, 1 some refused, 2 bad usage or a file that cannot be\nread or written",
    },
    Topic {
        name: "join",
        given: "FILE FILE.. -o OUT",
        summary: "two or more images into one",
        options: &[OUT, JSON],
        words: JOIN,
        status: "0 joined, 1 refused or a text that does not assemble, 2 bad usage or\na file that cannot be read or written",
    },
    Topic {
        name: "fmt",
        given: "FILE..",
        summary: "lays texts out anew, comments and all",
        options: &[Opt {
            name: "--check",
            takes: Takes::Nothing,
            words: "writes nothing, and says which texts would be others",
        }],
        words: FMT,
        status: "0 all are laid out so, or are now, 1 with --check one is not, or a text that\ndoes not assemble, 2 bad usage or a file that cannot be read or written",
    },
    Topic {
        name: "asm",
        given: "FILE",
        summary: "from text to image",
        options: &[OUT],
        words: ASM,
        status: "0 assembled, 1 a line that is wrong, 2 bad usage",
    },
    Topic {
        name: "dis",
        given: "FILE",
        summary: "from image to text",
        options: &[OUT],
        words: DIS,
        status: "0 written, 2 bad usage",
    },
    Topic {
        name: "explain",
        given: "[N|WORD]",
        summary: "what refusal N means, or a word such as UNDEF, and how to mend it",
        options: &[],
        words: EXPLAIN,
        status: "0 explained, 2 bad usage",
    },
    Topic {
        name: "completion",
        given: SHELLS,
        summary: "a script by which a shell completes commands and options",
        options: &[],
        words: COMPLETION,
        status: "0 written, 2 bad usage",
    },
];
