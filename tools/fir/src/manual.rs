//! What each command does, at length.

/// `fir check`
pub const CHECK: &str = "\
Puts the questions 1 to 7, 14, 8, 18, 9 and 10 to images. For an accepted one it
prints, per version, `f.v R W U C`: how many registers its body reads before it
assigns them, assigns, leaves empty at its end, and captures; then `accepted` and
the number of versions. For a refused one it prints a line: the question that says
no, the offset of the first record that fails, and why. On a text it begins with
FILE:LINE:COLUMN, the place to look at, and registers are called as the text calls them.
Of several files each gets one line that begins with its name, and there is a count at
the end.

Where 6, 8, 9 or 10 refuses, and the type of one register, changed, makes the image
accepted, there is a further line: the register and its version, the new type, the
one that it takes the place of, and which other types would do. On a text it begins
with the place of the type's words; for bytes it has the byte's new and old number
and its offset. `fir mend` says how the type is chosen, and writes the mended file.
--no-mend leaves the line out.

The questions are those of the form in force, whose literals have 64 bits. With
--form 32 they are those of the form before, which differ in its literals alone.

FILE is a text or an image's bytes by what it holds, and always a text where its
name ends in .fir; `-` is standard input.

With --json each file gets an object with `file` and `accepted`; an accepted image
has `versions`, each with `version`, `read`, `assigned`, `emptied` and `captured`; a
refused one `question`, `offset`, `words` and on a text `line` and `column`; a text
that does not assemble the last three; a file that cannot be read `error`. An image
that 6, 8, 9 or 10 refuses has `mend`, null where no type mends it, else an object
that an editor can apply: the `offset` of the byte, its `old` and `new` number, the
`version` and the `register`, `words`, and on a text the place of the type's words,
`line`, `column` and `length` in characters, and the `text` to put there; and `also`,
the other types that would do, each with `new` and `text`.

example:
  $ fir check wrong.fir
  wrong.fir:6:5: refused by 8 at 37: SET needs an owned vector, r2 is a shared vector
  wrong.fir:2:17: mend: r2 of 0.0: own vector in place of vector
";

/// `fir mend`
pub const MEND: &str = "\
Looks for a correction of an image that 6, 8, 9 or 10 refuses: the type of one
register, changed, that makes the image accepted. Parameters are registers too;
return types and the types of a DISPATCH are not changed. Of all such changes it
names that of the register that stands first in the image, and of its types the
first in this order: any, value, int, vector, quiet promise, reflective promise, own
vector, borrow vector; the others of them that would do are named behind it. It is a
correction, and need not be what the author meant. It prints the line of the refusal,
then the mend, or that there is none; for other refusals none is looked for.

With -o the mended file is written to OUT: of an image its bytes, of a text the text
with the type's words changed and all else as it was, comments, spaces and names too. OUT is
another file than FILE, and another file of this name is replaced. It is written
beside its place and then renamed, so none is ever there in part. Where nothing is
mended, nothing is written.

FILE is a text or an image's bytes by what it holds, and always a text where its
name ends in .fir; `-` is standard input.

With --json there is the object of `fir check --json`, without the `versions` of an
accepted image, and with `out` where a file was written.

example:
  $ fir mend wrong.fir -o mended.fir
  wrong.fir:6:5: refused by 8 at 37: SET needs an owned vector, r2 is a shared vector
  wrong.fir:2:17: mend: r2 of 0.0: own vector in place of vector
  mended to mended.fir
";

/// `fir run`
pub const RUN: &str = "\
Runs version V of function F under a budget of N steps, 10,000,000 if none is
given, 4,294,967,295 at most. An argument is an integer such as 7 or -7, or a
vector such as [1,2,3] or [].

The run states the level of --level: portal, staff or factory, or 0, 1 and 2; where
none is given it is the highest, factory. Version F.V is of that level or a lower
one, or 19 refuses the run; then no version above the level is ever entered, and
at each higher level the run is the same.

It prints how the run ended and after how many steps:
  DONE 7        with an integer
  DONE [1, 2]   with a vector
  UNDEF         a result is out of range, an index outside, a name unset, ..
  STEPS         the budget is used up
  DEEP          a 33rd activation is needed
  VECTORS       a 65th vector is needed, or one more than a pool gives
  PROMISES      a 65th promise is needed
and, but for DONE, where the run stands; on a text that line begins with
FILE:LINE:COLUMN. A run that is refused gets a line that says why.

With --then the run goes on under the image of another file once STEP steps are
taken, counted from the start; several are tried in the order of their steps.
The new image is put to its own questions and then to 15: every version with a
live call has the same bytes in both. Where it is refused, a line says why, with
the version and the first byte that differs, or the version that is missing, and
the command ends with status 1; a controller would go on under the old image. An
image whose step the run does not come to is named as not reached.

With --stats it prints at the end what the steps were, under all images:
  steps: 26 of at most 31
                       those that counted, and the bound of F.V by `fir bounds`,
                       which is left out where the run went on under another image
  calls: 3             that CALL and DISPATCH opened
  DISPATCH steps: 2, looked at 5 of 8 versions
The search of a DISPATCH ends at the first version that fits, or has looked at all
of the function where none fits; 8 is how many versions the functions of the two
have together. Versions that are passed over for their level are looked at too. A
DISPATCH that is stopped by DEEP is no step.

With --json there is an object for each change of the image, with `step`, `image`
and `taken`, and one for the result, with `result` (DONE, UNDEF, STEPS, DEEP,
VECTORS, PROMISES or refused), `steps`, the `value` of DONE, and else where the run
stands: `offset`, `line` and `column` of a text, `version`, `block`, `text` and the
`cause` of UNDEF. A refusal has `question`, `offset` and `words`. --stats adds
`stats`, with the `bound` (a number, `large` or `none`, and null under another
image); images that were not reached are in `not_reached`. Where a file has no image
`result` is failed, with `file` and what `fir check --json` says of it.

A file, FILE or IMAGE, is a text or an image's bytes by what it holds, and always a
text where its name ends in .fir; `-` is standard input.
";

/// `fir trace`
pub const TRACE: &str = "\
Runs version V of function F as `fir run` does, at a level as there, but step by
step, under a budget of N steps, 100,000 if none is given. It prints a line for
each step: its number, the depth of calls and forces, the version and the block,
the instruction or the end of the block, and what changed:
  r1 = 5            a register of the step's own call
  x1 = 5            a name of it
  call 0: x1 = 5    one of another call
  r1 = v0 [1, 2]    a register that holds vector 0
  v0 = [1, 3]       the items of vector 0 are others now
  r1 = p0           a register that holds promise 0
  p0 is block 1 of call 0, p0 gave 5
  r1 empty          a register that was emptied
  r1 stays 5        nothing changed, and the register takes what it held
  opens call 1 of 2.0, ends call 1 with 5
  looked at 3 of 4  the versions that the search of a DISPATCH looked at, also
                    those above its level, of those that the function has
  forces p0 in block 1 of call 0, ends the force of p0 with 5
  skips 3, does not skip
Then it prints the result as `fir run` does. --then and --stats go as there, with a
line where the run goes on under another image.

With --json each step is an object with `step`, `depth`, `version`, `block`,
`offset`, `text`, `did` and on a text `line` and `column`; then come those of
`fir run --json`.

With --html it prints the result alone, and writes a page that shows the run step
by step, with its source, calls, registers, names, vectors and promises. The page
needs nothing besides itself; its keys are listed on it.

A file, FILE or IMAGE, is a text or an image's bytes by what it holds, and always a
text where its name ends in .fir; `-` is standard input.
";

/// `fir pool`
pub const POOL: &str = "\
Runs up to eight runs that share the places for 64 vectors, each under its number, 0 to
7, as a block of eight stairwells does. PLAN is a text, a line for each thing; what
follows on `#` is passed over:

  reserve NUMBER COUNT   vectors that are kept for a number; 0 where no line says it
  slice STEPS            the steps of a turn, 100 where no line says it
  rounds N               the most rounds, 10,000 where no line says it
  run NUMBER FILE F.V [ARGUMENT..] [--level LEVEL] [after ROUND]
                         starts a run, before the first round or behind a later one;
                         the run that had the number ends
  change NUMBER FILE [after ROUND]
                         the run goes on under the image of FILE, unless it is refused

In each round every run that goes on takes at most a slice of steps, in the order of
the numbers. A table behind it says how many vectors each reserves, has and may have. A
run always gets vectors up to its reserve; above it, while those in use and the unused
reserves of the others are below 64 together; else it stops with VECTORS. A start whose
arguments need more than it may have stops so at once. Reserves above 64 in all and
numbers above 7 are refused by 21. A refused start or change leaves the run that the
number had.

An ARGUMENT is an integer or a vector such as [1,2,3], without spaces. FILE is a text or
an image as for `fir run`, and stands in the folder of PLAN.
";

/// `fir debug`
pub const DEBUG: &str = "\
Goes through a run of version V of function F by commands, which are read from
standard input, one on each line; an empty line repeats the last. Each step, forward
and back, is one of the proved library, which keeps the start of the run: a step back
takes one step less from there. 20 refuses it at the start, and right behind a change
of the image, past which no run goes back.

  step [N]       s  takes N steps, 1 if none is given
  next           n  takes steps until the calls and forces that this one opens end
  out            o  takes steps until the newest call or force has ended
  to LINE           takes steps, at least one, until the run stands at a line
  to F.V            takes steps, at least one, until the run enters a version; a run
                    that does not come to it stays where it is
  watch WHAT     w  takes steps until WHAT holds something else in the call that is
                    worked on, or that call has ended; WHAT is a register such as r3
                    or its name in the text, a name such as x0, or an item such as
                    r1[0] or r1[r2]
  break LINE     br sets a breakpoint: `run`, `next`, `out`, `to` and `watch` stop there
  break F.V         the same where a version is entered
  break LINE if CONDITION, break F.V if CONDITION
                    stops only where CONDITION holds: r3 > 10, hot == 1 and flow < 350;
                    signs are < <= > >= == !=, between registers of the version by
                    number or name, names, items and integers
  break             lists the breakpoints
  delete [N]     d  takes back breakpoint N, or all
  print WHAT     i  what WHAT holds; print CONDITION says whether it holds
  run            r  takes steps until the run ends, or comes to a breakpoint
  back [N]       b  goes back by N steps, 1 if none is given, at most to the start; also
                    from an end
  at N              goes to the state after N steps, from the start
  change FILE    c  goes on under the image of another file, unless it is refused
  call           t  the topmost call, which is the newest one: its registers with their
                    types and what they hold
  stack          k  the calls and forces, with their registers and names; also by
                    `where` and `registers`
  vectors        v  the vectors, and who holds them
  promises       p  the promises, and what became of them
  list           l  the text around the line where the run stands
  help           h  these commands
  quit           q  leaves, as the end of the input does

FILE is a text or an image's bytes by what it holds, and always a text where its
name ends in .fir.
";

/// `fir bounds`
pub const BOUNDS: &str = "\
Lists the versions of an image with the most steps that a run of each can take,
whatever its arguments, its level and its budgets are, as long as it does not go on
under another image:
  0.0 26 steps   a run of 0.0 never takes more
  0.1 large      the bound is above 4,294,967,295
  0.2 none: 0.2 calls 2.1 calls 0.2
                 no bound is given: a chain of calls from the version comes back to
                 a version on it, and the shortest such chain is named
On a text each line begins with FILE:LINE:COLUMN, where the version stands. Those
with a bound, or a large one, stand behind all that they may call, the lowest number
first; those with none come last.

A bound counts all instructions and block ends of the version, of promise blocks and
of skipped parts too, and for each CALL and DISPATCH the largest bound of those that
it may enter: by DISPATCH all that its level and all of its signature but the kinds
of the arguments allow. So a run may well take fewer steps.

With --under N the exit status is 1 where an entry may take more than N steps; its
line says so. A large bound, and none, are more than any N. Entries are all versions,
or those that --entry names.

With --why each line is followed by what the bound is made of: the instructions and
block ends of the version's own, and each CALL and DISPATCH with the largest bound
that it may reach.

An image that is refused gets the line of `fir check`.

FILE is a text or an image's bytes by what it holds, and always a text where its
name ends in .fir; `-` is standard input.

With --json each version is an object with `file`, `version`, `bound` (a number of
steps, `large` or `none`), `offset`, on a text `line` and `column`, for none the
`chain`, with --under `over`, and with --why `why`: `instructions`, `block_ends` and
`calls`, each with `offset`, `call`, `largest` and what it `reaches`. An image that is
refused has the `result` refused, and a file without an image the `result` failed,
each with what `fir check --json` says of it.

example:
  $ fir bounds script.fir --under 100
  script.fir:31:1: 1.0 7 steps
  script.fir:15:1: 0.0 none, over 100: 0.0 calls 0.0
";

/// `fir lint`
pub const LINT: &str = "\
Says what an accepted image has and does not need:
  unread     a register that nothing reads. Parameters count where CALLs alone
             enter their version, for there the signature is free
  overwritten
             an instruction whose result is assigned again, or dropped at the
             block's end, before anything reads it. Left out are registers that
             another block of the version reads, and calls and forces, which may be
             there for what they do
  mark       a block or a DISPATCH marked reflective that need not be. Left out are
             blocks 0 of a function that a quiet DISPATCH names, which may pass them
             over for their mark, and promise blocks where a DISPATCH takes promises
  unforced   a PROM whose promise nothing forces, peeks at or pokes, here or in a
             version that it is given to
  uncalled   a version that no run comes to. Runs enter the versions of function 0,
             or those that --entry names; from there on count the versions that
             CALL names, and that a DISPATCH may pick by its level and by all of its
             signature but the arguments' kinds
Each gets a line, which begins with FILE:LINE:COLUMN on a text, else with the file
and the offset. An image that is refused gets the line of `fir check`.

FILE is a text or an image's bytes by what it holds, and always a text where its
name ends in .fir; `-` is standard input.

With --json each finding is an object with `file`, `lint`, `offset`, `words` and on a
text `line` and `column`. An image that is refused has the `lint` refused, and a file
without an image the `lint` failed, each with what `fir check --json` says of it.
";

/// `fir test`
pub const TEST: &str = "\
Tries the tests that stand in the comments of scripts, each by the proved library. A
test is a comment on a line of its own whose first word is `test`: behind it stands
what follows FILE in `fir run`, then a colon, and what comes of it.
  # test 0.0 15 -75 55: DONE 1
  # test 0.0 15 -75 55: DONE 1 after 24 steps
  # test 0.0 15 -75 55: DONE 1 within 30 steps
  # test 0.0 [1, 2] 7: DONE [1, 7]     # a remark stands behind a further `#`
  # test 0.0 15 -75 55 --budget 3: STEPS after 3 steps
  # test 0.1 [5120] --level portal: refused by 19
  # test 0.0 7: UNDEF                  # or DEEP, VECTORS, PROMISES
  # test 0.0 210 [200,195] --then later.fir@12: DONE 25 after 22 steps
  # test 0.0 210 [200,195] --then later.fir@9: refused by 15 at 133 after 9 steps
  # test check: accepted               # or with its number of versions, accepted 2
  # test check: refused by 8 at 24     # the offset may be left out
Steps that are not written are not compared: `after` asks for exactly so many, `within`
for so many at most. A run states the level factory and has 10,000,000 steps, unless
--level and --budget say otherwise. A file behind --then stands in the folder of the
script; a test whose run does not come to it fails.

A test that fails gets a line that begins with FILE:LINE:COLUMN, with what was expected
and what came; below it where the run stands, or why it is refused. A test that is not
in form is told with its place, and counts as malformed; so is a comment on a line with
code whose first word is `test`, and one that begins with `Test 0.0` or `tests 0.0`. The
last line says how many passed and failed. With --filter only tests are tried whose
line, with its remark, holds TEXT.

FILE is a text, or an image's bytes, which hold no tests; `-` is standard input.

With --json each test is an object with `file`, `result` (passed, failed or malformed),
`line`, `column`, `test`, `expected`, `came`, `details` and for some refusals `words`; one
that is malformed has `words`. A script without tests has the `result` none, a file that
cannot be read or does not assemble the `result` unread, with what `fir check --json`
says of it. The last object has the `result` summary, `passed`, `failed`, `malformed`,
`files_not_tried` and `left_out`.

example:
  $ fir test defrost.fir
  defrost.fir:12:3: test 0.0 15 -75 20: expected DONE 1, came DONE 0 after 24 steps
  4 passed, 1 failed
";

/// `fir move`
pub const MOVE: &str = "\
Moves stored images to the form in force, whose literals have 64 bits, or with
--to 32 back to the form before. Only literals change, and there and back gives
the same bytes; levels stay. An image is first put to the questions of the form that
it comes from; then 16 asks that each literal fits 32 bits, and 17 that the moved
image has at most 32,768 bytes. A refused image is not written.

A single image is written to OUT, or into OUT under its own name where that is a
folder; several are written into the folder OUT, which is made if it is missing.
There is a line for each, and for several a count at the end; on a terminal it
shows how far it is. An image that is refused, or cannot be read or written, does
not stop the others.

No image is written over: a command that would write to a file that it reads, or
twice to the same, does nothing. Other files of these names are replaced. A file
is written beside its place and then renamed, so none is ever there in part.

FILE is a text or an image's bytes by what it holds, and always a text where its
name ends in .fir; `-` is standard input. What is written are bytes, so its name may
not end in .fir.

example:
  $ fir move old/*.bin -o new
  old/defrost.bin: moved to new/defrost.bin, 279 bytes
  old/spread.bin: refused by 4 at 187: the image ends where 1 more block of 1.3 is due
  1 moved, 1 refused
";

/// `fir join`
pub const JOIN: &str = "\
Joins images from the left: the functions of each next one are renumbered to
follow those of the images before it, its CALLs and DISPATCHes with them, and
nothing else changes. Each entry runs under its new number as it does alone. It
prints a table of each file, its functions, and their numbers now.

The first image is put to its questions, then the second; the line of a refusal
names its file, and on a text begins with FILE:LINE:COLUMN. Then 23 asks that the
two together have at most 32,768 bytes, 32 functions and 64 versions; the line
says which bound it is. What they make is joined with the third file, and so on.
Where anything is refused, nothing is written. `fir lint` of a joined image takes
the entries of each by --entry.

OUT gets the image's bytes, or where its name ends in .fir a text: that of
`fir dis`, without the comments, the empty lines and the names of registers of the texts
it came from.
No image is written over: a command whose OUT is one of the files that it
reads, by whatever name, does nothing. Another file of this name is replaced. It is
written beside its place and then renamed, so none is ever there in part.

FILE is a text or an image's bytes by what it holds, and always a text where its
name ends in .fir; `-` is standard input. A file may stand several times.

With --json there is one object. It has `joined`, `out`, `bytes`, `functions`,
`versions` and `numbers`, each of these with `file`, `function` and `number`. Where
nothing is joined, `joined` is false, and there is the `file` that is refused, or
for 23 the `files`, with what `fir check --json` says of a refusal.

example:
  $ fir join heating.fir water.fir -o house.bin
  file         its function  its number now
  heating.fir             0               0
  heating.fir             1               1
  water.fir               0               2
  joined to house.bin, 301 bytes, 3 functions, 4 versions
";

/// `fir fmt`
pub const FMT: &str = "\
Lays texts out anew, in place. Words and comments stay as they are, and the image stays
the same; what changes are spaces and blank lines:
  versions begin at the left, with one blank line before them, or before the comments
    that stand right before them
  `registers`, `level` and `block` stand two spaces to the right, instructions four
  one space stands between words, as in the texts of `fir dis`
  comments stand as far to the right as what they stand before; behind code they stand
    two spaces behind the longest of the lines around them that have one, too
  of several blank lines one is left, and none at the beginning and the end
A text that is laid out so is not written again. A file is written beside its place and
then renamed, so none is ever there in part, and one that does not assemble is not
touched. There is a line for each file that is another now. Of `-`, standard input, the
text is written to standard output.

With --check nothing is written: each text that would be another gets a line with the
place of the first line that would, and the exit status is 1.
";

/// `fir asm`
pub const ASM: &str = "\
Assembles a text, whatever its name ends in, and writes the image's bytes to OUT
or to standard output. `-` reads the text from standard input. The image is not
checked: `fir check` does that. Comments, and the names that a text gives to registers, as
`version 0.0(outdoor: int) -> int` does, are not held by the image. OUT is another file
than the text, and its name does not end in .fir.
";

/// `fir dis`
pub const DIS: &str = "\
Writes the text of an image, whatever its name ends in and whether or not it is
accepted, to OUT, another file than the image, or to standard output. `-` reads the
image from standard input. `fir asm` makes the same bytes of the text. An image holds
no names of registers, so the text has r0, r1 and on.
";

/// `fir explain`
pub const EXPLAIN: &str = "\
Says what the question N asks, with scripts that it refuses and mended ones; or what
UNDEF, STEPS, DEEP, VECTORS or PROMISES means, how a mend is found, or what an
instruction such as skip does, the WORD in any case of letters. Without either it lists all. The text is that
of docs/LANGUAGE.md, of instructions that of docs/TEXT-FORM.md.

example:
  $ fir explain 14
  14: no SKIP goes past the end of its block, or of a part that it stands in
  ..
";

/// `fir completion`
pub const COMPLETION: &str = "\
Prints a script that makes a shell complete the commands of `fir`, their options,
and what these take:
  bash   source <(fir completion bash)
  zsh    fir completion zsh > DIR/_fir, where DIR is in $fpath
  fish   fir completion fish > ~/.config/fish/completions/fir.fish
";
