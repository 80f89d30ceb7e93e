//! A text form of FIR images: an assembler and a disassembler.
//!
//! # Reading it
//!
//! A text is read line by line; `#` opens a comment, and spaces are free. A
//! `version`, `level`, `block` or instruction line is one record of the image:
//!
//! ```text
//! # Doubles each of two items: 0.0 owns the vector, 1.0 borrows it.
//! version 0.0(r0: own vector) -> own vector
//!   registers r1: int, r2: int
//!   level portal
//!   block 0 quiet -> r0
//!     r1 = lit 0
//!     r2 = call 1.0(r0, r1)
//!     set r0[r1] = r2
//!     r1 = lit 1
//!     r2 = call 1.0(r0, r1)
//!     set r0[r1] = r2
//!
//! version 1.0(r0: borrow vector, r1: int) -> int
//!   level portal
//!   block 0 quiet -> r1
//!     r1 = get r0[r1]
//!     r1 = add r1, r1
//! ```
//!
//! A register may be declared by a name in place of its number, as in
//! `version 0.0(outdoor: int) -> int`, which then stands wherever `r0` does.
//!
//! The first registers are the parameters; a `registers` line right after its
//! `version` line declares the others. The `level` line behind them says for whom
//! the version is: portal, staff or factory. Blocks are numbered from 0 on in each
//! version. The register after a block's `->` is its result register.
//!
//! The twenty instructions, by kind number:
//!
//! ```text
//! r1 = move r0                                  # 17 MOVE
//! r1 = use r0                                   # 18 USE
//! r1 = dup r0                                   # 19 DUP
//! r1 = vec [r2, r3]                             # 20 VEC
//! r1 = len r0                                   # 21 LEN
//! r1 = get r0[r2]                               # 22 GET
//! set r0[r2] = r3                               # 23 SET
//! r1 = add r2, r3                               # 24 ARITH: add, sub, mul, div, less
//! r1 = select r2 ? r3 : r4                      # 25 SELECT
//! r1 = cast r0                                  # 26 CAST
//! r1 = named x5                                 # 27 NAMED
//! store x5 = r1                                 # 28 STORE
//! r1 = prom 2                                   # 29 PROM, of block 2
//! r0 = force r1                                 # 30 FORCE
//! r0 = peek r1.x5                               # 31 PEEK
//! poke r1.x5 = r0                               # 32 POKE
//! r0 = call 3.1(r1, r2)                         # 33 CALL, of version 3.1
//! r0 = dispatch 3(r1: int, r2: own vector) -> value quiet  # 34 DISPATCH
//! skip 3 unless r0                              # 35 SKIP, of the next 3
//! r0 = lit -7                                   # 36 LIT
//! ```
//!
//! # Grammar
//!
//! ```text
//! line        = [ version | registers | level | block | instruction | bytes ] [ "#" … ]
//! version     = "version" number "." number "(" [ typed { "," typed } ] ")" "->" type
//!               [ "parameters" "=" number ] [ "blocks" "=" number ]
//! registers   = "registers" typed { "," typed }
//! level       = "level" ( "portal" | "staff" | "factory" | number )
//! block       = "block" number mark "->" register [ "count" "=" number ]
//! instruction = as above; ARITH also as register "=" "arith" number register "," register
//! bytes       = "bytes" { two hexadecimal digits }
//! typed       = register ":" type, where a register is declared by its number or by a new name
//! type        = [ "own" | "borrow" ] kind | "0x" two hexadecimal digits
//! kind        = "any" | "value" | "int" | "vector" | "quiet" "promise" | "reflective" "promise"
//! mark        = "quiet" | "reflective" | "mark" number
//! register    = "r" number | the name that its version declares
//! name        = "x" number
//! number      = decimal digits, a literal's with "-" before it where below zero
//! ```
//!
//! # What nice programs need not say
//!
//! Counts are those of what follows: a version's `blocks` are the `block` lines
//! up to the next `version` line, a block's `count` the instruction lines up to
//! the next `block` or `version` line. A count that differs is written out, as
//! are type bytes, levels, marks and operations without a name, and more `parameters`
//! than registers. Bytes that make no record stand on `bytes` lines, which no
//! count takes into account. So every image has a text, and
//! `assemble(&disassemble(image))` gives its bytes back.

mod assemble;
mod cursor;
mod declarations;
mod disassemble;
mod error;
mod instruction;
mod item;
mod layout;
mod line;
mod names;
mod vocabulary;

pub use assemble::{assemble, assemble_lined, first_column, Lined};
pub use declarations::{byte_digits, Declaration, Declarations, Words};
pub use disassemble::{disassemble, listing};
pub use error::Error;
pub use instruction::print as instruction_text;
pub use layout::lay_out;
pub use names::{Names, Registers};
pub use vocabulary::{level_text, operation_text, type_text, KEYWORDS};
