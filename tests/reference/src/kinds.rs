//! The record kinds and the operations of ARITH, each number named once.

/// Opens a version.
pub const VERSION: u16 = 1;
/// Opens a block.
pub const BLOCK: u16 = 2;
/// States the level of a version.
pub const LEVEL: u16 = 3;
/// `LIT d, i32` of the form before; the one in force does not know it
pub const NARROW_LIT: u16 = 16;
/// `MOVE d a`
pub const MOVE: u16 = 17;
/// `USE d a`
pub const USE: u16 = 18;
/// `DUP d a`
pub const DUP: u16 = 19;
/// `VEC d n r1..rn`
pub const VEC: u16 = 20;
/// `LEN d a`
pub const LEN: u16 = 21;
/// `GET d a i`
pub const GET: u16 = 22;
/// `SET a i e`
pub const SET: u16 = 23;
/// `ARITH d op a b`
pub const ARITH: u16 = 24;
/// `SELECT d c a b`
pub const SELECT: u16 = 25;
/// `CAST d a`
pub const CAST: u16 = 26;
/// `NAMED d x`
pub const NAMED: u16 = 27;
/// `STORE x a`
pub const STORE: u16 = 28;
/// `PROM d block`
pub const PROM: u16 = 29;
/// `FORCE d a`
pub const FORCE: u16 = 30;
/// `PEEK d a x`
pub const PEEK: u16 = 31;
/// `POKE a x e`
pub const POKE: u16 = 32;
/// `CALL d function version n r1..rn`
pub const CALL: u16 = 33;
/// `DISPATCH d function mark return n`, then n pairs of type and register
pub const DISPATCH: u16 = 34;
/// `SKIP a n`
pub const SKIP: u16 = 35;
/// `LIT d, i64`
pub const LIT: u16 = 36;

/// ARITH gives a + b.
pub const ADD: u8 = 0;
/// ARITH gives a − b.
pub const SUBTRACT: u8 = 1;
/// ARITH gives a × b.
pub const MULTIPLY: u8 = 2;
/// ARITH gives a / b, rounded toward minus infinity.
pub const DIVIDE: u8 = 3;
/// ARITH gives 1 if a < b, else 0.
pub const LESS: u8 = 4;
/// The operations of ARITH are numbered below this.
pub const OPERATIONS: u8 = 5;
