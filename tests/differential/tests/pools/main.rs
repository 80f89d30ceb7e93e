//! Eight runs in a pool of the proved engine and of the reference, which counts the vectors
//! of every state anew: under the same lists of starts, steps, budgets and changes, every
//! answer, what each run has and may have, and the whole state agree. Beside each run the
//! same is asked of one without a pool.

mod alone;
mod house;

use differential::parallel::in_parallel;
use generator::{stairwells, Tally};
use house::House;

/// How many lists are generated.
const LISTS: u64 = 22_000;

/// The fewest lists whose pool is made, and what is asked in them.
const FEWEST_LISTS: usize = 20_000;
const FEWEST_ASKS: usize = 600_000;

/// The fewest of some sorts.
const FEWEST: [(&str, usize); 32] = [
    ("made", 20_000),
    ("21 by the reserves of a pool that is made", 500),
    ("21 by a number", 10_000),
    ("21 by the reserves of a lent pool", 20_000),
    ("refused by 11", 500),
    ("refused by 12", 500),
    ("refused by 13", 5_000),
    ("refused by 15", 1_000),
    ("refused by 19", 500),
    ("refused by 20", 5_000),
    ("a start", 100_000),
    ("a start over a live run", 10_000),
    ("a refused start over a live run", 2_000),
    ("a start that stops at once", 1_000),
    ("a start that stops at once over a live run", 300),
    ("a change taken", 5_000),
    ("no run", 10_000),
    ("ended: Integer", 10_000),
    ("ended: Vector", 5_000),
    ("ended: Undef", 500),
    ("ended: Deep", 500),
    ("ended: Vectors", 20_000),
    ("ended: Promises", 500),
    ("VECTORS with fewer than 64", 15_000),
    ("VECTORS for others' unused reserves", 5_000),
    ("VECTORS at the reserve", 5_000),
    ("VECTORS above the reserve", 2_000),
    ("a run above its reserve", 20_000),
    ("64 in use", 200),
    ("VECTORS with none left", 1_000),
    ("VECTORS in the pool, and not without one", 10_000),
    ("under the reserve 64", 3_000),
];

/// Does what is asked in the list of a seed on both sides; how much that is.
fn visit(seed: u64, met: &mut Tally<String>) -> usize {
    let block = stairwells(seed);
    let Some(mut house) = House::open(block.reserves, format!("seed {seed}"), met) else {
        return 0;
    };
    let asks = block.asks.len();
    for asked in block.asks {
        house.serve(asked, met);
    }
    asks
}

#[test]
fn eight_runs_share_their_vectors_by_the_rule() {
    if cfg!(feature = "stand_in") {
        println!("The definitions stand in for the proved engine.");
    }
    let (met, asks) = in_parallel(LISTS, visit);
    println!("{LISTS} lists, {asks} asked\n{met}");
    assert!(asks >= FEWEST_ASKS, "{asks} asked");
    assert!(met.count("made") >= FEWEST_LISTS);
    for (thing, least) in FEWEST {
        let count = met.count(thing);
        assert!(count >= least, "{thing}: {count}, expected {least}");
    }
}
