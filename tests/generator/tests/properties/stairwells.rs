//! Blocks of stairwells under the monitor of demand 3: together the runs never have more than
//! 64 vectors, and all that the lists are made for is met.

use generator::{stairwells, update, Ask, Asked, Event, Tally};
use reference::bounds::VECTORS;
use reference::pool::RUNS;
use reference::{Answer, End, Pool, Refusal};

/// How many lists are made.
const LISTS: u64 = 800;

/// The fewest of each thing that is met.
const FEWEST: [(&str, usize); 12] = [
    ("made", 600),
    ("refused by 21", 300),
    ("refused by 11", 50),
    ("refused by 12", 50),
    ("refused by 13", 300),
    ("refused by 15", 30),
    ("refused by 19", 20),
    ("refused by 20", 200),
    ("ended: Integer", 500),
    ("ended: Vectors", 500),
    ("a change", 200),
    ("no run", 1_000),
];

/// What is heard of something asked; none where the number has no run.
fn heard(pool: &mut Pool, asked: &Asked) -> Option<Result<Answer, Refusal>> {
    let number = asked.number;
    let answered = |(answer, _)| match answer {
        Answer::Refused(no) => Err(no),
        answer => Ok(answer),
    };
    Some(match &asked.ask {
        Ask::Start {
            start,
            places,
            budget,
        } => {
            let buffer = &mut vec![0; *places];
            answered(pool.run(number, start, budget.unwrap_or(0), buffer))
        }
        Ask::Event(Event::Step) => pool.step(number).transpose()?.map(|_| Answer::Steps),
        Ask::Event(Event::Budget { budget, places }) => {
            answered(pool.budget(number, *budget, &mut vec![0; *places])?)
        }
        Ask::Event(Event::Change { aim, seed }) => {
            let lodger = pool.get(number);
            let new = lodger.map_or(Vec::new(), |lodger| {
                let live = lodger.run.state().live_versions();
                update(*aim, *seed, &lodger.image, &live)
            });
            pool.change(number, &new)?.map(|()| Answer::Steps)
        }
        Ask::Back => Err(pool.back(number)),
    })
}

/// Meets what is heard.
fn meet(asked: &Asked, heard: Option<Result<Answer, Refusal>>, met: &mut Tally<String>) {
    met.meet(match heard {
        None => "no run".to_string(),
        Some(Err(no)) => format!("refused by {}", no.number),
        Some(Ok(Answer::Ended(End::Integer(_)))) => "ended: Integer".to_string(),
        Some(Ok(Answer::Ended(end))) => format!("ended: {end:?}"),
        Some(Ok(_)) => match asked.ask {
            Ask::Event(Event::Change { .. }) => "a change".to_string(),
            _ => "goes on".to_string(),
        },
    });
}

#[test]
fn runs_in_a_pool_share_64_vectors() {
    let mut met = Tally::default();
    for seed in 0..LISTS {
        let block = stairwells(seed);
        let sum: usize = block.reserves.iter().map(|&r| usize::from(r)).sum();
        let made = Pool::make(block.reserves, &format!("seed {seed}"));
        assert_eq!(made.is_ok(), sum <= VECTORS, "seed {seed}");
        let Ok(mut pool) = made else {
            continue;
        };
        met.meet("made".to_string());
        for asked in &block.asks {
            let heard = heard(&mut pool, asked);
            meet(asked, heard, &mut met);
            let usage = pool.usage();
            let kept = |number: usize| usage.has[number].max(usage.reserves[number]);
            assert!((0..RUNS).map(kept).sum::<usize>() <= VECTORS, "seed {seed}");
        }
    }
    println!("{met}");
    for (thing, least) in FEWEST {
        let count = met.count(thing);
        assert!(count >= least, "{thing}: {count}");
    }
}
