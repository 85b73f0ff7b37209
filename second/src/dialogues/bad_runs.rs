//! Runs that break one rule of the wide access's table each, refusal 4: their counts, the first
//! three octets of their instances, and their order. And runs that just keep them.

use crate::codes::CFB;
use crate::samples::{instance, wide_profile};
use crate::table_record::{place, Place, TableRecord, PLACES};

use super::script::{dialogue, Dialogue};
use super::words::{all_numbers, clean, interrogation, list, listed, refused, silent, to, RUBBISH};

pub fn dialogues() -> Vec<Dialogue> {
    let talks = bad_runs().into_iter().map(|(name, runs)| {
        let talk = dialogue(format!("bad run: {name}"), &wide_profile());
        runs.into_iter().fold(talk, |talk, run| {
            talk.record(run).hears_hex("A2 00", refused(4))
        })
    });
    talks.chain(just_good()).collect()
}

/// Each rule and some runs that break it, but keep every other.
pub fn bad_runs() -> Vec<(&'static str, Vec<TableRecord>)> {
    let mut all = bad_counts();
    all.extend(bad_fields());
    all.extend(bad_orders());
    all.extend(too_full());
    all
}

/// Number and service of eight instances of each procedure, ascending.
const EIGHT: [(i32, i32); 8] = [
    (0, 1),
    (0, 32),
    (1, 2),
    (1, 42),
    (2, 5),
    (2, 33),
    (3, 1),
    (3, 42),
];

/// Eight of each procedure.
fn full() -> Vec<Place> {
    let of = |procedure| EIGHT.map(|(number, service)| clean(procedure, number, service));
    [0, 1, 2].map(of).concat()
}

fn run(places: &[Place]) -> TableRecord {
    TableRecord::holding(0, places)
}

fn counted(count: u8, places: &[Place]) -> TableRecord {
    TableRecord {
        count,
        ..run(places)
    }
}

fn bad_counts() -> Vec<(&'static str, Vec<TableRecord>)> {
    let past = [25, 255];
    let one = [clean(1, 0, 1)];
    vec![
        (
            "a count of 25 or 255 over 24 good instances",
            past.map(|count| counted(count, &full())).to_vec(),
        ),
        (
            "a count of 25 or 255 over no instance",
            past.map(|count| counted(count, &[])).to_vec(),
        ),
        (
            "blank places are counted",
            vec![
                counted(1, &[]),
                counted(24, &[]),
                counted(2, &one),
                counted(24, &full()[..23]),
            ],
        ),
        (
            "places of rubbish are counted",
            vec![run(&[RUBBISH]), run(&[one[0], RUBBISH])],
        ),
    ]
}

/// One instance, the second of two, or the last of a full run, has a field that is out of range.
fn bad_fields() -> Vec<(&'static str, Vec<TableRecord>)> {
    let behind = |bad| run(&[clean(0, 0, 1), bad]);
    let mut last_of_full = full();
    last_of_full[PLACES - 1] = clean(3, 0, 1);
    vec![
        (
            "procedure 3 or 255",
            vec![
                run(&[clean(3, 0, 1)]),
                behind(clean(255, 0, 1)),
                run(&last_of_full),
            ],
        ),
        (
            "number 4 or 255",
            vec![run(&[clean(1, 4, 1)]), behind(clean(1, 255, 1))],
        ),
        (
            "service 0, 6, 43 or 255",
            vec![
                run(&[clean(0, 0, 0)]),
                run(&[clean(1, 0, 6)]),
                behind(clean(1, 0, 43)),
                behind(clean(1, 0, 255)),
            ],
        ),
    ]
}

/// Each pair but for its order, or but for its being one instance twice, would be good.
fn bad_orders() -> Vec<(&'static str, Vec<TableRecord>)> {
    let [first, second, third] = [clean(1, 0, 1), clean(1, 0, 2), clean(1, 1, 1)];
    let elsewhere = place(1, 0, 1, &to("9"));
    let swapped = |at: usize| {
        let mut places = full();
        places.swap(at, at + 1);
        run(&places)
    };
    vec![
        (
            "an instance twice",
            vec![
                run(&[first, first]),
                run(&[first, second, second]),
                run(&[first, second, first]),
            ],
        ),
        (
            "an instance twice, with two addresses",
            vec![run(&[first, elsewhere]), run(&[elsewhere, first, second])],
        ),
        (
            "the procedure descends",
            vec![
                run(&[clean(1, 0, 1), clean(0, 1, 2)]),
                run(&[first, clean(2, 0, 1), second]),
                swapped(7),
                swapped(15),
            ],
        ),
        (
            "the number descends",
            vec![
                run(&[clean(1, 1, 1), clean(1, 0, 2)]),
                run(&[first, third, second]),
                swapped(13),
            ],
        ),
        (
            "the service descends",
            vec![
                run(&[second, first]),
                run(&[first, clean(1, 1, 42), clean(1, 1, 5)]),
                swapped(22),
            ],
        ),
    ]
}

fn too_full() -> Vec<(&'static str, Vec<TableRecord>)> {
    let of = |procedure, numbers: &[i32], services: &[i32]| -> Vec<Place> {
        let pairs = numbers.iter();
        let pairs = pairs.flat_map(|number| services.iter().map(move |code| (number, code)));
        pairs
            .map(|(number, code)| clean(procedure, *number, *code))
            .collect()
    };
    let nine = |procedure| of(procedure, &[0, 1, 3], &[1, 33, 42]);
    let with_others = [&full()[..8], &nine(1), &full()[16..23]].concat();
    vec![
        (
            "nine of a procedure",
            [0, 1, 2].map(|procedure| run(&nine(procedure))).to_vec(),
        ),
        ("nine of a procedure in a full run", vec![run(&with_others)]),
        (
            "24 of a procedure",
            vec![run(&of(2, &[0, 1, 2, 3], &wide_profile().services))],
        ),
    ]
}

fn just_good() -> Vec<Dialogue> {
    let access = wide_profile();
    let of_cfb = [
        instance(CFB, 0, 42, "24680"),
        instance(CFB, 1, 1, "24680"),
        instance(CFB, 1, 2, "24680"),
    ];
    let entries = of_cfb
        .each_ref()
        .map(|one| listed(&access.numbers[one.number as usize], one));
    let ascending = [
        clean(0, 3, 42),
        clean(1, 0, 42),
        clean(1, 1, 1),
        clean(1, 1, 2),
        clean(2, 0, 1),
    ];
    vec![
        dialogue("good run: 24 instances", &access)
            .record(run(&full()))
            .hears_hex("A2 00", silent()),
        dialogue(
            "good run: the procedure ascends first, then the number, then the service",
            &access,
        )
        .record(run(&ascending))
        .asks(1, &interrogation(CFB, 0, all_numbers()), list(1, &entries)),
    ]
}
