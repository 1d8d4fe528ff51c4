//! Refusal 3 names the first overload: the least tick whose demand exceeds it, and
//! that demand.

use std::collections::BTreeMap;

use shuffle_model::driver::table_text;
use shuffle_model::hard::{full_to, full_to_one};
use shuffle_model::overloaded::{late_overload_rows, overloaded_rows, shorten};
use shuffle_model::rng::Rng;
use shuffle_model::specification::{plain, OVERLOADS};
use shuffle_model::table::{
    budget, busy_length, busy_length_by_scan, compared_range, demand, growth, opinion, opinion_on,
    overloads_by_scan, Kind, Refusal, Row, HORIZON,
};
use shuffle_model::tables::{
    full_rows, light_rows, long_busy_rows, roomy_rows, small_rows, staggered_rows, urgent_rows,
    RowMaker,
};
use shuffle_model::text::run;

fn rows(numbers: &[[u32; 3]]) -> Vec<Row> {
    numbers.iter().copied().map(Row::from).collect()
}

/// What refusal 3 names; none of a table that is not refused with 3.
fn named(rows: &[Row]) -> Option<(u64, u64)> {
    match opinion_on(rows) {
        Err(Refusal {
            number: 3,
            values: [tick, demand],
        }) => Some((tick, demand)),
        _ => None,
    }
}

/// The same by the words alone, each tick tried.
fn named_by_scan(rows: &[Row]) -> Option<(u64, u64)> {
    if (0..rows.len()).all(|row| budget(rows, row) >= 0) {
        return None;
    }
    let limit = busy_length_by_scan(rows).unwrap_or(HORIZON);
    let ticks = 1..=limit;
    let mut demands = ticks.map(|tick| (tick, demand(rows, tick)));
    demands.find(|(tick, demand)| demand > tick)
}

/// The demand at a tick by counting jobs: each row's arrive at 0, T, 2T and so on.
fn demand_by_jobs(rows: &[Row], tick: u64) -> u64 {
    let jobs = |row: &Row| {
        let [period, deadline] = [row.period, row.deadline].map(u64::from);
        let dues = (0..).map(|job| job * period + deadline);
        dues.take_while(|due| *due <= tick).count() as u64
    };
    rows.iter().map(|row| u64::from(row.run) * jobs(row)).sum()
}

#[test]
fn tables_are_answered_as_worked_out() {
    for example in OVERLOADS {
        let output = run(&table_text(&example.rows()));
        assert_eq!(String::from_utf8(output).unwrap(), plain(example.output));
    }
}

#[test]
fn every_tick_before_the_first_has_room() {
    // Of the table with 6 and 7, by hand: row 0 is due at 2, 4 and 6, row 1 at 3 and 6.
    let table = rows(&[[1, 2, 2], [2, 3, 3]]);
    let demands = [0, 1, 3, 4, 4, 7];
    for (tick, by_hand) in (1..).zip(demands) {
        assert_eq!(demand(&table, tick), by_hand);
        assert_eq!(demand_by_jobs(&table, tick), by_hand);
    }
    assert_eq!(named(&table), Some((6, 7)));
}

#[test]
fn a_later_overload_is_not_named() {
    // 4 at 3, and 14 at 12 and at 13. All work is done at 14, the busy length.
    let table = rows(&[[2, 100, 2], [2, 100, 3], [10, 100, 12]]);
    assert_eq!(busy_length(&table), Some(14));
    let overloads: Vec<_> = overloads_by_scan(&table, 14).collect();
    assert_eq!(overloads, [(3, 4), (12, 14), (13, 14)]);
    assert_eq!(named(&table), Some((3, 4)));
    // Without a busy length nearly every tick up to the horizon is overloaded.
    let table = rows(&[[1, 2, 2], [2, 3, 3]]);
    assert_eq!(busy_length(&table), None);
    assert_eq!(overloads_by_scan(&table, 12).count(), 4, "6, 9, 10 and 12");
    assert!(demand(&table, HORIZON) > HORIZON);
    assert_eq!(named(&table), Some((6, 7)));
}

#[test]
fn the_first_can_be_the_only_one() {
    // 4 at 3, where the work is done at 4; and 8 at 7, where it is done at 8.
    for (table, only) in [
        (rows(&[[2, 10, 2], [2, 10, 3]]), (3, 4)),
        (rows(&[[2, 5, 2], [4, 20, 6]]), (7, 8)),
    ] {
        let overloads: Vec<_> = overloads_by_scan(&table, 1_000).collect();
        assert_eq!(overloads, [only]);
        assert_eq!(named(&table), Some(only));
        // So it is the last tick before the busy length.
        assert_eq!(busy_length(&table), Some(only.0 + 1));
    }
}

#[test]
fn lower_numbers_come_first() {
    let refusal = |number, first| {
        let values = [first, 0];
        Err(Refusal { number, values })
    };
    // 3 at tick 2 alone, then with a word too many and with an unlawful row.
    assert_eq!(named(&rows(&[[2, 9, 2], [1, 9, 2]])), Some((2, 3)));
    assert_eq!(opinion(&[2, 9, 2, 1, 9, 2, 1]), refusal(1, 7));
    assert_eq!(opinion(&[2, 9, 2, 1, 9, 2, 3, 5, 2]), refusal(2, 2));
    // No busy length, but a demand of 4 at 3: 3 and not 4.
    let table = rows(&[[1, 1, 1], [1, 5, 3]]);
    assert_eq!(busy_length(&table), None);
    assert_eq!(named(&table), Some((3, 4)));
}

#[test]
fn nothing_is_answered_after_it() {
    let table = "T 2 9 2/T 1 9 2/";
    for end in [
        "",
        "G/",
        "A 0/G/R 1/F/",
        "x/",
        "/",
        "T 1 9 9",
        "W 1/T 1 9 9/",
    ] {
        let input = plain(&format!("{table}{end}"));
        assert_eq!(
            run(input.as_bytes()),
            plain("0 M 3 2 3/").as_bytes(),
            "{end}"
        );
    }
    // One more row is: it is due at 1 already.
    let input = plain(&format!("{table}T 1 9 1/T 1 9 1/"));
    assert_eq!(run(input.as_bytes()), plain("0 M 3 1 2/").as_bytes());
}

#[test]
fn a_planner_sees_the_tick_rise_until_the_refusal_goes_away() {
    // The demand at 4, 6 and 9 is c, c + 3 and c + 7.
    let table = |run| rows(&[[run, 20, 4], [3, 20, 6], [4, 20, 9]]);
    assert_eq!(named(&table(4)), Some((6, 7)));
    assert_eq!(named(&table(3)), Some((9, 10)));
    assert_eq!(opinion_on(&table(2)).unwrap().kind, Kind::Mixed);
    // That at 999,999 is 499,999 + c. With 500,000 there is no overload up to the
    // horizon, but no busy length either; with 499,999 it is 999,998.
    let table = |run| rows(&[[1, 2, 2], [run, 999_999, 999_999]]);
    assert_eq!(named(&table(500_002)), Some((999_999, 1_000_001)));
    assert_eq!(named(&table(500_001)), Some((999_999, 1_000_000)));
    let values = [HORIZON, 0];
    assert_eq!(
        opinion_on(&table(500_000)),
        Err(Refusal { number: 4, values })
    );
    assert_eq!(busy_length(&table(499_999)), Some(999_998));
    assert_eq!(opinion_on(&table(499_999)).unwrap().kind, Kind::Mixed);
}

#[test]
fn less_to_do_never_brings_it_forward() {
    let mut rng = Rng::new(21);
    let mut later = 0;
    for _ in 0..2_000 {
        let mut table = overloaded_rows(&mut rng);
        let (mut before, _) = named(&table).unwrap();
        loop {
            match rng.below(3) {
                0 => {
                    let changed = rng.below(table.len());
                    let row = &mut table[changed];
                    row.period += u32::from(u64::from(row.period) < HORIZON);
                    row.deadline += u32::from(row.deadline < row.period);
                }
                _ if !shorten(&mut rng, &mut table) => break,
                _ => {}
            }
            let Some((after, _)) = named(&table) else {
                break;
            };
            assert!(before <= after, "{table:?}");
            later += u32::from(before < after);
            before = after;
        }
    }
    assert!(later > 500, "{later}");
}

#[test]
fn the_order_of_rows_does_not_matter() {
    let mut rng = Rng::new(22);
    for _ in 0..500 {
        let mut table = overloaded_rows(&mut rng);
        let first = named(&table);
        for _ in 0..5 {
            let [one, other] = [0; 2].map(|_| rng.below(table.len()));
            table.swap(one, other);
            assert_eq!(named(&table), first, "{table:?}");
        }
    }
}

/// The first deadline that is missed if all rows arrive as early as they may and the
/// job of the earliest deadline always runs.
fn first_miss(rows: &[Row]) -> Option<u64> {
    // The remaining ticks by deadline.
    let mut waiting: BTreeMap<u64, u32> = BTreeMap::new();
    for clock in 0..=HORIZON {
        if waiting.contains_key(&clock) {
            return Some(clock);
        }
        for row in rows {
            if clock.is_multiple_of(row.period.into()) {
                *waiting.entry(clock + u64::from(row.deadline)).or_default() += row.run;
            }
        }
        if let Some(mut first) = waiting.first_entry() {
            *first.get_mut() -= 1;
            if *first.get() == 0 {
                first.remove();
            }
        }
    }
    None
}

#[test]
fn there_the_earliest_deadline_first_misses() {
    let mut rng = Rng::new(23);
    for _ in 0..2_000 {
        let table = overloaded_rows(&mut rng);
        let first = named(&table).map(|(tick, _)| tick);
        assert_eq!(first_miss(&table), first, "{table:?}");
    }
}

#[test]
fn it_is_the_least_of_all_ticks_and_not_only_of_those_compared() {
    let mut rng = Rng::new(24);
    let mut counts = [0; 4];
    for _ in 0..2_500 {
        let makers: [RowMaker; 4] = [small_rows, full_rows, urgent_rows, overloaded_rows];
        let table = rng.pick(&makers)(&mut rng);
        let (place, limit) = match opinion_on(&table) {
            Ok(admitted) => (
                admitted.kind as usize,
                3 * compared_range(&table).min(1_000),
            ),
            Err(refusal) if refusal.number == 3 => (0, compared_range(&table)),
            Err(_) => continue,
        };
        counts[place] += 1;
        let first = overloads_by_scan(&table, limit).next();
        assert_eq!(first, named(&table), "{table:?}");
    }
    assert!(counts.iter().all(|count| *count > 100), "{counts:?}");
}

#[test]
fn demand_grows_where_jobs_are_due() {
    let mut rng = Rng::new(25);
    for _ in 0..200 {
        let table = overloaded_rows(&mut rng);
        let mut before = (0, 0);
        for (tick, demand) in growth(&table).take(20) {
            assert!(before < (tick, demand), "{table:?}");
            assert_eq!(demand_by_jobs(&table, tick - 1), before.1, "{table:?}");
            assert_eq!(demand_by_jobs(&table, tick), demand, "{table:?}");
            before = (tick, demand);
        }
    }
}

/// Compares tables of one maker, and gives how many are refused with 3.
fn check_tables(make: RowMaker, count: usize) -> usize {
    let mut rng = Rng::new(26);
    let tables = (0..count).map(|_| make(&mut rng));
    let overloaded = tables.filter(|table| {
        let by_scan = named_by_scan(table);
        assert_eq!(named(table), by_scan, "{table:?}");
        by_scan.is_some()
    });
    overloaded.count()
}

#[test]
fn steps_name_what_the_definition_names() {
    let makers: [(RowMaker, usize, usize); 8] = [
        (overloaded_rows, 800, 800),
        (small_rows, 300, 20),
        (full_rows, 200, 20),
        (urgent_rows, 500, 50),
        (staggered_rows, 100, 0),
        (light_rows, 100, 0),
        (roomy_rows, 100, 0),
        (full_to_one, 100, 10),
    ];
    for (place, (make, count, least)) in makers.into_iter().enumerate() {
        let overloaded = check_tables(make, count);
        assert!(overloaded >= least, "{place}: {overloaded}");
    }
}

#[test]
fn late_steps_name_it_too() {
    let makers: [(RowMaker, usize, usize); 3] = [
        (late_overload_rows, 60, 20),
        (long_busy_rows, 40, 5),
        (|rng| full_to(rng, 1.0001), 40, 10),
    ];
    for (place, (make, count, least)) in makers.into_iter().enumerate() {
        let overloaded = check_tables(make, count);
        assert!(overloaded >= least, "{place}: {overloaded}");
    }
}
