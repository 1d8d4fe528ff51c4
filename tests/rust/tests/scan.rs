//! The opinion by steps against the opinion by trying every tick.

use shuffle_model::rng::Rng;
use shuffle_model::table::{
    budgets, busy_length, busy_length_by_scan, compared_range, first_overload, opinion_on,
    overloads_by_scan, Kind, Opinion, Refusal, Row, HORIZON,
};
use shuffle_model::tables::{full_rows, long_busy_rows, small_rows, urgent_rows, RowMaker};

/// The opinion as the specification words it, with nothing stepped over.
fn opinion_by_scan(rows: &[Row]) -> Result<Opinion, Refusal> {
    let refusal = |number, values| Err(Refusal { number, values });
    let budgets = budgets(rows);
    let [some_brittle, some_not] =
        [|v: &i64| *v < 0, |v: &i64| *v >= 0].map(|has: fn(&i64) -> bool| budgets.iter().any(has));
    let kind = match (some_brittle, some_not) {
        (false, _) => Kind::Loose,
        (true, true) => Kind::Mixed,
        (true, false) => Kind::Tight,
    };
    if some_brittle {
        let busy = busy_length_by_scan(rows);
        if let Some((tick, demand)) = overloads_by_scan(rows, busy.unwrap_or(HORIZON)).next() {
            return refusal(3, [tick, demand]);
        }
        if busy.is_none() {
            return refusal(4, [HORIZON, 0]);
        }
    }
    Ok(Opinion { kind, budgets })
}

fn check_tables(make: RowMaker, count: usize) -> Vec<u32> {
    let mut rng = Rng::new(1);
    let mut numbers = Vec::new();
    for _ in 0..count {
        let rows = make(&mut rng);
        let by_scan = opinion_by_scan(&rows);
        assert_eq!(opinion_on(&rows), by_scan, "{rows:?}");
        numbers.push(by_scan.map_or_else(|refusal| refusal.number, |_| 0));
    }
    numbers
}

#[test]
fn small_tables_agree() {
    for make in [small_rows as RowMaker, full_rows, urgent_rows] {
        let numbers = check_tables(make, 150);
        assert!(numbers.contains(&0) && numbers.contains(&3));
    }
}

#[test]
fn tables_with_a_long_busy_length_agree() {
    let numbers = check_tables(long_busy_rows, 40);
    assert!(numbers.contains(&0) && numbers.contains(&3) && numbers.contains(&4));
}

#[test]
fn steps_find_the_least_tick_for_every_limit() {
    let mut rng = Rng::new(2);
    for _ in 0..2_000 {
        let rows = urgent_rows(&mut rng);
        for limit in [1, 5, 9, 40] {
            let by_scan = overloads_by_scan(&rows, limit).next();
            assert_eq!(first_overload(&rows, limit), by_scan, "{rows:?}");
        }
    }
}

#[test]
fn busy_length_is_the_least_fixed_point() {
    let mut rng = Rng::new(3);
    for _ in 0..150 {
        let rows = full_rows(&mut rng);
        assert_eq!(busy_length(&rows), busy_length_by_scan(&rows), "{rows:?}");
        assert_eq!(compared_range(&rows), busy_length(&rows).unwrap_or(HORIZON));
    }
}
