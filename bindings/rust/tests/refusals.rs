//! Every refusal with its cause, and the lists below the cache with whatever they hold.

use weavestall::lists::{self, Lists, RowLists};
use weavestall::{ClaimsCache, MOST_CAPACITY, Refusal};

#[test]
fn each_names_its_cause() {
    for number in 1..=8 {
        let refusal = Refusal::of(number).expect("there are eight");
        assert_eq!(refusal.number(), number);
        assert!(
            refusal
                .to_string()
                .starts_with(&format!("refusal {number}: "))
        );
        assert!(refusal.explanation().len() > 20);
    }
    assert_eq!((Refusal::of(0), Refusal::of(9)), (None, None));
}

#[test]
fn openings() {
    for (capacity, slots) in [
        (0, 1),
        (MOST_CAPACITY + 1, 1),
        (1, 0),
        (1, 4097),
        (1, u32::MAX),
    ] {
        assert_eq!(
            ClaimsCache::plain(capacity, slots).unwrap_err(),
            Refusal::NotOpened
        );
        assert_eq!(
            ClaimsCache::weighed(capacity, slots).unwrap_err(),
            Refusal::NotOpened
        );
    }
    assert!(ClaimsCache::plain(MOST_CAPACITY, 4096).is_ok());
}

#[test]
fn the_wrong_kind() -> Result<(), Refusal> {
    let mut weighed = ClaimsCache::weighed(10, 4)?;
    assert_eq!(weighed.put(1, 0, 0), Err(Refusal::WrongKind));
    assert_eq!(weighed.put_or_modify(1, 0, 0), Err(Refusal::WrongKind));
    assert_eq!(
        weighed.try_put_or_modify(1, 0, 0, 0),
        Err(Refusal::WrongKind)
    );
    assert_eq!(weighed.get_mut(1, 0), Err(Refusal::WrongKind));
    assert_eq!(weighed.peek_mut(1, 0), Err(Refusal::WrongKind));
    assert_eq!(weighed.front_mut(0), Err(Refusal::WrongKind));
    assert_eq!(weighed.back_mut(0), Err(Refusal::WrongKind));
    let mut plain = ClaimsCache::plain(10, 4)?;
    assert_eq!(plain.put_with_weight(1, 0, 0, 1), Err(Refusal::WrongKind));
    assert_eq!(plain.resize(0), Err(Refusal::NotUnderstood));
    assert_eq!(plain.resize(MOST_CAPACITY + 1), Err(Refusal::NotUnderstood));
    Ok(())
}

#[test]
fn lists_of_any_content() {
    let mut state = Lists::for_slots(3);
    assert_eq!(lists::open(0, 5, 3, &mut state), 0);
    let mut rows = RowLists::for_rows(3);
    let mut answer = [9; lists::ANSWER];
    let put = [16, 1, 7, 100, 0];

    // A number past its width in the head: refusal 2, and nothing but the answer is written.
    for at in [0, 2, 3, 5, 6, 7, 8] {
        let mut damaged = state.clone();
        damaged.head[at] |= 1 << 32;
        let before = damaged.clone();
        assert_eq!(lists::call(&mut damaged, &mut rows, &put, &mut answer), 2);
        assert_eq!((damaged, answer), (before, [2, 0, 0, 0, 0, 0, 0, 0]));
    }
    // A head, a list or an answer that is too short.
    let mut short = state.clone();
    short.head.pop();
    assert_eq!(lists::call(&mut short, &mut rows, &put, &mut answer), 2);
    let mut short = state.clone();
    short.cells.pop();
    assert_eq!(lists::call(&mut short, &mut rows, &put, &mut answer), 2);
    let mut little = [9; 7];
    assert_eq!(
        lists::call(&mut state.clone(), &mut rows, &put, &mut little),
        2
    );
    assert_eq!(little, [9; 7]);
    // A command that does not exist, is too short, or has a stamp past its width; a writing command where one reads.
    for command in [
        &[0_u64, 0, 0, 0, 0][..],
        &[27, 0, 0, 0, 0],
        &[16, 1, 7, 100],
        &[16, 1, 1 << 32, 0, 0],
        &[],
    ] {
        let before = state.clone();
        assert_eq!(lists::call(&mut state, &mut rows, command, &mut answer), 8);
        assert_eq!((&state, answer), (&before, [8, 0, 0, 0, 0, 0, 0, 0]));
    }
    assert_eq!(lists::read(&state, &mut rows, &put, &mut answer), 8);
    // And the call as it should be.
    assert_eq!(lists::call(&mut state, &mut rows, &put, &mut answer), 0);
    assert_eq!(answer, [0, 1, 0, 0, 1, 0, 0, 0]);
    assert_eq!(state.head[3], 1);
    // A sweep with too few rows: refusal 6, with enough: the row.
    let sweep = [19, 0, 1, 0, u64::MAX];
    let mut none = RowLists::default();
    assert_eq!(lists::call(&mut state, &mut none, &sweep, &mut answer), 6);
    assert_eq!(lists::call(&mut state, &mut rows, &sweep, &mut answer), 0);
    assert_eq!((answer[3], rows.codes[0], rows.values[0]), (1, 1, 100));
}

#[test]
fn what_it_shows() -> Result<(), Refusal> {
    let mut cache = ClaimsCache::plain(2, 2)?;
    assert!(cache.put(1, 7, 100)?.evicted().is_empty());
    assert_eq!(
        format!("{cache:?}"),
        "ClaimsCache { kind: Plain, capacity: 2, slots: 2, weight: 0, \
         rows: [Row { code: 1, stamp: 7, value: 100, weight: 0 }] }"
    );
    Ok(())
}
