//! The worked examples A to M of the rules of the desk, on the binding.

use weavestall::{ClaimsCache, Put, Refusal, Row, Rule, Test};

fn codes(rows: impl IntoIterator<Item = Row>) -> Vec<u64> {
    rows.into_iter().map(|row| row.code).collect()
}

fn put(cache: &mut ClaimsCache, code: u64, stamp: u32) -> Vec<u64> {
    let put = cache.put(code, stamp, 10 * code).expect("it is taken");
    codes(put.into_evicted())
}

fn putw(cache: &mut ClaimsCache, code: u64, weight: u64) -> Vec<u64> {
    let put = cache.put_with_weight(code, 7, 100 * code, weight);
    codes(put.expect("it is taken").into_evicted())
}

#[test]
fn a_b_c_who_is_pushed_out() -> Result<(), Refusal> {
    let mut a = ClaimsCache::plain(2, 2)?;
    assert!(put(&mut a, 1, 7).is_empty() && put(&mut a, 2, 7).is_empty());
    let (mut b, mut c) = (a.clone(), a.clone());
    assert_eq!(put(&mut a, 3, 7), [1]);
    assert_eq!(b.get(1), Some(10));
    assert_eq!(put(&mut b, 3, 7), [2]);
    assert_eq!(c.peek(1), Some(10));
    assert_eq!(put(&mut c, 3, 7), [1]);
    Ok(())
}

#[test]
fn d_stamps() -> Result<(), Refusal> {
    let mut cache = ClaimsCache::plain(2, 2)?;
    assert!(put(&mut cache, 1, 7).is_empty() && put(&mut cache, 1, 8).is_empty());
    assert_eq!(cache.front().map(|row| row.stamp), Some(7));
    assert_eq!(cache.put_with_weight(1, 8, 5, 0)?.old(), Some(10));
    assert_eq!(cache.front().map(|row| row.stamp), Some(8));
    Ok(())
}

#[test]
fn e_f_weights() -> Result<(), Refusal> {
    let mut cache = ClaimsCache::weighed(10, 4)?;
    assert!(putw(&mut cache, 1, 3).is_empty() && putw(&mut cache, 2, 4).is_empty());
    let mut f = cache.clone();
    assert_eq!(putw(&mut cache, 3, 1), [1]);
    assert_eq!((cache.len(), cache.weight()), (2, 5));
    let Put::Was { value, evicted } = f.put_with_weight(1, 8, 101, 5)? else {
        panic!("1 is present");
    };
    assert_eq!((value, codes(evicted)), (100, vec![2]));
    Ok(())
}

#[test]
fn g_too_heavy() -> Result<(), Refusal> {
    let mut cache = ClaimsCache::weighed(10, 4)?;
    assert!(putw(&mut cache, 1, 1).is_empty());
    let refused = cache.put_with_weight(2, 7, 200, 10);
    assert_eq!(refused, Err(Refusal::TooHeavy));
    assert_eq!(putw(&mut cache, 2, 9), [1]);
    assert!(cache.is_full());
    let mut least = ClaimsCache::weighed(1, 1)?;
    assert_eq!(least.put_with_weight(1, 0, 0, 1), Err(Refusal::TooHeavy));
    assert!(putw(&mut least, 1, 0).is_empty());
    Ok(())
}

#[test]
fn h_i_j_resizes() -> Result<(), Refusal> {
    let mut h = ClaimsCache::weighed(10, 4)?;
    assert!(putw(&mut h, 1, 3).is_empty() && putw(&mut h, 2, 4).is_empty());
    assert!(h.resize(9)?.is_empty());
    assert_eq!(codes(h.resize(8)?), [1]);

    // clru panics here.
    let mut i = ClaimsCache::plain(3, 8)?;
    for code in [10, 20, 30] {
        assert!(put(&mut i, code, 7).is_empty());
    }
    assert_eq!(i.pop(10), Some(100));
    assert!(i.resize(5)?.is_empty());
    assert_eq!((i.get(20), i.get(30)), (Some(200), Some(300)));
    assert_eq!((i.lists().head[8], i.lists().stack[0]), (1, 0));

    let mut j = ClaimsCache::plain(4, 4)?;
    for code in [10, 20, 30] {
        assert!(put(&mut j, code, 7).is_empty());
    }
    assert_eq!(j.pop(20), Some(200));
    assert!(j.resize(3)?.is_empty());
    assert_eq!(j.lists().codes[..2], [30, 10]);
    assert_eq!((j.lists().head[8], j.lists().stack[0]), (1, 2));
    Ok(())
}

#[test]
fn k_ceiling() -> Result<(), Refusal> {
    let mut cache = ClaimsCache::plain(3, 3)?;
    assert_eq!(cache.put_or_modify(1, 7, 40)?.value, 40);
    assert!(put(&mut cache, 2, 7).is_empty());
    let refused = cache.try_put_or_modify(1, 7, 20, 50);
    assert_eq!(refused, Err(Refusal::OverCeiling));
    assert_eq!(
        cache.front().map(|row| (row.code, row.value)),
        Some((1, 40))
    );
    Ok(())
}

#[test]
fn l_no_slot() -> Result<(), Refusal> {
    let mut cache = ClaimsCache::plain(5, 2)?;
    assert!(put(&mut cache, 1, 7).is_empty() && put(&mut cache, 2, 7).is_empty());
    assert_eq!(cache.put(3, 7, 30), Err(Refusal::NoSlot));
    assert_eq!(cache.put(2, 7, 21)?.old(), Some(20));
    Ok(())
}

#[test]
fn m_sweeping() -> Result<(), Refusal> {
    let mut cache = ClaimsCache::plain(3, 3)?;
    for code in [1, 2, 3] {
        assert!(put(&mut cache, code, 7).is_empty());
    }
    let swept = cache.retain(Rule::dropping(Test::Code(0, u64::MAX)));
    assert_eq!(codes(swept), [3, 2, 1]);
    assert!(cache.is_empty());
    Ok(())
}
