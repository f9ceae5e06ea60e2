//! The documented examples of clru 0.6.3, rewritten for this cache: codes for its strings, and every evicted row looked at.

use weavestall::{ClaimsCache, Evicted, Put, Refusal};

const APPLE: u64 = 1;
const BANANA: u64 = 2;
const PEAR: u64 = 3;

#[test]
fn using_the_default_scale() -> Result<(), Refusal> {
    let mut cache = ClaimsCache::new(2)?;
    assert_eq!(cache.put(APPLE, 0, 3)?.old(), None);
    assert_eq!(cache.put(BANANA, 0, 2)?.old(), None);

    assert_eq!(cache.get(APPLE), Some(3));
    assert_eq!(cache.get(BANANA), Some(2));
    assert!(cache.get(PEAR).is_none());

    assert_eq!(cache.put(BANANA, 0, 4)?.old(), Some(2));
    let Put::New { evicted } = cache.put(PEAR, 0, 5)? else {
        panic!("the pear is new");
    };
    // clru drops the apple here; it comes back.
    let rows = evicted.into_rows();
    assert_eq!((rows.len(), rows[0].code, rows[0].value), (1, APPLE, 3));

    assert_eq!(cache.get(PEAR), Some(5));
    assert_eq!(cache.get(BANANA), Some(4));
    assert!(cache.get(APPLE).is_none());

    assert_eq!(cache.get_mut(BANANA, 6)?, Some(4));
    assert_eq!(cache.get(BANANA), Some(6));
    Ok(())
}

#[test]
fn using_weights() -> Result<(), Refusal> {
    const RED: (u64, u64) = (100, 3);
    const GREEN: (u64, u64) = (200, 5);
    let mut cache = ClaimsCache::weighed(6, 6)?;
    assert_eq!(
        cache.put_with_weight(APPLE, 0, RED.0, RED.1)?,
        Put::New {
            evicted: Evicted::default()
        }
    );
    assert_eq!(
        cache.put_with_weight(APPLE, 0, GREEN.0, GREEN.1)?.old(),
        Some(RED.0)
    );
    assert_eq!(cache.len(), 1);
    assert_eq!(cache.get(APPLE), Some(GREEN.0));
    Ok(())
}
