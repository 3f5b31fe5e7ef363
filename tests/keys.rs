//! Maps and sets of std and of `indexmap` with texts or slices as keys, looked up by a `&str` and
//! by values of both types, and the counts of the keys and of what looks for them.
use crate::steps::{count, made, part};
use arcstr::{ArcStr, Substr};
use indexmap::{IndexMap, IndexSet};
use std::collections::{BTreeMap, BTreeSet, HashMap, HashSet};
use std::test::Fail;

/// Inserts, finds and removes keys, which `$key` makes of handles. `$remove` removes a key.
macro_rules! check_map {
    ($rt:expr, $map:expr, $key:expr, $remove:ident) => {{
        let (rt, mut map, key) = ($rt, $map, $key);
        let (text, slice) = (&made(rt, "é"), &part(rt, &made(rt, "aé"), 1..));
        let (kept, parent) = (&made(rt, "é"), slice.parent());
        map.insert(key(kept.clone(rt)), 1)?;
        map.insert(key(made(rt, "foo")), 2)?;
        // A map keeps the key that it has, and drops the new one.
        assert_eq!(rt; map.insert(key(text.clone(rt)), 3)?, Some(1));
        assert_eq!(rt; (count(kept), count(text)), (Some(2), Some(1)));
        assert_eq!(rt; (map.len(), map.get("é"), map.get("foo")), (2, Some(&3), Some(&2)));
        assert_eq!(rt; (map.get(text), map.get(slice)), (Some(&3), Some(&3)));
        assert!(rt; map.contains_key(text) && map.contains_key(slice));
        assert!(rt; map.get("e").is_none() && map.get(&part(rt, parent, ..)).is_none());
        assert_eq!(rt; (count(kept), count(text), count(parent)), (Some(2), Some(1), Some(1)));
        assert_eq!(rt; map.$remove(slice), Some(3));
        assert_eq!(rt; (count(kept), count(parent)), (Some(1), Some(1)));
        map.insert(key(kept.clone(rt)), 4)?;
        assert_eq!(rt; (map.$remove(text), count(kept), count(text)), (Some(4), Some(1), Some(1)));
        map.insert(key(kept.clone(rt)), 5)?;
        assert_eq!(rt; (map.$remove("é"), count(kept)), (Some(5), Some(1)));
        map.insert(key(kept.clone(rt)), 6)?;
        drop(map);
        assert_eq!(rt; count(kept), Some(1));
    }};
}

#[test]
fn maps_of_texts_keep_one_handle_of_a_key(ref rt: HostRuntime) -> Result<(), Fail> {
    let alloc = rt.alloc();
    check_map!(rt, HashMap::new(alloc), |text: ArcStr| text, remove);
    check_map!(rt, BTreeMap::new(alloc), |text: ArcStr| text, remove);
    check_map!(rt, IndexMap::new(alloc), |text: ArcStr| text, swap_remove);
    Ok(())
}

#[test]
fn maps_of_slices_keep_one_handle_of_a_key(ref rt: HostRuntime) -> Result<(), Fail> {
    let alloc = rt.alloc();
    check_map!(rt, HashMap::new(alloc), Substr::full, remove);
    check_map!(rt, BTreeMap::new(alloc), Substr::full, remove);
    check_map!(rt, IndexMap::new(alloc), Substr::full, swap_remove);
    Ok(())
}

/// Inserts, finds and removes keys of a set.
macro_rules! check_set {
    ($rt:expr, $set:expr, $key:expr, $remove:ident) => {{
        let (rt, mut set, key) = ($rt, $set, $key);
        let (text, slice) = (&made(rt, "é"), &part(rt, &made(rt, "aé"), 1..));
        let (kept, parent) = (&made(rt, "é"), slice.parent());
        assert!(rt; set.insert(key(kept.clone(rt)))? && !set.insert(key(text.clone(rt)))?);
        assert!(rt; set.contains("é") && set.contains(text) && set.contains(slice));
        assert!(rt; !set.contains("e") && !set.contains(parent));
        assert_eq!(rt; (count(kept), count(text), count(parent)), (Some(2), Some(1), Some(1)));
        assert!(rt; set.$remove(slice) && !set.$remove(text));
        assert_eq!(rt; (count(kept), count(text), count(parent)), (Some(1), Some(1), Some(1)));
    }};
}

#[test]
fn sets_keep_one_handle_of_a_key(ref rt: HostRuntime) -> Result<(), Fail> {
    let alloc = rt.alloc();
    check_set!(rt, HashSet::new(alloc), |text: ArcStr| text, remove);
    check_set!(rt, HashSet::new(alloc), Substr::full, remove);
    check_set!(rt, BTreeSet::new(alloc), |text: ArcStr| text, remove);
    check_set!(rt, BTreeSet::new(alloc), Substr::full, remove);
    check_set!(rt, IndexSet::new(alloc), |text: ArcStr| text, swap_remove);
    check_set!(rt, IndexSet::new(alloc), Substr::full, swap_remove);
    Ok(())
}
