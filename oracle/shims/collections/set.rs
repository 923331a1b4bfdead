// Shim: a set in key order, as the published map is a map in key order.
pub type Set<K> = std::collections::BTreeSet<K>;

pub fn set<K: Ord>() -> Set<K> {
    Set::default()
}
