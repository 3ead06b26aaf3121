//! The list that the commands are carried out on, and what only one of the two lists has.

#[cfg(not(over_crate))]
pub type List = Vec<u64>;

#[cfg(over_crate)]
pub type List = thin_vec::ThinVec<u64>;

/// Returns the capacity as text. A `Vec` has other capacities, so a `?` stands for them.
pub fn capacity_of(list: &List) -> String {
    if cfg!(over_crate) {
        format!("; capacity {}", list.capacity())
    } else {
        "; capacity ?".to_string()
    }
}

/// Reserves room for a size hint before an `extend`. The crate's `extend` does so itself. That of a
/// `Vec` asks for the hint only when it has no room.
pub fn reserve_for_hint(list: &mut List, hint: usize) {
    if !cfg!(over_crate) {
        list.reserve(hint);
    }
}
