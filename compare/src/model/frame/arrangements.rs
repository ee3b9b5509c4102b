//! The permutation numbers of frameless words, found by numbering every list of registers.

use std::collections::BTreeMap;
use std::sync::OnceLock;

const WEIGHTS: [&[u32]; 7] = [
    &[],
    &[1],
    &[5, 1],
    &[20, 4, 1],
    &[60, 12, 3, 1],
    &[120, 24, 6, 2, 1],
    &[120, 24, 6, 2, 1],
];

/// The list that a count and a number stand for, if there is one. With count 0 every number
/// stands for the empty one.
pub fn numbered(count: u32, number: u32) -> Option<&'static [u8]> {
    static LISTS: OnceLock<BTreeMap<(u32, u32), Vec<u8>>> = OnceLock::new();
    let lists = LISTS.get_or_init(|| {
        let mut lists = BTreeMap::new();
        add_all(&mut Vec::new(), &mut lists);
        lists
    });
    let number = if count == 0 { 0 } else { number };
    lists.get(&(count, number)).map(Vec::as_slice)
}

/// The weighted sum of the digits: a digit counts the unused registers that its own comes after.
pub fn number(list: &[u8]) -> u32 {
    let digit = |place: usize| {
        let unused = (1..list[place]).filter(|register| !list[..place].contains(register));
        unused.count() as u32
    };
    let weights = WEIGHTS[list.len()];
    (0..).zip(weights).map(|(k, &w)| w * digit(k)).sum()
}

/// Adds the list, and each longer one that begins with it.
fn add_all(list: &mut Vec<u8>, lists: &mut BTreeMap<(u32, u32), Vec<u8>>) {
    let before = lists.insert((list.len() as u32, number(list)), list.clone());
    assert_eq!(before, None, "two lists have the number of {list:?}");
    for register in 1..=6 {
        if !list.contains(&register) {
            list.push(register);
            add_all(list, lists);
            list.pop();
        }
    }
}
