//! Inputs of `confine`.

use yavrinks_model::confinement::Entry;

/// The input with an image, of whatever bytes, members and a list.
pub fn input_of(image: &[u8], members: u64, list: &[Entry]) -> Vec<u8> {
    let mut input = image.to_vec();
    input.extend(members.to_be_bytes());
    input.push(list.len() as u8);
    input.extend(list.iter().flat_map(|&(target, rights)| [target, rights]));
    input
}
