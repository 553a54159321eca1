//! Images that are changed in every way of some kind.

/// One word another.
pub fn of_one_word(image: &[u32]) -> impl Iterator<Item = Vec<u32>> + '_ {
    let further = [66, 127, 128, 129, 192, 511, 512, 575, 576, 2_000, 2_001, 1 << 31, u32::MAX];
    let words = move || (0..66).chain(further);
    (0..image.len()).flat_map(move |index| {
        words().map(move |word| {
            let mut changed = image.to_vec();
            changed[index] = word;
            changed
        })
    })
}

/// One node taken out, moved, or doubled elsewhere.
pub fn of_the_nodes_in_their_order(image: &[u32]) -> Vec<Vec<u32>> {
    let (kinds, operands) = image[2..].split_at(image[0] as usize);
    let original: Vec<_> = kinds.iter().copied().zip(operands.iter().copied()).collect();
    let of_nodes = |nodes: &[(u32, u32)]| {
        let mut words = vec![nodes.len() as u32, image[1]];
        words.extend(nodes.iter().map(|(kind, _)| kind));
        words.extend(nodes.iter().map(|(_, operand)| operand));
        words
    };
    let mut changed = Vec::new();
    for from in 0..original.len() {
        let mut without = original.clone();
        let node = without.remove(from);
        changed.push(of_nodes(&without));
        for to in 0..=without.len() {
            let mut moved = without.clone();
            moved.insert(to, node);
            changed.push(of_nodes(&moved));
            moved.insert(from, node);
            changed.push(of_nodes(&moved));
        }
    }
    changed
}
