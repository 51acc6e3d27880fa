//! Sizes of blocks.

/// Width and height in 4-sample units by size code, read off the names.
pub(super) const SIDES_OF: [[u32; 2]; 22] = [
    [32, 32],
    [32, 16],
    [16, 32],
    [16, 16],
    [16, 8],
    [16, 4],
    [8, 16],
    [8, 8],
    [8, 4],
    [8, 2],
    [4, 16],
    [4, 8],
    [4, 4],
    [4, 2],
    [4, 1],
    [2, 8],
    [2, 4],
    [2, 2],
    [2, 1],
    [1, 4],
    [1, 2],
    [1, 1],
];

#[cfg(test)]
mod tests {
    use super::*;
    use crate::leaves;

    #[test]
    fn sides_are_those_of_the_names() {
        let sizes = (0..=255).map_while(leaves::size);
        let sides = sizes.map(|size| [size.width, size.height].map(u32::from));
        assert!(sides.eq(SIDES_OF));
    }
}
