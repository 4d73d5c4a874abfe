//! The offsets that refusals have, by how wide they are.

/// From each of these up to the next. Only one offset reaches the last: that of a
/// field that should start where the longest sheet ends.
pub const WIDTHS: [usize; 5] = [0, 1, 256, 32_768, 65_536];

/// The place in `WIDTHS` of the width of an offset.
pub fn width_of(offset: usize) -> usize {
    WIDTHS.partition_point(|&from| from <= offset) - 1
}
