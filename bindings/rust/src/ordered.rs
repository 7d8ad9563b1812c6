/// What ordering a line, or all lines, answers.
#[derive(Clone, Copy, Debug, PartialEq, Eq)]
pub struct Ordered {
    /// How many positions were written, the kept ones.
    pub placed: usize,
    /// How many positions the passes of rule L2 reversed, added over all passes: in each pass every position of
    /// every stretch that it reverses, a stretch of one counted as one. That is the sum, over the kept
    /// positions, of the level on the line less the lowest odd level there plus 1, where that is positive. It is
    /// 0 with no odd level and at most 62 times `placed`. For all lines it is the lines' sum, each with its own
    /// lowest odd level.
    pub reversed: usize,
}
