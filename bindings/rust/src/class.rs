/// The directional classes. A paragraph is lent as their numbers, one byte for each position.
#[derive(Clone, Copy, Debug, PartialEq, Eq, Hash)]
#[repr(u8)]
pub enum Class {
    /// Left to right
    L = 0,
    /// Left-to-right embedding
    LRE = 1,
    /// Left-to-right override
    LRO = 2,
    /// Right to left
    R = 3,
    /// Right-to-left Arabic letter
    AL = 4,
    /// Right-to-left embedding
    RLE = 5,
    /// Right-to-left override
    RLO = 6,
    /// Pop directional format: the end of an embedding or an override
    PDF = 7,
    /// European number
    EN = 8,
    /// European number separator
    ES = 9,
    /// European number terminator
    ET = 10,
    /// Arabic number
    AN = 11,
    /// Common number separator
    CS = 12,
    /// Non-spacing mark
    NSM = 13,
    /// Boundary neutral
    BN = 14,
    /// Paragraph separator
    B = 15,
    /// Segment separator
    S = 16,
    /// White space
    WS = 17,
    /// Other neutral
    ON = 18,
    /// Carriage return, a class of the house: as B in every rule, but a B directly after it ends the same
    /// paragraph
    CR = 19,
}

impl Class {
    /// The number that stands for the class.
    pub const fn number(self) -> u8 {
        self as u8
    }
}
