//! The refusal numbers (document 01, "Refusal numbers", and document 02).

/// Why a call refuses.
#[derive(Clone, Copy, Debug, PartialEq, Eq)]
#[repr(u8)]
pub enum Refusal {
    /// The table has fewer than 120 bytes.
    Short = 1,
    /// The file type is that of no table.
    Type = 2,
    /// The version is outside 03 to 0B.
    Version = 3,
    /// The table is encrypted.
    Encrypted = 4,
    /// A header number breaks its limit.
    Limit = 5,
    /// The length is not that of the header and the blocks.
    Length = 6,
    /// A field rule is broken.
    Field = 7,
    /// A chain rule is broken.
    Chain = 8,
    /// A record count is wrong.
    Count = 9,
    /// The keys do not strictly ascend.
    Order = 10,
    /// A cell has no meaning.
    Meaningless = 11,
    /// A blob cell was asked for.
    Blob = 12,
    /// The call's own arguments do not fit.
    Argument = 13,
    /// A lent buffer is too short.
    Buffer = 14,
    /// The MB file has no such blob as the cell says.
    UnfitBlob = 18,
    /// The index has fewer than 88 bytes.
    IndexShort = 21,
    /// The file type is not that of an index.
    IndexType = 22,
    /// The index's version is outside 03 to 0B.
    IndexVersion = 23,
    /// A number in the index's header breaks its limit.
    IndexLimit = 25,
    /// The index's length is not that of its header and blocks.
    IndexLength = 26,
    /// The index's tree is broken, or it is not the table's.
    Tree = 27,
}

impl Refusal {
    /// The paper's number.
    pub fn number(self) -> u8 {
        self as u8
    }
}
