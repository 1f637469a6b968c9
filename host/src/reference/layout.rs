//! Sizes, marks and numbers of the paper, each said once.

/// Bytes of an image.
pub const IMAGE_BYTES: usize = 32;
/// The first bytes of an image.
pub const IMAGE_MARK: [u8; 2] = [0x4D, 0x31];
/// Bytes of a record.
pub const RECORD_BYTES: usize = 8;
/// The first bytes of a record.
pub const RECORD_MARK: [u8; 2] = [0x4D, 0x45];
/// Bytes of an answer.
pub const ANSWER_BYTES: usize = 22;
/// The first bytes of an answer.
pub const ANSWER_MARK: [u8; 2] = [0x4D, 0x41];
/// Where the fields of a record stand.
pub mod record_at {
    #![allow(missing_docs)]
    pub const KIND: usize = 2;
    pub const A: usize = 3;
    pub const N: usize = 4;
}
/// Where the fields of an answer stand.
pub mod answer_at {
    #![allow(missing_docs)]
    pub const CLASS: usize = 2;
    pub const VALUE: usize = 3;
    pub const IRQ: usize = 4;
    pub const OUTPUTS: usize = 5;
    pub const TIMEOUTS: usize = 6;
}
/// How many timers there are, and so counts in an answer.
pub const TIMERS: usize = 4;
/// The longest tape, in bytes.
pub const TAPE_MAX: usize = 4096;
/// The longest row, in devices.
pub const ROW_MAX: usize = 8;

/// The registers in the order of their register select.
pub const REGISTERS: [&str; 24] = [
    "GPDR", "AER", "DDR", "IERA", "IERB", "IPRA", "IPRB", "ISRA", "ISRB", "IMRA", "IMRB", "VR",
    "TACR", "TBCR", "TCDCR", "TADR", "TBDR", "TCDR", "TDDR", "SCR", "UCR", "RSR", "TSR", "UDR",
];
/// From this register select on it is a serial register, which is refused.
pub const FIRST_SERIAL: u8 = 19;

/// Kinds of a record.
pub mod kind {
    #![allow(missing_docs)]
    pub const RESET: u8 = 0;
    pub const READ: u8 = 1;
    pub const WRITE: u8 = 2;
    pub const LINE: u8 = 3;
    pub const INPUT: u8 = 4;
    pub const CLOCKS: u8 = 5;
    pub const ACKNOWLEDGE: u8 = 6;
    pub const RAISE: u8 = 7;
}

/// The channels a record of the last kind may raise.
pub const RAISABLE: std::ops::RangeInclusive<u8> = 9..=12;

/// The ten refusals, by the numbers of the papers.
#[derive(Clone, Copy, Debug, PartialEq, Eq)]
#[allow(missing_docs)]
pub enum Refusal {
    ImageLength = 1,
    ImageMark = 2,
    ImageRule = 3,
    TapeLength = 4,
    RecordMark = 5,
    Kind = 6,
    Operand = 7,
    SerialRegister = 8,
    AnswerLength = 9,
    RowLength = 10,
}

impl std::fmt::Display for Refusal {
    /// The condition in the words of the papers.
    fn fmt(&self, out: &mut std::fmt::Formatter) -> std::fmt::Result {
        out.write_str(match self {
            Refusal::ImageLength => "image buffer is not 32 bytes",
            Refusal::ImageMark => "image mark wrong",
            Refusal::ImageRule => "image breaks the image rule",
            Refusal::TapeLength => "tape length not a multiple of 8, or above 4,096",
            Refusal::RecordMark => "record mark wrong",
            Refusal::Kind => "kind above 7",
            Refusal::Operand => "operand out of range",
            Refusal::SerialRegister => "read or write with rs 19 to 23",
            Refusal::AnswerLength => "answer buffer shorter than 22 × records",
            Refusal::RowLength => "row of none or more than eight",
        })
    }
}
