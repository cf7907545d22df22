//! The refusal numbers of 01, and those that the requests of 02 add.

/// A lent length is wrong.
pub const LENGTH: u8 = 1;
/// A spare bit is set.
pub const SPARE: u8 = 2;
/// Pattern above 27.
pub const PATTERN: u8 = 3;
/// Block 762 with a pattern other than 0.
pub const BLOCK: u8 = 4;
/// CRC wrong.
pub const CRC: u8 = 5;
/// Sig_Pipe_Ver not 0.
pub const VERSION: u8 = 6;
/// The lists pass 750 bits.
pub const LISTS: u8 = 7;
/// A bit after the lists and before 750 is set.
pub const PADDING: u8 = 8;
/// Width no multiple.
pub const WIDTH: u8 = 9;
/// A payload pipe in use without 32 taps.
pub const TAPS: u8 = 10;
/// Stream id twice.
pub const TWICE: u8 = 11;
/// Sheet header wrong.
pub const HEADER: u8 = 12;
/// Header counts differ from what the records say.
pub const COUNTS: u8 = 13;
/// A section's top bits set.
pub const SECTION_TOP: u8 = 14;
/// Stream type above 3; in what `payload::write` writes, above 2.
pub const STREAM_TYPE: u8 = 15;
/// Encap_Ver not 0.
pub const ENCAP: u8 = 16;
/// Packet count above 8.
pub const PACKET_COUNT: u8 = 17;
/// First_Header_Address 1,503 to 4,094.
pub const ADDRESS: u8 = 18;
/// A packet of an IP stream that is none, a stray byte in the padding, or an announced address that the open packet
/// contradicts.
pub const IP_PACKET: u8 = 19;
/// What is lent of a pipe is not its record and its sections, or these have not 32 taps together.
pub const PROFILE: u8 = 20;
/// A frame buffer of the wrong size: a codeword, the codewords or the pipe of a frame, or the memory of a pipe; or a width
/// that is no multiple of a codeword's.
pub const FRAME: u8 = 21;
