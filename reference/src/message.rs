//! The bytes of messages and answers: header, types, sizes and fields.

use crate::bytes::{u16_at, u32_at};
use crate::outcome::Outcome;
use crate::record::Record;
use crate::wait::Wait;

/// Takes control of a processor.
pub const MSG_PROC_REQUEST: u16 = 0xC000;
/// Gives control up.
pub const MSG_PROC_RELEASE: u16 = 0xC001;
/// Gives control to another host.
pub const MSG_PROC_HANDOVER: u16 = 0xC005;
/// Sets the boot vector and config flags.
pub const MSG_SET_CONFIG: u16 = 0xC100;
/// Sets control flags.
pub const MSG_SET_CTRL: u16 = 0xC101;
/// Authenticates an image; not offered on this part.
pub const MSG_PROC_AUTH_BOOT: u16 = 0xC120;
/// Reads vector, flags and status.
pub const MSG_GET_STATUS: u16 = 0xC400;
/// Waits until the status has settled.
pub const MSG_WAIT_STATUS: u16 = 0xC401;

/// Header flag of a message: an answer is asked for.
pub const FLAG_REQ_ACK_ON_PROCESSED: u32 = 0x2;

/// Header flag of an answer: the message was carried out.
pub const FLAG_RESP_GENERIC_ACK: u32 = 0x2;

/// Bytes of the header, and of every answer but the status answer.
pub const HEADER_BYTES: usize = 8;

/// The longest message that is taken.
pub const LONGEST_MESSAGE: usize = 60;

/// Bytes of the longest answer, to get status. No shorter answer buffer is taken.
pub const ANSWER_BYTES: usize = 29;

/// The eight message types.
#[derive(Clone, Copy, Debug, PartialEq, Eq)]
pub enum Kind {
    Request,
    Release,
    Handover,
    SetConfig,
    SetControl,
    AuthBoot,
    GetStatus,
    WaitStatus,
}

/// Every type, in the order of the protocol's numbers.
pub const KINDS: [Kind; 8] = [
    Kind::Request,
    Kind::Release,
    Kind::Handover,
    Kind::SetConfig,
    Kind::SetControl,
    Kind::AuthBoot,
    Kind::GetStatus,
    Kind::WaitStatus,
];

impl Kind {
    /// The type with this number, if the table has it.
    pub fn of(number: u16) -> Option<Kind> {
        KINDS.into_iter().find(|kind| kind.number() == number)
    }

    /// The number in the header.
    pub fn number(self) -> u16 {
        match self {
            Kind::Request => MSG_PROC_REQUEST,
            Kind::Release => MSG_PROC_RELEASE,
            Kind::Handover => MSG_PROC_HANDOVER,
            Kind::SetConfig => MSG_SET_CONFIG,
            Kind::SetControl => MSG_SET_CTRL,
            Kind::AuthBoot => MSG_PROC_AUTH_BOOT,
            Kind::GetStatus => MSG_GET_STATUS,
            Kind::WaitStatus => MSG_WAIT_STATUS,
        }
    }

    /// Bytes of the structure, header included.
    pub fn size(self) -> usize {
        match self {
            Kind::Request | Kind::Release | Kind::GetStatus => 9,
            Kind::Handover => 10,
            Kind::SetConfig => 25,
            Kind::SetControl => 17,
            Kind::AuthBoot => 16,
            Kind::WaitStatus => 29,
        }
    }
}

/// The eight bytes that start every message.
#[derive(Clone, Copy, Debug, PartialEq, Eq)]
pub struct Header {
    pub number: u16,
    pub host: u8,
    pub sequence: u8,
    pub flags: u32,
}

impl Header {
    /// Reads the header, or none if the message is too short for one.
    pub fn read(message: &[u8]) -> Option<Header> {
        if message.len() < HEADER_BYTES {
            return None;
        }
        Some(Header {
            number: u16_at(message, 0),
            host: message[2],
            sequence: message[3],
            flags: u32_at(message, 4),
        })
    }

    /// Whether an answer is asked for. Other flag bits are ignored.
    pub fn asks_for_answer(&self) -> bool {
        self.flags & FLAG_REQ_ACK_ON_PROCESSED != 0
    }

    /// The first eight bytes of the answer: type, host and sequence repeated, then ACK or NAK.
    pub fn answer(&self, acknowledged: bool) -> [u8; HEADER_BYTES] {
        let flags = if acknowledged { FLAG_RESP_GENERIC_ACK } else { 0 };
        let number = self.number.to_le_bytes();
        let flags = flags.to_le_bytes();
        [number[0], number[1], self.host, self.sequence, flags[0], flags[1], flags[2], flags[3]]
    }
}

/// A flag word's bits to set and to clear.
#[derive(Clone, Copy, Debug, PartialEq, Eq)]
pub struct FlagChange {
    pub set: u32,
    pub clear: u32,
}

/// The fields of set config after the processor.
#[derive(Clone, Copy, Debug, PartialEq, Eq)]
pub struct ConfigChange {
    pub vector_low: u32,
    pub vector_high: u32,
    pub flags: FlagChange,
}

/// What a whole message asks to be done with its processor. Authenticated boot is never offered.
#[derive(Clone, Copy, Debug, PartialEq, Eq)]
pub enum Order {
    Request,
    Release,
    Handover { host: u8 },
    SetConfig(ConfigChange),
    SetControl(FlagChange),
    GetStatus,
    WaitStatus(Wait),
}

/// Reads the processor number and the order. Refuses an unknown type (N3), a message shorter than
/// its structure (N4) and authenticated boot (N5). The message has at least a header.
pub fn read_order(message: &[u8]) -> Result<(u8, Order), Outcome> {
    let kind = Kind::of(u16_at(message, 0)).ok_or(Outcome::N3)?;
    if message.len() < kind.size() {
        return Err(Outcome::N4);
    }
    let order = match kind {
        Kind::Request => Order::Request,
        Kind::Release => Order::Release,
        Kind::Handover => Order::Handover { host: message[9] },
        Kind::SetConfig => Order::SetConfig(ConfigChange {
            vector_low: u32_at(message, 9),
            vector_high: u32_at(message, 13),
            flags: read_flags(message, 17),
        }),
        Kind::SetControl => Order::SetControl(read_flags(message, 9)),
        Kind::AuthBoot => return Err(Outcome::N5),
        Kind::GetStatus => Order::GetStatus,
        Kind::WaitStatus => Order::WaitStatus(Wait::read(&message[9..])),
    };
    Ok((message[8], order))
}

fn read_flags(message: &[u8], at: usize) -> FlagChange {
    FlagChange { set: u32_at(message, at), clear: u32_at(message, at + 4) }
}

/// What the status answer adds to the header.
pub fn status_fields(processor: u8, record: &Record, status: u32) -> Vec<u8> {
    let words = [record.vector_low, record.vector_high, record.config, record.control, status];
    let mut fields = vec![processor];
    fields.extend(words.iter().flat_map(|word| word.to_le_bytes()));
    fields
}

#[cfg(test)]
mod tests {
    use super::*;

    #[test]
    fn numbers_and_sizes() {
        let table = KINDS.map(|kind| (kind.number(), kind.size()));
        let expected = [
            (0xC000, 9),
            (0xC001, 9),
            (0xC005, 10),
            (0xC100, 25),
            (0xC101, 17),
            (0xC120, 16),
            (0xC400, 9),
            (0xC401, 29),
        ];
        assert_eq!(table, expected);
        assert_eq!((0..=u16::MAX).filter(|&n| Kind::of(n).is_some()).count(), 8);
    }

    #[test]
    fn header_fields_and_answer() {
        let header = Header::read(&[0x05, 0xC0, 3, 7, 0xFD, 1, 2, 0x80]).unwrap();
        let expected = Header { number: 0xC005, host: 3, sequence: 7, flags: 0x8002_01FD };
        assert_eq!(header, expected);
        assert!(!header.asks_for_answer());
        assert_eq!(header.answer(true), [0x05, 0xC0, 3, 7, 2, 0, 0, 0]);
        assert_eq!(header.answer(false), [0x05, 0xC0, 3, 7, 0, 0, 0, 0]);
        assert_eq!(Header::read(&[0; 7]), None);
    }

    #[test]
    fn set_config_fields_are_little_endian() {
        let mut message = vec![0x00, 0xC1, 3, 0, 2, 0, 0, 0];
        message.extend(1..=17);
        let flags = FlagChange { set: 0x0D0C_0B0A, clear: 0x1110_0F0E };
        let change = ConfigChange { vector_low: 0x0504_0302, vector_high: 0x0908_0706, flags };
        assert_eq!(read_order(&message), Ok((1, Order::SetConfig(change))));
        assert_eq!(read_order(&message[..24]), Err(Outcome::N4));
    }

    #[test]
    fn refused_types() {
        let mut message = vec![0x20, 0xC1, 3, 0, 2, 0, 0, 0];
        message.resize(16, 0);
        assert_eq!(read_order(&message), Err(Outcome::N5));
        assert_eq!(read_order(&message[..15]), Err(Outcome::N4));
        message[0] = 0x21;
        assert_eq!(read_order(&message), Err(Outcome::N3));
    }
}
