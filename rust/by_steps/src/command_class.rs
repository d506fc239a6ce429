//! #101: "one class for each of the 256 command bytes".

#[derive(Clone, Copy, Debug, PartialEq, Eq)]
pub enum CommandClass {
    Listen,
    Unlisten,
    Talk,
    Untalk,
    Secondary,
    Close,
    Open,
    Other,
}

/// "listen 0x20-0x3E, unlisten 0x3F, talk 0x40-0x5E, untalk 0x5F, secondary
/// 0x60-0x6F, close 0xE0-0xEF, open 0xF0-0xFF, other."
pub const fn command_class(byte: u8) -> CommandClass {
    match byte {
        0x20..=0x3E => CommandClass::Listen,
        0x3F => CommandClass::Unlisten,
        0x40..=0x5E => CommandClass::Talk,
        0x5F => CommandClass::Untalk,
        0x60..=0x6F => CommandClass::Secondary,
        0xE0..=0xEF => CommandClass::Close,
        0xF0..=0xFF => CommandClass::Open,
        0x00..=0x1F | 0x70..=0xDF => CommandClass::Other,
    }
}
