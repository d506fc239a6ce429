//! What the bytes of a command transfer mean.

use crate::border;
use crate::number::numbers;
use crate::UnknownNumber;

numbers! {
    /// What a command byte means. Every byte has one class, and no verdict depends on it.
    ///
    /// ```
    /// use station::CommandClass;
    ///
    /// assert_eq!(CommandClass::of(0x28), CommandClass::Listen);
    /// assert_eq!(CommandClass::of(0x3F), CommandClass::Unlisten);
    /// assert_eq!(CommandClass::of(0x6F).to_string(), "secondary");
    ///
    /// // There are no others, so a match needs no arm for them.
    /// let asks_to_send = |byte| match CommandClass::of(byte) {
    ///     CommandClass::Talk => true,
    ///     CommandClass::Listen | CommandClass::Unlisten | CommandClass::Untalk => false,
    ///     CommandClass::Secondary | CommandClass::Close | CommandClass::Open | CommandClass::Other => false,
    /// };
    /// assert!(asks_to_send(0x48));
    /// ```
    "class of command bytes" CommandClass {
        Listen = 1 "listen": "0x20 to 0x3E, the device of this number, 0 to 30, is to listen",
        Unlisten = 2 "unlisten": "0x3F, nobody is to listen any more",
        Talk = 3 "talk": "0x40 to 0x5E, the device of this number, 0 to 30, is to talk",
        Untalk = 4 "untalk": "0x5F, nobody is to talk any more",
        Secondary = 5 "secondary": "0x60 to 0x6F, a channel, 0 to 15, of the device addressed",
        Close = 6 "close": "0xE0 to 0xEF, close this channel, 0 to 15",
        Open = 7 "open": "0xF0 to 0xFF, open this channel, 0 to 15",
        Other = 0 "other": "all others",
    }
}

impl CommandClass {
    /// The class of a command byte, from the proved library.
    ///
    /// # Panics
    ///
    /// If the library gives a class that this crate does not know, which happens only if the two are of different ages.
    #[must_use]
    pub fn of(byte: u8) -> CommandClass {
        known(border::command_class(byte))
    }
}

/// The class that crossed. There are eight, so any other number means that library and crate are of different ages.
fn known(number: u32) -> CommandClass {
    match CommandClass::try_from(number) {
        Ok(class) => class,
        Err(unknown) => panic!(
            "station: of a command byte the library says what this crate does not know: {unknown}; \
             the two are of different ages and must be built together"
        ),
    }
}

#[cfg(test)]
mod tests {
    use super::*;

    #[test]
    #[should_panic(
        expected = "no class of command bytes has the number 8; the two are of different ages"
    )]
    fn an_unknown_class_stops_the_program() {
        let _ = known(8);
    }
}
