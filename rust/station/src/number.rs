//! How the numbers of an enum are made from a list.

/// Makes an enum of each list, with all that is known of its numbers. A list begins with words for one of its numbers; a line
/// of it is a case, its number, its name as the commands print it, and what it says.
macro_rules! numbers {
    ($(
        $(#[$about:meta])*
        $group:literal $Number:ident {
            $($Case:ident = $number:literal $name:literal: $meaning:literal,)*
        }
    )*) => {$(
        $(#[$about])*
        #[derive(Clone, Copy, Debug, PartialEq, Eq, Hash)]
        #[repr(u32)]
        pub enum $Number {
            $(
                #[doc = concat!($number, " `", $name, "`: ", $meaning, ".")]
                $Case = $number,
            )*
        }

        impl $Number {
            /// Every one of them.
            pub const ALL: &'static [$Number] = &[$($Number::$Case),*];

            /// The number itself.
            #[must_use]
            pub const fn number(self) -> u32 {
                self as u32
            }

            /// Its name, as the commands print it.
            #[must_use]
            pub const fn name(self) -> &'static str {
                match self {
                    $($Number::$Case => $name,)*
                }
            }

            /// What it says, in words that go on from a colon.
            #[must_use]
            pub const fn meaning(self) -> &'static str {
                match self {
                    $($Number::$Case => $meaning,)*
                }
            }
        }

        /// By its [`number`]($Number::number).
        impl TryFrom<u32> for $Number {
            type Error = UnknownNumber;

            fn try_from(value: u32) -> Result<$Number, UnknownNumber> {
                match value {
                    $($number => Ok($Number::$Case),)*
                    _ => Err(UnknownNumber { group: $group, value: Some(value) }),
                }
            }
        }

        /// By its [`name`]($Number::name).
        impl core::str::FromStr for $Number {
            type Err = UnknownNumber;

            fn from_str(name: &str) -> Result<$Number, UnknownNumber> {
                match name {
                    $($name => Ok($Number::$Case),)*
                    _ => Err(UnknownNumber { group: $group, value: None }),
                }
            }
        }

        /// Its [`name`]($Number::name).
        impl core::fmt::Display for $Number {
            fn fmt(&self, formatter: &mut core::fmt::Formatter<'_>) -> core::fmt::Result {
                formatter.pad(self.name())
            }
        }
    )*};
}

pub(crate) use numbers;
