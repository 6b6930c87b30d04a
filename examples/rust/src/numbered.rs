//! Enums whose cases have a number and a word each.

/// An enum of the cases `number Name "word"`, with their list, the way to the number and back, and the word as Display.
macro_rules! numbered {
    ($(#[$about:meta])* $name:ident { $($(#[$case_about:meta])* $number:literal $case:ident $word:literal,)* }) => {
        $(#[$about])*
        #[derive(Debug, Clone, Copy, PartialEq, Eq, Hash)]
        pub enum $name {
            $($(#[$case_about])* $case,)*
        }

        impl $name {
            /// All cases, by their numbers.
            pub const ALL: &'static [Self] = &[$(Self::$case,)*];

            /// The case of a number; none of 0, which stands for a definition without it, and none past the last.
            pub fn of(number: u32) -> Option<Self> {
                match number {
                    $($number => Some(Self::$case),)*
                    _ => None,
                }
            }

            /// Its number in a record.
            pub fn number(self) -> u32 {
                match self {
                    $(Self::$case => $number,)*
                }
            }
        }

        impl std::fmt::Display for $name {
            fn fmt(&self, f: &mut std::fmt::Formatter<'_>) -> std::fmt::Result {
                f.pad(match self {
                    $(Self::$case => $word,)*
                })
            }
        }
    };
}

pub(crate) use numbered;
