//! Lists whose members have a number in the C interface and words of their own.

/// Declares such a list: members by ascending number, each with its words. A number that it does not name is carried.
macro_rules! named {
    ($(#[$about:meta])* $list:ident { $($name:ident = $number:literal $words:literal)* }) => {
        $(#[$about])*
        #[derive(Clone, Copy, Debug, PartialEq, Eq, PartialOrd, Ord, Hash)]
        #[non_exhaustive]
        pub enum $list {
            $(#[doc = $words] $name,)*
            /// A number that this version of the crate does not name.
            #[non_exhaustive]
            Unknown(u8),
        }

        impl $list {
            /// All that are named, by ascending number.
            pub const ALL: &'static [$list] = &[$($list::$name),*];

            /// The number in the C interface.
            pub const fn number(self) -> u8 {
                match self {
                    $($list::$name => $number,)*
                    $list::Unknown(number) => number,
                }
            }

            /// The one of this number in the C interface.
            pub const fn from_number(number: u8) -> $list {
                match number {
                    $($number => $list::$name,)*
                    _ => $list::Unknown(number),
                }
            }

            /// The words, which `Display` shows too.
            pub const fn words(self) -> &'static str {
                match self {
                    $($list::$name => $words,)*
                    $list::Unknown(_) => "unknown",
                }
            }
        }

        impl std::fmt::Display for $list {
            fn fmt(&self, f: &mut std::fmt::Formatter<'_>) -> std::fmt::Result {
                match self {
                    $list::Unknown(number) => f.pad(&format!("unknown {number}")),
                    named => f.pad(named.words()),
                }
            }
        }
    };
}

pub(crate) use named;
