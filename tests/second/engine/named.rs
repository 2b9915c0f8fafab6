//! Enums whose cases have a text each.

/// Declares such an enum, with the list of its cases in their order and the text of each.
macro_rules! named {
    ($(#[$about:meta])* $vis:vis enum $enum:ident { $($case:ident = $text:literal,)* }) => {
        $(#[$about])*
        #[derive(Debug, Clone, Copy, PartialEq, Eq)]
        $vis enum $enum {
            $($case,)*
        }

        // Not every enum needs its list.
        #[allow(dead_code)]
        impl $enum {
            $vis const ALL: &'static [$enum] = &[$($enum::$case,)*];

            $vis fn text(self) -> &'static str {
                match self {
                    $($enum::$case => $text,)*
                }
            }
        }
    };
}

pub(crate) use named;
