//! One macro: an enum together with the list of all its values.

/// Defines an enum whose values each carry a sentence in plain words. The enum
/// gets `ALL`, the list of its values, and `words`, the sentence of a value,
/// so that no list of values can fall behind the enum.
macro_rules! listed {
    ($(#[$meta:meta])* pub enum $name:ident { $($value:ident: $words:literal,)+ }) => {
        $(#[$meta])*
        #[derive(Clone, Copy, Debug, PartialEq, Eq, PartialOrd, Ord, Hash)]
        pub enum $name {
            $(#[doc = $words] $value,)+
        }

        impl $name {
            /// Every value, in the order of the definition.
            pub const ALL: &'static [$name] = &[$($name::$value,)+];

            /// The value in plain words.
            pub fn words(self) -> &'static str {
                match self {
                    $($name::$value => $words,)+
                }
            }
        }
    };
}
