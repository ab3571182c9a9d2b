//! A type for each kind of number, so that none is taken for another.

use std::fmt;
use std::num::ParseIntError;
use std::str::FromStr;

/// A number's type: it is made by its name, `FileId(1)`, read by [`get`](FileId::get), parsed, and shown as its number.
macro_rules! number {
    ($(#[$attribute:meta])* $type:ident) => {
        $(#[$attribute])*
        #[derive(Clone, Copy, Debug, PartialEq, Eq, PartialOrd, Ord, Hash)]
        pub struct $type(pub u64);

        impl $type {
            /// The number.
            ///
            /// ```
            #[doc = concat!("use zapelaritz::", stringify!($type), ";")]
            ///
            #[doc = concat!("let three: ", stringify!($type), " = \"3\".parse()?;")]
            #[doc = concat!("assert_eq!(three, ", stringify!($type), "(3));")]
            /// assert_eq!(three.get(), 3);
            /// assert_eq!(three.to_string(), "3");
            /// # Ok::<(), std::num::ParseIntError>(())
            /// ```
            pub const fn get(self) -> u64 {
                self.0
            }
        }

        impl From<u64> for $type {
            fn from(number: u64) -> $type {
                $type(number)
            }
        }

        impl From<$type> for u64 {
            fn from(number: $type) -> u64 {
                number.0
            }
        }

        impl FromStr for $type {
            type Err = ParseIntError;

            fn from_str(digits: &str) -> Result<$type, ParseIntError> {
                digits.parse().map($type)
            }
        }

        impl fmt::Display for $type {
            fn fmt(&self, f: &mut fmt::Formatter<'_>) -> fmt::Result {
                fmt::Display::fmt(&self.0, f)
            }
        }
    };
}

number! {
    /// The number of an element: elements are numbered from 0 in the order of the deck, over all trees.
    ElementId
}

number! {
    /// The number of a name, which says what an element is; the name that it bears is its item name.
    Name
}

number! {
    /// The number of a type in the schema.
    TypeId
}

number! {
    /// The number of a file, 0 to 63 where a deck declares it.
    FileId
}

number! {
    /// A version of the schema, 0 to 31.
    Version
}

number! {
    /// A mark to roll back to: the length of the log behind a merge.
    Mark
}

impl ElementId {
    /// The root of the merged model.
    pub const ROOT: ElementId = ElementId(0);
}

impl Name {
    /// The name of every root.
    pub const ROOT: Name = Name(0);

    /// SHORT-NAME: as an element's first content it holds its item name.
    pub const SHORT_NAME: Name = Name(1);

    /// DEFINITION-REF: an element's first one holds its definition.
    pub const DEFINITION_REF: Name = Name(2);
}

impl TypeId {
    /// The type of every root.
    pub const ROOT: TypeId = TypeId(0);
}

impl Mark {
    /// The mark behind the load.
    pub const START: Mark = Mark(0);
}

#[cfg(test)]
mod tests {
    use super::*;

    #[test]
    fn numbers_are_themselves() {
        for number in [0, 1, 4095, u64::MAX] {
            assert_eq!(ElementId::from(number).get(), number);
            assert_eq!(u64::from(Name(number)), number);
            assert_eq!(TypeId(number).to_string(), number.to_string());
            assert_eq!(number.to_string().parse(), Ok(FileId(number)));
        }
        assert!("-1".parse::<Version>().is_err());
        assert!("".parse::<Version>().is_err());
        assert!("18446744073709551616".parse::<Mark>().is_err());
    }

    #[test]
    fn numbers_are_shown_and_ordered() {
        assert_eq!(format!("{:?}", Name::SHORT_NAME), "Name(1)");
        assert_eq!(format!("{:>3}|{:<3}|", Version(7), FileId(12)), "  7|12 |");
        assert!(Mark::START < Mark(1));
        assert_eq!(Name::DEFINITION_REF, Name(2));
    }
}
