//! Enums that cross the C interface as numbers, each made of one table.

/// Makes an enum of rows `Case = number, "words"`: the cases with their numbers, the list of all, both ways between a case and its number,
/// and the function that returns a case's words.
macro_rules! numbered {
    (
        $(#[$about:meta])* pub enum $name:ident;
        $(#[$of_words:meta])* pub fn $words:ident;
        $($(#[$more:meta])* $case:ident = $number:literal, $text:literal;)*
    ) => {
        $(#[$about])*
        #[derive(Clone, Copy, Debug, PartialEq, Eq, PartialOrd, Ord, Hash)]
        #[non_exhaustive]
        pub enum $name {
            $(#[doc = concat!($number, ": ", $text, ".")] $(#[$more])* $case = $number,)*
        }

        impl $name {
            /// All of them, in the order of their numbers.
            pub const ALL: &'static [$name] = &[$($name::$case),*];

            /// Returns the number that the library and `include/copperhook.h` have for it.
            pub const fn number(self) -> usize {
                self as usize
            }

            /// Returns the one that has this number, `None` where there is none.
            pub const fn from_number(number: usize) -> Option<$name> {
                match number {
                    $($number => Some($name::$case),)*
                    _ => None,
                }
            }

            $(#[$of_words])*
            pub const fn $words(self) -> &'static str {
                match self {
                    $($name::$case => $text,)*
                }
            }
        }
    };
}
pub(crate) use numbered;

#[cfg(test)]
mod tests {
    use crate::{Kind, Refusal};

    /// Whether the numbers rise from the first, lead back to their cases, and no other has a case.
    macro_rules! assert_numbered {
        ($name:ident from $first:literal) => {
            let numbers: Vec<usize> = $name::ALL.iter().map(|case| case.number()).collect();
            assert_eq!(numbers[0], $first);
            assert!(numbers.windows(2).all(|two| two[0] < two[1]));
            assert!($name::ALL.iter().all(|&case| $name::from_number(case.number()) == Some(case)));
            let others = (0..=numbers[numbers.len() - 1] + 1).chain([usize::MAX]).filter(|number| !numbers.contains(number));
            assert!(others.into_iter().all(|number| $name::from_number(number).is_none()));
        };
    }

    #[test]
    fn numbers_lead_back() {
        assert_numbered!(Refusal from 1);
        assert_numbered!(Kind from 0);
    }
}
