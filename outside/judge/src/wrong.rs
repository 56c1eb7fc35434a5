//! Wrong versions of a program, each altered in one place.

/// The wrong versions of a program by their names, each with a note. The variable
/// of the environment names the one that is meant.
#[macro_export]
macro_rules! wrong_versions {
    ($Wrong:ident by $variable:literal: $($name:ident: $note:literal,)*) => {
        /// What the program asks at each place that a wrong version alters.
        pub trait Fault: Copy {
            fn is(self, wrong: $Wrong) -> bool;
        }

        /// The right version. Its answer is a constant, so that the compiler removes
        /// every altered place and the speed measured is that of the plain program.
        #[derive(Clone, Copy)]
        pub struct Sound;

        impl Fault for Sound {
            #[inline(always)]
            fn is(self, _: $Wrong) -> bool {
                false
            }
        }

        impl Fault for $Wrong {
            fn is(self, wrong: $Wrong) -> bool {
                self == wrong
            }
        }

        #[derive(Clone, Copy, Debug, PartialEq, Eq)]
        pub enum $Wrong {
            $(#[doc = $note] $name,)*
        }

        impl $Wrong {
            pub const ALL: &'static [$Wrong] = &[$($Wrong::$name,)*];

            pub fn note(self) -> &'static str {
                match self {
                    $($Wrong::$name => $note,)*
                }
            }

            /// The one that the variable names, if it is set.
            pub fn from_environment() -> Result<Option<$Wrong>, String> {
                let name = std::env::var($variable).unwrap_or_default();
                if name.is_empty() {
                    return Ok(None);
                }
                let same = |wrong: &&$Wrong| format!("{wrong:?}").eq_ignore_ascii_case(&name);
                let named = $Wrong::ALL.iter().find(same).copied();
                named.map(Some).ok_or(format!("{}: there is no wrong version {name}", $variable))
            }
        }
    };
}
