//! The names of faults.

/// An enumeration `Fault` of these, and `ALL` of them.
macro_rules! faults {
    ($($name:ident),* $(,)?) => {
        #[derive(Clone, Copy, Debug, PartialEq, Eq)]
        pub enum Fault {
            /// The right program.
            None,
            $($name),*
        }

        pub const ALL: &[Fault] = &[$(Fault::$name),*];
    };
}

pub(crate) use faults;
