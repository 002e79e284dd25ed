//! Numbers of supervisors, processes and calls, each of a type of its own.

use std::fmt;

/// Makes the type of a number.
macro_rules! number {
    ($(#[$doc:meta])* $name:ident of $inner:ty) => {
        $(#[$doc])*
        #[derive(Clone, Copy, Debug, PartialEq, Eq, PartialOrd, Ord, Hash)]
        pub struct $name($inner);

        impl $name {
            /// The one with this number.
            #[inline]
            pub const fn new(number: $inner) -> Self {
                $name(number)
            }

            /// The number.
            #[inline]
            pub const fn number(self) -> $inner {
                self.0
            }
        }

        impl fmt::Display for $name {
            fn fmt(&self, f: &mut fmt::Formatter<'_>) -> fmt::Result {
                self.0.fmt(f)
            }
        }
    };
}

number! {
    /// A supervisor of a tree, by the number that `otp check` gives its table. A parent's is below those of its children.
    SupervisorId of u32
}

number! {
    /// A process outside. No other process of the tree ever has the same.
    ProcessId of u64
}

number! {
    /// A call that was made on a supervisor. No other call on the same tree has the same.
    CallId of u64
}

impl SupervisorId {
    /// The root of the tree.
    pub const ROOT: Self = SupervisorId(0);

    /// Its place in a list of all supervisors of the tree.
    #[inline]
    pub const fn index(self) -> usize {
        self.0 as usize
    }

    /// Whether it is the root.
    #[inline]
    pub const fn is_root(self) -> bool {
        self.0 == 0
    }
}
