//! What a supervisor knows of its children beforehand: OTP's manual, "Supervisor Behaviour", "Child Specification".

use crate::name::{BadWord, Name};
use crate::sys::{Plain, RawName, RawSpec};
use std::fmt;
use std::str::FromStr;
use std::time::Duration;

/// Makes an enum of words with the numbers that the library gives them.
macro_rules! words {
    ($(#[$doc:meta])* $name:ident { $($(#[$of:meta])* $case:ident = $number:literal $text:literal),* $(,)? }) => {
        $(#[$doc])*
        #[derive(Clone, Copy, Debug, PartialEq, Eq, Hash)]
        #[non_exhaustive]
        pub enum $name { $($(#[$of])* $case),* }

        impl $name {
            /// All of them, in the order of their numbers.
            pub const ALL: &[$name] = &[$($name::$case),*];

            pub(crate) fn from_raw(number: u32) -> Option<Self> {
                match number {
                    $($number => Some($name::$case),)*
                    _ => None,
                }
            }

            /// The number that stands for it in `otp.h`.
            #[doc(hidden)]
            pub fn number(self) -> u32 {
                match self {
                    $($name::$case => $number),*
                }
            }

            /// The word, as tree files and printed orders have it.
            pub fn as_str(self) -> &'static str {
                match self {
                    $($name::$case => $text),*
                }
            }
        }

        impl std::fmt::Display for $name {
            fn fmt(&self, f: &mut std::fmt::Formatter<'_>) -> std::fmt::Result {
                f.pad(self.as_str())
            }
        }

        impl std::str::FromStr for $name {
            type Err = $crate::BadWord;

            fn from_str(text: &str) -> Result<Self, $crate::BadWord> {
                $name::ALL.iter().find(|it| it.as_str() == text).copied().ok_or($crate::BadWord::Word)
            }
        }
    };
}
pub(crate) use words;

words! {
    /// When a child that has ended is started again.
    Restart {
        /// Always.
        Permanent = 1 "permanent",
        /// Where it ended abnormally.
        Transient = 2 "transient",
        /// Never.
        Temporary = 3 "temporary",
    }
}

words! {
    /// Whether a child is a supervisor.
    Kind {
        /// It is none.
        Worker = 1 "worker",
        /// It is one.
        Supervisor = 2 "supervisor",
    }
}

words! {
    /// Which children are restarted with one that has to be: OTP's manual, "Restart Strategy".
    Strategy {
        /// That one.
        OneForOne = 1 "one_for_one",
        /// All.
        OneForAll = 2 "one_for_all",
        /// That one and those that were started after it.
        RestForOne = 3 "rest_for_one",
        /// That one, of children that are added as one likes, all by the same specification.
        SimpleOneForOne = 4 "simple_one_for_one",
    }
}

words! {
    /// Whether the end of significant children ends their supervisor: OTP's manual, "Automatic Shutdown".
    AutoShutdown {
        /// No.
        Never = 1 "never",
        /// The end of any.
        AnySignificant = 2 "any_significant",
        /// The end of the last.
        AllSignificant = 3 "all_significant",
    }
}

/// How a child is ended.
#[derive(Clone, Copy, Debug, PartialEq, Eq, Hash)]
#[non_exhaustive]
pub enum Shutdown {
    /// It is killed at once.
    BrutalKill,
    /// It is asked to, and killed so much later. What isn't whole milliseconds counts as the next one, and more than 49 days as so many.
    Within(Duration),
    /// It is asked to, and waited for.
    Infinity,
}

impl Shutdown {
    /// So many milliseconds.
    pub const fn within_millis(time: u32) -> Self {
        Shutdown::Within(Duration::from_millis(time as u64))
    }

    /// The milliseconds that are given; none where it isn't asked, or is waited for.
    pub(crate) fn millis(self) -> u32 {
        match self {
            Shutdown::Within(time) => u32::try_from(time.as_nanos().div_ceil(1_000_000)).unwrap_or(u32::MAX),
            Shutdown::BrutalKill | Shutdown::Infinity => 0,
        }
    }
}

impl From<Duration> for Shutdown {
    fn from(time: Duration) -> Self {
        Shutdown::Within(time)
    }
}

/// As tree files have it.
impl fmt::Display for Shutdown {
    fn fmt(&self, f: &mut fmt::Formatter<'_>) -> fmt::Result {
        match self {
            Shutdown::BrutalKill => f.write_str("brutal_kill"),
            Shutdown::Within(_) => write!(f, "{}", self.millis()),
            Shutdown::Infinity => f.write_str("infinity"),
        }
    }
}

impl FromStr for Shutdown {
    type Err = BadWord;

    fn from_str(text: &str) -> Result<Self, BadWord> {
        match text {
            "brutal_kill" => Ok(Shutdown::BrutalKill),
            "infinity" => Ok(Shutdown::Infinity),
            text => text.parse().map(Shutdown::within_millis).map_err(|_| BadWord::Word),
        }
    }
}

/// The modules that a child's code is in.
#[derive(Clone, Debug, PartialEq, Eq, Hash)]
#[non_exhaustive]
pub enum Modules {
    /// They are asked of the child.
    Dynamic,
    /// At most four.
    Named(Vec<Name>),
}

impl Modules {
    pub(crate) fn from_raw(count: u32, names: &[RawName; 4]) -> Option<Self> {
        match count {
            5 => Some(Modules::Dynamic),
            0..=4 => {
                let named = names.iter().take(count as usize);
                named.map(Name::from_raw).collect::<Option<_>>().map(Modules::Named)
            }
            _ => None,
        }
    }
}

impl fmt::Display for Modules {
    fn fmt(&self, f: &mut fmt::Formatter<'_>) -> fmt::Result {
        match self {
            Modules::Dynamic => f.write_str("dynamic"),
            Modules::Named(names) if names.is_empty() => f.write_str("-"),
            Modules::Named(names) => {
                let names: Vec<&str> = names.iter().map(Name::as_str).collect();
                f.write_str(&names.join("+"))
            }
        }
    }
}

/// A child's specification.
///
/// ```
/// use otp_supervision::{ChildSpec, Name, Restart};
///
/// let mut spec = ChildSpec::worker(Name::new("web")?, Name::new("httpd")?);
/// assert_eq!(spec.restart, Restart::Permanent);
/// spec.restart = Restart::Transient;
/// # Ok::<(), otp_supervision::BadWord>(())
/// ```
#[derive(Clone, Debug, PartialEq, Eq, Hash)]
#[non_exhaustive]
pub struct ChildSpec {
    /// Its id among its supervisor's children.
    pub id: Name,
    /// What is started: a word that means something to the caller.
    pub start: Name,
    /// A number that means something to the caller. Each order to start, ask or kill the child has it; no tree file does.
    pub tag: Option<u64>,
    /// When it is started again.
    pub restart: Restart,
    /// Whether its end may end its supervisor.
    pub significant: bool,
    /// How it is ended.
    pub shutdown: Shutdown,
    /// Whether it is a supervisor.
    pub kind: Kind,
    /// The modules that its code is in.
    pub modules: Modules,
}

impl ChildSpec {
    /// A permanent worker that is given 5 seconds to shut down: OTP's defaults.
    pub fn worker(id: Name, start: Name) -> Self {
        ChildSpec {
            id,
            start,
            tag: None,
            restart: Restart::Permanent,
            significant: false,
            shutdown: Shutdown::within_millis(5000),
            kind: Kind::Worker,
            modules: Modules::Named(vec![start]),
        }
    }

    /// A number of the caller's own, which its orders have beside the start word: the place of a closure, say.
    #[must_use]
    pub fn tag(mut self, tag: u64) -> Self {
        self.tag = Some(tag);
        self
    }

    /// When it is started again.
    #[must_use]
    pub fn restart(mut self, when: Restart) -> Self {
        self.restart = when;
        self
    }

    /// How it is ended.
    #[must_use]
    pub fn shutdown(mut self, how: impl Into<Shutdown>) -> Self {
        self.shutdown = how.into();
        self
    }

    /// Its end may end its supervisor.
    #[must_use]
    pub fn significant(mut self) -> Self {
        self.significant = true;
        self
    }

    /// As the library reads it; nothing where it names more than four modules.
    pub(crate) fn to_raw(&self) -> Option<RawSpec> {
        let mut raw = RawSpec::zeroed();
        raw.restart = self.restart.number();
        raw.significant = u32::from(self.significant);
        raw.kind = self.kind.number();
        raw.shutdown_ms = self.shutdown.millis();
        raw.shutdown = match self.shutdown {
            Shutdown::BrutalKill => 1,
            Shutdown::Within(_) => 2,
            Shutdown::Infinity => 3,
        };
        raw.id = self.id.to_raw();
        raw.start = self.start.to_raw();
        match &self.modules {
            Modules::Dynamic => raw.modules = 5,
            Modules::Named(names) if names.len() > raw.module.len() => return None,
            Modules::Named(names) => {
                raw.modules = names.len() as u32;
                for (to, name) in raw.module.iter_mut().zip(names) {
                    *to = name.to_raw();
                }
            }
        }
        Some(raw)
    }

    pub(crate) fn from_raw(raw: &RawSpec) -> Option<Self> {
        Some(ChildSpec {
            id: Name::from_raw(&raw.id)?,
            start: Name::from_raw(&raw.start)?,
            tag: None,
            restart: Restart::from_raw(raw.restart)?,
            significant: raw.significant != 0,
            shutdown: match raw.shutdown {
                1 => Shutdown::BrutalKill,
                2 => Shutdown::within_millis(raw.shutdown_ms),
                3 => Shutdown::Infinity,
                _ => return None,
            },
            kind: Kind::from_raw(raw.kind)?,
            modules: Modules::from_raw(raw.modules, &raw.module)?,
        })
    }
}

#[cfg(test)]
mod tests {
    use super::*;

    #[test]
    fn a_specification_comes_back_from_its_struct() {
        let name = |text| Name::new(text).unwrap();
        let mut spec = ChildSpec::worker(name("a"), name("b"));
        assert_eq!(spec.to_raw().as_ref().and_then(ChildSpec::from_raw), Some(spec.clone()));
        spec.shutdown = Shutdown::Infinity;
        spec.modules = Modules::Dynamic;
        spec.significant = true;
        spec.restart = Restart::Temporary;
        spec.kind = Kind::Supervisor;
        assert_eq!(spec.to_raw().as_ref().and_then(ChildSpec::from_raw), Some(spec.clone()));
        spec.modules = Modules::Named(vec![name("m"); 4]);
        spec.shutdown = Shutdown::BrutalKill;
        assert_eq!(spec.to_raw().as_ref().and_then(ChildSpec::from_raw), Some(spec.clone()));
        spec.modules = Modules::Named(vec![name("m"); 5]);
        assert!(spec.to_raw().is_none());
    }
}
