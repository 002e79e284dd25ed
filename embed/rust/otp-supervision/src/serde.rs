//! With the feature `serde`: names, reasons and words are texts, numbers are numbers, a specification and a draft have the keys of a tree
//! file. So a tree can stand in any format that serde knows.

use crate::draft::{Draft, Member};
use crate::{
    AutoShutdown, CallId, ChildSpec, ChildState, EndCause, Kind, Modules, Name, Phase, ProcessId, Reading, Reason,
    Restart, Shutdown, SpecFault, Strategy, SupervisorId, Text,
};
use serde::de::{Deserialize, Deserializer, Error, MapAccess, SeqAccess, Visitor};
use serde::ser::{Serialize, SerializeMap, Serializer};
use std::fmt;
use std::marker::PhantomData;
use std::str::FromStr;
use std::time::Duration;

/// What is written by `Display` and read by `FromStr`.
macro_rules! texts {
    ($($name:ident $wanted:literal),* $(,)?) => {
        $(
            impl Serialize for $name {
                fn serialize<S: Serializer>(&self, to: S) -> Result<S::Ok, S::Error> {
                    to.collect_str(self)
                }
            }

            impl<'de> Deserialize<'de> for $name {
                fn deserialize<D: Deserializer<'de>>(from: D) -> Result<Self, D::Error> {
                    from.deserialize_str(Read::<$name>::of($wanted))
                }
            }
        )*
    };
}

texts!(
    Name "a name",
    Text "a text of a reason",
    Reason "a reason",
    Restart "when a child is started again",
    Kind "worker or supervisor",
    Strategy "a strategy",
    AutoShutdown "when a supervisor ends by itself",
    Phase "a phase of a supervisor",
    ChildState "a state of a child",
    EndCause "a cause of an end",
    SpecFault "a fault of a specification",
);

/// What is a number.
macro_rules! numbers {
    ($($name:ident: $inner:ty, $get:ident, $make:ident);* $(;)?) => {
        $(
            impl Serialize for $name {
                fn serialize<S: Serializer>(&self, to: S) -> Result<S::Ok, S::Error> {
                    self.$get().serialize(to)
                }
            }

            impl<'de> Deserialize<'de> for $name {
                fn deserialize<D: Deserializer<'de>>(from: D) -> Result<Self, D::Error> {
                    <$inner>::deserialize(from).map($name::$make)
                }
            }
        )*
    };
}

numbers!(
    SupervisorId: u32, number, new;
    ProcessId: u64, number, new;
    CallId: u64, number, new;
    Reading: u64, as_millis, from_millis;
);

/// Reads a text, or where that is lawful a number as one.
struct Read<T> {
    wanted: &'static str,
    value: PhantomData<T>,
}

impl<T> Read<T> {
    fn of(wanted: &'static str) -> Self {
        Read { wanted, value: PhantomData }
    }
}

impl<T: FromStr<Err: fmt::Display>> Visitor<'_> for Read<T> {
    type Value = T;

    fn expecting(&self, f: &mut fmt::Formatter<'_>) -> fmt::Result {
        f.write_str(self.wanted)
    }

    fn visit_str<E: Error>(self, text: &str) -> Result<T, E> {
        text.parse().map_err(E::custom)
    }

    fn visit_u64<E: Error>(self, number: u64) -> Result<T, E> {
        self.visit_str(&number.to_string())
    }
}

/// Milliseconds, `brutal_kill` or `infinity`.
impl Serialize for Shutdown {
    fn serialize<S: Serializer>(&self, to: S) -> Result<S::Ok, S::Error> {
        match self {
            Shutdown::Within(_) => to.serialize_u32(self.millis()),
            Shutdown::BrutalKill | Shutdown::Infinity => to.collect_str(self),
        }
    }
}

impl<'de> Deserialize<'de> for Shutdown {
    fn deserialize<D: Deserializer<'de>>(from: D) -> Result<Self, D::Error> {
        from.deserialize_any(Read::of("milliseconds, brutal_kill or infinity"))
    }
}

/// `dynamic`, or a list of names.
impl Serialize for Modules {
    fn serialize<S: Serializer>(&self, to: S) -> Result<S::Ok, S::Error> {
        match self {
            Modules::Dynamic => to.serialize_str("dynamic"),
            Modules::Named(names) => names.serialize(to),
        }
    }
}

struct ReadModules;

impl<'de> Visitor<'de> for ReadModules {
    type Value = Modules;

    fn expecting(&self, f: &mut fmt::Formatter<'_>) -> fmt::Result {
        f.write_str("dynamic, or a list of names")
    }

    fn visit_str<E: Error>(self, text: &str) -> Result<Modules, E> {
        if text == "dynamic" {
            Ok(Modules::Dynamic)
        } else {
            Err(E::invalid_value(serde::de::Unexpected::Str(text), &self))
        }
    }

    fn visit_seq<A: SeqAccess<'de>>(self, mut from: A) -> Result<Modules, A::Error> {
        let mut names = Vec::new();
        while let Some(name) = from.next_element()? {
            names.push(name);
        }
        Ok(Modules::Named(names))
    }
}

impl<'de> Deserialize<'de> for Modules {
    fn deserialize<D: Deserializer<'de>>(from: D) -> Result<Self, D::Error> {
        from.deserialize_any(ReadModules)
    }
}

/// Writes the keys of a child into a map that was begun.
fn write_child<M: SerializeMap>(spec: &ChildSpec, map: &mut M) -> Result<(), M::Error> {
    map.serialize_entry("id", &spec.id)?;
    map.serialize_entry("start", &spec.start)?;
    if let Some(tag) = spec.tag {
        map.serialize_entry("tag", &tag)?;
    }
    map.serialize_entry("restart", &spec.restart)?;
    map.serialize_entry("significant", &spec.significant)?;
    map.serialize_entry("shutdown", &spec.shutdown)?;
    map.serialize_entry("type", &spec.kind)?;
    map.serialize_entry("modules", &spec.modules)
}

impl Serialize for ChildSpec {
    fn serialize<S: Serializer>(&self, to: S) -> Result<S::Ok, S::Error> {
        let mut map = to.serialize_map(None)?;
        write_child(self, &mut map)?;
        map.end()
    }
}

impl<'de> Deserialize<'de> for ChildSpec {
    fn deserialize<D: Deserializer<'de>>(from: D) -> Result<Self, D::Error> {
        let Member { spec, tree } = Member::deserialize(from)?;
        if tree.is_some() { Err(D::Error::custom("a tree has no place in a specification")) } else { Ok(spec) }
    }
}

impl Serialize for Member {
    fn serialize<S: Serializer>(&self, to: S) -> Result<S::Ok, S::Error> {
        let mut map = to.serialize_map(None)?;
        write_child(&self.spec, &mut map)?;
        if let Some(tree) = &self.tree {
            map.serialize_entry("tree", tree)?;
        }
        map.end()
    }
}

/// What is read of a child until its keys are over.
#[derive(Default)]
struct Keys {
    id: Option<Name>,
    start: Option<Name>,
    tag: Option<u64>,
    restart: Option<Restart>,
    significant: bool,
    shutdown: Option<Shutdown>,
    kind: Option<Kind>,
    modules: Option<Modules>,
    tree: Option<Draft>,
}

impl Keys {
    /// What isn't said is as in a tree file: a supervisor is waited for.
    fn member<E: Error>(self) -> Result<Member, E> {
        let id = self.id.ok_or_else(|| E::missing_field("id"))?;
        let mut spec = ChildSpec::worker(id, self.start.ok_or_else(|| E::missing_field("start"))?);
        (spec.tag, spec.significant) = (self.tag, self.significant);
        spec.kind = self.kind.unwrap_or(if self.tree.is_some() { Kind::Supervisor } else { Kind::Worker });
        spec.restart = self.restart.unwrap_or(spec.restart);
        let given = if spec.kind == Kind::Supervisor { Shutdown::Infinity } else { spec.shutdown };
        spec.shutdown = self.shutdown.unwrap_or(given);
        spec.modules = self.modules.unwrap_or(spec.modules);
        Ok(Member { spec, tree: self.tree })
    }
}

const CHILD_KEYS: &[&str] = &["id", "start", "tag", "restart", "significant", "shutdown", "type", "modules", "tree"];
const TREE_KEYS: &[&str] = &["strategy", "intensity", "period", "auto_shutdown", "child"];

struct ReadMember;

impl<'de> Visitor<'de> for ReadMember {
    type Value = Member;

    fn expecting(&self, f: &mut fmt::Formatter<'_>) -> fmt::Result {
        f.write_str("the keys of a child")
    }

    fn visit_map<A: MapAccess<'de>>(self, mut from: A) -> Result<Member, A::Error> {
        let mut keys = Keys::default();
        while let Some(key) = from.next_key::<String>()? {
            match key.as_str() {
                "id" => keys.id = Some(from.next_value()?),
                "start" => keys.start = Some(from.next_value()?),
                "tag" => keys.tag = from.next_value()?,
                "restart" => keys.restart = Some(from.next_value()?),
                "significant" => keys.significant = from.next_value()?,
                "shutdown" => keys.shutdown = Some(from.next_value()?),
                "type" => keys.kind = Some(from.next_value()?),
                "modules" => keys.modules = Some(from.next_value()?),
                "tree" => keys.tree = Some(from.next_value()?),
                other => return Err(A::Error::unknown_field(other, CHILD_KEYS)),
            }
        }
        keys.member()
    }
}

impl<'de> Deserialize<'de> for Member {
    fn deserialize<D: Deserializer<'de>>(from: D) -> Result<Self, D::Error> {
        from.deserialize_map(ReadMember)
    }
}

impl Serialize for Draft {
    fn serialize<S: Serializer>(&self, to: S) -> Result<S::Ok, S::Error> {
        let mut map = to.serialize_map(Some(TREE_KEYS.len()))?;
        map.serialize_entry("strategy", &self.strategy)?;
        map.serialize_entry("intensity", &self.intensity)?;
        map.serialize_entry("period", &self.period.as_secs())?;
        map.serialize_entry("auto_shutdown", &self.auto_shutdown)?;
        map.serialize_entry("child", &self.children)?;
        map.end()
    }
}

struct ReadDraft;

impl<'de> Visitor<'de> for ReadDraft {
    type Value = Draft;

    fn expecting(&self, f: &mut fmt::Formatter<'_>) -> fmt::Result {
        f.write_str("the keys of a supervisor")
    }

    fn visit_map<A: MapAccess<'de>>(self, mut from: A) -> Result<Draft, A::Error> {
        let mut draft = Draft::new();
        while let Some(key) = from.next_key::<String>()? {
            match key.as_str() {
                "strategy" => draft.strategy = from.next_value()?,
                "intensity" => draft.intensity = from.next_value()?,
                "period" => draft.period = Duration::from_secs(from.next_value()?),
                "auto_shutdown" => draft.auto_shutdown = from.next_value()?,
                "child" => draft.children = from.next_value()?,
                other => return Err(A::Error::unknown_field(other, TREE_KEYS)),
            }
        }
        Ok(draft)
    }
}

impl<'de> Deserialize<'de> for Draft {
    fn deserialize<D: Deserializer<'de>>(from: D) -> Result<Self, D::Error> {
        from.deserialize_map(ReadDraft)
    }
}
