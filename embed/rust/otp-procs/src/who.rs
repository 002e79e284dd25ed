//! As whom a process runs, and within which limits.

use crate::keys::Keys;
use crate::near;
use crate::os::{self, Become, Bound, User};
use crate::subset::{BadLine, Place, Value};

/// What is bounded, with the names of `prlimit` and the numbers of Linux.
const RESOURCES: [(&str, i32); 16] = [
    ("cpu", 0),
    ("fsize", 1),
    ("data", 2),
    ("stack", 3),
    ("core", 4),
    ("rss", 5),
    ("nproc", 6),
    ("nofile", 7),
    ("memlock", 8),
    ("as", 9),
    ("locks", 10),
    ("sigpending", 11),
    ("msgqueue", 12),
    ("nice", 13),
    ("rtprio", 14),
    ("rttime", 15),
];

/// As whom a process runs, and within which limits. What isn't said is as with the daemon.
#[derive(Clone, Debug, Default, PartialEq, Eq)]
pub struct Who {
    /// The user and the groups, by their numbers.
    pub becomes: Become,
    /// The entry of the user, if it has one.
    pub user: Option<User>,
    /// The mask of new files.
    pub umask: Option<u32>,
    /// The niceness.
    pub nice: Option<i32>,
    /// The limits.
    pub limits: Vec<Bound>,
    /// It can gain no privileges.
    pub no_new_privileges: bool,
    /// Where the file says that it is another user or has other groups.
    place: Option<Place>,
}

/// The name of what a limit bounds.
pub fn resource_name(resource: i32) -> String {
    RESOURCES
        .iter()
        .find(|(_, number)| *number == resource)
        .map_or(resource.to_string(), |(name, _)| (*name).to_string())
}

impl Who {
    /// What the keys of a table say.
    pub fn of(keys: &Keys<'_>) -> Result<Self, BadLine> {
        let (becomes, user, place) = becomes_of(keys)?;
        Ok(Who {
            becomes,
            user,
            umask: umask_of(keys)?,
            nice: keys.within("nice", -20, 19)?.map(|nice| nice as i32),
            limits: limits_of(keys)?,
            no_new_privileges: keys.truth("no_new_privileges")?,
            place,
        })
    }

    /// Why this daemon can't start such a process, if it can't: only root becomes another user.
    pub fn refusal(&self) -> Option<BadLine> {
        let place = self.place.as_ref()?;
        if os::own_user() == 0 || self.becomes == Become::default() {
            return None;
        }
        let text = format!(
            "only root can start a process with another user or group, and the daemon is user {}; run it as root, or drop user, group and groups",
            os::own_user()
        );
        Some(BadLine::new(place, text))
    }
}

fn becomes_of(keys: &Keys<'_>) -> Result<(Become, Option<User>, Option<Place>), BadLine> {
    let (named, place) = user_of(keys)?;
    let (uid, user) = named.map_or((None, None), |(uid, user)| (Some(uid), user));
    let group = match keys.find("group") {
        Some(entry) => Some(group_of(keys, &entry.place, &entry.value)?),
        None => None,
    };
    let Some(gid) = group.or(user.as_ref().map(|user| user.gid)).map(Some).or(uid.is_none().then_some(None)) else {
        let place = place.unwrap_or(keys.head());
        return keys.bad(place, "user is a number that this machine has no entry for; write group too");
    };
    let more = more_groups(keys)?;
    let groups = match (&user, gid, &more) {
        (None, _, None) if uid.is_none() => None,
        (user, gid, more) => {
            let mut groups = match (user, gid) {
                (Some(user), Some(gid)) => os::groups_of(&user.name, gid),
                (_, Some(gid)) => vec![gid],
                _ => Vec::new(),
            };
            groups.extend(more.iter().flatten());
            groups.sort_unstable();
            groups.dedup();
            Some(groups)
        }
    };
    let first = ["user", "group", "groups"].into_iter().find_map(|key| keys.find(key));
    let is_own = uid == Some(os::own_user()) && gid.is_none_or(|gid| gid == os::own_group()) && more.is_none();
    // Who isn't root may name himself, and nothing is changed then.
    let becomes = if is_own && os::own_user() != 0 { Become::default() } else { Become { uid, gid, groups } };
    Ok((becomes, user, first.map(|entry| entry.place.clone())))
}

/// A user's number, and its entry if it has one.
type Named = (u32, Option<User>);

fn user_of<'a>(keys: &Keys<'a>) -> Result<(Option<Named>, Option<&'a Place>), BadLine> {
    let Some(entry) = keys.find("user") else { return Ok((None, None)) };
    let fails = |error: std::io::Error| format!("user can't be looked up: {error}");
    let named = match &entry.value {
        Value::Number(number) => {
            let Ok(uid) = u32::try_from(*number) else {
                return keys.bad(&entry.place, "user is a name, or a number from 0");
            };
            (uid, os::user_numbered(uid).unwrap_or(None))
        }
        Value::Text(name) => match os::user_named(name) {
            Ok(Some(user)) => (user.uid, Some(user)),
            // Other programs write a number as they write a name.
            Ok(None) if name.parse::<u32>().is_ok() => {
                let uid = name.parse().unwrap_or_default();
                (uid, os::user_numbered(uid).unwrap_or(None))
            }
            Ok(None) => {
                let text =
                    format!("user: there is no user {name:?} on this machine; write another, or a number with group");
                return keys.bad(&entry.place, text);
            }
            Err(error) => return keys.bad(&entry.place, fails(error)),
        },
        _ => return keys.bad(&entry.place, "user is a name, or a number from 0"),
    };
    Ok((Some(named), Some(&entry.place)))
}

fn group_of(keys: &Keys<'_>, place: &Place, value: &Value) -> Result<u32, BadLine> {
    match value {
        Value::Number(number) if u32::try_from(*number).is_ok() => Ok(*number as u32),
        Value::Text(name) => named_group(keys, place, name),
        _ => keys.bad(place, "group is a name, or a number from 0"),
    }
}

fn named_group(keys: &Keys<'_>, place: &Place, name: &str) -> Result<u32, BadLine> {
    if let Ok(number) = name.parse() {
        return Ok(number);
    }
    match os::group_named(name) {
        Ok(Some(gid)) => Ok(gid),
        Ok(None) => keys.bad(place, format!("there is no group {name:?} on this machine; write another, or a number")),
        Err(error) => keys.bad(place, format!("the group {name:?} can't be looked up: {error}")),
    }
}

fn more_groups(keys: &Keys<'_>) -> Result<Option<Vec<u32>>, BadLine> {
    let Some((place, names)) = keys.texts("groups")? else { return Ok(None) };
    names.iter().map(|name| named_group(keys, place, name)).collect::<Result<_, _>>().map(Some)
}

fn umask_of(keys: &Keys<'_>) -> Result<Option<u32>, BadLine> {
    let Some(entry) = keys.find("umask") else { return Ok(None) };
    let digits = match &entry.value {
        Value::Text(text) if (1..=4).contains(&text.len()) => u32::from_str_radix(text, 8).ok(),
        _ => None,
    };
    match digits.filter(|mask| *mask <= 0o777) {
        Some(mask) => Ok(Some(mask)),
        None => keys.bad(&entry.place, "umask is a string of octal digits, as \"022\" or \"077\""),
    }
}

fn limits_of(keys: &Keys<'_>) -> Result<Vec<Bound>, BadLine> {
    let Some((place, texts)) = keys.texts("limits")? else { return Ok(Vec::new()) };
    let mut limits: Vec<Bound> = Vec::new();
    for text in texts {
        let bound = match limit_of(text) {
            Ok(bound) => bound,
            Err(why) => {
                return keys.bad(
                    place,
                    format!("limits has strings NAME=SOFT or NAME=SOFT:HARD, as \"nofile=4096\"; of {text:?} {why}"),
                );
            }
        };
        if limits.iter().any(|other| other.resource == bound.resource) {
            return keys.bad(place, format!("limits has {} twice; drop one", resource_name(bound.resource)));
        }
        limits.push(bound);
    }
    Ok(limits)
}

fn limit_of(text: &str) -> Result<Bound, String> {
    let (name, values) = text.split_once('=').ok_or("the = is missing")?;
    let lower = name.to_ascii_lowercase();
    let names = RESOURCES.iter().map(|(name, _)| *name);
    let Some((_, resource)) = RESOURCES.iter().find(|(known, _)| *known == lower) else {
        let near = near::question(&lower, names.clone());
        let all: Vec<&str> = names.collect();
        return Err(format!("{name} is no limit{near}; there are {}", all.join(", ")));
    };
    let (soft, hard) = values.split_once(':').unwrap_or((values, values));
    let read = |text: &str| value_of(text).ok_or(format!("{text:?} is no number, nor infinity"));
    let (soft, hard) = (read(soft)?, read(hard)?);
    if soft > hard {
        return Err("the soft limit is above the hard one".to_string());
    }
    Ok(Bound { resource: *resource, soft, hard })
}

/// A number, with K, M, G or T for powers of 1024.
pub fn value_of(text: &str) -> Option<u64> {
    if matches!(text, "infinity" | "unlimited") {
        return Some(u64::MAX);
    }
    let (digits, shift) = match text.as_bytes().last()? {
        b'K' => (&text[..text.len() - 1], 10),
        b'M' => (&text[..text.len() - 1], 20),
        b'G' => (&text[..text.len() - 1], 30),
        b'T' => (&text[..text.len() - 1], 40),
        _ => (text, 0),
    };
    let number: u64 = digits.parse().ok().filter(|_| digits.bytes().all(|byte| byte.is_ascii_digit()))?;
    number.checked_shl(shift).filter(|shifted| shifted >> shift == number)
}

#[cfg(test)]
mod tests {
    use super::*;
    use crate::plan::read;

    fn who(lines: &str) -> Result<Who, BadLine> {
        read("f", &format!("[a]\ncommand = ['x']\n{lines}\n")).map(|plans| plans["a"].who.clone())
    }

    #[test]
    fn limits_are_read() {
        let bound = |resource, soft, hard| Bound { resource, soft, hard };
        let limits = who("limits = ['nofile=4096', 'core=0:infinity', 'AS=2G']").unwrap().limits;
        assert_eq!(limits, [bound(7, 4096, 4096), bound(4, 0, u64::MAX), bound(9, 2 << 30, 2 << 30)]);
        for (text, wanted) in [
            ("nofile", "the = is missing"),
            ("nofiles=1", "did you mean nofile?"),
            ("nofile=x", "is no number"),
            ("nofile=5:4", "above the hard one"),
            ("nofile=-1", "is no number"),
            ("nofile=99999999999T", "is no number"),
            ("nofile=1', 'nofile=2", "twice"),
        ] {
            let told = who(&format!("limits = ['{text}']")).unwrap_err().to_string();
            assert!(told.starts_with("f:3: [a] limits has ") && told.contains(wanted), "{told}");
        }
    }

    #[test]
    fn who_it_is_is_read_or_refused_with_its_line() {
        assert_eq!(who("").unwrap(), Who::default());
        let read = who("umask = '027'\nnice = -5\nno_new_privileges = true").unwrap();
        assert_eq!((read.umask, read.nice, read.no_new_privileges), (Some(0o27), Some(-5), true));
        for (lines, wanted) in [
            ("user = 'no-such-user-here'", "f:3: [a] user: there is no user"),
            ("user = true", "f:3: [a] user is a name, or a number"),
            ("user = -1", "f:3: [a] user is a name, or a number"),
            ("user = 3999999999", "write group too"),
            ("user = '3999999999'", "write group too"),
            ("group = 'no-such-group-here'", "f:3: [a] there is no group"),
            ("groups = ['no-such-group-here']", "there is no group"),
            ("umask = 22", "octal digits"),
            ("umask = '08'", "octal digits"),
            ("nice = 20", "nice is a whole number from -20 to 19"),
            ("SupplementaryGroups = 'x'", "here it is groups"),
            ("LimitNOFILE = 5", "here it is limits = [\"nofile=..\"]"),
            ("usr = 'x'", "usr is no key; did you mean user?"),
        ] {
            let told = who(lines).unwrap_err().to_string();
            assert!(told.contains(wanted), "{lines}: {told}");
        }
    }

    #[test]
    fn a_number_needs_no_entry_if_its_group_is_said() {
        let found = who("user = 54321\ngroup = 54322\ngroups = ['7']").unwrap();
        let wanted = Become { uid: Some(54321), gid: Some(54322), groups: Some(vec![7, 54322]) };
        assert_eq!((found.becomes, found.user), (wanted, None));
        let found = who("group = 54322").unwrap().becomes;
        assert_eq!(found, Become { uid: None, gid: Some(54322), groups: None });
        let root = who("user = 'root'").unwrap();
        assert_eq!(root.user.map(|user| user.home), Some("/root".to_string()));
    }
}
