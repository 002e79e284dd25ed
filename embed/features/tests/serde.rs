//! With the feature `serde` a tree, its names and its reasons stand in any format: here in JSON.

use otp_supervision::{
    AutoShutdown, ChildSpec, Draft, Kind, Modules, Name, ProcessId, Reading, Reason, Restart, Shutdown, Strategy,
    SupervisorId, Tree,
};
use serde::Serialize;
use serde::de::DeserializeOwned;
use std::fmt::Debug;
use std::time::Duration;

/// It is written so, and read back.
fn same<T: Serialize + DeserializeOwned + PartialEq + Debug>(value: &T, text: &str) {
    assert_eq!(serde_json::to_string(value).unwrap(), text);
    assert_eq!(&serde_json::from_str::<T>(text).unwrap(), value);
}

fn name(text: &str) -> Name {
    Name::new(text).unwrap()
}

#[test]
fn words_and_numbers_are_what_they_print() {
    same(&name("web"), "\"web\"");
    same(&Reason::error("no luck"), "\"error:no_luck\"");
    same(&Reason::Normal, "\"normal\"");
    same(&Restart::Transient, "\"transient\"");
    same(&Strategy::RestForOne, "\"rest_for_one\"");
    same(&AutoShutdown::AllSignificant, "\"all_significant\"");
    same(&Kind::Supervisor, "\"supervisor\"");
    same(&Shutdown::within_millis(70), "70");
    same(&Shutdown::BrutalKill, "\"brutal_kill\"");
    same(&Modules::Dynamic, "\"dynamic\"");
    same(&Modules::Named(vec![name("a"), name("b")]), "[\"a\",\"b\"]");
    same(&SupervisorId::new(3), "3");
    same(&ProcessId::new(1 << 60), "1152921504606846976");
    same(&Reading::from_millis(5), "5");
}

#[test]
fn what_is_none_is_refused_with_a_sentence() {
    let refused = |text: &str| serde_json::from_str::<Name>(text).unwrap_err().to_string();
    assert!(refused("\"a b\"").contains("a name has 1 to 32 bytes"), "{}", refused("\"a b\""));
    assert!(serde_json::from_str::<Strategy>("\"all\"").is_err());
    assert!(serde_json::from_str::<Shutdown>("-1").is_err());
    let unknown = serde_json::from_str::<Draft>("{\"child\":[{\"id\":\"a\",\"start\":\"a\",\"shutdwn\":3}]}").unwrap_err();
    assert!(unknown.to_string().contains("shutdwn"), "{unknown}");
    assert!(serde_json::from_str::<ChildSpec>("{\"start\":\"a\"}").unwrap_err().to_string().contains("id"));
}

#[test]
fn a_draft_has_the_keys_of_a_tree_file() {
    let text = r#"{
        "strategy": "one_for_all", "intensity": 3, "period": 60,
        "child": [
            {"id": "db", "start": "postgres", "shutdown": 2500, "tag": 7},
            {"id": "pool", "start": "pool", "tree": {"child": [{"id": "a", "start": "fetch", "restart": "transient"}]}}
        ]
    }"#;
    let draft: Draft = serde_json::from_str(text).unwrap();
    let job = |id: &str, start: &str| ChildSpec::worker(name(id), name(start));
    let pool = Draft::new().child(job("a", "fetch").restart(Restart::Transient));
    let db = job("db", "postgres").shutdown(Duration::from_millis(2500)).tag(7);
    let wanted = Draft::new()
        .strategy(Strategy::OneForAll)
        .intensity(3, Duration::from_secs(60))
        .child(db)
        .supervisor(name("pool"), pool);
    assert_eq!(draft, wanted);
    let again: Draft = serde_json::from_str(&serde_json::to_string(&draft).unwrap()).unwrap();
    assert_eq!(again, draft);
    assert!(Tree::of_draft(&draft).is_ok());
    // A file that says this draft: what isn't said there is as here.
    let file = "strategy = \"one_for_all\"\nintensity = 3\nperiod = 60\n[[child]]\nid = \"db\"\nstart = \"postgres\"\nshutdown = 2500\n\
                [[child]]\nid = \"pool\"\nstart = \"pool\"\n[child.tree]\n[[child.tree.child]]\nid = \"a\"\nstart = \"fetch\"\nrestart = \"transient\"\n";
    let (one, other) = (Tree::of_draft(&draft).unwrap(), Tree::open(file).unwrap());
    for supervisor in one.supervisors() {
        let specs = |tree: &Tree| -> Vec<ChildSpec> {
            tree.children(supervisor)
                .unwrap()
                .into_iter()
                .map(|mut child| {
                    child.spec.tag = None;
                    child.spec
                })
                .collect()
        };
        assert_eq!(specs(&one), specs(&other));
        assert_eq!(one.supervisor(supervisor).unwrap().intensity, other.supervisor(supervisor).unwrap().intensity);
    }
}
