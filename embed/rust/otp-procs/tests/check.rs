//! `check` says for each service what its crashes cost: what the library orders where the tree is played.

mod common;

use common::daemon::{Daemon, KILL, PROGRAM, new_folder, send};
use std::fs;
use std::path::Path;
use std::process::Command;

/// What `check` says of a tree, and its status. A process of it runs `s`, or fails alone by `alone`, `held` or `escalates`.
fn check(tree: &str) -> (String, Option<i32>) {
    let folder = new_folder();
    let found = check_in(&folder, tree);
    fs::remove_dir_all(folder).unwrap();
    found
}

fn check_in(folder: &Path, tree: &str) -> (String, Option<i32>) {
    let sleep = "command = ['sleep', '1000']\n";
    let words = [
        ("s", ""),
        ("alone", "restart_after = ['1s', '1m']\n"),
        ("held", "restart_after = '5s'\ngive_up_after = 3\n"),
        ("never", "restart_after = '5s'\ngive_up_after = 0\n"),
        ("escalates", "restart_after = '5s'\ngive_up_after = 2\non_give_up = 'escalate'\n"),
    ];
    let commands = words.map(|(word, keys)| format!("[{word}]\n{sleep}{keys}")).concat();
    fs::write(folder.join("tree.toml"), tree).unwrap();
    fs::write(folder.join("commands.toml"), commands).unwrap();
    let output =
        Command::new(PROGRAM).args(["check", "tree.toml", "commands.toml"]).current_dir(folder).output().unwrap();
    (String::from_utf8(output.stdout).unwrap(), output.status.code())
}

/// The rows of a tree, each with its cells; those of words that no child runs are left out.
fn rows(tree: &str) -> Vec<Vec<String>> {
    let (text, status) = check(tree);
    assert_eq!(status, Some(0), "{text}");
    let (head, lines) = text.split_once('\n').unwrap();
    let starts = ["a crash of", "the 1st", "the 2nd at once", "more at once"].map(|word| head.find(word).unwrap());
    let lines = lines.lines().filter(|line| !line.contains("is run by no child"));
    let cell = |line: &str, column: usize| {
        let end = starts.get(column + 1).copied().unwrap_or(line.len()).min(line.len());
        line.get(starts[column]..end).unwrap_or_default().trim().to_string()
    };
    lines.map(|line| (0..4).map(|column| cell(line, column)).collect()).collect()
}

fn child(id: &str, start: &str, keys: &str) -> String {
    format!("[[child]]\nid = \"{id}\"\nstart = \"{start}\"\n{keys}")
}

fn pool(id: &str, keys: &str, flags: &str, children: &[(&str, &str)]) -> String {
    let children =
        children.iter().map(|(id, keys)| format!("[[child.tree.child]]\nid = \"{id}\"\nstart = \"s\"\n{keys}"));
    format!("{}[child.tree]\n{flags}{}", child(id, "s", keys), children.collect::<String>())
}

const TRANSIENT: &str = "restart = \"transient\"\n";
const TEMPORARY: &str = "restart = \"temporary\"\n";

#[test]
fn each_service_has_what_its_crashes_cost() {
    let [perm, temp] = [child("perm", "s", ""), child("temp", "s", TEMPORARY)];
    let tran = child("tran", "s", TRANSIENT);
    let alone = ["alone", "held", "never", "escalates"].map(|word| child(word, word, TRANSIENT)).concat();
    let everyone = [("a", ""), ("b", ""), ("t", TEMPORARY)];
    let all = pool("all", "", "strategy = \"one_for_all\"\n", &everyone);
    let rest = pool("rest", TRANSIENT, "strategy = \"rest_for_one\"\n", &[("a", ""), ("b", ""), ("c", "")]);
    let significant = format!("{TEMPORARY}significant = true\n");
    let sig = pool("sig", "", "auto_shutdown = \"any_significant\"\n", &[("a", ""), ("b", &significant)]);
    let simple = pool("simple", "", "strategy = \"simple_one_for_one\"\n", &[("w", "")]);
    let found = rows(&format!("intensity = 3\n{perm}{temp}{tran}{alone}{all}{rest}{sig}{simple}"));
    let wanted = [
        ["perm, tran", "restarts it", "restarts it", "the 4th ends the daemon"],
        ["temp", "leaves it down", "-", ""],
        ["alone", "starts it again after 1.0 s", "starts it again after 2.0 s", ""],
        ["held", "starts it again after 5.0 s", "starts it again after 5.0 s", "the 4th leaves it held"],
        ["never", "leaves it held", "-", ""],
        ["escalates", "starts it again after 5.0 s", "starts it again after 5.0 s", "the 3rd restarts it"],
        [
            "all/a, all/b",
            "restarts all of all/; leaves all/t down",
            "ends all/, which is started again",
            "the 8th ends the daemon",
        ],
        ["all/t", "leaves it down", "-", ""],
        ["rest/a", "restarts all of rest/", "ends rest/, which stays down", ""],
        ["rest/b", "restarts it and rest/c", "ends rest/, which stays down", ""],
        ["rest/c", "restarts it", "ends rest/, which stays down", ""],
        ["sig/a", "restarts it", "ends sig/, which is started again", "the 8th ends the daemon"],
        ["sig/b", "ends sig/, which is started again", "ends sig/, which is started again", "the 4th ends the daemon"],
        ["simple/#N", "restarts it", "ends simple/, which is started again, empty", ""],
    ];
    assert_eq!(found, wanted);
}

#[test]
fn the_defaults_and_what_stands_around() {
    let many: String = (1..=7).map(|number| child(&format!("c{number}"), "s", "")).collect();
    assert_eq!(rows(&many), [["c1, c2, c3 and 4 more", "restarts it", "ends the daemon", ""]]);
    assert_eq!(rows(&format!("intensity = 0\n{many}"))[0][1..], ["ends the daemon", "-", ""]);
    let found = rows(&format!("strategy = \"one_for_all\"\nintensity = 12\n{many}"));
    assert_eq!(found[0][1..], ["restarts all", "restarts all", "the 13th ends the daemon"]);
    let deep = pool("deep", "", "intensity = 2\n", &[("x", "")])
        + "[child.tree.child.tree]\nintensity = 2\n\
        [[child.tree.child.tree.child]]\nid = \"y\"\nstart = \"s\"\n";
    let more = "the 3rd ends deep/x/, which is started again; the 18th ends the daemon";
    assert_eq!(rows(&deep), [["deep/x/y", "restarts it", "restarts it", more]]);
    // A tree of none, and files that are refused.
    assert_eq!(rows("intensity = 3\n"), Vec::<Vec<String>>::new());
    for (tree, status) in [("intensity = 3000\n".to_string(), 1), (child("a", "nowhere", ""), 1)] {
        assert_eq!(check(&tree), (String::new(), Some(status)));
    }
}

#[test]
fn the_largest_tree_is_played_in_a_bounded_time() {
    let mut tree = "strategy = \"rest_for_one\"\nintensity = 1000\n".to_string();
    for number in 0..63 {
        let ids: Vec<String> = (0..256).map(|id| format!("c{id}")).collect();
        let children: Vec<(&str, &str)> = ids.iter().map(|id| (id.as_str(), "")).collect();
        tree += &pool(&format!("p{number}"), "", "strategy = \"rest_for_one\"\n", &children);
    }
    let (text, status) = check(&tree);
    assert!(status == Some(0) && text.contains("more services, which are too many to be played"), "{text}");
    // Also there each row has its second crash.
    assert!(!text.contains(" -"), "{text}");
}

/// The daemon does what was said: the second crash of `pool/a` starts the pool anew, and the third of `web` is its own end.
#[test]
fn it_is_what_the_daemon_does() {
    let tree = format!(
        "intensity = 2\nperiod = 1000\n{}{}",
        child("web", "s", ""),
        pool("pool", "", "period = 1000\n", &[("a", ""), ("b", "")])
    );
    let row = |name: &str, second: &str, more: &str| [name, "restarts it", second, more].map(str::to_string).to_vec();
    let pools = row("pool/a, pool/b", "ends pool/, which is started again", "the 6th ends the daemon");
    assert_eq!(rows(&tree), [row("web", "restarts it", "the 3rd ends the daemon"), pools]);
    for (path, crashes, anew) in [("web", 3, 0), ("pool/a", 6, 2)] {
        let mut daemon = Daemon::start(&tree, "[s]\ncommand = ['sleep', '1000']\n");
        let mut starts = 0;
        for _ in 0..crashes {
            daemon.wait_for("it is up", |line| {
                let is_it = line.get("order") == "start" && line.get("path") == path;
                is_it && line.get("number").parse::<i32>().unwrap() > starts
            });
            let log = daemon.log();
            let last = log.iter().rfind(|line| line.get("order") == "start" && line.get("path") == path).unwrap();
            starts = last.get("number").parse().unwrap();
            send(last.get("pid").parse().unwrap(), KILL);
        }
        assert_eq!(daemon.wait(), 3);
        assert_eq!(daemon.log().iter().filter(|line| line.get("remark") == "anew").count(), anew, "{path}");
        daemon.replay();
    }
}
