//! One file for the tree and its commands; includes, templates, instances, files of variables; and what is wrong in them.

mod common;

use common::daemon::{Daemon, PROGRAM, new_folder, wait_until};
use std::fs;
use std::path::Path;
use std::process::Command;

/// The exit status of the program in this folder, and what it prints.
fn run(folder: &Path, words: &[&str]) -> (i32, String) {
    let output = Command::new(PROGRAM).args(words).current_dir(folder).output().unwrap();
    (output.status.code().unwrap(), String::from_utf8([output.stdout, output.stderr].concat()).unwrap())
}

fn write(folder: &Path, files: &[(&str, &str)]) {
    for (name, text) in files {
        fs::create_dir_all(folder.join(name).parent().unwrap()).unwrap();
        fs::write(folder.join(name), text).unwrap();
    }
}

const ONE: &str = "intensity = 5
include = [\"conf.d/*.toml\"]

[[child]]
id = \"web\"
use = \"server\"
instances = [\"1\", \"2\"]
env = [
  \"PORT=808{i}\",   # one each
]

[[child]]
id = \"pool\"
[child.tree]
strategy = \"one_for_all\"

[[child.tree.child]]
id = \"a\"
command = [\"sh\", \"-c\", \"env > env.a; exec sleep 1000\"]
env_file = \"variables\"

[[child]]
id = \"old\"
enabled = false
command = [\"nowhere\"]

[template.server]
command = [\"sh\", \"-c\", \"echo $PORT > port.{i}; exec sleep 1000\"]
output = \"null\"
";
const MORE: &str = "[[child]]\nid = \"more\"\nstart = \"m\"\ncommand = [\"sleep\", \"1000\"]\n";

#[test]
fn one_file_has_a_tree_with_all_that_it_runs() {
    let folder = new_folder();
    write(
        &folder,
        &[
            ("one.toml", ONE),
            ("conf.d/x.toml", MORE),
            ("conf.d/.hidden.toml", "nonsense"),
            ("variables", "A=b\nexport C=\"d\"\n"),
        ],
    );
    let (status, text) = run(&folder, &["check", "one.toml"]);
    assert!(status == 0 && text.starts_with("a crash of ") && text.contains("web-1, web-2, more "), "{text}");
    let (status, shown) = run(&folder, &["show", "one.toml"]);
    assert!(status == 0 && !shown.contains("command") && !shown.contains("template"), "{shown}");
    for wanted in
        ["id = \"web-1\"\n", "id = \"web-2\"\n", "start = \"web-1\"\n", "start = \"pool.a\"\n", "start = \"m\"\n"]
    {
        assert!(shown.contains(wanted), "{wanted}\n{shown}");
    }
    assert!(!shown.contains("old"), "{shown}");
    // It runs so, and the log replays on it.
    fs::rename(folder.join("one.toml"), folder.join("tree.toml")).unwrap();
    let mut command = Command::new(PROGRAM);
    command.args(["run", "tree.toml", "--json", "--log", "log", "--control", "control"]).current_dir(&folder);
    let mut child = command.spawn().unwrap();
    let ctl = |words: &[&str]| run(&folder, &[&["ctl", "--control", "control"], words].concat());
    wait_until("up", || ctl(&["wait", "*", "up"]).0 == 0);
    wait_until("both ports", || fs::read_to_string(folder.join("port.2")).is_ok_and(|text| text == "8082\n"));
    assert_eq!(fs::read_to_string(folder.join("port.1")).unwrap(), "8081\n");
    wait_until("variables", || {
        fs::read_to_string(folder.join("env.a")).is_ok_and(|text| text.contains("C=d\n") && text.contains("A=b\n"))
    });
    assert_eq!(ctl(&["status", "pool/a"]).0, 0);
    assert_eq!(ctl(&["status", "old"]).0, 4);
    // A variables file that is gone fails the next start alone.
    fs::remove_file(folder.join("variables")).unwrap();
    let (status, told) = ctl(&["restart", "pool/a"]);
    assert!(status == 1 && told.contains("no_env_file"), "{told}");
    assert_eq!(ctl(&["shutdown"]).0, 0);
    assert!(child.wait().unwrap().success());
    let (status, told) = run(&folder, &["replay", "tree.toml", "log"]);
    assert!(status == 0 && told.contains("as the rules give them"), "{told}");
    fs::remove_dir_all(&folder).unwrap();
}

#[test]
fn two_files_have_includes_and_templates_too() {
    let folder = new_folder();
    let tree = "[[child]]\nid = \"a\"\nstart = \"a\"\n[[child]]\nid = \"b\"\nstart = \"b\"\n";
    let commands = "include = ['more.toml']\n[a]\nuse = 'sleeps'\nnice = 3\n";
    let more =
        "[template.sleeps]\ncommand = ['sleep', '1000']\nnice = 1\n[b]\nenabled = false\ncommand = ['nowhere']\n";
    write(&folder, &[("tree.toml", tree), ("commands.toml", commands), ("more.toml", more)]);
    let mut daemon = Daemon::start_in(folder.clone(), &["--json", "--log", "log", "--no-control"]);
    daemon.wait_ready();
    assert_eq!(daemon.story(), ["start a #1", "-> up a #1", "ready"]);
    assert_eq!(daemon.stop(), 0);
    // These children with their commands in the tree give the same orders.
    let one = "[[child]]\nid = \"a\"\ncommand = ['sleep', '1000']\n[[child]]\nid = \"b\"\nenabled = false\ncommand = ['nowhere']\n";
    let before = daemon.story();
    write(&folder, &[("tree.toml", one), ("commands.toml", ""), ("log", "")]);
    let mut daemon = Daemon::start_in(folder, &["--json", "--log", "log", "--no-control"]);
    daemon.wait_ready();
    assert_eq!(daemon.stop(), 0);
    assert_eq!(daemon.story(), before);
}

#[test]
fn each_fault_has_its_file_its_line_its_key_and_a_remedy() {
    let folder = new_folder();
    let child = "[[child]]\nid = \"a\"\n";
    for (tree, wanted) in [
        (format!("{child}command = 'x'\n"), "t:3: [a] command is an array of strings"),
        (
            format!("{child}comand = ['x']\ncommand = ['true']\n"),
            "t:3: child a, comand: unknown key; did you mean command? (E11",
        ),
        (format!("{child}command = ['true']\nnice = 99\n"), "t:4: [a] nice is a whole number from -20 to 19"),
        (format!("{child}command = ['true']\ninstances = 3\n"), "t:4: instances is an array of names"),
        (format!("{child}command = ['true']\nenabled = 'no'\n"), "t:4: enabled is true or false"),
        (
            format!("{child}use = 'servr'\n[template.server]\n"),
            "t:3: [a] use: there is no template servr; did you mean server?",
        ),
        (format!("{child}use = 'x'\n[template.x]\nuse = 'y'\n"), "t:5: [template.x] a template uses no other"),
        (format!("{child}use = 'x'\n[template.x]\noutput = 'all'\ncommand = ['true']\n"), "t:5: [a] output is "),
        (
            format!("{child}command = ['true']\n[child.tree]\n"),
            "t:3: child a has a tree, so it runs nothing; drop command",
        ),
        (format!("{child}nice = 1\n"), "t:1: [a] has no command; write command = "),
        (format!("include = 3\n{child}command = ['true']\n"), "t:1: include is an array of files"),
        (format!("include = ['none/*']\n{child}command = ['true']\n"), "t:1: include: none: No such file"),
        (format!("include = ['x.toml']\n{child}command = ['true']\n"), "x.toml:3: [b] signal is one of "),
        (format!("include = ['y.toml']\n{child}command = ['true']\n"), "y.toml:1: an included file has children"),
        (
            format!("{child}command = ['true']\n{child}start = 'a'\ncommand = ['true']\n"),
            "t:4: the start word a has a table already",
        ),
        (format!("{child}command = ['true']\nrestart = 'always'\n"), "t:4: child a, restart: "),
        (child.to_string() + "start = 'a'\n", "t has no commands; name the file of commands, too"),
    ] {
        write(
            &folder,
            &[
                ("t", &tree),
                ("x.toml", "[[child]]\nid = \"b\"\nsignal = 'x'\ncommand = ['true']\n"),
                ("y.toml", "intensity = 3\n"),
            ],
        );
        let (status, told) = run(&folder, &["check", "t"]);
        assert!(status == 1 && told.starts_with(&format!("otp-procs: {wanted}")), "{tree}\n{told}\n{wanted}");
    }
    // Of an instance, of an included file, of a missing file of variables.
    write(
        &folder,
        &[
            ("t", "include = ['x.toml']\n[[child]]\nid = 'a'\ncommand = ['true']\n"),
            ("x.toml", "[[child]]\nid = 'b'\ncommand = ['true']\ninstances = ['1', '2']\nshutdown = 'x'\n"),
        ],
    );
    let (_, told) = run(&folder, &["check", "t"]);
    assert!(told.starts_with("otp-procs: x.toml:5: child b-1, shutdown: "), "{told}");
    for (name, status) in [("variables", 1), ("-variables", 0)] {
        write(&folder, &[("t", &format!("{child}command = ['true']\nenv_file = '{name}'\n"))]);
        assert_eq!(run(&folder, &["check", "t"]).0, status, "{name}");
    }
    // What has no end, and a file of variables that nobody writes to.
    assert_eq!(
        run(&folder, &["check", "/dev/zero"]),
        (1, "otp-procs: /dev/zero has more than 16 MiB, too many for what it is to be\n".to_string())
    );
    assert!(Command::new("mkfifo").arg(folder.join("pipe")).status().unwrap().success());
    write(&folder, &[("t", &format!("{child}command = ['true']\nenv_file = 'pipe'\n"))]);
    let (status, told) = run(&folder, &["check", "t"]);
    assert!(status == 1 && told.contains("env_file pipe: it is no file"), "{told}");
    fs::remove_dir_all(&folder).unwrap();
}

#[test]
fn no_text_makes_it_panic() {
    let folder = new_folder();
    let pieces = [
        "[[child]]\n",
        "[child.tree]\n",
        "[[child.tree.child]]\n",
        "id = 'x'\n",
        "command = ['true']\n",
        "instances = ['1', '{i}']\n",
        "use = 'y'\n",
        "[template.y]\n",
        "enabled = false\n",
        "x = [\n",
        "]\n",
        "[web]\n",
        "include = ['z']\n",
        "'",
        "é = \"{i}\"\n",
    ];
    let mut chance = common::Chance::new(7);
    for _ in 0..150 {
        let text: String = (0..9).map(|_| chance.one_of(&pieces)).collect();
        write(&folder, &[("t", &text), ("z", &text)]);
        let (status, told) = run(&folder, &["check", "t"]);
        assert!(status < 2 && !told.contains("panicked"), "{text}\n{told}");
    }
    fs::remove_dir_all(&folder).unwrap();
}
