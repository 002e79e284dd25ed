//! Trees and scripts by chance: this crate gives what the program `otp sim` prints, to the byte.
//!
//! The program is the one that `OTP_PROGRAM` names, or `crates/otp_program/out/otp_program`, where the gate builds it. Without
//! it nothing is compared and the tests say so; with `OTP_EMBED_WHOLE` they fail then.

mod common;

use common::Chance;
use common::daemon::{Daemon, Line, wait_until};
use common::script::play;
use std::fmt::Write as _;
use std::io::Write as _;
use std::path::PathBuf;
use std::process::{Command, Stdio};
use std::sync::atomic::{AtomicU32, Ordering};

fn program() -> Option<PathBuf> {
    let usual = PathBuf::from(env!("CARGO_MANIFEST_DIR")).join("../../../crates/otp_program/out/otp_program");
    let program = std::env::var_os("OTP_PROGRAM").map_or(usual, PathBuf::from);
    program.is_file().then_some(program)
}

fn tree_of(chance: &mut Chance) -> String {
    let strategy = chance.one_of(&["one_for_one", "one_for_all", "rest_for_one", "simple_one_for_one"]);
    let automatic = chance.one_of(&["never", "never", "any_significant", "all_significant"]);
    let mut text = format!(
        "strategy = \"{strategy}\"\nintensity = {}\nperiod = {}\nauto_shutdown = \"{automatic}\"\n",
        chance.below(4),
        1 + chance.below(3)
    );
    let children = if strategy == "simple_one_for_one" { 1 } else { 1 + chance.below(5) };
    for number in 0..children {
        let restart = chance.one_of(&["permanent", "permanent", "transient", "temporary"]);
        let significant = automatic != "never" && restart != "permanent" && chance.below(2) == 0;
        let shutdown = chance.one_of(&["\"brutal_kill\"", "\"infinity\"", "100", "2000"]);
        let _ = write!(
            text,
            "[[child]]\nid = \"c{number}\"\nstart = \"s{number}\"\nrestart = \"{restart}\"\nsignificant = {significant}\nshutdown = {shutdown}\n"
        );
    }
    text
}

fn lines_of(chance: &mut Chance) -> String {
    let mut text = String::new();
    let mut reading = 0;
    // Numbers that were given lately are those that matter.
    let mut last = 1;
    for _ in 0..60 {
        let number = 1 + chance.below(last);
        let reason = chance.one_of(&["normal", "shutdown", "shutdown:x", "kill", "killed", "noproc", "error:x"]);
        let id = format!("c{}", chance.below(6));
        let _ = match chance.below(24) {
            0..=6 => {
                let line = writeln!(text, "up {last}");
                last += 1;
                line
            }
            7..=11 => writeln!(text, "exit {number} {reason}"),
            12 => writeln!(text, "fail {last} {reason}"),
            13 => writeln!(text, "ignore {last}"),
            14 | 15 => {
                reading += chance.below(1500);
                writeln!(text, "at {reading}")
            }
            16 => writeln!(text, "restart {id}"),
            17 => writeln!(text, "terminate {id}"),
            18 => writeln!(text, "terminate #{number}"),
            19 => writeln!(text, "delete {id}\nget {id}"),
            20 => writeln!(text, "which\ncount"),
            21 => writeln!(text, "start"),
            22 => {
                let restart = chance.one_of(&["permanent", "transient", "temporary"]);
                writeln!(text, "start {id} m {restart} {} 100 worker", chance.below(3) == 0)
            }
            _ if chance.below(6) == 0 => writeln!(text, "stop"),
            _ => writeln!(text, "exit {last} {reason}"),
        };
    }
    text
}

fn sim(program: &PathBuf, tree: &str, lines: &str) -> String {
    // Two tests call this at once.
    static FILES: AtomicU32 = AtomicU32::new(0);
    let number = FILES.fetch_add(1, Ordering::Relaxed);
    let file = std::env::temp_dir().join(format!("otp-chance-{}-{number}.toml", std::process::id()));
    std::fs::write(&file, tree).unwrap();
    let mut child =
        Command::new(program).arg("sim").arg(&file).stdin(Stdio::piped()).stdout(Stdio::piped()).spawn().unwrap();
    child.stdin.take().unwrap().write_all(lines.as_bytes()).unwrap();
    let output = child.wait_with_output().unwrap();
    assert!(output.status.success(), "{tree}\n{lines}");
    std::fs::remove_file(&file).unwrap();
    String::from_utf8(output.stdout).unwrap()
}

/// The program, or the reason why nothing is compared.
fn program_or_skip() -> Option<PathBuf> {
    let program = program();
    if program.is_none() {
        assert!(std::env::var_os("OTP_EMBED_WHOLE").is_none(), "the program otp is not there: ./otp builds it");
        println!("skipped: the program otp is not there; ./otp builds it");
    }
    program
}

#[test]
fn scripts_by_chance_give_what_sim_prints() {
    let Some(program) = program_or_skip() else { return };
    let count = std::env::var("OTP_CHANCE").ok().and_then(|count| count.parse().ok()).unwrap_or(500);
    let mut printed = 0;
    for seed in 0..count {
        let mut chance = Chance::new(seed);
        let (tree, lines) = (tree_of(&mut chance), lines_of(&mut chance));
        let wanted = sim(&program, &tree, &lines);
        assert_eq!(play(&tree, &lines), wanted, "seed {seed}\n{tree}\n{lines}");
        printed += wanted.lines().count();
    }
    assert!(printed > 10 * count as usize, "only {printed} orders were compared");
}

/// The lines that `sim` reads for the events of a log, and the orders that the log has.
fn lines_and_orders(log: &[Line]) -> (String, String) {
    let (mut lines, mut orders) = (String::new(), String::new());
    for line in log {
        let (number, reason) = (line.get("number"), line.get("reason"));
        let told = match line.get("event") {
            "stop" => "stop".to_string(),
            "" => String::new(),
            event => format!("{event} {number} {reason}"),
        };
        let _ = match line.get("order") {
            "" if told.is_empty() => Ok(()),
            "" => writeln!(lines, "at {}\n{}", line.get("ms"), told.trim_end()),
            "ready" => writeln!(orders, "ready"),
            "end" => writeln!(orders, "end {reason}"),
            // A deadline that has come: nothing is told but the time.
            order => {
                let _ = writeln!(lines, "at {}", line.get("ms"));
                writeln!(orders, "{order} {} #{number}", line.get("path"))
            }
        };
    }
    (lines, orders)
}

#[test]
fn a_log_of_real_processes_gives_the_orders_of_sim() {
    let mut tree = "strategy = \"rest_for_one\"\nintensity = 500\nperiod = 1\n".to_string();
    for number in 0..10 {
        let _ = write!(
            tree,
            "[[child]]\nid = \"c{number}\"\nstart = \"{}\"\nshutdown = 50\n",
            ["wild", "deaf"][number % 2]
        );
    }
    let commands = "[wild]\ncommand = ['sh', '-c', 'sleep 0.$((OTP_NUMBER * 37 % 100)); exit $((OTP_NUMBER % 3))']\n\
                    [deaf]\ncommand = ['sh', '-c', 'trap \"\" TERM; echo >&3; while :; do sleep 5; done']\nready = 'notify'\n";
    let mut daemon = Daemon::start(&tree, commands);
    let count = || daemon.log().iter().filter(|line| !line.get("order").is_empty()).count();
    wait_until("there are enough orders", || count() > 45);
    assert_eq!(daemon.stop(), 0);
    let (lines, orders) = lines_and_orders(&daemon.log());
    assert!(orders.lines().count() > 40, "{orders}");
    assert_eq!(play(&tree, &lines), orders);
    if let Some(program) = program() {
        assert_eq!(sim(&program, &tree, &lines), orders);
    }
}
