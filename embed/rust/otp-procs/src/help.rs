//! What `--help` prints.

use crate::near;
use crate::request;

/// The commands, with their help.
const COMMANDS: [(&str, &str); 6] =
    [("run", RUN), ("check", CHECK), ("diff", DIFF), ("show", SHOW), ("replay", REPLAY), ("ctl", CTL)];

const ALL: &str = "\
otp-procs: supervises real processes by the rules of OTP's supervisor

  otp-procs run TREE [COMMANDS] [--log FILE] [--json] [--control FOLDER | --no-control] [--cgroup auto] [--main PATH]
  otp-procs check TREE [COMMANDS]     what does a second crash cost; are both files as they should be, the programs there?
  otp-procs diff TREE [COMMANDS]      what would a reload of the running daemon to these files do?
  otp-procs show TREE                 prints the tree of a file that has commands, too
  otp-procs replay TREE LOG [--run N] does a log (--json) have the orders that the rules give?
  otp-procs ctl [--control FOLDER] [--within TIME] REQUEST
  otp-procs --version

TREE is a tree file, COMMANDS says what each start word runs; one file may have both. otp-procs COMMAND --help
tells more of a command.
REQUEST is one of:

";

const RUN: &str = "\
otp-procs run TREE [COMMANDS] [--log FILE] [--json] [--control FOLDER | --no-control] [--cgroup auto] [--main PATH]

Runs the tree of the file TREE until it has ended. What its children run stands in them, as command = [..], or in
COMMANDS by their start words. TERM or INT shuts the
tree down in order, a second one kills all.

  --log FILE         the log goes to the end of FILE, and not to the standard error; HUP opens it anew
  --log-max SIZE     FILE is begun anew at this size, as 10M; the old one is FILE.1, that one FILE.2, and so on
  --log-keep N       so many old ones are kept: 5
  --json             each line of it is an object, as replay wants them
  --control FOLDER   where ctl finds the daemon: a folder of your own with mode 700. Without it OTP_CONTROL,
                     or else $XDG_RUNTIME_DIR/otp-procs or /tmp/otp-procs-UID
  --no-control       nowhere
  --main PATH        all runs for the process of this path, as in a container: its last exit status is that of the run,
                     and signals that say nothing to the daemon (USR1, USR2, QUIT, WINCH ..) are passed on to it
  --cgroup auto      each process has a control group (version 2) below the one that the daemon is in, which has to be
                     handed to it (systemd: Delegate=yes); in the place of auto: a folder of such a group

Its status: 0 it was told to shut down; 1 or 2 it never began, as a file, the control folder or these words are
refused; 3 more restarts than the root's intensity allows; 4 a child didn't start when the tree was opened; 5 a
significant child has ended; 6 all was killed; 7 the library refused what it should take
";

const CHECK: &str = "\
otp-procs check TREE [COMMANDS]

By the rules a crash counts for all that its supervisor has: where that restarts too often it stops them all and ends.
By default that is at the second crash within 5 s, whoever crashes, and ends the daemon. So check says for each service
what its first crash does, what a second one at the same moment does, and what comes of more.

It says first whether both files are as they should be, whether each start word has a table, and whether the programs
and folders are on this machine. Its status: 0 they are; 1 something is wrong; 2 these words are.
";

const DIFF: &str = "\
otp-procs diff TREE [COMMANDS] [--restart] [--control FOLDER | --old TREE [--old-commands COMMANDS]]

Says what a reload would do where the files of the running daemon were these: a line for each child that is stopped,
restarted or started, and for what changes at once (now) or at the next start (later). Nothing is changed.

  --control FOLDER         that of the daemon, as for ctl
  --old TREE               compares with this tree, as it stands after its start, and asks no daemon
  --old-commands COMMANDS  its file of commands, where it hasn't all
  --restart                as for ctl reload: those that would run otherwise are restarted

Its status: 0; 1 a file is refused, or no daemon answers; 2 these words are.
";

const SHOW: &str = "\
otp-procs show TREE

Prints the tree of a file whose children have commands, include others, or stand for several, as it is run: without
what is otp-procs's own, so that otp and otp check read it. Its status: 0; 1 the file is refused; 2 these words are.
";

const REPLAY: &str = "\
otp-procs replay TREE LOG [--run N]

Tells the events of a log (run --json) to a new tree, and says where an order differs. Of a log with several runs
it takes the last, or run N from 1. Its status: 0 the orders are those of the rules; 1 one differs, lines are
lost, or there is nothing to compare; 2 these words are wrong.
";

const CTL: &str = "\
otp-procs ctl [--control FOLDER] [--within TIME] REQUEST

Asks a daemon for something, and prints its answer.

  --control FOLDER   that of its run. Without it OTP_CONTROL, or else the one of $XDG_RUNTIME_DIR/otp-procs,
                     /tmp/otp-procs-UID and /run/user/UID/otp-procs where a daemon listens
  --within TIME      how long an answer is waited for: 500ms, 5s, 2m, 1h. Questions (status, which, count, tail)
                     have 10 s; what starts or stops something, and wait, has no end, and says after a while
                     for what. What was asked isn't taken back. For reload: how long it waits until no child is
                     starting or stopping.

Its status: 0 it was done; 1 it was refused, or there is no whole answer; 2 these words are wrong; of status PATH 3
and 4, too. REQUEST is one of:

";

/// The help of a command, or of all.
pub fn of(command: Option<&str>) -> String {
    match COMMANDS.iter().find(|(name, _)| Some(*name) == command) {
        Some(("ctl", text)) => format!("{text}{}\n", request::WORDS),
        Some((_, text)) => (*text).to_string(),
        None => format!("{ALL}{}\n", request::WORDS),
    }
}

/// What is said of a command that isn't there.
pub fn no_command(word: &str) -> String {
    let names = COMMANDS.iter().map(|(name, _)| *name);
    if word.is_empty() {
        return "say run, check, diff, show, replay or ctl; otp-procs --help tells more".to_string();
    }
    let near = near::question(word, names);
    format!(
        "there is no command {word}{near}; there are run, check, diff, show, replay and ctl, and otp-procs --help tells more"
    )
}
