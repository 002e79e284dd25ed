//! `ctl page`: that it tells what is, that no text becomes markup, and that whoever visits it keeps nobody waiting.

mod common;

use common::daemon::{CONT, Daemon, KILL, PATIENCE, PROGRAM, STOP, TERM, new_folder, send, ticks_of, wait_until};
use std::fs;
use std::io::{BufRead, BufReader, Read, Write};
use std::net::TcpStream;
use std::os::unix::fs::{FileTypeExt, PermissionsExt};
use std::os::unix::net::UnixStream;
use std::path::{Path, PathBuf};
use std::process::{Child, Command, Stdio};
use std::thread;
use std::time::{Duration, Instant};

fn child(id: &str, more: &str) -> String {
    format!("[[child]]\nid = \"{id}\"\nstart = \"{id}\"\n{more}\n")
}

const STEADY: &str = "[a]\ncommand = ['sleep', '1000']\n";
const SIMPLE: &str =
    "[child.tree]\nstrategy = \"simple_one_for_one\"\n[[child.tree.child]]\nid = \"d\"\nstart = \"a\"\n";

/// A page that is served.
struct Served {
    child: Child,
    /// As it was printed.
    address: String,
}

impl Served {
    fn start(daemon: &Daemon, words: &[&str]) -> Served {
        let mut command = Command::new(PROGRAM);
        command.args(["ctl", "--control"]).arg(daemon.folder.join("control")).args(["page", "--serve"]).args(words);
        let mut child = command.current_dir(&daemon.folder).stdout(Stdio::piped()).spawn().unwrap();
        let mut address = String::new();
        BufReader::new(child.stdout.take().unwrap()).read_line(&mut address).unwrap();
        Served { child, address: address.trim_end().to_string() }
    }

    fn socket(&self) -> PathBuf {
        PathBuf::from(self.address.strip_prefix("unix:").unwrap())
    }

    fn end(&mut self, signal: i32) -> Option<i32> {
        assert!(send(self.child.id() as i32, signal));
        self.child.wait().unwrap().code()
    }
}

impl Drop for Served {
    fn drop(&mut self) {
        let _ = self.child.kill();
        let _ = self.child.wait();
    }
}

fn connect(socket: &Path) -> UnixStream {
    let stream = UnixStream::connect(socket).unwrap();
    stream.set_read_timeout(Some(PATIENCE)).unwrap();
    stream
}

/// The answer to these bytes. A visitor that sends too much may not get them all away.
fn ask(socket: &Path, request: &str) -> String {
    let mut stream = connect(socket);
    let _ = stream.write_all(request.as_bytes());
    let mut answer = Vec::new();
    let _ = stream.read_to_end(&mut answer);
    String::from_utf8(answer).unwrap()
}

fn get(socket: &Path, path: &str) -> String {
    ask(socket, &format!("GET {path} HTTP/1.1\r\nHost: x\r\n\r\n"))
}

/// The value of an attribute of the page.
fn attribute<'a>(page: &'a str, name: &str) -> &'a str {
    let (_, rest) = page.split_once(&format!("{name}=\"")).unwrap();
    rest.split('"').next().unwrap()
}

/// Reads events until one has this text; all that was read.
fn read_until(reader: &mut impl BufRead, wanted: &str) -> String {
    let mut text = String::new();
    while !text.contains(wanted) {
        let mut line = String::new();
        assert!(reader.read_line(&mut line).unwrap() > 0, "no {wanted} in {text}");
        text += &line;
    }
    text
}

/// Follows the page from this mark on.
fn follow(socket: &Path, mark: &str) -> BufReader<UnixStream> {
    let mut stream = connect(socket);
    stream.write_all(format!("GET /events?after={mark} HTTP/1.1\r\n\r\n").as_bytes()).unwrap();
    let mut reader = BufReader::new(stream);
    let head = read_until(&mut reader, "\r\n\r\n:\n");
    assert!(head.starts_with("HTTP/1.1 200 OK\r\n") && head.contains("Content-Type: text/event-stream\r\n"), "{head}");
    reader
}

fn pid_of(daemon: &Daemon, path: &str, count: usize) -> i32 {
    let is_it = |line: &common::daemon::Line| line.get("order") == "start" && line.get("path") == path;
    wait_until("it was started", || daemon.log().iter().filter(|line| is_it(line)).count() >= count);
    daemon.log().into_iter().filter(is_it).nth(count - 1).unwrap().number("pid") as i32
}

/// The line of a part of a page.
fn part<'a>(page: &'a str, id: &str) -> &'a str {
    page.lines().find(|line| line.contains(&format!(" id=\"{id}\""))).unwrap_or_else(|| panic!("no {id} in {page}"))
}

#[test]
fn a_page_tells_what_is_and_no_text_becomes_markup() {
    let says = "<script>alert(1)</script></pre><img src=x onerror=alert(2)>";
    let commands = format!(
        "{STEADY}[says]\ncommand = ['sh', '-c', 'echo \"$0\"; printf \"\\033[31m \\001\\377 &amp; \\342\\200\\256x\\n\"; exec sleep 1000', '{says}']\noutput = 'log'\n\
         [held]\ncommand = ['sh', '-c', 'echo no config; exit 78']\noutput = 'log'\nrestart_after = ['10ms', '10s']\n\
         give_up_after = 1\non_give_up = 'hold'\n[missing]\ncommand = ['/no/such/program']\nrestart_after = '1h'\n"
    );
    let transient = "restart = \"transient\"";
    let tree = [
        "intensity = 9\nperiod = 100\n".to_string(),
        child("a", ""),
        child("says", ""),
        child("held", transient),
        child("missing", transient),
        format!("[[child]]\nid = \"pool\"\nstart = \"a\"\n{SIMPLE}"),
    ];
    let mut daemon = Daemon::start(&tree.concat(), &commands);
    daemon.wait_ready();
    send(pid_of(&daemon, "a", 1), 11);
    let pid = pid_of(&daemon, "a", 2);
    daemon.wait_for("held", |line| line.get("remark") == "held");
    wait_until("it has said all", || daemon.ctl(&["tail", "says"]).1.lines().count() == 2);
    assert!(daemon.ctl(&["start", "pool/"]).0);
    let (is_done, page) = daemon.ctl(&["page"]);
    assert!(is_done && page.starts_with("<!DOCTYPE html>\n") && page.ends_with("</html>\n"), "{page}");
    let a = part(&page, "k0.a");
    assert!(a.contains(&format!("pid {pid}<")) && a.contains("1 restart<") && a.contains("signal 11 (SEGV)"), "{a}");
    assert!(part(&page, "s0").contains("1 of 9 restarts in 100 s"), "{page}");
    assert!(page.contains("class=\"kid up\"><b class=\"name\" title=\"pool/#"), "{page}");
    // What isn't up stands in front of the tree.
    let first = part(&page, "first");
    assert!(page.find("id=\"first\"").unwrap() < page.find("id=\"s0\"").unwrap());
    assert!(first.contains(">held</a>") && first.contains("held, after 2 ends in a row"), "{first}");
    assert!(first.contains("status 78") && first.contains("<pre>no config&#10;no config</pre>"), "{first}");
    assert!(
        first.contains(">missing</a>") && first.contains("last start failed: /no/such/program doesn&#39;t start"),
        "{first}"
    );
    assert!(attribute(&page, "data-title").starts_with("2 down: "), "{page}");
    let said = part(&page, "k0.says");
    assert!(said.contains("&lt;script&gt;alert(1)&lt;/script&gt;&lt;/pre&gt;&lt;img"), "{said}");
    assert!(said.contains("␛[31m ␁\u{fffd} &amp;amp; \u{fffd}x"), "{said}");
    assert!(!page.contains("<script") && !page.contains("<img") && !page.contains("://"), "{page}");
    // Each element that was opened is closed.
    for tag in ["ul", "li", "section", "span", "details", "pre", "code", "b", "div", "main", "body"] {
        let opened = page.matches(&format!("<{tag}>")).count() + page.matches(&format!("<{tag} ")).count();
        assert_eq!(opened, page.matches(&format!("</{tag}>")).count(), "{tag}");
    }
    assert_eq!(daemon.stop(), 0);
    daemon.replay();
}

#[test]
fn a_page_of_500_processes_takes_little_of_the_daemon() {
    let kids: String =
        (0..250).map(|number| format!("[[child.tree.child]]\nid = \"a{number}\"\nstart = \"a\"\n")).collect();
    let pool = |id: &str| format!("[[child]]\nid = \"{id}\"\nstart = \"a\"\n[child.tree]\n{kids}");
    let commands = "[a]\ncommand = ['sh', '-c', 'for i in 1 2 3 4 5 6 7 8; do echo \"<$i> a line & so on\"; done; exec sleep 1000']\noutput = 'log'\n";
    let mut daemon = Daemon::start(&[pool("p"), pool("q")].concat(), commands);
    let begun = Instant::now();
    while !daemon.log().iter().any(|line| line.get("order") == "ready") {
        assert!(begun.elapsed() < 5 * PATIENCE, "500 processes don't start");
        thread::sleep(Duration::from_millis(200));
    }
    wait_until("all is said", || daemon.read("log").matches("<8> a line").count() == 500);
    let before = ticks_of(daemon.pid());
    let mut served = Served::start(&daemon, &[]);
    for _ in 0..3 {
        let (is_done, page) = daemon.ctl(&["page"]);
        assert!(is_done && page.matches("class=\"kid up\"").count() == 500 && page.len() < 1_000_000, "{}", page.len());
        assert!(get(&served.socket(), "/").matches("class=\"kid up\"").count() == 500);
    }
    // Half a second of processor time for a page at the most, by a program that isn't optimised.
    let took = ticks_of(daemon.pid()) - before;
    assert!(took < 300, "{took} ticks");
    assert_eq!(served.end(TERM), Some(0));
    daemon.signal(TERM);
    wait_until("it stops", || daemon.read("log").contains("\"event\":\"stop\""));
    daemon.signal(KILL);
    daemon.wait();
}

#[test]
fn a_socket_is_its_users_alone_and_goes_with_who_serves_it() {
    let mut daemon = Daemon::start(&child("a", ""), STEADY);
    daemon.wait_ready();
    let mut served = Served::start(&daemon, &[]);
    let socket = served.socket();
    assert_eq!(socket, daemon.folder.join("control/page"));
    let found = socket.symlink_metadata().unwrap();
    assert!(found.file_type().is_socket());
    assert_eq!(found.permissions().mode() & 0o7777, 0o600);
    // A place isn't taken twice, and what is no socket is left alone.
    let other = |words: &[&str]| {
        let mut command = Command::new(PROGRAM);
        command.args(["ctl", "--control"]).arg(daemon.folder.join("control")).args(["page", "--serve"]).args(words);
        let output = command.current_dir(&daemon.folder).output().unwrap();
        (output.status.code(), String::from_utf8(output.stderr).unwrap())
    };
    let (status, text) = other(&[]);
    assert!(status == Some(1) && text.contains("is served already"), "{text}");
    let (status, text) = other(&["unix:tree.toml"]);
    assert!(status == Some(1) && text.contains("is no socket") && daemon.folder.join("tree.toml").exists(), "{text}");
    assert_eq!(other(&["0.0.0.0:0"]).0, Some(2));
    // Whoever was killed leaves its socket, which the next takes over.
    served.end(KILL);
    assert!(socket.exists());
    let mut served = Served::start(&daemon, &[]);
    assert!(get(&socket, "/").starts_with("HTTP/1.1 200 OK\r\n"));
    assert_eq!(served.end(TERM), Some(0));
    assert!(!socket.exists());
    let mut served = Served::start(&daemon, &["unix:other"]);
    assert!(get(&daemon.folder.join("other"), "/").contains("<main data-mark="));
    assert_eq!(served.end(common::daemon::INT), Some(0));
    assert_eq!(daemon.stop(), 0);
}

#[test]
fn each_wrong_request_has_its_status() {
    let mut daemon = Daemon::start(&child("a", ""), STEADY);
    daemon.wait_ready();
    let served = Served::start(&daemon, &[]);
    let socket = served.socket();
    let page = get(&socket, "/");
    let (head, body) = page.split_once("\r\n\r\n").unwrap();
    assert!(head.contains(&format!("Content-Length: {}\r\n", body.len())), "{head}");
    // What may run is known by a word that nobody guesses.
    let nonce = attribute(body, "<script nonce");
    assert!(nonce.len() == 32 && head.contains(&format!("script-src 'nonce-{nonce}'; connect-src 'self'")), "{head}");
    assert!(head.contains("default-src 'none'") && head.contains("X-Content-Type-Options: nosniff\r\n"), "{head}");
    assert_ne!(attribute(&get(&socket, "/"), "<script nonce"), nonce);
    let head = ask(&socket, "HEAD / HTTP/1.1\r\n\r\n");
    assert!(head.starts_with("HTTP/1.1 200 OK\r\n") && head.ends_with("\r\n\r\n"), "{head}");
    for (request, status) in [
        ("GET /../../etc/passwd HTTP/1.1\r\n\r\n", 404),
        ("GET /..%2f..%2fetc HTTP/1.1\r\n\r\n", 404),
        ("GET //x/.. HTTP/1.1\r\n\r\n", 404),
        ("GET ../x HTTP/1.1\r\n\r\n", 400),
        ("POST / HTTP/1.1\r\nContent-Length: 3\r\n\r\nabc", 405),
        ("DELETE /events HTTP/1.1\r\n\r\n", 405),
        ("OPTIONS * HTTP/1.1\r\n\r\n", 400),
        ("GET / HTTP/2\r\n\r\n", 505),
        ("shutdown\n", 400),
        ("\u{0}\u{1}\u{2}\n", 400),
        ("GET / HTTP/1.1\r\nno field\r\n\r\n", 400),
    ] {
        let answer = ask(&socket, request);
        assert!(answer.starts_with(&format!("HTTP/1.1 {status} ")), "{request:?}: {answer}");
    }
    for endless in [format!("GET /{}", "x".repeat(100_000)), format!("GET / HTTP/1.1\r\n{}", "a: b\r\n".repeat(20_000))]
    {
        assert!(ask(&socket, &endless).starts_with("HTTP/1.1 431 "));
    }
    // One that is slow has five seconds for all of its head.
    let mut slow = connect(&socket);
    let begun = Instant::now();
    while slow.write_all(b"G").is_ok() && begun.elapsed() < Duration::from_secs(8) {
        thread::sleep(Duration::from_millis(200));
    }
    let mut answer = String::new();
    let _ = slow.read_to_string(&mut answer);
    assert!(answer.is_empty() || answer.starts_with("HTTP/1.1 408 "), "{answer}");
    assert!(begun.elapsed() >= Duration::from_secs(5));
    // A visitor that has closed its own half gets its answer.
    let mut half = connect(&socket);
    half.write_all(b"GET / HTTP/1.1\r\n\r\n").unwrap();
    half.shutdown(std::net::Shutdown::Write).unwrap();
    let mut answer = String::new();
    half.read_to_string(&mut answer).unwrap();
    assert!(answer.ends_with("</html>\n"), "{answer}");
    assert_eq!(daemon.stop(), 0);
}

#[test]
fn on_this_machine_a_token_is_wanted() {
    let mut daemon = Daemon::start(&child("a", ""), STEADY);
    daemon.wait_ready();
    let served = Served::start(&daemon, &["127.0.0.1:0"]);
    let (host, token) = served.address.strip_prefix("http://").unwrap().split_once("/?token=").unwrap();
    assert!(token.len() == 32 && token.bytes().all(|byte| byte.is_ascii_hexdigit()), "{token}");
    let ask = |request: &str| {
        let mut stream = TcpStream::connect(host).unwrap();
        stream.set_read_timeout(Some(PATIENCE)).unwrap();
        stream.write_all(request.as_bytes()).unwrap();
        let mut answer = String::new();
        stream.read_to_string(&mut answer).unwrap();
        answer
    };
    for right in [
        format!("GET /?token={token} HTTP/1.1\r\n\r\n"),
        format!("GET / HTTP/1.1\r\nAuthorization: Bearer {token}\r\n\r\n"),
    ] {
        let answer = ask(&right);
        assert!(answer.starts_with("HTTP/1.1 200 OK\r\n") && !answer.contains(token), "{answer}");
    }
    for wrong in [
        "GET / HTTP/1.1\r\n\r\n".to_string(),
        "GET /events HTTP/1.1\r\n\r\n".to_string(),
        "GET /nothing HTTP/1.1\r\n\r\n".to_string(),
        format!("GET /?token={token}x HTTP/1.1\r\n\r\n"),
        format!("GET /?token={} HTTP/1.1\r\n\r\n", "0".repeat(32)),
        format!("GET /?token={} HTTP/1.1\r\n\r\n", &token[..31]),
        format!("GET / HTTP/1.1\r\nAuthorization: Basic {token}\r\n\r\n"),
        format!("POST / HTTP/1.1\r\nX: token={token}\r\n\r\n"),
    ] {
        let answer = ask(&wrong);
        assert!(answer.starts_with("HTTP/1.1 403 Forbidden\r\n") && !answer.contains("<html"), "{wrong}: {answer}");
    }
    assert_eq!(daemon.stop(), 0);
}

#[test]
fn who_follows_is_told_what_happens_and_nothing_else() {
    let commands = format!(
        "{STEADY}[b]\ncommand = ['sh', '-c', 'read x < {{folder}}/fifo; echo \"$x\"; exec sleep 1000']\noutput = 'log'\n"
    );
    let folder = new_folder();
    assert!(Command::new("mkfifo").arg(folder.join("fifo")).status().unwrap().success());
    let tree = [
        "intensity = 9\n",
        &child("a", ""),
        &child("b", ""),
        &format!("{}{SIMPLE}", child("pool", "").replace("\"pool\"\n\n", "\"pool\"\n")),
    ];
    fs::write(folder.join("tree.toml"), tree.concat()).unwrap();
    fs::write(folder.join("commands.toml"), commands.replace("{folder}", folder.to_str().unwrap())).unwrap();
    let mut daemon = Daemon::start_in(folder, &["--json", "--log", "log", "--control", "control"]);
    daemon.wait_ready();
    let served = Served::start(&daemon, &[]);
    let socket = served.socket();
    let mark = attribute(&get(&socket, "/"), "<main data-mark").to_string();
    let mut follower = follow(&socket, &mark);
    send(pid_of(&daemon, "a", 1), KILL);
    let pid = pid_of(&daemon, "a", 2);
    let text = read_until(&mut follower, &format!("pid {pid}<"));
    // The parts that differ come alone.
    assert!(text.contains("event: parts\nid: ") && !text.contains("event: whole"), "{text}");
    assert!(text.contains("data: <li id=\"k0.a\"") && !text.contains("id=\"k0.b\""), "{text}");
    // What a process says is told as well.
    fs::write(daemon.folder.join("fifo"), "a <word>\n").unwrap();
    read_until(&mut follower, "<code>a &lt;word&gt;</code>");
    // Restarts leave their period, though nothing happens.
    read_until(&mut follower, "0 of 9 restarts in 5 s");
    // Where a child is added all comes, as it does for one that has another page.
    assert!(daemon.ctl(&["start", "pool/"]).0);
    let text = read_until(&mut follower, "title=\"pool/#");
    assert!(text.contains("event: whole\nid: "), "{text}");
    let mut other = follow(&socket, "1-1");
    read_until(&mut other, "event: whole\nid: ");
    // Who has followed may go on where it was.
    let mut again = connect(&socket);
    let last = attribute(&get(&socket, "/"), "<main data-mark").to_string();
    again.write_all(format!("GET /events?after=1-1 HTTP/1.1\r\nLast-Event-ID: {last}\r\n\r\n").as_bytes()).unwrap();
    let mut again = BufReader::new(again);
    assert!(daemon.ctl(&["stop", "a"]).0);
    let text = read_until(&mut again, "stopped");
    assert!(!text.contains("event: whole"), "{text}");
    // The daemon ends, and another begins: a browser needs do nothing.
    assert_eq!(daemon.stop(), 0);
    read_until(&mut follower, "event: gone\ndata: ");
    assert!(get(&socket, "/").starts_with("HTTP/1.1 503 "));
    daemon.start_again(&["--json", "--log", "log", "--control", "control"]);
    read_until(&mut follower, "event: whole\nid: ");
    assert_eq!(daemon.stop(), 0);
}

#[test]
fn many_visitors_and_slow_ones_keep_nobody_waiting() {
    let mut daemon = Daemon::start(&child("a", ""), STEADY);
    daemon.wait_ready();
    let served = Served::start(&daemon, &[]);
    let socket = served.socket();
    let mark = attribute(&get(&socket, "/"), "<main data-mark").to_string();
    // Many say nothing: the first make room for those that come.
    let idle: Vec<UnixStream> = (0..200).map(|_| connect(&socket)).collect();
    assert!(get(&socket, "/").starts_with("HTTP/1.1 200 OK\r\n"));
    let mut turned_away = String::new();
    (&idle[0]).read_to_string(&mut turned_away).unwrap();
    assert!(turned_away.starts_with("HTTP/1.1 503 "), "{turned_away}");
    drop(idle);
    // So many follow, and others are told that there is no place.
    let followers: Vec<_> = (0..48).map(|_| follow(&socket, &mark)).collect();
    assert!(get(&socket, &format!("/events?after={mark}")).starts_with("HTTP/1.1 503 "));
    // They read nothing while much happens.
    for count in 1..=20 {
        assert!(daemon.ctl(&["restart", "a"]).0, "{count}");
    }
    // A page that another has seen just now may be shown.
    wait_until("all is shown", || get(&socket, "/").contains("20 restarts<"));
    // For all of them the daemon has two clients.
    let sockets = fs::read_dir(format!("/proc/{}/fd", daemon.pid())).unwrap();
    let is_socket =
        |entry: &fs::DirEntry| fs::read_link(entry.path()).is_ok_and(|to| to.to_string_lossy().starts_with("socket:"));
    let count = sockets.filter_map(Result::ok).filter(is_socket).count();
    assert!(count <= 4, "{count}");
    for mut follower in followers {
        read_until(&mut follower, "20 restarts<");
    }
    assert_eq!(daemon.stop(), 0);
}

#[test]
fn a_daemon_that_stands_still_is_waited_for_a_while_and_asked_once() {
    let mut daemon = Daemon::start(&child("a", ""), STEADY);
    daemon.wait_ready();
    let served = Served::start(&daemon, &[]);
    let socket = served.socket();
    assert!(get(&socket, "/").starts_with("HTTP/1.1 200 OK\r\n"));
    daemon.signal(STOP);
    // The page that was just shown is young for a moment.
    let mut answer = get(&socket, "/");
    wait_until("it isn't young any more", || {
        let is_young = answer.starts_with("HTTP/1.1 200 OK\r\n");
        if is_young {
            answer = get(&socket, "/");
        }
        !is_young
    });
    assert!(answer.starts_with("HTTP/1.1 504 Gateway Timeout\r\n"), "{answer}");
    // Others have their statuses meanwhile.
    assert!(get(&socket, "/nothing").starts_with("HTTP/1.1 404 "));
    daemon.signal(CONT);
    wait_until("it goes on", || get(&socket, "/").starts_with("HTTP/1.1 200 OK\r\n"));
    assert_eq!(daemon.stop(), 0);
}
