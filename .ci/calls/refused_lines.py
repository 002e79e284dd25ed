"""Lines that are refused, a call each: those of events, and those of scripts. `play` runs them behind those of the tables."""

TREE = '[[child]]\nid = "a"\nstart = "a"\n'

# What `sim` tells of lines that it refuses, and the lines.
EVENTS = {
    "one space stands between two words: no tab, none twice, none at an end": [" ", "at ", " at 1", "at  1", "at 1 ", "up\t1", "stop "],
    "a number is missing, as in at 1500 or up 1": ["at", "up", "exit"],
    "not a time: write milliseconds in digits alone, as in at 1500": ["at 01", "at -1", "at 1x", "at 1s"],
    "too large a number: write at most 4611686018427387904": ["at 4611686018427387905", "at 99999999999999999999"],
    "not a process number: write digits alone, with no zero in front, as in up 1": ["up one", "up 01", "exit a normal"],
    "write the number without #, as in up 1": ["up #1", "exit #1 normal"],
    "more words than the line may have": ["up 1 2", "exit 1 error:a b", "stop now", "which a", "start a b permanent false 1 worker x"],
    "a reason is missing: write one like normal, shutdown, kill or error:TEXT": ["exit 1"],
    "not a reason: write normal, shutdown, shutdown:TEXT, kill, killed, noproc or error:TEXT": ["exit 1 error", "exit 1 Normal"],
    "behind error: and shutdown: stand 1 to 64 printable bytes, none of them a space": [
        "exit 1 error:",
        "exit 1 error:\x7f",
        "exit 1 error:" + "a" * 65,
        "fail 1 shutdown:",
    ],
    "words are missing: write start ID START RESTART SIGNIFICANT SHUTDOWN TYPE": ["start a", "start a b permanent false 1"],
    "not a restart type: write permanent, transient or temporary": ["start a b always false 1 worker"],
    "significant is true or false": ["start a b permanent yes 1 worker"],
    "not a shutdown: write milliseconds, at most 4294967295, brutal_kill or infinity": ["start a b permanent false 4294967296 worker"],
    "not a type: write worker or supervisor": ["start a b permanent false 1 process"],
    "a child's id is missing: write 1 to 32 bytes of a-z A-Z 0-9 _ - .": ["terminate", "restart", "get"],
    "not a child: write its id, or a process number like #3": ["terminate #", "terminate a/b"],
    "not a name: write 1 to 32 bytes of a-z A-Z 0-9 _ - .": ["get a/b", "get " + "a" * 33, "start a/b c permanent false 1 worker"],
    "a word has a letter outside of ASCII": ["get a\u00e9"],
    "a word has the letter U+0440, which only looks like p": ["u\u0440 1", "exit 1 sto\u0440"],
    "a word has the letter U+03BF, which only looks like o": ["st\u03bfp"],
    "a CR stands in it: save with LF alone": ["up 1\r", "stop\r"],
    "event lines have no comments: leave it out": ["# x", "#"],
    "a word of scripts, which otp try FILE SCRIPT plays": ["crash a", "expect up a", "every 2s crash a"],
    "unknown word: write at, up, ignore, fail, exit, stop, start, restart, delete, terminate, get, which or count": ["Which", "stopped", "upp 1"],
    "more than 512 bytes": ["x" * 513],
}

# What `try` tells of lines, and the lines.
SCRIPTS = {
    "not a time: write one like 10s, 1.5s, 500ms, 2m, 1h, or 500 (milliseconds)": [
        "at 1.5ms",
        "at 1.s",
        "at .5s",
        "at 1.2345s",
        "at 1,5s",
        "at 1d",
        "at",
        "at soon",
        "at 05s",
        "+s",
        "slow a",
        "init a",
    ],
    "too large a time: write at most 1000000000000s": [
        "at 1000000000001h",
        "+4611686018427387905",
        "at 1000000000001s stop",
        "at 99999999999999999999999m",
    ],
    "behind every TIME stands how often, 1 to 10000: every 2s 20 times crash ID": [
        "every 2s crash a",
        "every 2s 0 times stop",
        "every 2s 10001 times stop",
        "every 2s 3 time stop",
    ],
    "a child is missing: write its id, or a process number like #3": ["crash", "hang  ", "sub/ exit", "crash # a"],
    "not a child: write its id, or a process number like #3, and a space behind it": ["crash sub/"],
    "not a child: no : or , stands behind it; a reason follows behind a space, as in crash db error:TEXT": ["crash a: boom", "hang a,"],
    "start adds a child: start ID START RESTART SIGNIFICANT SHUTDOWN TYPE; restart ID starts one that has ended": ["start a", "start x y"],
    "a child's id is missing: write 1 to 32 bytes of a-z A-Z 0-9 _ - .": ["fail", "ignore # a"],
    "not a child's id: write 1 to 32 bytes of a-z A-Z 0-9 _ - .": ["fail #1"],
    "a reason is missing: write one like normal, shutdown, kill or error:TEXT": ["exit a"],
    "not a reason: write normal, shutdown, shutdown:TEXT, kill, killed, noproc or error:TEXT": ["exit a badly", "crash a error:"],
    "too long a reason: behind error: or shutdown: stand 1 to 64 bytes": [
        "crash a error:" + "0" * 65,
        "fail a shutdown:" + "0" * 65,
    ],
    "more words than the line may have; a comment begins with # after a blank": [
        "crash a error:" + "0" * 64 + " x",
        "hang a now",
    ],
    "stop stands alone; terminate ID stops a child, and PATH/ stop the supervisor there": ["stop #3", "stop a"],
    "other words stand behind this call; write which, count, get ID, restart ID, terminate ID, delete ID or "
    "start ID START RESTART SIGNIFICANT SHUTDOWN TYPE": ["get", "which all", "restart pool/sub/x/", "count  #3 #"],
    "unknown word; a comment begins with #": ["// a", " //  a", "; a", "-- a", "% a"],
    "unknown word; a time is written at 5s, or +5s for so long after the line before": [
        "5s crash a",
        "3 times crash a",
        "03:12:00 crash a",
        "in 5s",
        "sleep 5",
        "wait 5s",
    ],
    "unknown word; this looks like a line of a log, which otp replay FILE LOG plays": ["2026-11-26T20:49:00Z crash a", "2026-11-26 x"],
    "unknown word; what happens comes first, as in crash db, or behind a path, as in pool/ stop": ["pool stop", "a crash", "pool/crash a"],
    "a word has the letter U+0430, which only looks like a": ["cr\u0430sh a"],
    "a word has the letter U+0441, which only looks like c": ["\u0441rash a"],
    "unknown word: it has a letter outside of ASCII": ["cr\u00e4sh a"],
    "unknown word: did you mean crash?": ["kill a", "CRASH a", "Crash a"],
    "unknown word: did you mean expect?": ["assert up a", "up a"],
    "unknown word: did you mean every?": ["repeat 5 crash a"],
    "unknown word: did you mean which?": ["which#"],
    "unknown word: did you mean restart?": ["restrat x"],
}


def calls(make):
    """All of them; `make` makes a call, as `play` has it."""
    for fault, refused in EVENTS.items():
        for line in refused:
            lines = f"up 1\n{line}\nstop\n".encode()
            told = f"tip: otp help lines says which lines there are\nline 2 refused: {fault}\n".encode()
            yield make(f"refused: {line!r}", ["sim", "tree"], {"tree": TREE.encode()}, lines, b"start a #1\nready\n", told, 3)
    shows = b"0.000 s  start a #1\n0.000 s  ready\n"
    for fault, lines in SCRIPTS.items():
        for line in lines:
            files = {"tree": TREE.encode(), "script": f"{line}\nstop\n".encode()}
            yield make(f"refused: {line!r}", ["try", "tree", "script"], files, b"", shows, f"script:1: {fault}\n".encode(), 5)
