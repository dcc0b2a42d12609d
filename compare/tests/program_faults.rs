//! A program with a fault is found out. Shell scripts stand in for the programs.

mod found;

use std::fs::{Permissions, set_permissions, write};
use std::os::unix::fs::PermissionsExt;
use std::path::Path;
use std::sync::Mutex;

use compare::programs::{Feed, Given, Holder, Program, Table};
use compare::runs::Worker;

/// The first difference that a script in the place of a program shows.
fn run(program: Program, script: &str, table: &Table, input: &[u8]) -> Option<String> {
    // A file that another thread's new process still has open cannot be run.
    static ONE: Mutex<()> = Mutex::new(());
    let _one = ONE.lock();
    let bin = Path::new(env!("CARGO_TARGET_TMPDIR"));
    let path = bin.join(program.name());
    write(&path, format!("#!/bin/sh\ncat >/dev/null\n{script}\n")).unwrap();
    set_permissions(path, Permissions::from_mode(0o755)).unwrap();
    let found = Holder::new(bin).run(program, Given { table, input, feed: Feed::Pipe });
    found.err().map(|difference| difference.to_string())
}

const LISTING: &str = r"printf 'text 3 issues 1 charged 0\nE38182\n0 4 0 0 0\n'";

fn listing(script: &str) -> Option<String> {
    run(Program::Listing, script, &Table::Rusts, &[0x24, 0xA2])
}

#[test]
fn no_fault() {
    assert_eq!(listing(LISTING), None);
}

#[test]
fn faults_of_listing() {
    let scripts = [
        "",
        r"printf 'text 3 issues 1 charged 0\nE38182\n0 4 0 0 0'",
        r"printf 'text 3 issues 1 charged 0\nE38182\n'",
        r"printf 'text 3 issues 1 charged 0\nE38184\n0 4 0 0 0\n'",
        r"printf 'text 3 issues 1 charged 1\nE38182\n0 4 0 0 0\n'",
        r"printf 'text 3 issues 1 charged 0\nE38182\n0 4 0 0\n'",
        r"printf 'text 3 issues 1 charged 0\nE38182\n0 4 0 0 3\n'",
        r"printf 'refused 3 0\n'",
        &format!("{LISTING}; echo more"),
        &format!("{LISTING}; echo more >&2"),
        &format!("{LISTING}; exit 1"),
        &format!("{LISTING}; kill -SEGV $$"),
    ];
    found::each(scripts, "input 2 bytes: 24A2\n", listing);
}

/// A private-use character adds nothing to the lines.
#[test]
fn faults_of_listing_with_private_use() {
    let listing = |script: &str| run(Program::Listing, script, &Table::Rusts, &[0x7C, 0x3A]);
    assert_eq!(listing(r"printf 'text 3 issues 0 charged 0\nEE8A90\n'"), None);
    let scripts = [
        r"printf 'text 3 issues 0 charged 0 private-use 1\nEE8A90\n'",
        r"printf 'text 3 issues 0 charged 0 1\nEE8A90\n'",
        r"printf 'text 3 issues 0 charged 0\nEE8A90\n1\n'",
        r"printf 'refused 11 0\n'",
    ];
    found::each(scripts, "input 2 bytes: 7C3A\n", listing);
}

#[test]
fn faults_of_encoding() {
    let encoding = |script: &str| run(Program::Encoding, script, &Table::Rusts, "Ａ".as_bytes());
    assert_eq!(encoding(r"printf 'coding 2 gap 0\n0E41\n'"), None);
    let scripts = [r"printf 'coding 2 gap 1\n0E41\n'", r"printf 'coding 2 gap 0\n0E42\n'"];
    found::each(scripts, "input 3 bytes: EFBCA1\n", encoding);
}

#[test]
fn faults_of_keys() {
    let keys = |script: &str| run(Program::Keys, script, &Table::Rusts, b"1\tA220A4\nx\n");
    let lines = r"printf '1\tあい\nline 2: malformed\n'";
    assert_eq!(keys(&format!("{lines}; echo 1 malformed >&2")), None);
    let scripts = [
        lines,
        &format!("{lines}; echo 2 malformed >&2"),
        r"printf '1\tあ い\nline 2: malformed\n'; echo 1 malformed >&2",
        r"printf '1\tあい\nline 1: malformed\n'; echo 1 malformed >&2",
        r"printf 'line 2: malformed\n1\tあい\n'; echo 1 malformed >&2",
    ];
    found::each(scripts, "input 11 bytes: 3109413232304134", keys);
}

/// A private-use character alone; with an issue, which question 10 finds before.
#[test]
fn faults_of_keys_with_private_use() {
    let keys = |script: &str| run(Program::Keys, script, &Table::Rusts, b"1\t7C3A\n2\t7C3AA0\n");
    assert_eq!(keys(r"printf '1\trefused 11 0\n2\trefused 10 0\n'"), None);
    let scripts = [
        r"printf '1\t\356\212\220\n2\trefused 10 0\n'",
        r"printf '1\trefused 10 0\n2\trefused 10 0\n'",
        r"printf '1\trefused 11 0\n2\trefused 11 0\n'",
        r"printf '1\trefused 11\n2\trefused 10\n'",
    ];
    found::each(scripts, "input 16 bytes: 3109374333410A", keys);
}

/// Without `jis.tab` that is said, once; a folder is refused, and that is said.
#[test]
fn faults_with_other_tables() {
    let absent = "echo 'jis.tab: absent, so every kanji is undefined' >&2";
    let with = |table: &Table, script: &str| run(Program::Listing, script, table, &[0x24, 0xA2]);
    assert_eq!(with(&Table::Absent, &format!("{absent}; {LISTING}")), None);
    assert!(with(&Table::Absent, LISTING).is_some());
    assert!(with(&Table::Absent, &format!("{absent}; {absent}; {LISTING}")).is_some());
    let folder = "echo 'jis.tab: Is a directory' >&2; echo refused 1 0";
    assert_eq!(with(&Table::Folder, folder), None);
    assert!(with(&Table::Folder, "echo refused 1 0").is_some());
    assert!(with(&Table::Folder, &format!("{absent}; {LISTING}")).is_some());
}
