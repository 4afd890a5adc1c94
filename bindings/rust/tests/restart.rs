//! The guide's program in C that keeps its table in a file: what becomes of links, permissions and muted rules.
#![cfg(unix)]

mod common;

use common::{folder, names, table};
use std::fs::{self, Permissions};
use std::os::unix::fs::{symlink, PermissionsExt};
use std::path::{Path, PathBuf};
use std::process::Command;
use std::sync::OnceLock;
use yeqontur::Table;

/// The program, built once.
fn program() -> &'static Path {
    static PROGRAM: OnceLock<PathBuf> = OnceLock::new();
    PROGRAM.get_or_init(|| {
        let root = Path::new(env!("CARGO_MANIFEST_DIR")).join("../..");
        let program = folder("c_program").join("restart");
        let mut cc = Command::new("cc");
        cc.args(["-std=c11", "-Iinclude", "-o"]).arg(&program);
        cc.args(["bindings/c/restart.c", "target/staticlib/libyeqontur.a"]);
        let built = cc.current_dir(root).status().expect("a compiler");
        assert!(built.success());
        program
    })
}

/// Starts the program, which adds a rule and saves. What it told as an error, if it did.
fn start(path: &Path) -> Result<(), String> {
    let ran = Command::new(program()).arg(path).output();
    let ran = ran.expect("the program");
    match ran.status.success() {
        true => Ok(()),
        false => Err(String::from_utf8(ran.stderr).expect("text")),
    }
}

fn set_mode(path: &Path, mode: u32) {
    fs::set_permissions(path, Permissions::from_mode(mode)).expect("another mode");
}

fn mode(path: &Path) -> u32 {
    fs::metadata(path).expect("a file").permissions().mode() & 0o777
}

/// How many rules the saved table has.
fn rules(path: &Path) -> usize {
    Table::load_from(path).expect("a table").rules().count()
}

/// A folder with the empty table saved as `table`, and the path of that.
fn saved(name: &str) -> (PathBuf, PathBuf) {
    let folder = folder(name);
    let path = folder.join("table");
    Table::new().save_to(&path).expect("a save");
    (folder, path)
}

#[test]
fn a_new_file_is_for_its_owner_alone() {
    let folder = folder("c_new");
    let path = folder.join("table");
    assert_eq!(start(&path), Ok(()));
    assert_eq!((rules(&path), mode(&path)), (4, 0o600));
    assert_eq!(names(&folder), ["table"]);
}

#[test]
fn the_new_file_has_the_permissions_of_the_old_one() {
    let (folder, path) = saved("c_permissions");
    for permissions in [0o600, 0o640, 0o666, 0o644] {
        Table::new().save_to(&path).expect("a save");
        set_mode(&path, permissions);
        assert_eq!(start(&path), Ok(()));
        assert_eq!((rules(&path), mode(&path)), (1, permissions));
    }
    assert_eq!(names(&folder), ["table"]);
}

#[test]
fn a_file_marked_read_only_is_not_replaced() {
    let (folder, path) = saved("c_read_only");
    set_mode(&path, 0o444);
    let told = start(&path).expect_err("an error");
    assert!(told.ends_with("table: Permission denied\n"), "{told}");
    assert_eq!((rules(&path), mode(&path)), (0, 0o444));
    assert_eq!(names(&folder), ["table"]);
}

#[test]
fn a_link_is_followed_and_stays() {
    let (folder, path) = saved("c_linked");
    let other = folder.join("other");
    fs::create_dir(&other).expect("a folder");
    let link = other.join("link");
    symlink("../table", &link).expect("a link");
    assert_eq!(start(&link), Ok(()));
    assert_eq!(rules(&path), 1);
    assert!(link.is_symlink() && !path.is_symlink());
    assert_eq!(names(&folder), ["other", "table"]);
    assert_eq!(names(&other), ["link"]);
}

#[test]
fn a_link_to_nothing_stays_and_nothing_is_created() {
    let folder = folder("c_dangling");
    let link = folder.join("link");
    symlink("table", &link).expect("a link");
    let told = start(&link).expect_err("an error");
    assert!(
        told.ends_with("link: No such file or directory\n"),
        "{told}"
    );
    assert!(link.is_symlink());
    assert_eq!(names(&folder), ["link"]);
}

/// It is one of the rules that are counted, and comes to the new file as it was.
#[test]
fn a_muted_rule_is_a_rule_and_stays_muted() {
    let (_, path) = saved("c_muted");
    let mut table = table(&[(200, &[], &[]), (201, &[], &[])]);
    assert_eq!(table.mute(0), Ok(()));
    table.save_to(&path).expect("a save");
    let ran = Command::new(program()).arg(&path).output();
    let told = String::from_utf8(ran.expect("the program").stdout).expect("text");
    assert!(told.starts_with("loaded: 2 rules\n"), "{told}");
    let loaded = Table::load_from(&path).expect("a table");
    let muted: Vec<bool> = loaded.rules().map(|rule| rule.muted).collect();
    assert_eq!(muted, [true, false, false]);
}

/// An earlier process of the same number left its new files behind: they are passed over, and stay.
#[test]
fn new_files_that_were_left_behind_are_passed_over() {
    let (folder, path) = saved("left_behind");
    let leave = r#"echo x > "$1.tmp-$$-0"; echo x > "$1.tmp-$$-1"; exec "$0" "$1""#;
    let mut shell = Command::new("sh");
    shell.arg("-c").arg(leave).arg(program()).arg(&path);
    assert!(shell.status().expect("a shell").success());
    assert_eq!(rules(&path), 1);
    let left = names(&folder);
    assert_eq!(left.len(), 3, "{left:?}");
    let texts = left.iter().filter(|name| name.contains(".tmp-"));
    for name in texts {
        assert_eq!(fs::read(folder.join(name)).expect("a file"), b"x\n");
    }
}

#[test]
fn a_folder_is_neither_read_nor_replaced() {
    let folder = folder("c_folder");
    let told = start(&folder).expect_err("an error");
    assert!(told.ends_with("c_folder: Invalid argument\n"), "{told}");
    assert!(names(&folder).is_empty());
}
