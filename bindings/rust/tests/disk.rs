//! Tables on disk: what is saved is loaded, and whatever goes wrong is told and leaves the old file.
#![cfg(unix)] // permissions, links and limits are those of Unix

mod common;

use common::{folder, given, names, process, process_of, table};
use std::env;
use std::error::Error;
use std::fs::{self, File, Permissions};
use std::io::{self, ErrorKind, Write};
use std::os::unix::fs::{symlink, PermissionsExt};
use std::os::unix::net::UnixListener;
use std::os::unix::process::CommandExt;
use std::path::{Path, PathBuf};
use std::process::{Command, Output};
use yeqontur::{raw, LoadError, Refusal, Table};

fn old() -> Table {
    table(&[(1, &[], &[])])
}

/// Longer than a block, so that a write can fail in its middle.
fn new() -> Table {
    let mut t = Table::new();
    (0..200).for_each(|atom| assert!(t.add(atom, &[], &[]).is_ok()));
    t
}

/// A folder with the old table saved as `table`, and the path of that.
fn saved(name: &str) -> (PathBuf, PathBuf) {
    let folder = folder(name);
    let path = folder.join("table");
    old().save_to(&path).expect("a save");
    (folder, path)
}

fn set_mode(path: &Path, mode: u32) {
    fs::set_permissions(path, Permissions::from_mode(mode)).expect("another mode");
}

fn mode(path: &Path) -> u32 {
    fs::metadata(path).expect("a file").permissions().mode() & 0o777
}

fn holds(path: &Path, t: &Table) -> bool {
    Table::load_from(path).is_ok_and(|loaded| loaded == *t)
}

/// The kind of the error that saving meets.
fn refuses(path: impl AsRef<Path>) -> ErrorKind {
    new().save_to(path).expect_err("an error").kind()
}

/// The words of the error that loading meets.
fn words(path: &Path) -> String {
    Table::load_from(path).expect_err("an error").to_string()
}

#[test]
fn what_is_saved_is_loaded_and_nothing_else_is_left() {
    let (folder, path) = saved("saved");
    assert!(holds(&path, &old()));
    new().save_to(&path).expect("a save");
    assert!(holds(&path, &new()));
    Table::new().save_to(&path).expect("a save");
    assert!(holds(&path, &Table::new()));
    assert_eq!(fs::read(&path).expect("a file"), Table::new().save());
    assert_eq!(names(&folder), ["table"]);
}

#[test]
fn a_folder_that_is_not_there() {
    let folder = folder("no_folder");
    assert_eq!(refuses(folder.join("none/table")), ErrorKind::NotFound);
    assert!(names(&folder).is_empty());
}

#[test]
fn a_path_that_is_no_file_s() {
    let folder = folder("no_file");
    let inside = folder.join("inside");
    fs::create_dir(&inside).expect("a folder");
    for path in [&folder, &inside, &inside.join(".."), Path::new("/")] {
        assert_eq!(refuses(path), ErrorKind::InvalidInput, "{path:?}");
    }
    assert_eq!(refuses(""), ErrorKind::InvalidInput);
    assert!(new().save_to(folder.join("none/")).is_err());
    let error = new().save_to(&inside).expect_err("an error");
    let words = "the path leads to something that is not a file";
    assert_eq!(error.to_string(), words);
    assert_eq!(names(&folder), ["inside"]);
    assert!(names(&inside).is_empty());
}

/// Nor is a device or a pipe: a rename would replace it, and a refused file is moved aside by those who load it.
#[test]
fn a_socket_is_neither_replaced_nor_read() {
    let folder = folder("socket");
    let path = folder.join("socket");
    let _socket = UnixListener::bind(&path).expect("a socket");
    assert_eq!(refuses(&path), ErrorKind::InvalidInput);
    let told = Table::load_from(&path);
    assert!(matches!(told, Err(LoadError::Io(error)) if error.kind() == ErrorKind::InvalidInput));
    assert!(!fs::metadata(&path).expect("a socket").is_file());
    assert_eq!(names(&folder), ["socket"]);
}

#[test]
fn a_link_is_followed_and_stays() {
    let (folder, path) = saved("linked");
    let other = folder.join("other");
    fs::create_dir(&other).expect("a folder");
    let link = other.join("link");
    symlink(&path, &link).expect("a link");
    new().save_to(&link).expect("a save");
    assert!(holds(&path, &new()) && holds(&link, &new()));
    assert!(link.is_symlink() && !path.is_symlink());
    assert_eq!(
        (names(&folder), names(&other)),
        (vec!["other".into(), "table".into()], vec!["link".into()])
    );
}

/// One link leads to the next, each told from its own folder.
#[test]
fn a_link_to_a_file_that_is_not_there_yet_is_followed_and_stays() {
    let folder = folder("dangling");
    let other = folder.join("other");
    fs::create_dir(&other).expect("a folder");
    let (path, links) = (
        folder.join("table"),
        [folder.join("link"), other.join("next")],
    );
    symlink("other/next", &links[0]).expect("a link");
    symlink("../table", &links[1]).expect("a link");
    for t in [new(), old()] {
        t.save_to(&links[0]).expect("a save");
        assert!(holds(&path, &t) && holds(&links[0], &t));
        assert!(links.iter().all(|link| link.is_symlink()) && !path.is_symlink());
        assert_eq!(names(&folder), ["link", "other", "table"]);
        assert_eq!(names(&other), ["next"]);
    }
    fs::remove_file(&path).expect("a file");
    fs::remove_file(&links[1]).expect("a link");
    symlink(&path, &links[1]).expect("a link with the whole path");
    new().save_to(&links[0]).expect("a save");
    assert!(holds(&path, &new()));
    assert!(links.iter().all(|link| link.is_symlink()));
}

#[test]
fn a_link_that_leads_to_no_place_for_a_file_stays() {
    let folder = folder("dangling_folder");
    let link = folder.join("link");
    for target in ["none/table", "none/", "none/..", "link"] {
        symlink(target, &link).expect("a link");
        let error = new().save_to(&link).expect_err("an error");
        assert!(
            target != "none/table" || error.kind() == ErrorKind::NotFound,
            "{error}"
        );
        assert_eq!(fs::read_link(&link).expect("a link"), Path::new(target));
        assert_eq!(names(&folder), ["link"]);
        fs::remove_file(&link).expect("a link");
    }
}

#[test]
fn another_hard_link_keeps_the_old_table() {
    let (folder, path) = saved("hard_link");
    let other = folder.join("other");
    fs::hard_link(&path, &other).expect("a hard link");
    new().save_to(&path).expect("a save");
    assert!(holds(&path, &new()) && holds(&other, &old()));
}

#[test]
fn the_new_file_has_the_permissions_of_the_old_one() {
    let (_, path) = saved("permissions");
    for permissions in [0o600, 0o640, 0o666, 0o200 | 0o444] {
        set_mode(&path, permissions);
        new().save_to(&path).expect("a save");
        assert_eq!(mode(&path), permissions);
    }
}

#[test]
fn a_file_marked_read_only_is_not_replaced() {
    let (folder, path) = saved("read_only_file");
    set_mode(&path, 0o444);
    assert_eq!(refuses(&path), ErrorKind::PermissionDenied);
    assert!(holds(&path, &old()));
    assert_eq!((mode(&path), names(&folder).len()), (0o444, 1));
}

/// A process of its own, so that its user, its folder and its limits can be others.
#[test]
#[ignore = "a process that the tests below start"]
fn saves_and_loads() {
    let Some(path) = given() else { return };
    match new().save_to(&path) {
        Ok(()) => println!("saved"),
        Err(error) => println!("not saved: {error}"),
    }
    match Table::load_from(&path) {
        Ok(t) => println!("loaded {} rules", t.rules().count()),
        Err(error) => println!("not loaded: {error}"),
    }
}

/// What such a process printed.
fn printed(ran: io::Result<Output>) -> String {
    let ran = ran.expect("a process");
    assert!(ran.status.success(), "{ran:?}");
    String::from_utf8(ran.stdout).expect("text")
}

#[test]
fn a_file_named_without_its_folder() {
    let (folder, path) = saved("no_folder_named");
    symlink("linked", folder.join("link")).expect("a link");
    for name in ["table", "link"] {
        let mut program = process("saves_and_loads", Path::new(name));
        let told = printed(program.current_dir(&folder).output());
        assert!(told.contains("saved\nloaded 200 rules\n"), "{told}");
    }
    assert!(holds(&path, &new()) && holds(&folder.join("linked"), &new()));
    assert_eq!(names(&folder), ["link", "linked", "table"]);
}

/// A limit on the length of files stands for a full disk: the first blocks are written, then the write fails.
#[test]
fn a_write_that_fails_halfway_leaves_the_old_file() {
    let (folder, path) = saved("full");
    let inner = process("saves_and_loads", &path);
    let mut limited = Command::new("sh");
    limited.args(["-c", "trap '' XFSZ; ulimit -f 2; exec \"$0\" \"$@\""]);
    limited.arg(inner.get_program()).args(inner.get_args());
    limited.envs(
        inner
            .get_envs()
            .filter_map(|(name, value)| Some((name, value?))),
    );
    let told = printed(limited.output());
    let words = "not saved: File too large (os error 27)\nloaded 1 rules\n";
    assert!(told.contains(words), "{told}");
    assert!(holds(&path, &old()));
    assert_eq!(names(&folder), ["table"]);
}

/// May this process write where nobody may? Then permissions are to be asked of another user.
fn may_all(locked: &Path) -> bool {
    let probe = locked.join("probe");
    let may = File::create(&probe).is_ok();
    may && fs::remove_file(&probe).is_ok()
}

/// A process for a user whom permissions stop. They do not stop root, who starts it as another user and from a copy:
/// that user may be unable to come to where this program stands.
fn process_of_a_user(path: &Path, copy: &Path) -> Command {
    if !may_all(path.parent().expect("a folder")) {
        return process("saves_and_loads", path);
    }
    fs::copy(env::current_exe().expect("this program"), copy).expect("a copy");
    set_mode(copy, 0o755);
    let mut program = process_of(copy, "saves_and_loads", path);
    program.uid(65_534).gid(65_534);
    program
}

/// What such a process prints of the old table, in a folder that may not be written, among the temporary files, where
/// every user may come. If it cannot be started there, the test fails: nothing was tested.
fn printed_as_a_user(name: &str, permissions: u32) -> String {
    let outer = env::temp_dir().join(format!("yeqontur-{}-{name}", std::process::id()));
    let folder = outer.join("folder");
    fs::create_dir(&outer).expect("a folder that was not there");
    fs::create_dir(&folder).expect("a folder");
    let path = folder.join("table");
    old().save_to(&path).expect("a save");
    set_mode(&outer, 0o755);
    set_mode(&path, permissions);
    set_mode(&folder, 0o555);
    let ran = process_of_a_user(&path, &outer.join("program")).output();
    set_mode(&folder, 0o755);
    set_mode(&path, 0o644);
    assert!(holds(&path, &old()));
    assert_eq!(names(&folder), ["table"]);
    fs::remove_dir_all(&outer).expect("an end");
    printed(ran)
}

#[test]
fn a_folder_that_may_not_be_written_leaves_the_old_file() {
    let told = printed_as_a_user("locked", 0o644);
    let words = "not saved: Permission denied (os error 13)\nloaded 1 rules\n";
    assert!(told.contains(words), "{told}");
}

#[test]
fn a_file_that_may_not_be_read() {
    let told = printed_as_a_user("secret", 0o000);
    let words = "not loaded: the saved table cannot be read: Permission denied (os error 13); \
                 look at the path, and whether you may read it\n";
    assert!(told.contains(words), "{told}");
}

#[test]
fn a_file_that_is_not_there() {
    let path = folder("missing").join("table");
    assert_eq!(
        words(&path),
        "there is no saved table: No such file or directory (os error 2); \
         look at the path, or begin a new table and save it"
    );
    let told = Table::load_from(&path);
    assert!(matches!(told, Err(LoadError::Io(error)) if error.kind() == ErrorKind::NotFound));
}

#[test]
fn a_folder_cannot_be_loaded() {
    assert_eq!(
        words(&folder("no_table")),
        "the saved table cannot be read: the path leads to something that is not a file; \
         look at the path, and whether you may read it"
    );
}

/// A file of 1 TiB without a byte on the disk would take very long if it were read to its end.
#[test]
fn a_file_of_another_length_is_refused_16_and_not_read_to_its_end() {
    let path = folder("lengths").join("table");
    let file = File::create(&path).expect("a file");
    let mib = 1 << 20;
    for length in [0, 1, 511, 513, 6143, 6145, 6656, mib, mib << 20] {
        file.set_len(length).expect("another length");
        let told = Table::load_from(&path);
        let refused = matches!(told, Err(LoadError::Refused(Refusal::WrongLength)));
        assert!(refused, "{length}: {told:?}");
    }
    assert_eq!(words(&path), Refusal::WrongLength.to_string());
}

/// Behind a table that was saved whole stand bytes that are not read: it is refused all the same.
#[test]
fn a_full_table_with_more_behind_it_is_refused_16() {
    let path = folder("behind").join("table");
    let mut full = new();
    (200..256).for_each(|atom| assert!(full.add(atom, &[], &[]).is_ok()));
    full.save_to(&path).expect("a save");
    assert!(holds(&path, &full));
    let mut file = File::options().append(true).open(&path).expect("the file");
    file.write_all(&full.save()).expect("a write");
    assert_eq!(
        fs::metadata(&path).expect("a file").len(),
        2 * raw::FILE_BYTES as u64
    );
    assert_eq!(words(&path), Refusal::WrongLength.to_string());
}

#[test]
fn a_damaged_file_is_refused_and_stays() {
    let (_, path) = saved("damaged");
    let mut bytes = fs::read(&path).expect("a file");
    bytes[100] ^= 1;
    fs::write(&path, &bytes).expect("a write");
    let error = Table::load_from(&path).expect_err("a refusal");
    assert_eq!(
        error.to_string(),
        "refused 17: a block's checksum is wrong; \
         it was damaged, or is no saved table: keep it aside, and load a copy or add the rules again"
    );
    let source = error.source().expect("the refusal");
    assert_eq!(source.downcast_ref(), Some(&Refusal::WrongChecksum));
    assert_eq!(fs::read(&path).expect("a file"), bytes);
}

/// A process of the same number may have been ended and have left its new files.
#[test]
fn names_that_are_taken_are_passed_over() {
    let (folder, path) = saved("taken");
    let taken = |number| folder.join(format!(".yeqontur-{}-{number}.tmp", std::process::id()));
    for number in 0..2000 {
        fs::write(taken(number), "left").expect("a file");
    }
    new().save_to(&path).expect("a save");
    assert!(holds(&path, &new()));
    assert_eq!(names(&folder).len(), 2001);
    for number in 0..2000 {
        assert_eq!(fs::read(taken(number)).expect("a file"), b"left");
    }
}

/// The last rename stands, and whoever loads meanwhile gets a whole table.
#[test]
fn many_that_save_at_once() {
    let (folder, path) = saved("at_once");
    let tables: Vec<Table> = (0..4).map(|atom| table(&[(atom, &[], &[])])).collect();
    std::thread::scope(|scope| {
        let saves = |t: &Table| (0..50).for_each(|_| t.save_to(&path).expect("a save"));
        let writers: Vec<_> = tables
            .iter()
            .map(|t| scope.spawn(move || saves(t)))
            .collect();
        while !writers.iter().all(|writer| writer.is_finished()) {
            let loaded = Table::load_from(&path).expect("a whole table");
            assert!(loaded == old() || tables.contains(&loaded));
        }
    });
    assert!(tables.iter().any(|t| holds(&path, t)));
    assert_eq!(names(&folder), ["table"]);
}
