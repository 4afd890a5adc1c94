//! It said "complete", and it was not: five files, one of them under a path that is too long to be sent.

use yeqontur::{Because, Checklist, Refusal, Stop, Why};

/// The most characters of a path that the system opens.
const LONGEST: usize = 260;

/// What a scan found: a file, and the folder that it is in, which may lie inside folders of the same name.
struct File {
    name: &'static str,
    folder: &'static str,
    deep: usize,
}

impl File {
    /// How many characters its path has.
    fn length(&self) -> usize {
        self.folder.repeat(self.deep).len() + self.name.len()
    }
}

/// The tapes were copied into their own folder, again and again.
fn scan() -> [File; 5] {
    [
        ("minutes.txt", "papers/", 1),
        ("roof.tif", "photographs/", 1),
        ("tower.tif", "photographs/", 1),
        ("tape.wav", "copy of tapes/", 20),
        ("readme.txt", "", 0),
    ]
    .map(|(name, folder, deep)| File { name, folder, deep })
}

/// Sends a file, or skips it where its path is too long.
fn offer(checklist: &mut Checklist, number: u32, file: &File) -> Result<(), Refusal> {
    let (name, length) = (file.name, file.length());
    if length > LONGEST {
        println!("{number} {name}: skipped, its path has {length} characters");
        return checklist.skipped(number);
    }
    println!("{number} {name}: sent");
    checklist.sent(number)
}

/// The client before this one looked at what it had sent. A file that it skipped was in no count.
fn show_old(files: &[File]) {
    let sent = files.iter().filter(|file| file.length() <= LONGEST).count();
    println!("the old client: complete, {sent} files sent");
}

/// Prints the tree of what is not complete, down to what is missing.
fn show_why(checklist: &Checklist, why: &Why) {
    let name = |atom| checklist.name(atom).unwrap_or_default();
    let Because::Stopped(rules) = &why.because else {
        return;
    };
    for stopped in rules {
        let Stop::Spoiled { side, by, .. } = &stopped.stop else {
            continue; // a checklist has no muted rule
        };
        println!("  {} {side} {}", name(why.atom), name(by.atom));
        show_why(checklist, by);
    }
}

/// What the screen shows now.
fn show(checklist: &Checklist, files: &[File]) {
    println!("{checklist}");
    for number in checklist.missing() {
        println!("  missing: {number} {}", files[number as usize - 1].name);
    }
    show_why(checklist, &checklist.why());
}

fn main() -> Result<(), Refusal> {
    let mut files = scan();
    let mut checklist = Checklist::open(files.len() as u32)?;
    for (number, file) in (1..).zip(&files) {
        offer(&mut checklist, number, file)?;
    }
    show_old(&files);
    show(&checklist, &files);

    println!("the path of tape.wav is shortened, and the skip withdrawn");
    files[3].deep = 1;
    checklist.withdraw(4)?;
    show(&checklist, &files);

    offer(&mut checklist, 4, &files[3])?;
    show(&checklist, &files);
    Ok(())
}
