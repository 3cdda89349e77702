//! A register in a file: the store is mapped into memory, a journal lies beside it, and no acknowledged change is lost.
//!
//! `mapped FOLDER` keeps `FOLDER/store` and `FOLDER/journal`; commands on standard input (examples/README.md).
//! mapped.c is the same program in C; each can go on with the other's files.
//!
//! Each change goes through four steps. If the program or the machine stops, then after the next start:
//!
//! | Step | After a stop |
//! |---|---|
//! | 1. its entry is appended to the journal | in 1 or 2: the change is there, or nothing of it is |
//! | 2. the journal is synced to the disk | from here on: the change is there |
//! | 3. the call is made on the mapped store | the same: whatever the file has, it is rebuilt |
//! | 4. the answer is printed | so what was acknowledged is there |
//!
//! A start rebuilds the store from the journal, whatever words the mapped file has: the system writes its pages back
//! when and in which order it likes, and a stop in the middle of a call leaves half of it. Rebuilt is what was there:
//! what a call answers and writes depends on the store's words and its arguments alone (that is proved), so the same
//! calls in the same order leave the same words. A refused call stays in the journal, and is refused again.
//!
//! For Linux on 64 bits. Words are written as the machine has them: take the files to one with the same order of bytes.
use register::{Entry, Refusal, Register, Rows, Settings};
use std::error::Error;
use std::fs::{File, OpenOptions};
use std::io::{self, BufRead, Read, Write};
use std::path::Path;
use std::process::ExitCode;

const SETTINGS: Settings = match Settings::new(8, 2, 512, 64) {
    Ok(settings) => settings,
    Err(_) => panic!("settings outside their limits"),
};

/// What the program fails with: the system's errors, and its own in words.
type Outcome<T> = Result<T, Box<dyn Error>>;

/// The system's own calls, and Linux's numbers for them.
mod system {
    use std::ffi::{c_int, c_void};
    use std::fs::File;
    use std::io;
    use std::os::fd::AsRawFd;

    const READ_AND_WRITE: c_int = 1 | 2; // PROT_READ, PROT_WRITE
    const SHARED: c_int = 1; // MAP_SHARED
    const AT_ONCE: c_int = 4; // MS_SYNC
    const ALONE_OR_NOT: c_int = 2 | 4; // LOCK_EX, LOCK_NB

    unsafe extern "C" {
        fn mmap(at: *mut c_void, bytes: usize, how: c_int, flags: c_int, file: c_int, from: i64) -> *mut c_void;
        fn msync(at: *mut c_void, bytes: usize, flags: c_int) -> c_int;
        fn flock(file: c_int, operation: c_int) -> c_int;
    }

    fn told(zero: c_int) -> io::Result<()> {
        if zero == 0 { Ok(()) } else { Err(io::Error::last_os_error()) }
    }

    /// Keeps a second program off, until this one ends.
    pub fn lock(file: &File) -> io::Result<()> {
        // SAFETY: two numbers are passed, and the file is open.
        told(unsafe { flock(file.as_raw_fd(), ALONE_OR_NOT) })
    }

    /// A file of that many words, mapped until the program ends.
    pub fn map(file: &File, words: usize) -> io::Result<&'static mut [u32]> {
        file.set_len(4 * words as u64)?;
        // SAFETY: the system chooses the place, which begins a page and so is aligned for words.
        let at = unsafe { mmap(std::ptr::null_mut(), 4 * words, READ_AND_WRITE, SHARED, file.as_raw_fd(), 0) };
        if at.addr() == usize::MAX {
            return Err(io::Error::last_os_error());
        }
        // SAFETY: the file has the words and they stay mapped. That nothing else writes the file is for the lock.
        Ok(unsafe { std::slice::from_raw_parts_mut(at.cast(), words) })
    }

    /// Writes mapped words to the disk.
    pub fn sync(words: &mut [u32]) -> io::Result<()> {
        // SAFETY: the words are mapped, from the first of a page on.
        told(unsafe { msync(words.as_mut_ptr().cast(), 4 * words.len(), AT_ONCE) })
    }
}

/// What the program puts into the sixth word of an entry, which no kind uses and no replay looks at: a check of the
/// five others (FNV-1a). A stopped machine may have written one sector of an entry and not the next, or its length and
/// none of its bytes: then the check is wrong. (Kind 0 ends a journal, but not every torn entry begins with a 0.)
fn check_of(entry: &[u32]) -> u32 {
    entry[..5].iter().fold(2_166_136_261, |check, word| (check ^ word).wrapping_mul(16_777_619))
}

struct Journal {
    file: File,
}

impl Journal {
    const ENTRY_BYTES: usize = 4 * Entry::WORDS;

    /// Steps 1 and 2. After a failed write or sync nobody knows what is on the disk, so the program does not go on.
    fn append(&mut self, entry: Entry) -> io::Result<()> {
        let mut words = entry.to_words();
        words[5] = check_of(&words);
        self.file.write_all(words.map(u32::to_ne_bytes).as_flattened())?;
        self.file.sync_data()
    }

    /// The words of all entries; one that was not finished is cut off, so that the next is appended at a multiple of
    /// six words. An entry is synced before the next is begun, so only the last can be unfinished, and that was never
    /// acknowledged. If more than one lies behind the whole ones, the journal was damaged otherwise: nothing is cut.
    /// The sync is also for a last entry that is whole, but was killed before its own sync: from now on it is shown.
    fn read(&mut self) -> Outcome<Vec<u32>> {
        let mut bytes = Vec::new();
        self.file.read_to_end(&mut bytes)?;
        let mut words: Vec<u32> = bytes.as_chunks().0.iter().map(|word| u32::from_ne_bytes(*word)).collect();
        let whole = words.as_chunks().0.iter().take_while(|entry: &&[u32; 6]| entry[5] == check_of(&entry[..])).count();
        if bytes.len() > (whole + 1) * Self::ENTRY_BYTES {
            return Err("the journal is damaged before its last entry; nothing is cut".into());
        }
        words.truncate(whole * Entry::WORDS);
        self.file.set_len((whole * Self::ENTRY_BYTES) as u64)?;
        self.file.sync_data()?;
        Ok(words)
    }
}

/// Makes the journal's calls on the store, whose words may be any: the first entry, a start, fills them anew.
fn rebuild<'a>(store: &'a mut [u32], journal: &mut Journal) -> Outcome<Register<'a>> {
    let start = Entry::from(SETTINGS);
    let mut words = journal.read()?;
    if words.is_empty() {
        journal.append(start)?;
        words.extend(start.to_words());
    }
    if Entry::all(&words).next() != Some(start) {
        return Err("the journal was begun with other settings".into());
    }
    let (register, tally) = Register::rebuild(store, &words)?;
    if tally.entries != (words.len() / Entry::WORDS) as u64 {
        return Err("the journal has entries of a kind that this program does not know".into());
    }
    println!("rebuilt: {} entries, {} accepted", tally.entries, tally.accepted);
    Ok(register)
}

const COMMANDS: &str = "set SECOND TAG READING, clear SECOND TAG, update SECOND TAG READING, advance SECOND, look SECOND, window FIRST LAST";

enum Command {
    Change(Entry),
    Look(u32),
    Window(u32, u32),
}

fn parse(line: &str) -> Option<Command> {
    let number = |text: &str| text.parse::<u32>().ok();
    let words: Vec<&str> = line.split_whitespace().collect();
    Some(match words[..] {
        ["set", second, tag, reading] => {
            Command::Change(Entry::Set { second: number(second)?, tag: number(tag)?, reading: reading.parse().ok()? })
        }
        ["clear", second, tag] => Command::Change(Entry::Clear { second: number(second)?, tag: number(tag)? }),
        ["update", second, tag, reading] => {
            let (second, tag, reading) = (number(second)?, number(tag)?, reading.parse().ok()?);
            Command::Change(Entry::Update { second, tag, reading })
        }
        ["advance", second] => Command::Change(Entry::Advance { second: number(second)? }),
        ["look", second] => Command::Look(number(second)?),
        ["window", first, last] => Command::Window(number(first)?, number(last)?),
        _ => return None,
    })
}

fn look(register: &Register, second: u32) -> Result<String, Refusal> {
    let (mut rows, mut list) = ([0; SETTINGS.row_words()], [0; SETTINGS.list_words()]);
    let told = register.look_back(second, &mut rows, &mut list)?;
    Ok(format!("stood at {second}: {}\n", told.rows().len()) + &lines(told.rows()))
}

fn window(register: &Register, first: u32, last: u32) -> Result<String, Refusal> {
    let mut rows = [0; SETTINGS.row_words()];
    let told = register.window(first, last, &mut rows)?;
    Ok(format!("stood from {first} to {last}: {}\n", told.rows().len()) + &lines(told.rows()))
}

fn lines(rows: Rows) -> String {
    rows.map(|row| format!("tag {}: {} daN since {}\n", row.tag, row.reading, row.since)).collect()
}

/// The answer to a command. [`Refusal::Head`] and [`Refusal::Unsound`] never come after calls alone (that is proved):
/// then something else wrote the mapped file, and what the call answered is no answer. The next start rebuilds the
/// store, with this change if it is one.
fn answer(register: &mut Register, journal: &mut Journal, line: &str) -> Outcome<String> {
    let told = match parse(line) {
        Some(Command::Look(second)) => look(register, second),
        Some(Command::Window(first, last)) => window(register, first, last),
        Some(Command::Change(entry)) => {
            journal.append(entry)?; // steps 1 and 2
            register.apply(entry).map(|()| "ok\n".into()) // step 3; the caller prints it, step 4
        }
        None => Ok(format!("no command; there are: {COMMANDS}\n")),
    };
    match told {
        Ok(text) => Ok(text),
        Err(Refusal::Head | Refusal::Unsound) => Err("something else wrote the store; start again".into()),
        Err(refusal) => Ok(format!("refused: {refusal}\n")),
    }
}

/// The lock keeps a second program off: while a call runs, nothing else may write the store. The sync of the folder is
/// for the names of the two files, which are on the disk only then.
fn run(folder: &Path) -> Outcome<()> {
    let journal = OpenOptions::new().read(true).append(true).create(true).open(folder.join("journal"))?;
    let file = OpenOptions::new().read(true).write(true).create(true).truncate(false).open(folder.join("store"))?;
    system::lock(&journal)?;
    File::open(folder)?.sync_all()?;
    let mut journal = Journal { file: journal };
    let mut register = rebuild(system::map(&file, SETTINGS.words())?, &mut journal)?;
    let (mut input, mut output, mut line) = (io::stdin().lock(), io::stdout().lock(), Vec::new());
    while input.read_until(b'\n', &mut line)? > 0 && line.ends_with(b"\n") {
        // a last line without its end may be cut short, and is left
        let text = answer(&mut register, &mut journal, &String::from_utf8_lossy(&line))?;
        output.write_all(text.as_bytes())?;
        output.flush()?;
        line.clear();
    }
    Ok(system::sync(register.into_words())?)
}

fn main() -> ExitCode {
    let arguments: Vec<_> = std::env::args_os().skip(1).collect();
    let told = match &arguments[..] {
        [folder] => run(Path::new(folder)),
        _ => Err("usage: mapped FOLDER".into()),
    };
    match told {
        Ok(()) => ExitCode::SUCCESS,
        Err(why) => {
            eprintln!("mapped: {why}");
            ExitCode::FAILURE
        }
    }
}
