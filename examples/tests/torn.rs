//! What both programs make of files that are not as they left them: a journal that ends within an entry, a mapped file
//! with any words, a journal that was damaged otherwise, and a second program on the same files.
mod support;
use register::{Entry, Settings};
use std::fs;
use std::io::{BufRead, BufReader, Write};
use std::path::{Path, PathBuf};
use support::{Log, Rng, both, command, folder, prepared, run, run_stopped, words};

const ENTRY_BYTES: usize = 4 * Entry::WORDS;

/// A folder in which a program made some changes, with the log before the last of them, and that last.
fn kept(name: &str, program: &Path, rng: &mut Rng) -> (PathBuf, Log, Entry) {
    let folder = folder(name);
    let (mut log, mut text) = (Log::default(), String::new());
    for _ in 0..30 {
        let entry = log.draw(rng);
        log.follow(entry);
        text += &command(entry);
    }
    let last = Entry::Set { second: log.clock + 2, tag: 63, reading: 0x0102_0304 };
    run(program, &folder, &(text + &command(last)));
    (folder, log, last)
}

/// Makes one more change, and looks for it after a restart: it was not appended behind a torn entry.
fn go_on(log: &mut Log, program: &Path, folder: &Path, rng: &mut Rng) {
    let entry = Entry::Advance { second: log.clock + 7 };
    assert!(run(program, folder, &command(entry)).ends_with("ok\n"));
    log.follow(entry);
    log.compare(None, program, folder, rng);
}

/// The journal's last entry is cut at each of its bytes; what is missing is not there, or is zeros, as after a stop of
/// the machine that had noted the file's length and not yet its bytes.
#[test]
fn cut_at_each_byte() {
    let mut rng = Rng::new(90_000);
    for (program, name) in both().into_iter().zip(["cut-c", "cut-rust"]) {
        let (folder, before, last) = kept(name, program, &mut rng);
        let journal = fs::read(folder.join("journal")).expect("a journal");
        for cut in 0..=ENTRY_BYTES {
            for zeros in [0, ENTRY_BYTES - cut] {
                let mut torn = journal[..journal.len() - ENTRY_BYTES + cut].to_vec();
                torn.resize(torn.len() + zeros, 0);
                fs::write(folder.join("journal"), &torn).expect("it can be written");
                let mut log = before.clone();
                let kept = log.compare(Some(last), program, &folder, &mut rng);
                assert_eq!(kept, torn == journal, "cut at byte {cut}, {zeros} zeros");
                go_on(&mut log, program, &folder, &mut rng);
            }
        }
    }
}

type Damage = fn(&mut Vec<u8>, &mut Rng);

/// What a stop, or something else, may make of the mapped file.
const DAMAGES: [Damage; 6] = [
    |bytes, _| bytes.clear(),
    |bytes, _| bytes.truncate(bytes.len() / 2),
    |bytes, _| bytes.fill(0xff),
    |bytes, rng| bytes.fill_with(|| rng.word().to_ne_bytes()[0]),
    |bytes, rng| {
        for _ in 0..1 + rng.below(100) {
            let at = rng.below(u32::try_from(bytes.len()).expect("a short file")) as usize;
            bytes[at] = rng.word().to_ne_bytes()[0];
        }
    },
    |bytes, rng| {
        // only some of its pages were written back
        for page in bytes.chunks_mut(4096) {
            if rng.chance(1, 2) {
                page.fill(0);
            }
        }
    },
];

/// Whatever the mapped file has, a start rebuilds it.
#[test]
fn damaged_store() {
    let mut rng = Rng::new(91_000);
    for (program, name) in both().into_iter().zip(["store-c", "store-rust"]) {
        let (folder, mut log, last) = kept(name, program, &mut rng);
        assert!(log.compare(Some(last), program, &folder, &mut rng));
        let sound = words(&folder.join("store"));
        for damage in DAMAGES.iter().cycle().take(30) {
            let mut bytes = fs::read(folder.join("store")).expect("a store");
            damage(&mut bytes, &mut rng);
            fs::write(folder.join("store"), bytes).expect("it can be written");
            log.compare(None, program, &folder, &mut rng);
            assert!(words(&folder.join("store")) == sound, "rebuilt are the same words");
        }
        fs::remove_file(folder.join("store")).expect("it was there");
        log.compare(None, program, &folder, &mut rng);
        go_on(&mut log, program, &folder, &mut rng);
    }
}

/// If something writes the mapped file while the program runs, a call that meets a refusal which no history gives is
/// not answered; the next start rebuilds the store.
#[test]
fn damaged_while_it_runs() {
    let mut rng = Rng::new(92_000);
    for (program, name) in both().into_iter().zip(["running-c", "running-rust"]) {
        let (folder, mut log, last) = kept(name, program, &mut rng);
        let mut child = prepared(program, &folder).spawn().expect("the program starts");
        let mut lines = BufReader::new(child.stdout.take().expect("a pipe")).lines();
        assert!(lines.next().is_some_and(|line| line.expect("a line").starts_with("rebuilt: ")));
        fs::OpenOptions::new()
            .write(true)
            .open(folder.join("store"))
            .expect("a store")
            .write_all(&[0; 4])
            .expect("mark");
        let change = Entry::Advance { second: log.clock + 9 };
        child.stdin.take().expect("a pipe").write_all(command(change).as_bytes()).expect("it reads");
        assert!(lines.next().is_none(), "there is no answer");
        let told = child.wait_with_output().expect("it ends");
        assert_eq!(told.status.code(), Some(1));
        assert_eq!(told.stderr, b"mapped: something else wrote the store; start again\n");
        assert!(log.follow(last) && log.compare(Some(change), program, &folder, &mut rng));
    }
}

/// Any byte of an entry before the last, changed: the program stops, and leaves the journal as it is.
#[test]
fn damaged_journal() {
    let mut rng = Rng::new(93_000);
    for (program, name) in both().into_iter().zip(["journal-c", "journal-rust"]) {
        let (folder, ..) = kept(name, program, &mut rng);
        let file = folder.join("journal");
        let sound = fs::read(&file).expect("a journal");
        for _ in 0..40 {
            let mut damaged = sound.clone();
            let at = rng.below(u32::try_from(sound.len() - ENTRY_BYTES).expect("a short file")) as usize;
            damaged[at] ^= 1 << rng.below(8);
            fs::write(&file, &damaged).expect("it can be written");
            let why = run_stopped(program, &folder, "advance 100\n");
            assert_eq!(why, "mapped: the journal is damaged before its last entry; nothing is cut\n", "byte {at}");
            assert!(fs::read(&file).expect("a journal") == damaged);
        }
    }
}

/// An entry with its check (FNV-1a, written here a second time).
fn entry(five: [u32; 5]) -> Vec<u8> {
    let check = five.iter().fold(0x811c_9dc5_u32, |check, word| (check ^ word).wrapping_mul(0x0100_0193));
    five.iter().chain([&check]).flat_map(|word| word.to_ne_bytes()).collect()
}

/// Journals that are whole, but not of this program: one begun with other settings, and one of a later version.
#[test]
fn other_journals() {
    for (program, name) in both().into_iter().zip(["other-c", "other-rust"]) {
        let folder = folder(name);
        let start = entry([1, 8, 2, 512, 64]);
        let journals = [
            (entry([1, 4, 2, 8, 16]), "mapped: the journal was begun with other settings\n"),
            (entry([2, 1, 1, 1, 0]), "mapped: the journal was begun with other settings\n"),
            (
                [start, entry([6, 1, 1, 1, 0]), entry([5, 9, 0, 0, 0])].concat(),
                "mapped: the journal has entries of a kind that this program does not know\n",
            ),
        ];
        for (journal, why) in journals {
            fs::write(folder.join("journal"), &journal).expect("it can be written");
            assert_eq!(run_stopped(program, &folder, ""), why);
            assert!(fs::read(folder.join("journal")).expect("a journal") == journal);
        }
    }
    assert_eq!(Settings::new(8, 2, 512, 64).expect("sound settings").words(), 29_024);
}

/// While one program has the files, another, of either kind, does not get them.
#[test]
fn two_at_once() {
    for (program, name) in both().into_iter().zip(["two-c", "two-rust"]) {
        let folder = folder(name);
        let mut first = prepared(program, &folder).spawn().expect("the program starts");
        let mut lines = BufReader::new(first.stdout.take().expect("a pipe")).lines();
        assert_eq!(lines.next().expect("a line").expect("text"), "rebuilt: 1 entries, 1 accepted");
        for second in both() {
            run_stopped(second, &folder, "set 1 1 1\n");
        }
        drop(first.stdin.take());
        assert!(first.wait().expect("it ends").success());
        assert_eq!(run(program, &folder, ""), "rebuilt: 1 entries, 1 accepted\n");
    }
}

/// The run that README.md shows is what both print; lines that begin with `> ` are commands.
#[test]
fn worked_run() {
    let readme =
        fs::read_to_string(Path::new(env!("CARGO_MANIFEST_DIR")).join("README.md")).expect("README.md is there");
    let runs: Vec<&str> = readme.split("    $ ./mapped kept\n").skip(1).collect();
    assert_eq!(runs.len(), 2);
    for (program, name) in both().into_iter().zip(["worked-c", "worked-rust"]) {
        let folder = folder(name);
        for text in &runs {
            let lines: Vec<&str> = text.lines().map_while(|line| line.strip_prefix("    ")).collect();
            let (commands, answers): (Vec<&str>, Vec<&str>) = lines.iter().partition(|line| line.starts_with("> "));
            let commands: String = commands.iter().map(|line| format!("{}\n", &line[2..])).collect();
            assert_eq!(run(program, &folder, &commands).lines().collect::<Vec<_>>(), answers);
        }
    }
}
