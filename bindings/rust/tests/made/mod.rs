//! Commit-graphs that Git writes for the tests, in a folder of the build.
#![allow(dead_code)]

use std::fs;
use std::io::Write;
use std::path::{Path, PathBuf};
use std::process::{Command, Stdio};
use std::sync::OnceLock;
use std::time::Duration;

/// The commit-graphs of one build.
pub struct Made {
    /// The repository of the file, whose branch is `main`.
    pub repository: PathBuf,
    /// The file of an info folder.
    pub file: PathBuf,
    /// The same with another generation number of the merge, which stands above position 0.
    pub faulty: PathBuf,
    /// A folder with a chain of four layers.
    pub chain: PathBuf,
}

/// The commit-graphs, made once.
pub fn made() -> &'static Made {
    static MADE: OnceLock<Made> = OnceLock::new();
    MADE.get_or_init(|| {
        let name = std::env::current_exe().unwrap().file_stem().unwrap().to_owned();
        let folder = Path::new(env!("CARGO_TARGET_TMPDIR")).join(name);
        let _ = fs::remove_dir_all(&folder);
        let file = in_one_file(&folder.join("file"));
        let faulty = folder.join("faulty");
        fs::write(&faulty, with_another_generation(&fs::read(&file).unwrap())).unwrap();
        Made { repository: folder.join("file"), file, faulty, chain: in_layers(&folder.join("chain")) }
    })
}

/// What Git answers in a repository, without a newline at its end.
pub fn git(at: &Path, words: &[&str]) -> String {
    let mut command = Command::new("git");
    command.arg("-C").arg(at).args(words).env("GIT_CONFIG_GLOBAL", "/dev/null").env("GIT_CONFIG_NOSYSTEM", "1");
    for who in ["AUTHOR", "COMMITTER"] {
        command.env(format!("GIT_{who}_NAME"), "a").env(format!("GIT_{who}_EMAIL"), "a@b");
        command.env(format!("GIT_{who}_DATE"), "1000000000 +0000");
    }
    let done = command.output().expect("the tests need git");
    assert!(done.status.success(), "{words:?}: {}", String::from_utf8_lossy(&done.stderr));
    String::from_utf8(done.stdout).unwrap().trim().to_owned()
}

/// A new commit with these parents, at which the branch is then.
fn commit(at: &Path, message: &str, parents: &[String]) -> String {
    let tree = git(at, &["write-tree"]);
    let mut words = vec!["commit-tree", &tree, "-m", message];
    for parent in parents {
        words.extend(["-p", parent]);
    }
    let id = git(at, &words);
    git(at, &["update-ref", "refs/heads/main", &id]);
    id
}

fn repository(at: &Path) {
    fs::create_dir_all(at).unwrap();
    git(at, &["init", "-q"]);
}

/// Seven commits, and a merge of three of them.
fn in_one_file(at: &Path) -> PathBuf {
    repository(at);
    let mut ids: Vec<String> = Vec::new();
    for number in 0..7usize {
        let parents: Vec<_> = ids.get(number.wrapping_sub(1) / 2).into_iter().cloned().collect();
        ids.push(commit(at, &number.to_string(), &parents));
    }
    commit(at, "a merge of three", &ids[4..]);
    git(at, &["commit-graph", "write", "--reachable"]);
    at.join(".git/objects/info/commit-graph")
}

/// Four layers of two commits each; the second of each has both before it as parents.
fn in_layers(at: &Path) -> PathBuf {
    repository(at);
    let mut last: Vec<String> = Vec::new();
    for layer in 0..4 {
        last = vec![commit(at, &format!("first of {layer}"), &last)];
        let second = commit(at, &format!("second of {layer}"), &last);
        last.push(second);
        git(at, &["commit-graph", "write", "--reachable", "--split=no-merge"]);
        last.reverse();
    }
    at.join(".git/objects/info/commit-graphs")
}

/// A file with another generation number of the first merge, and the checksum of its bytes.
fn with_another_generation(file: &[u8]) -> Vec<u8> {
    let mut bytes = file[..file.len() - 20].to_vec();
    let entry = (0..bytes[6] as usize).map(|number| &file[8 + 12 * number..][..12]).find(|entry| entry.starts_with(b"CDAT"));
    let records = u64::from_be_bytes(entry.unwrap()[4..].try_into().unwrap()) as usize;
    let second_parent = |record: &[u8]| u32::from_be_bytes(record[24..28].try_into().unwrap());
    let merge = file[records..].chunks(36).position(|record| second_parent(record) != 0x7000_0000).unwrap();
    assert!(merge > 0, "the merge stands above position 0");
    bytes[records + 36 * merge + 31] ^= 0x40;
    let checksum = checksum_of(&bytes);
    bytes.extend(checksum);
    bytes
}

/// The digest of bytes, by a tool.
fn checksum_of(bytes: &[u8]) -> Vec<u8> {
    let mut tool = Command::new("sha1sum").stdin(Stdio::piped()).stdout(Stdio::piped()).spawn().expect("the tests need sha1sum");
    tool.stdin.take().unwrap().write_all(bytes).unwrap();
    let told = tool.wait_with_output().unwrap().stdout;
    let digits = std::str::from_utf8(&told[..40]).unwrap();
    (0..20).map(|at| u8::from_str_radix(&digits[2 * at..][..2], 16).unwrap()).collect()
}

/// A file of so many commits that all have position 0 as their first parent, and share one list of as many others, from
/// position 1 on and then position 0. Its generation numbers are wrong.
pub fn long_lists(commits: u32) -> Vec<u8> {
    lists(commits, |_| 0)
}

/// The same, but that the list of each commit begins one word behind that of the commit before it, and all end together.
pub fn nested_lists(commits: u32) -> Vec<u8> {
    lists(commits, |number| number)
}

/// A file of so many commits, whose generation numbers are wrong: each has position 0 as its first parent, and then those of the list
/// that begins at a word of `EDGE`, which has as many words as there are commits.
fn lists(commits: u32, list_of: impl Fn(u32) -> u32) -> Vec<u8> {
    let word = |number: u32| number.to_be_bytes();
    let id = |number: u32| [&[0; 12][..], &word(number + 1), &[1; 4]].concat();
    let record = |number| [&[1; 20][..], &word(0), &word((1 << 31) | list_of(number)), &word(1 << 2), &word(1_000_000_000)].concat();
    let last = |number: u32| if number + 1 == commits { 1 << 31 } else { 0 };
    let chunks: [(&[u8; 4], Vec<u8>); 4] = [
        (b"OIDF", word(commits).repeat(256)),
        (b"OIDL", (0..commits).flat_map(id).collect()),
        (b"CDAT", (0..commits).flat_map(record).collect()),
        (b"EDGE", (0..commits).flat_map(|number| word(((number + 1) % commits) | last(number))).collect()),
    ];
    let mut bytes = [&b"CGPH\x01\x01"[..], &[chunks.len() as u8, 0]].concat();
    let mut start = 8 + 12 * (chunks.len() as u64 + 1);
    for (name, body) in &chunks {
        bytes.extend([&name[..], &start.to_be_bytes()].concat());
        start += body.len() as u64;
    }
    bytes.extend([&[0; 4][..], &start.to_be_bytes()].concat());
    bytes.extend(chunks.iter().flat_map(|(_, body)| body));
    bytes.extend(checksum_of(&bytes));
    bytes
}

/// A folder with a chain whose lines name so many layers: all one file, or each a file of its own.
pub fn chain_of_lines(at: &Path, lines: usize, is_one: bool) {
    let _ = fs::remove_dir_all(at);
    fs::create_dir_all(at).unwrap();
    let name = |number: usize| if is_one { 0 } else { number };
    let file = long_lists(3);
    for number in 0..=name(lines - 1) {
        let path = at.join(format!("graph-{number}.graph"));
        fs::write(path, &file).unwrap();
    }
    fs::write(at.join("commit-graph-chain"), (0..lines).map(|line| format!("{}\n", name(line))).collect::<String>()).unwrap();
}

/// A chain in a folder, of which so many lines name one file with as many commits.
pub fn chain_of_one(at: &Path, size: usize) {
    chain_of_lines(at, size, true);
    fs::write(at.join("graph-0.graph"), long_lists(size as u32)).unwrap();
}

extern "C" {
    fn clock_gettime(clock: i32, out: *mut [i64; 2]) -> i32;
}

/// The processor time of this thread.
fn processor_time() -> Duration {
    const OF_THIS_THREAD: i32 = 3;
    let mut told = [0; 2];
    // SAFETY: on a Linux of 64 bits a time is two such numbers, of seconds and of nanoseconds.
    assert_eq!(unsafe { clock_gettime(OF_THIS_THREAD, &mut told) }, 0);
    Duration::new(told[0] as u64, told[1] as u32)
}

/// That a work takes no more than some eight times as long for four times as much: for each size what is made for it, and then the
/// work on it, whose least time of three is taken. A body that is quadratic takes sixteen times as long.
pub fn grows_with_its_size<T>(size: usize, make: impl Fn(usize) -> T, work: impl Fn(&T)) {
    let times = [size, 2 * size, 4 * size].map(|size| {
        let made = make(size);
        let time = || {
            let start = processor_time();
            work(&made);
            processor_time() - start
        };
        (0..3).map(|_| time()).min().unwrap()
    });
    println!("{times:?} for {size}, twice and four times as much");
    assert!(times[2] < 8 * times[0] + Duration::from_millis(5), "{times:?}");
}
