//! What `measure.rs` asks of `gix-commitgraph`, in plain Rust of the original's design: files are mapped, and whatever is asked of a
//! commit is read at its place in them ("Commit Data"). What is no layer of SHA-1 ends the program.

use std::fs;
use std::os::fd::AsRawFd;
use std::path::Path;

const ID_LEN: usize = 20;
const NO_PARENT: u32 = 0x7000_0000;
const TOP_BIT: u32 = 1 << 31;
const FIELDS: usize = 16;

extern "C" {
    fn mmap(address: *mut u8, len: usize, protection: i32, flags: i32, file: i32, offset: i64) -> *mut u8;
}

/// The bytes of a file, mapped for ever.
fn mapped(path: &Path) -> &'static [u8] {
    let file = fs::File::open(path).unwrap();
    let len = file.metadata().unwrap().len() as usize;
    // SAFETY: nobody changes the file, and it is never unmapped: 1 is to read, and 2 to have it alone.
    unsafe {
        let start = mmap(std::ptr::null_mut(), len, 1, 2, file.as_raw_fd(), 0);
        assert_ne!(start as isize, -1);
        std::slice::from_raw_parts(start, len)
    }
}

fn word(bytes: &[u8]) -> u32 {
    u32::from_be_bytes(bytes[..4].try_into().unwrap())
}

fn long(bytes: &[u8]) -> u64 {
    u64::from_be_bytes(bytes[..8].try_into().unwrap())
}

/// An id.
pub struct Id([u8]);

impl Id {
    fn of(bytes: &[u8]) -> &Id {
        // SAFETY: an id is laid out as its bytes.
        unsafe { &*(bytes as *const [u8] as *const Id) }
    }

    pub fn as_bytes(&self) -> &[u8] {
        &self.0
    }
}

/// A layer: its bytes, and where its chunks begin.
pub struct File {
    data: &'static [u8],
    ids: usize,
    records: usize,
    edges: Option<(usize, usize)>,
    commits: u32,
    id_len: usize,
}

impl File {
    fn at(path: &Path) -> File {
        let data = mapped(path);
        assert_eq!(&data[..6], b"CGPH\x01\x01");
        let chunk = |name: &[u8; 4]| {
            let entries = (0..usize::from(data[6])).map(|number| &data[8 + 12 * number..][..24]);
            entries.filter(|entry| &entry[..4] == name).map(|entry| (long(&entry[4..]) as usize, long(&entry[16..]) as usize)).next()
        };
        let (fan, _) = chunk(b"OIDF").unwrap();
        let totals: Vec<u32> = data[fan..][..1024].chunks(4).map(word).collect();
        assert!(totals.windows(2).all(|pair| pair[0] <= pair[1]));
        let (ids, records) = (chunk(b"OIDL").unwrap().0, chunk(b"CDAT").unwrap().0);
        File { data, ids, records, edges: chunk(b"EDGE"), commits: totals[255], id_len: ID_LEN }
    }

    fn id_at(&self, pos: u32) -> &Id {
        assert!(pos < self.commits);
        Id::of(&self.data[self.ids + pos as usize * self.id_len..][..self.id_len])
    }

    fn commit_at(&self, pos: u32) -> Commit<'_> {
        assert!(pos < self.commits);
        let size = self.id_len + FIELDS;
        let record = &self.data[self.records + pos as usize * size..][..size];
        let fields = &record[self.id_len..];
        Commit {
            file: self,
            pos,
            first: word(fields),
            second: word(&fields[4..]),
            generation: word(&fields[8..]) >> 2,
            time: long(&fields[8..]) & ((1 << 34) - 1),
        }
    }
}

/// A commit: its record, decoded but for the ids.
#[derive(Clone, Copy)]
pub struct Commit<'a> {
    file: &'a File,
    pos: u32,
    first: u32,
    second: u32,
    generation: u32,
    time: u64,
}

impl<'a> Commit<'a> {
    pub fn generation(&self) -> u32 {
        self.generation
    }

    pub fn committer_timestamp(&self) -> u64 {
        self.time
    }

    pub fn id(&self) -> &'a Id {
        self.file.id_at(self.pos)
    }

    pub fn iter_parents(self) -> Parents<'a> {
        Parents { commit: self, next: Next::First }
    }
}

/// Where the next parent of a commit stands.
enum Next<'a> {
    First,
    Second,
    Extra(std::slice::Chunks<'a, u8>),
    None,
}

/// The parents of a commit.
pub struct Parents<'a> {
    commit: Commit<'a>,
    next: Next<'a>,
}

/// Parents that cannot be decoded.
#[derive(Debug)]
pub struct Wrong;

impl<'a> Parents<'a> {
    fn second(&mut self) -> Option<Result<Position, Wrong>> {
        self.next = Next::None;
        match self.commit.second {
            NO_PARENT => None,
            word @ ..TOP_BIT => Some(Ok(Position(word))),
            index => {
                let Some((start, end)) = self.commit.file.edges else {
                    return Some(Err(Wrong));
                };
                let words = self.commit.file.data[start..end].get(4 * (index - TOP_BIT) as usize..).unwrap_or(&[]);
                self.next = Next::Extra(words.chunks(4));
                self.extra()
            }
        }
    }

    fn extra(&mut self) -> Option<Result<Position, Wrong>> {
        let Next::Extra(words) = &mut self.next else {
            return None;
        };
        let Some(edge) = words.next().map(word) else {
            self.next = Next::None;
            return Some(Err(Wrong));
        };
        if edge >= TOP_BIT {
            self.next = Next::None;
        }
        Some(Ok(Position(edge % TOP_BIT)))
    }
}

impl Iterator for Parents<'_> {
    type Item = Result<Position, Wrong>;

    fn next(&mut self) -> Option<Result<Position, Wrong>> {
        match self.next {
            Next::First => {
                if self.commit.first < TOP_BIT && self.commit.first != NO_PARENT {
                    self.next = Next::Second;
                    return Some(Ok(Position(self.commit.first)));
                }
                self.next = Next::None;
                (self.commit.first != NO_PARENT || self.commit.second != NO_PARENT).then_some(Err(Wrong))
            }
            Next::Second => self.second(),
            Next::Extra(_) => self.extra(),
            Next::None => None,
        }
    }
}

/// A position in the graph.
#[derive(Clone, Copy, Debug)]
pub struct Position(pub u32);

/// The layers, the lowest first.
pub struct Graph {
    files: Vec<File>,
}

/// Opens the file at a path, or the chain in the folder there.
pub fn at(path: impl AsRef<Path>) -> Result<Graph, std::io::Error> {
    let path = path.as_ref();
    if path.is_file() {
        return Ok(Graph { files: vec![File::at(path)] });
    }
    let lines = fs::read_to_string(path.join("commit-graph-chain"))?;
    Ok(Graph { files: lines.lines().map(|line| File::at(&path.join(format!("graph-{line}.graph")))).collect() })
}

impl Graph {
    pub fn num_commits(&self) -> u32 {
        self.files.iter().map(|file| file.commits).sum()
    }

    pub fn commit_at(&self, pos: Position) -> Commit<'_> {
        let mut left = pos.0;
        for file in &self.files {
            match left.checked_sub(file.commits) {
                Some(above) => left = above,
                None => return file.commit_at(left),
            }
        }
        panic!("no such position")
    }

    pub fn iter_commits(&self) -> impl Iterator<Item = Commit<'_>> {
        self.files.iter().flat_map(|file| (0..file.commits).map(|pos| file.commit_at(pos)))
    }
}
