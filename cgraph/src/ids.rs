//! Sets of ids, as lists of them have them.

use std::fs::File;
use std::io::{self, BufRead, BufReader, Write};
use std::path::Path;

/// The bytes of an id; one of SHA-1 has zeros behind it.
type Id = [u8; 32];

/// Ids in their order, each once, and how many digits they have.
#[derive(Clone, Debug, Default, PartialEq, Eq)]
pub struct Ids {
    sorted: Vec<Id>,
    digits: usize,
}

impl Ids {
    /// The ids of a list of lines, of which each may have several.
    pub fn read(lines: impl BufRead) -> io::Result<Ids> {
        let mut ids = Ids::default();
        for line in lines.split(b'\n') {
            for word in line?.split(|&byte| byte == b' ').filter(|word| !word.is_empty()) {
                ids.digits = word.len();
                ids.sorted.push(id_of(word).ok_or(io::ErrorKind::InvalidData)?);
            }
        }
        ids.sorted.sort_unstable();
        ids.sorted.dedup();
        Ok(ids)
    }

    /// Those of a file.
    pub fn of_file(path: &Path) -> io::Result<Ids> {
        Ids::read(BufReader::new(File::open(path)?))
    }

    /// How many there are.
    pub fn len(&self) -> usize {
        self.sorted.len()
    }

    /// Whether there is none.
    pub fn is_empty(&self) -> bool {
        self.sorted.is_empty()
    }

    /// Whether an id is one of them.
    pub fn has(&self, id: &[u8]) -> bool {
        id_of(id).is_some_and(|id| self.sorted.binary_search(&id).is_ok())
    }

    /// Those that are none of others.
    pub fn without(&self, others: &Ids) -> Ids {
        let mut left = self.clone();
        left.sorted.retain(|id| others.sorted.binary_search(id).is_err());
        left
    }

    /// Writes them, each on a line.
    pub fn write(&self, out: impl Write) -> io::Result<()> {
        let mut out = io::BufWriter::new(out);
        for id in &self.sorted {
            let mut line = String::with_capacity(self.digits + 1);
            for byte in &id[..self.digits / 2] {
                line.push(char::from_digit(u32::from(byte >> 4), 16).unwrap_or('0'));
                line.push(char::from_digit(u32::from(byte & 15), 16).unwrap_or('0'));
            }
            line.push('\n');
            out.write_all(line.as_bytes())?;
        }
        out.flush()
    }
}

/// The id of a text in hexadecimal digits.
fn id_of(text: &[u8]) -> Option<Id> {
    let mut id = [0; 32];
    if text.len() % 2 != 0 || text.len() / 2 > id.len() {
        return None;
    }
    let digit = |byte: u8| char::from(byte).to_digit(16).map(|digit| digit as u8);
    for (place, pair) in id.iter_mut().zip(text.chunks(2)) {
        *place = digit(pair[0])? << 4 | digit(pair[1])?;
    }
    Some(id)
}

/// Of the newest commits, the ids of those that are not stored, in their order; or nothing where
/// there are more that are new.
///
/// `tips` has the ids to which references lead, `newest` some commits that they reach, each with
/// its parents behind it, and `stored` those of all these that are stored, with all of their
/// ancestors. The new ones are all there where each tip, and each parent of a new one, is new or
/// stored.
pub fn new_commits(tips: &Ids, newest: &str, stored: &Ids) -> Option<Vec<String>> {
    let listed = newest.lines().filter_map(|line| line.split(' ').next());
    let listed = Ids::read(listed.collect::<Vec<_>>().join("\n").as_bytes()).ok()?;
    if !tips.without(stored).without(&listed).is_empty() {
        return None;
    }
    let mut new = Vec::new();
    for line in newest.lines() {
        let mut ids = line.split(' ');
        let id = ids.next().filter(|id| !stored.has(id.as_bytes()));
        let Some(id) = id else { continue };
        if ids.any(|parent| !stored.has(parent.as_bytes()) && !listed.has(parent.as_bytes())) {
            return None;
        }
        new.push(id.to_owned());
    }
    Some(new)
}

#[cfg(test)]
mod tests {
    use super::*;

    fn ids(text: &str) -> Ids {
        Ids::read(text.replace(' ', "\n").as_bytes()).unwrap()
    }

    #[test]
    fn sets_of_ids() {
        let all = ids("bb aa bb cc");
        assert_eq!(
            (all.len(), all.has(b"bb"), all.has(b"dd"), all.has(b"x")),
            (3, true, false, false)
        );
        let mut out = Vec::new();
        all.without(&ids("bb dd")).write(&mut out).unwrap();
        assert_eq!(out, b"aa\ncc\n");
        assert!(Ids::read(&b"xy\n"[..]).is_err());
        assert!(ids("").is_empty());
    }

    /// Tips, the newest commits with their parents, and what a commit-graph has; and what is new.
    #[test]
    fn the_newest_commits() {
        let rows = [
            ("", "", "aa", Some("")),
            ("aa", "aa", "", Some("aa")),
            ("aa", "aa bb", "aa bb", Some("")),
            ("bb", "", "aa bb", Some("")),
            ("cc", "cc aa", "aa bb", Some("cc")),
            ("dd", "dd cc,cc aa", "aa bb", Some("dd cc")),
            ("dd ee", "dd cc,cc aa bb", "aa bb ee", Some("dd cc")),
            ("dd", "dd cc", "aa bb", None),
            ("dd ee", "dd cc,cc aa", "aa bb", None),
            ("dd", "dd aa cc", "aa bb", None),
            ("dd", "dd bb,bb cc", "aa bb", Some("dd")),
        ];
        for (tips, newest, stored, wanted) in rows {
            let found = new_commits(&ids(tips), &newest.replace(',', "\n"), &ids(stored));
            assert_eq!(
                found.map(|new| new.join(" ")).as_deref(),
                wanted,
                "{tips}; {newest}; {stored}"
            );
        }
    }
}
