//! Writes a right layer whose parents stand at random positions.
//!
//! usage: random_layer COMMITS PATH
//!
//! Each commit has the one before it as its first parent, and each fourth besides a second one, some
//! way back. Ids are random, always the same, and so are the positions.

#[path = "../lookup/sha1.rs"]
mod sha1;

use std::{env, fs, iter};

const NO_PARENT: u32 = 0x7000_0000;
const MERGES: u32 = 4;

/// Sixty-four random bits, others for each number ("SplitMix64").
fn random(number: u64) -> u64 {
    let mixed = (number + 1).wrapping_mul(0x9e37_79b9_7f4a_7c15);
    let mixed = (mixed ^ (mixed >> 30)).wrapping_mul(0xbf58_476d_1ce4_e5b9);
    let mixed = (mixed ^ (mixed >> 27)).wrapping_mul(0x94d0_49bb_1331_11eb);
    mixed ^ (mixed >> 31)
}

/// The first eight bytes of the id of a commit.
fn front(commit: u32) -> u64 {
    random(3 * u64::from(commit))
}

fn id(commit: u32) -> [u8; 20] {
    let mut id = [0; 20];
    for (number, bytes) in id.chunks_mut(8).enumerate() {
        let part = random(3 * u64::from(commit) + number as u64).to_be_bytes();
        bytes.copy_from_slice(&part[..bytes.len()]);
    }
    id
}

fn push_record(file: &mut Vec<u8>, commit: u32, positions: &[u32]) {
    let position = |back: u32| {
        commit
            .checked_sub(back)
            .map_or(NO_PARENT, |parent| positions[parent as usize])
    };
    let merges = commit.is_multiple_of(MERGES) && commit >= 50;
    let second = if merges {
        position(2 + commit % 47)
    } else {
        NO_PARENT
    };
    file.extend(id(commit).iter().rev());
    file.extend(position(1).to_be_bytes());
    file.extend(second.to_be_bytes());
    let generation = u64::from(commit) + 1;
    file.extend((generation << 34 | 1_000_000_000 + u64::from(commit)).to_be_bytes());
}

/// The header, and the table of the chunks.
fn head(commits: usize) -> Vec<u8> {
    let mut file = b"CGPH\x01\x01\x03\x00".to_vec();
    let ends = [56, 1080, 1080 + 20 * commits, 1080 + 56 * commits];
    for (name, end) in iter::zip([b"OIDF", b"OIDL", b"CDAT", b"\0\0\0\0"], ends) {
        file.extend(name);
        file.extend((end as u64).to_be_bytes());
    }
    file
}

fn layer(commits: u32) -> Vec<u8> {
    let mut order: Vec<u32> = (0..commits).collect();
    order.sort_unstable_by_key(|commit| front(*commit));
    let mut positions = vec![0; order.len()];
    for (pos, commit) in (0..).zip(&order) {
        positions[*commit as usize] = pos;
    }
    let mut file = head(order.len());
    file.reserve_exact(56 * order.len() + 1100);
    for byte in 0..=255 {
        let below = order.partition_point(|commit| id(*commit)[0] <= byte);
        file.extend((below as u32).to_be_bytes());
    }
    for commit in &order {
        file.extend(id(*commit));
    }
    for commit in &order {
        push_record(&mut file, *commit, &positions);
    }
    let digest = sha1::digest(&file);
    file.extend(digest);
    file
}

fn main() {
    let words: Vec<String> = env::args().skip(1).collect();
    let [commits, path] = &words[..] else {
        panic!("usage: random_layer COMMITS PATH")
    };
    fs::write(path, layer(commits.parse().unwrap())).unwrap();
}
