//! What the program in `main.rt.txt` does, in plain Rust.

#[allow(dead_code)]
#[path = "../lookup/layer.rs"]
mod layer;
#[path = "../lookup/sha1.rs"]
mod sha1;

use layer::{ID_LEN, Layer, TOP_BIT};
use std::time::Instant;
use std::{env, fs};

/// The two hashes of the path `folder/file`, by which version 1 is asked twice: they are the same in both readings.
const KEY: (u32, u32) = (0x4a32_534d, 0x25d9_6efe);

fn chunk<'a>(data: &'a [u8], name: &[u8; 4]) -> &'a [u8] {
    let at = |row: usize| u64::from_be_bytes(data[12 + 12 * row..][..8].try_into().unwrap()) as usize;
    let row = (0..usize::from(data[6])).find(|row| &data[8 + 12 * row..][..4] == name).unwrap();
    &data[at(row)..at(row + 1)]
}

fn word_at(bytes: &[u8], place: usize) -> u32 {
    u32::from_be_bytes(bytes[4 * place..4 * place + 4].try_into().unwrap())
}

fn decode(layer: &Layer<'_>, times: &[u64]) -> Option<Vec<u64>> {
    let (offsets, overflow) = (chunk(layer.data, b"GDA2"), chunk(layer.data, b"GDO2"));
    let mut dates = Vec::new();
    for (place, time) in times.iter().enumerate() {
        let word = word_at(offsets, place);
        let offset = match word.checked_sub(TOP_BIT) {
            None => u64::from(word),
            Some(number) => u64::from_be_bytes(*overflow.get(8 * number as usize..)?.first_chunk()?),
        };
        dates.push(time.checked_add(offset).filter(|date| *date < 1 << 63)?);
    }
    Some(dates)
}

fn compare(layer: &Layer<'_>, times: &[u64]) -> Option<u64> {
    let dates = decode(layer, times)?;
    for (place, parents) in layer.all_parents().enumerate() {
        let mut expected = times[place].max(1);
        for parent in parents {
            expected = expected.max(1 + dates.get(parent.ok()? as usize)?);
        }
        if dates[place] != expected {
            return None;
        }
    }
    dates.last().copied()
}

fn index(layer: &Layer<'_>) -> Option<u32> {
    let (index, body) = (chunk(layer.data, b"BIDX"), chunk(layer.data, b"BDAT"));
    let (mut start, room) = (0, body.len() - 12);
    for place in 0..layer.len() as usize {
        let end = word_at(index, place);
        if end < start || end as usize > room {
            return None;
        }
        start = end;
    }
    Some(word_at(body, 1)).filter(|_| start as usize == room)
}

fn is_possible(filter: &[u8], hashes: u32, (first, step): (u32, u32)) -> bool {
    (0..hashes).all(|i| {
        let bit = u64::from(first.wrapping_add(i.wrapping_mul(step))) % (8 * filter.len() as u64);
        filter[(bit / 8) as usize] >> (bit % 8) & 1 == 1
    })
}

fn probe(layer: &Layer<'_>) -> Option<u64> {
    let hashes = index(layer)?;
    let (index, body) = (chunk(layer.data, b"BIDX"), chunk(layer.data, b"BDAT"));
    let (mut start, mut possible, keys) = (0, 0, std::hint::black_box([KEY; 2]));
    for place in 0..layer.len() as usize {
        let end = word_at(index, place) as usize;
        let filter = &body[12 + start..12 + end];
        possible += u64::from(!filter.is_empty() && keys.iter().any(|key| is_possible(filter, hashes, *key)));
        start = end;
    }
    Some(possible)
}

fn report(name: &str, run: impl FnOnce() -> Option<u64>) {
    let start = Instant::now();
    let sum = run().unwrap();
    println!("{name} {} {sum}", start.elapsed().as_nanos());
}

fn main() {
    let data = fs::read(env::args().nth(1).expect("usage: dates_baseline LAYER")).unwrap();
    let layer = Layer::new(&data).unwrap();
    let times: Vec<u64> = (0..layer.len()).map(|pos| layer.commit_at(pos).time).collect();
    report("decode", || decode(&layer, &times)?.last().copied());
    report("compare", || compare(&layer, &times));
    report("index", || index(&layer).map(u64::from));
    report("probe", || probe(&layer));
    let (body, trailer) = data.split_at(data.len() - ID_LEN);
    report("checksum", || Some(u64::from(sha1::digest(body) == trailer)));
}
