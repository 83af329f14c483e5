//! SHA-1, as FIPS 180-4 defines it.

const BLOCK_LEN: usize = 64;

/// The digest of a message.
pub fn digest(message: &[u8]) -> [u8; 20] {
    let mut state = [
        0x6745_2301,
        0xefcd_ab89,
        0x98ba_dcfe,
        0x1032_5476,
        0xc3d2_e1f0,
    ];
    let (blocks, rest) = message.as_chunks::<BLOCK_LEN>();
    for block in blocks {
        absorb(&mut state, block);
    }
    // The end of the message, a bit 1, zeros, and the message's length in bits.
    let mut last = [0; 2 * BLOCK_LEN];
    last[..rest.len()].copy_from_slice(rest);
    last[rest.len()] = 0x80;
    let end = if rest.len() + 9 <= BLOCK_LEN {
        BLOCK_LEN
    } else {
        2 * BLOCK_LEN
    };
    last[end - 8..end].copy_from_slice(&(8 * message.len() as u64).to_be_bytes());
    for block in last[..end].as_chunks::<BLOCK_LEN>().0 {
        absorb(&mut state, block);
    }
    let mut digest = [0; 20];
    for (bytes, word) in digest.as_chunks_mut::<4>().0.iter_mut().zip(state) {
        *bytes = word.to_be_bytes();
    }
    digest
}

/// Takes one block into the state.
fn absorb(state: &mut [u32; 5], block: &[u8; BLOCK_LEN]) {
    let mut words = [0; 16];
    for (word, bytes) in words.iter_mut().zip(block.as_chunks::<4>().0) {
        *word = u32::from_be_bytes(*bytes);
    }
    let mut turned = *state;
    macro_rules! rounds {
        ($($number:literal)*) => {
            $(turned = round::<$number>(turned, &mut words);)*
        };
    }
    rounds!(0 1 2 3 4 5 6 7 8 9 10 11 12 13 14 15 16 17 18 19);
    rounds!(20 21 22 23 24 25 26 27 28 29 30 31 32 33 34 35 36 37 38 39);
    rounds!(40 41 42 43 44 45 46 47 48 49 50 51 52 53 54 55 56 57 58 59);
    rounds!(60 61 62 63 64 65 66 67 68 69 70 71 72 73 74 75 76 77 78 79);
    for (word, turned) in state.iter_mut().zip(turned) {
        *word = word.wrapping_add(turned);
    }
}

/// One round. Of the message schedule the last sixteen words are kept, each where its number modulo
/// sixteen says.
#[inline(always)]
fn round<const NUMBER: usize>(state: [u32; 5], words: &mut [u32; 16]) -> [u32; 5] {
    let [a, b, c, d, e] = state;
    if NUMBER >= 16 {
        let before = |back: usize| words[(NUMBER - back) % 16];
        words[NUMBER % 16] = (before(3) ^ before(8) ^ before(14) ^ before(16)).rotate_left(1);
    }
    let (function, constant) = match NUMBER / 20 {
        0 => (d ^ (b & (c ^ d)), 0x5a82_7999),
        1 => (b ^ c ^ d, 0x6ed9_eba1),
        2 => ((b & c) | (d & (b ^ c)), 0x8f1b_bcdc_u32),
        _ => (b ^ c ^ d, 0xca62_c1d6),
    };
    let sum = e
        .wrapping_add(constant)
        .wrapping_add(words[NUMBER % 16])
        .wrapping_add(function);
    [
        a.rotate_left(5).wrapping_add(sum),
        a,
        b.rotate_left(30),
        c,
        d,
    ]
}
