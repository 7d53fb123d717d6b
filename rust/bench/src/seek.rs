//! Where a message opens, in blocks of bytes: for the scanner written for speed and for the floor programs.

const MARK: u8 = 0xA5;

/// As many bytes as a loop tests at once, where the compiler makes vectors of them.
const BLOCK: usize = 64;

/// As many bytes as fit into a word.
const WORD: usize = 8;

/// So many bytes are looked at word by word, before blocks are.
const NEAR: usize = 16;

const MARKS: u64 = u64::from_ne_bytes([MARK; WORD]);

/// The place of the first opening: A5 A5, and a third byte that is not A5. Where there is none, the place of the one or two A5 at
/// the row's end with which one may begin, or the row's length. What stands before it is skipped.
#[inline(always)]
pub fn opening(row: &[u8]) -> usize {
    match row {
        // Most messages stand right behind the last one.
        [MARK, MARK, third, ..] if *third != MARK => 0,
        _ => opening_behind(row),
    }
}

#[inline(never)]
fn opening_behind(row: &[u8]) -> usize {
    let at = pair(row);
    // Of a run the last two may open a message.
    at + match run(&row[at..]) {
        0..=2 => 0,
        marks => marks - 2,
    }
}

/// The place of the first A5 with another behind it; where there is none, that of an A5 at the end, or the row's length. A single
/// A5 is passed over with the bytes about it: so in noise no branch depends on it.
fn pair(row: &[u8]) -> usize {
    // Mostly it is not far; blocks are for what is longer.
    let mut at = 0;
    for near in [true, false] {
        while let Some(block) = row[at..].first_chunk::<{ WORD + 1 }>() {
            let differing = (word(&block[..WORD]) ^ MARKS) | (word(&block[1..]) ^ MARKS);
            let place = first_zero(differing);
            if place < WORD {
                return at + place;
            }
            at += WORD;
            if near && at == NEAR {
                at += BLOCK * blocks_without(&row[at..], &row[at + 1..]);
                break;
            }
        }
    }
    let rest = &row[at..];
    let last = rest.len() - usize::from(rest.last() == Some(&MARK));
    at + rest.windows(2).position(|two| two == [MARK; 2]).unwrap_or(last)
}

/// How many blocks have no A5 with another behind it, as long as whole blocks are there: given are the bytes, and those behind each. Not
/// inlined: where the compiler sees that both are the same row, it makes one of the other and is slower.
#[inline(never)]
fn blocks_without(row: &[u8], behind: &[u8]) -> usize {
    let blocks = row.as_chunks::<BLOCK>().0.iter().zip(behind.as_chunks::<BLOCK>().0);
    let mut count = 0;
    for (block, behind) in blocks {
        let mut least = 0xFF;
        for i in 0..BLOCK {
            least = least.min((block[i] ^ MARK) | (behind[i] ^ MARK));
        }
        if least == 0 {
            break;
        }
        count += 1;
    }
    count
}

/// How many A5 stand at the front.
fn run(row: &[u8]) -> usize {
    let mut at = 0;
    while let Some(block) = row[at..].first_chunk::<BLOCK>() {
        if block.iter().fold(0, |differing, &byte| differing | (byte ^ MARK)) != 0 {
            break;
        }
        at += BLOCK;
    }
    while let Some(block) = row[at..].first_chunk::<WORD>() {
        let differing = word(block) ^ MARKS;
        if differing != 0 {
            return at + differing.trailing_zeros() as usize / 8;
        }
        at += WORD;
    }
    at + row[at..].iter().take_while(|&&byte| byte == MARK).count()
}

fn word(bytes: &[u8]) -> u64 {
    u64::from_le_bytes(bytes.try_into().expect("as many bytes as a word has"))
}

/// The place of the first byte that is zero, the lowest being the first; 8 where none is.
fn first_zero(word: u64) -> usize {
    let zeros = word.wrapping_sub(0x0101_0101_0101_0101) & !word & 0x8080_8080_8080_8080;
    zeros.trailing_zeros() as usize / 8
}
