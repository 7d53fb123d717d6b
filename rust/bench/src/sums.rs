//! The two sums in blocks, for the scanner written for speed and for the floor programs: each lane of a block is summed by
//! itself, and the lanes are folded at the end.

/// As many bytes as a vector of this machine has.
const LANES: usize = 16;

type Block = [u8; LANES];

/// F1 and F2.
pub type Sums = (u8, u8);

/// How often the byte in each lane counts in F2.
type Weights = [u16; LANES];

/// For each count: FF in the first so many lanes, and how often each of them counts where so many are summed.
const FIRST: [(Block, Weights); LANES + 1] = tables(0);

/// For each count: FF in the last so many lanes, and how often each of them counts where they end what is summed.
const LAST: [(Block, Weights); LANES + 1] = tables(LANES);

/// With 0 those of the first lanes, and with all lanes those of the last.
const fn tables(end: usize) -> [(Block, Weights); LANES + 1] {
    let mut tables = [([0; LANES], [0; LANES]); LANES + 1];
    let mut place = 0;
    while place < (LANES + 1) * LANES {
        let (count, lane) = (place / LANES, place % LANES);
        let (from, to) = if end == 0 { (0, count) } else { (end - count, end) };
        if from <= lane && lane < to {
            tables[count].0[lane] = 0xFF;
            tables[count].1[lane] = (to - lane) as u16;
        }
        place += 1;
    }
    tables
}

/// For each count, how often the byte in each lane counts where so many bytes stand from the first lane to the end of what is summed. A
/// figure below 0 wraps: of all sums only the lowest byte is kept.
const WITHIN: [Weights; 2 * LANES + 1] = {
    let mut within = [[0; LANES]; 2 * LANES + 1];
    let mut place = 0;
    while place < (2 * LANES + 1) * LANES {
        let (count, lane) = (place / LANES, place % LANES);
        within[count][lane] = (count as u16).wrapping_sub(lane as u16);
        place += 1;
    }
    within
};

/// The sums of the first `count` bytes of a row, which may have more.
#[inline(always)]
pub fn of_front(row: &[u8], count: usize) -> Sums {
    if count > 2 * LANES {
        return of_blocks(&row[..count]);
    }
    if count >= LANES {
        let summed = &row[..count];
        let (Some(first), Some(last)) = (summed.first_chunk(), summed.last_chunk()) else {
            unreachable!("a block at least");
        };
        return of_two(first, last, count);
    }
    match row.first_chunk::<LANES>() {
        Some(block) => of_short(block, count),
        None => one_by_one(&row[..count]),
    }
}

/// The sums of bytes and of more bytes behind them.
#[inline(always)]
pub fn and_behind((f1, f2): Sums, row: &[u8], count: usize) -> Sums {
    let (g1, g2) = of_front(row, count);
    (f1.wrapping_add(g1), f2.wrapping_add(g2).wrapping_add(f1.wrapping_mul(count as u8)))
}

/// Whether the last two of the first `whole` bytes are the sums of those before them.
#[inline(always)]
pub fn right(row: &[u8], whole: usize) -> bool {
    let (f1, f2) = of_front(row, whole - 2);
    (row[whole - 2] == f1) & (row[whole - 1] == f2)
}

fn one_by_one(row: &[u8]) -> Sums {
    row.iter().fold((0, 0), |(f1, f2): Sums, &byte| {
        let f1 = f1.wrapping_add(byte);
        (f1, f2.wrapping_add(f1))
    })
}

/// The first `count` bytes of a block, without a branch.
///
/// This and the next two are functions of their own and not inlined: where the compiler knows more of some bytes than of others, such as
/// those of the opening, it does not make vectors of them.
#[inline(never)]
fn of_short(block: &Block, count: usize) -> Sums {
    let (mask, weights) = &FIRST[count.min(LANES)];
    let (mut f1, mut f2) = (0u8, 0u16);
    for i in 0..LANES {
        f1 = f1.wrapping_add(block[i] & mask[i]);
    }
    for i in 0..LANES {
        f2 = f2.wrapping_add(u16::from(block[i]).wrapping_mul(weights[i]));
    }
    (f1, f2 as u8)
}

/// One to two blocks: the first, and of the last what stands behind it.
#[inline(never)]
fn of_two(first: &Block, last: &Block, count: usize) -> Sums {
    let count = count.clamp(LANES, 2 * LANES);
    let ((mask, weights), within) = (&LAST[count - LANES], &WITHIN[count]);
    let (mut f1, mut f2) = (0u8, 0u16);
    for i in 0..LANES {
        f1 = f1.wrapping_add(first[i].wrapping_add(last[i] & mask[i]));
    }
    for i in 0..LANES {
        let of_last = u16::from(last[i]).wrapping_mul(weights[i]);
        f2 = f2.wrapping_add(u16::from(first[i]).wrapping_mul(within[i]).wrapping_add(of_last));
    }
    (f1, f2 as u8)
}

/// More: whole blocks, and what stands behind them, which is taken from the last sixteen bytes.
#[inline(always)]
fn of_blocks(row: &[u8]) -> Sums {
    let (blocks, behind) = row.as_chunks();
    let mut lanes = [[0; LANES]; 2];
    sum_lanes(blocks, &mut lanes);
    folded(&lanes, row.last_chunk().expect("a block at least"), behind.len())
}

/// The bytes of each lane, and each of them as often as blocks stand behind its own.
#[inline(never)]
fn sum_lanes(blocks: &[Block], lanes: &mut [Block; 2]) {
    let (mut f1, mut f2) = ([0u8; LANES], [0u8; LANES]);
    for block in blocks {
        for i in 0..LANES {
            f2[i] = f2[i].wrapping_add(f1[i]);
        }
        for i in 0..LANES {
            f1[i] = f1[i].wrapping_add(block[i]);
        }
    }
    *lanes = [f1, f2];
}

/// The lanes' sums and the last `count` bytes of the last block, which stand behind whole blocks: as if the lanes were one block, and for each
/// block behind a byte's own 16 times more.
#[inline(always)]
fn folded([lanes, by_blocks]: &[Block; 2], last: &Block, count: usize) -> Sums {
    let (f1, f2) = of_two(lanes, last, LANES + count);
    let behind = by_blocks.iter().fold(0u8, |behind, &byte| behind.wrapping_add(byte));
    (f1, f2.wrapping_add(behind.wrapping_mul(LANES as u8)))
}

/// Against the paper's own rule, at every length of a message and with what stands behind it.
#[test]
fn as_the_plain_sums() {
    let mut rng = plain::generate::Rng::new(0x5A);
    for count in (0..=300).cycle().take(3000) {
        let row = rng.bytes(count + count % 40);
        let plain::Sums { f1, f2 } = plain::sums(&row[..count]);
        assert_eq!(of_front(&row, count), (f1, f2), "{count} bytes of {row:02X?}");
        let cut = count / 3;
        let joined = and_behind(of_front(&row, cut), &row[cut..], count - cut);
        assert_eq!(joined, (f1, f2), "{cut} bytes and then those up to {count} of {row:02X?}");
    }
}
