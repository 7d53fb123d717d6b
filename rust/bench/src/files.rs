//! The generated files. The place of a file in the list is its seed.

use plain::generate::{self, fields, numbered, Rng};

/// What is in a file.
#[derive(Clone, Copy, Debug, PartialEq, Eq)]
pub enum File {
    /// Commands that the board accepts, 8 to 13 bytes each; about one in sixty-six has a range of the gyroscope that it no
    /// longer has, and gets error 6.
    ShortCommands,
    /// Data messages of 34 bytes.
    DataMessages,
    /// Messages of 261 bytes. About one in fifty is of type A5, which the scan does not find.
    LongMessages,
    /// Messages of all kinds, damage and noise.
    Mix,
    /// Random bytes.
    Noise,
    /// Runs of 1 to 300 A5, with a few other bytes between: nearly all of it is skipped.
    Runs,
    /// The mix without runs: no piece that has three A5 in a row, or that ends with an A5.
    MixWithoutRuns,
    /// Commands of 2 to 16 fields that the board accepts.
    SeveralFields,
    /// Numbered commands of one field; of eight about one has a number that is not fresh.
    Numbered,
    /// False headers that claim 255 bytes, as close as they can stand, all with wrong sums: for every four bytes 259 are summed.
    FalseHeaders,
}

impl File {
    pub const ALL: [File; 10] = [
        File::ShortCommands,
        File::DataMessages,
        File::LongMessages,
        File::Mix,
        File::Noise,
        File::Runs,
        File::MixWithoutRuns,
        File::SeveralFields,
        File::Numbered,
        File::FalseHeaders,
    ];

    pub fn name(self) -> &'static str {
        match self {
            File::ShortCommands => "short commands",
            File::DataMessages => "data messages",
            File::LongMessages => "261-byte messages",
            File::Mix => "mix",
            File::Noise => "noise",
            File::Runs => "runs of A5",
            File::MixWithoutRuns => "mix without runs",
            File::SeveralFields => "several fields",
            File::Numbered => "numbered commands",
            File::FalseHeaders => "false headers",
        }
    }

    /// One piece of the file: so many were made before.
    fn piece(self, rng: &mut Rng, before: usize) -> Vec<u8> {
        match self {
            File::ShortCommands => generate::accepted_command(rng),
            File::DataMessages => data_message(rng),
            File::LongMessages => plain::message(generate::kind(rng), &rng.bytes(255)),
            File::Mix => generate::piece(rng),
            File::Noise => rng.bytes(4096),
            File::Runs => {
                let mut run = vec![0xA5; rng.between(1, 300)];
                let count = rng.between(1, 8);
                run.extend(rng.bytes(count));
                run
            }
            File::MixWithoutRuns => loop {
                let piece = generate::piece(rng);
                if !piece.windows(3).any(|three| three == [0xA5; 3]) && piece.last() != Some(&0xA5) {
                    break piece;
                }
            },
            File::SeveralFields => several_fields(rng),
            File::Numbered => {
                let stale = before > 0 && rng.chance(1, 8);
                let number = if stale { rng.below(before) } else { before };
                numbered::accepted(rng, number as u32)
            }
            File::FalseHeaders => vec![0xA5, 0xA5, 0x01, 0xFF],
        }
    }

    /// The file's bytes; the same in every run.
    pub fn bytes(self, length: usize) -> Vec<u8> {
        let mut rng = Rng::new(self as u64);
        let mut bytes = Vec::with_capacity(length + 4096);
        for before in 0.. {
            if bytes.len() >= length {
                break;
            }
            bytes.extend(self.piece(&mut rng, before));
        }
        bytes.truncate(length);
        bytes
    }
}

fn data_message(rng: &mut Rng) -> Vec<u8> {
    let mut axes = || [rng.word() as u32, rng.word() as u32, rng.word() as u32];
    let mut room = vec![0; 34];
    plain::write_data(axes(), axes(), &mut room);
    room
}

fn several_fields(rng: &mut Rng) -> Vec<u8> {
    let kind = rng.pick(&[0x01, 0x02, 0x02, 0x02, 0x02]);
    let count = rng.between(2, 16);
    let payload: Vec<u8> = (0..count).flat_map(|_| fields::accepted_field(rng, kind)).collect();
    plain::message(kind, &payload)
}

/// Of a file's first bytes: the commands' first errors by number, as the plain reading answers them, and how many bytes are skipped.
#[cfg(test)]
fn errors_and_skipped(file: File) -> ([u64; 8], u64) {
    let (bytes, mut page) = (file.bytes(40 << 10), [0xFF; 64]);
    let (_, mut board) = plain::start(plain::Profile::Full, &page);
    let mut rest = &bytes[..];
    loop {
        let fed = plain::feed(0, &board, rest, &mut [0; plain::Port::LONGEST_REPLY], &mut page);
        board = fed.board;
        rest = &rest[fed.taken..];
        if fed.number == plain::number::USED_UP {
            return (board.tallies[0].errors, board.tallies[0].skipped);
        }
    }
}

/// The files are what their comments say.
#[test]
fn files_are_as_told() {
    let (errors, skipped) = errors_and_skipped(File::SeveralFields);
    assert_eq!((errors.iter().sum::<u64>(), skipped), (errors[0], 0));
    assert!(errors[0] > 500, "{errors:?}");
    let ([done, .., stale, _, _], skipped) = errors_and_skipped(File::Numbered);
    assert!(done > 6 * stale && 9 * stale > done && skipped == 0, "{done} fresh, {stale} stale");
    // Each has four bytes, and the last is the first that is not held whole.
    let (errors, skipped) = errors_and_skipped(File::FalseHeaders);
    let messages = (40 << 10) / 4 - 65;
    assert_eq!((errors[1], errors.iter().sum()), (messages, messages));
    assert_eq!(skipped, 4 * messages, "{errors:?}");
}

/// Versions are compared on the same files: a sum (FNV-1a) of the first MiB of each.
#[test]
fn files_stay_as_they_were() {
    let sum = |sum: u64, byte: &u8| (sum ^ u64::from(*byte)).wrapping_mul(0x100_0000_01B3);
    let sums = File::ALL.map(|file| file.bytes(1 << 20).iter().fold(0xCBF2_9CE4_8422_2325, sum));
    let expected = [
        0x96DA_14C0_04B5_437A,
        0xE3DD_3207_728C_914E,
        0xE792_8E9A_4884_8762,
        0xF518_D5BA_CB24_B7AF,
        0x92D7_43AF_D4E1_9000,
        0x6A95_075D_EE63_B014,
        0x89F1_E29C_1AB5_107E,
        0xA080_CEE1_CB98_208D,
        0x34F3_A373_467B_B465,
        0x56E0_0B41_2352_2325,
    ];
    assert_eq!(sums, expected, "{sums:#018X?}");
}
