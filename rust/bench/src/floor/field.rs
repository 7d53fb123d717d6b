//! One field of a command: the error, what becomes of the settings and the page, and the row of the reply. Written twice, with branches and
//! with few.

use super::page::{self, rate_allowed, word, Kept, Page};
use super::reply::Row;
use ketphiroj::Settings;
use std::hint::select_unpredictable as pick;

/// What a command is handled on. The settings are counted from 0: the rate, the accelerometer's range, the gyroscope's; the fourth
/// place is for what is no setting.
pub struct Board<'a> {
    /// The working values.
    working: [u32; 4],
    /// The page's values, where it has all three.
    stored: [u32; 4],
    pub page: &'a mut Page,
    pub kept: Kept,
    /// The error of functions 1, 3, 4 and 5, where they are refused; else 0.
    pub refused: u8,
    /// Whether the page was written.
    pub saved: bool,
}

const FACTORY: [u32; 4] = [115200, 2, 3, 0];

/// How a floor program handles a field. It is given a command's type, 1 or 2, and the row from the field's code on, which has its two
/// bytes and as many more as its size says at least.
pub trait Fields {
    /// Whether a reply is written with branches, too.
    const BRANCHES: bool;

    fn handle(kind: u8, field: &[u8], board: &mut Board) -> Row;
}

/// With branches: a command that is foreseen costs least.
pub struct Branching;

/// With few branches, where the page has all three settings: no command that cannot be foreseen costs more.
pub struct Selecting;

/// The error of a value that is to be used: 0, 4 or 6.
#[inline(always)]
fn value_error(setting: usize, value: u32) -> u8 {
    let right = match setting {
        0 => rate_allowed(value),
        1 => value.wrapping_sub(1) < 4,
        _ => value.wrapping_sub(1) < 5,
    };
    match right {
        true => 0,
        false if setting == 2 && value.wrapping_sub(6) < 2 => 6,
        false => 4,
    }
}

impl<'a> Board<'a> {
    #[inline(always)]
    pub fn new(settings: Settings, page: &'a mut Page, kept: Kept, refused: u8) -> Board<'a> {
        let Settings { baud, accelerometer, gyroscope } = settings;
        let working = [baud, accelerometer.into(), gyroscope.into(), 0];
        let mut board = Board { working, stored: [0; 4], page, kept, refused, saved: false };
        board.read_page();
        board
    }

    /// The settings now. What is saved is put into the page.
    #[inline(always)]
    pub fn settings(&mut self) -> Settings {
        let [baud, accelerometer, gyroscope, _] = self.working;
        if self.kept.bodies != 0 {
            let bodies: &mut [u8; 6] = self.page[self.kept.bodies..].first_chunk_mut().expect("three bodies");
            bodies[..4].copy_from_slice(&self.stored[0].to_be_bytes());
            bodies[4..].copy_from_slice(&[self.stored[1] as u8, self.stored[2] as u8]);
        }
        Settings { baud, accelerometer: accelerometer as u8, gyroscope: gyroscope as u8 }
    }

    #[inline(always)]
    fn read_page(&mut self) {
        if self.kept.bodies != 0 {
            let bodies: &[u8; 6] = self.page[self.kept.bodies..].first_chunk().expect("three bodies");
            self.stored = [word(bodies), bodies[4].into(), bodies[5].into(), 0];
        }
    }

    /// A fresh number is put into the page. No setting is saved yet.
    #[inline(always)]
    pub fn put_number(&mut self, number: u32) {
        self.kept = page::put_number(number, self.kept, self.page);
        self.read_page();
        self.saved = true;
        self.refused = 0;
    }

    /// The page's value, or the factory's where it has none.
    fn loaded(&self, setting: usize) -> u32 {
        if self.kept.bodies != 0 {
            return self.stored[setting];
        }
        match page::values(self.page).expect("a page that was tested").settings[setting] {
            0 => FACTORY[setting],
            value => value,
        }
    }

    fn save(&mut self, setting: usize) {
        self.saved = true;
        self.stored[setting] = self.working[setting];
        if self.kept.bodies == 0 {
            let mut values = page::values(self.page).expect("a page that was tested");
            values.settings[setting] = self.working[setting];
            self.kept = page::write(&values, self.page);
            self.read_page();
        }
    }
}

impl Fields for Branching {
    const BRANCHES: bool = true;

    #[inline(always)]
    fn handle(kind: u8, field: &[u8], board: &mut Board) -> Row {
        let (code, size) = (field[0], field[1]);
        let setting = match (kind, code) {
            (1, 2) => return Row::without_value(code, if size == 0 { 0 } else { 4 }),
            (2, 1) => 0,
            (2, 7) => 1,
            (2, 8) => 2,
            _ => return Row::without_value(code, 3),
        };
        if size == 0 {
            return Row::without_value(code, 4);
        }
        let function = field[2];
        if board.refused != 0 && matches!(function, 1 | 3..=5) {
            return Row::without_value(code, board.refused);
        }
        let full = if setting == 0 { 5 } else { 2 };
        if !(1..=5).contains(&function) || !(size == full || (size == 1 && function != 1)) {
            return Row::without_value(code, 4);
        }
        accepted(setting, function, field, board)
    }
}

/// A field of a setting, whose function and size are right.
#[inline(always)]
fn accepted(setting: usize, function: u8, field: &[u8], board: &mut Board) -> Row {
    let code = field[0];
    let value = match function {
        1 if setting == 0 => word(&field[3..7]),
        1 => field[3].into(),
        2 => return Row { echo: code, error: 0, reports: true, value: board.working[setting] },
        3 => {
            board.save(setting);
            return Row::without_value(code, 0);
        }
        4 => board.loaded(setting),
        _ => FACTORY[setting],
    };
    let error = value_error(setting, value);
    if error == 0 {
        board.working[setting] = value;
    }
    Row::without_value(code, error)
}

impl Fields for Selecting {
    const BRANCHES: bool = false;

    #[inline(always)]
    fn handle(kind: u8, field: &[u8], board: &mut Board) -> Row {
        match field.first_chunk() {
            Some(field) if board.kept.bodies != 0 => select(kind, field, board),
            _ => by_branches(kind, field, board),
        }
    }
}

#[inline(never)]
fn by_branches(kind: u8, field: &[u8], board: &mut Board) -> Row {
    Branching::handle(kind, field, board)
}

/// A field on a page with all three settings. The seven bytes may be more than the field has: what is not of the field has no part
/// in the answer.
#[inline(always)]
fn select(kind: u8, field: &[u8; 7], board: &mut Board) -> Row {
    let [code, size, function, ..] = *field;
    let (kind, function) = (kind_of(kind, code), usize::from(function.min(7)));
    let setting = kind % 4;
    let step = STEPS[kind][function][usize::from(SIZES[kind][usize::from(size.min(7))])];
    let step = pick((step & ALTERS != 0) & (board.refused != 0), board.refused, step);

    let (working, stored) = (board.working[setting], board.stored[setting]);
    let sent = word(&field[3..]) >> SHORTER[setting];
    let value = pick(function == 1, sent, pick(function == 4, stored, FACTORY[setting]));
    let of_rate = pick(rate_allowed(value), 0, 4);
    let of_value = pick(setting == 0, of_rate, RANGES[setting][value.min(8) as usize]);
    let takes = step & TAKES != 0;
    let error = pick(takes, of_value, step & ERROR);

    let saves = step & SAVES != 0;
    board.working[setting] = pick(takes & (error == 0), value, working);
    board.stored[setting] = pick(saves, working, stored);
    board.saved |= saves;
    Row { echo: code, error, reports: step & REPORTS != 0, value: working }
}

/// What a field is, in a row of its own in the tables: one of the settings, a Ping, or nothing that the type has.
#[inline(always)]
fn kind_of(kind: u8, code: u8) -> usize {
    usize::from(KINDS[usize::from(kind == 2)][usize::from(code)]) % 8
}

const PING: u8 = 3;
const NOTHING: u8 = 4;

/// What a field of each code is, in types 1 and 2.
const KINDS: [[u8; 256]; 2] = {
    let mut kinds = [[NOTHING; 256]; 2];
    kinds[0][0x02] = PING;
    kinds[1][0x01] = 0;
    kinds[1][0x07] = 1;
    kinds[1][0x08] = 2;
    kinds
};

/// By how many bits a setting's value is shorter than four bytes.
const SHORTER: [u32; 4] = [0, 24, 24, 24];

/// The error of each value of a range; the last is that of all above, too.
const RANGES: [[u8; 9]; 4] = [[4; 9], [4, 0, 0, 0, 0, 4, 4, 4, 4], [4, 0, 0, 0, 0, 0, 6, 6, 4], [4; 9]];

/// Of each size: none, the function only, with a value, or wrong.
const SIZES: [[u8; 8]; 8] = {
    let mut sizes = [[0, 1, 3, 3, 3, 3, 3, 3]; 8];
    sizes[0][5] = 2;
    sizes[1][2] = 2;
    sizes[2][2] = 2;
    sizes
};

/// What is done: the error, and marks.
const ERROR: u8 = 7;
const TAKES: u8 = 8;
const SAVES: u8 = 16;
const REPORTS: u8 = 32;
const ALTERS: u8 = 64;

/// What is done by a field of each kind with each function and each of the sizes.
const STEPS: [[[u8; 4]; 8]; 8] = {
    let mut steps = [[[3; 4]; 8]; 8];
    let mut place = 0;
    while place < 4 * 8 * 4 {
        let (kind, function, size) = (place / 32, place / 4 % 8, place % 4);
        steps[kind][function][size] = if kind == PING as usize {
            if size == 0 {
                0
            } else {
                4
            }
        } else {
            step(function, size)
        };
        place += 1;
    }
    steps
};

/// What is done by a setting's field.
const fn step(function: usize, size: usize) -> u8 {
    let alters = if size > 0 && matches!(function, 1 | 3..=5) { ALTERS } else { 0 };
    let right = matches!(function, 1..=5) && (size == 2 || (size == 1 && function != 1));
    alters
        | match function {
            _ if !right => 4,
            2 => REPORTS,
            3 => SAVES,
            _ => TAKES,
        }
}
