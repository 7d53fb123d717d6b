//! The start-up page.

use crate::ffi;
use crate::message::length_of;
use crate::refusal::{done_or_refused, Refusal};

/// The length of a page.
pub const PAGE: usize = 64;

/// The values that a page keeps, one or none under each code: those of [`Settings`](crate::Settings), and the gyroscope's
/// ranges 6 and 7 of older boards.
#[derive(Clone, Copy, Debug, Default, PartialEq, Eq)]
#[must_use]
pub struct Values {
    /// Under code 01.
    pub baud: Option<u32>,
    /// Under code 07.
    pub accelerometer: Option<u32>,
    /// Under code 08: 1 to 7. A start and function 4 take 1 to 5 alone.
    pub gyroscope: Option<u32>,
    /// Under code 70: the last number accepted, of any value. Where there is one, port 0 takes a command that would change
    /// something only with a larger number ([`Board::feed`](crate::Board::feed)).
    pub last_number: Option<u32>,
}

impl Values {
    /// The values that a blank or sound page keeps.
    ///
    /// # Errors
    ///
    /// [`Refusal::PageLength`] where the page is not 64 bytes, then [`Refusal::Page`] where it is neither blank nor sound.
    ///
    /// # Examples
    ///
    /// ```
    /// use ketphiroj::{factory_page, Refusal, Values};
    ///
    /// let mut page = factory_page();
    /// let factory = Values { baud: Some(115200), accelerometer: Some(2), gyroscope: Some(3), last_number: None };
    /// assert_eq!(Values::read(&page)?, factory);
    /// assert_eq!(Values::read(&[0xFF; 64])?, Values::default());
    ///
    /// // A gyroscope's range of an older board is read.
    /// page[15] = 7;
    /// assert_eq!(Values::read(&page)?, Values { gyroscope: Some(7), ..factory });
    ///
    /// // One that no board has: no value of the page is read.
    /// page[15] = 8;
    /// assert_eq!(Values::read(&page), Err(Refusal::Page));
    /// assert_eq!(Values::read(&page[..63]), Err(Refusal::PageLength));
    /// # Ok::<(), Refusal>(())
    /// ```
    pub fn read(page: &[u8]) -> Result<Values, Refusal> {
        let ffi::FlatPage { values: flat, number } = ffi::read_page(page);
        done_or_refused(number)?;
        Ok(Values {
            baud: flat.has_baud.then_some(flat.baud),
            accelerometer: flat.has_accelerometer.then_some(flat.accelerometer),
            gyroscope: flat.has_gyroscope.then_some(flat.gyroscope),
            last_number: flat.has_last_number.then_some(flat.last_number),
        })
    }

    /// Writes the page anew so that it keeps these values; blank with none. It is for pages that no board runs on: a page
    /// that is given a smaller number, or none, lets a board accept numbers again that it has accepted before.
    ///
    /// # Errors
    ///
    /// [`Refusal::PageLength`] where the page is not 64 bytes, then [`Refusal::Page`] where a value is none that a page may keep.
    ///
    /// # Examples
    ///
    /// ```
    /// use ketphiroj::{Refusal, Values};
    ///
    /// let mut page = [0; 64];
    /// Values { gyroscope: Some(7), ..Values::default() }.write(&mut page)?;
    /// assert_eq!(page[..6], [0x01, 0x08, 0x04, 0x01, 0x07, 0xFF]);
    /// let refused = Values { gyroscope: Some(8), ..Values::default() }.write(&mut page);
    /// assert_eq!(refused, Err(Refusal::Page));
    /// Values { gyroscope: Some(7), last_number: Some(0x01020304), ..Values::default() }.write(&mut page)?;
    /// assert_eq!(page[..13], [2, 0x08, 7, 1, 0x70, 8, 4, 7, 1, 2, 3, 4, 0xFF]);
    /// # Ok::<(), Refusal>(())
    /// ```
    pub fn write(&self, page: &mut [u8]) -> Result<(), Refusal> {
        done_or_refused(ffi::write_page(self.flat(), page))
    }

    fn flat(&self) -> ffi::FlatValues {
        ffi::FlatValues {
            has_baud: self.baud.is_some(),
            baud: self.baud.unwrap_or(0),
            has_accelerometer: self.accelerometer.is_some(),
            accelerometer: self.accelerometer.unwrap_or(0),
            has_gyroscope: self.gyroscope.is_some(),
            gyroscope: self.gyroscope.unwrap_or(0),
            has_last_number: self.last_number.is_some(),
            last_number: self.last_number.unwrap_or(0),
        }
    }
}

/// Whether a page is blank or sound.
///
/// # Errors
///
/// [`Refusal::PageLength`] where the page is not 64 bytes, then [`Refusal::Page`] where it is neither.
///
/// # Examples
///
/// ```
/// use ketphiroj::{check_page, factory_page, Refusal};
///
/// assert_eq!(check_page(&[0xFF; 64]), Ok(()));
/// assert_eq!(check_page(&factory_page()), Ok(()));
/// assert_eq!(check_page(&[0x00; 64]), Err(Refusal::Page));
/// ```
pub fn check_page(page: &[u8]) -> Result<(), Refusal> {
    done_or_refused(ffi::check_page(page))
}

/// Copies the body under a code to the room's front, and gives its length: from the saved page if it has the entry,
/// else from the factory page; nothing where neither has it. [`factory_page`] has no number.
///
/// # Errors
///
/// [`Refusal::PageLength`] and [`Refusal::Page`] of the saved page, then those of the factory page, then [`Refusal::Room`] where the
/// body does not fit.
///
/// # Examples
///
/// ```
/// use ketphiroj::{code, copy_body, factory_page, Refusal};
///
/// let mut room = [0; 4];
/// assert_eq!(copy_body(&[0xFF; 64], &factory_page(), code::BAUD, &mut room), Ok(4));
/// assert_eq!(u32::from_be_bytes(room), 115200);
/// assert_eq!(copy_body(&[0xFF; 64], &[0xFF; 64], code::BAUD, &mut room), Ok(0));
/// assert_eq!(copy_body(&[0x00; 64], &[0xFF; 63], code::BAUD, &mut room), Err(Refusal::Page));
/// assert_eq!(copy_body(&[0xFF; 64], &[0xFF; 63], code::BAUD, &mut room), Err(Refusal::PageLength));
/// assert_eq!(copy_body(&[0xFF; 64], &factory_page(), code::BAUD, &mut room[..3]), Err(Refusal::Room));
/// ```
pub fn copy_body(saved: &[u8], factory: &[u8], code: u8, room: &mut [u8]) -> Result<usize, Refusal> {
    length_of(ffi::copy_body(saved, factory, code, room))
}

/// The writing of the factory values; it keeps no number.
#[must_use]
pub fn factory_page() -> [u8; PAGE] {
    let mut page = [0; PAGE];
    let written = ffi::factory_page(&mut page);
    debug_assert_eq!((written.number, written.length), (0, PAGE));
    page
}
