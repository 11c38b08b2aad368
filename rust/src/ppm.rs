//! Frames that are stored as PPM files: Netpbm's colour images of the kind `P6`, with maximum 255.
//!
//! [`Table::load_ppm`] counts the pixels of a file where they stand in it. [`header`] says how large the image is and
//! where its pixels start, so that they can be mapped, or painted in place.
//!
//! A header is `P6`, a gap, the width, a gap, the height, a gap, the maximum and one whitespace; then come the pixels.
//! Whitespace is a blank, TAB, CR or LF. A gap has whitespace and comments in any order, with at least one whitespace
//! that is no part of a comment; a comment goes from `#` through the next CR or LF. A number is decimal digits, one or
//! more. Width and height are each 1 to 65,535. A file has one image and no byte more.
//!
//! ```
//! use seluvava::{Grid, Refused, Table, ppm};
//!
//! let mut file = b"P6 # a screen\n3 1\n255\n".to_vec();
//! file.extend([10, 0, 0, 12, 0, 0, 200, 255, 255]);
//!
//! let mut table = Table::new(Grid::rgb());
//! table.load_ppm(&file)?;
//! let cut = table.cut(256)?;
//!
//! let header = ppm::header(&file)?;
//! assert_eq!((header.width(), header.height()), (3, 1));
//! cut.colour_map().paint_bytes(&mut file[header.pixels()..], 0..3)?;
//! assert_eq!(header.pixel_bytes(&file)?, [11, 0, 0, 11, 0, 0, 200, 255, 255]);
//! # Ok::<(), Refused>(())
//! ```
use crate::{Refused, Table, sys};

/// What the header of a PPM says.
#[derive(Debug, Clone, Copy, PartialEq, Eq, Hash)]
pub struct Header {
    pub(crate) width: usize,
    pub(crate) height: usize,
    pub(crate) pixels: usize,
}

impl Header {
    /// The width of the image in pixels, from 1 to 65,535.
    #[must_use]
    pub fn width(&self) -> usize {
        self.width
    }

    /// The height of the image in pixels, from 1 to 65,535.
    #[must_use]
    pub fn height(&self) -> usize {
        self.height
    }

    /// At which byte of the file the pixels start. Whether they are all there, [`header`] does not ask.
    #[must_use]
    pub fn pixels(&self) -> usize {
        self.pixels
    }

    /// The pixels of the file, three bytes each.
    ///
    /// # Errors
    ///
    /// [`Refused::PpmLength`] where the file has more or fewer of them than width times height, or ends before they
    /// start.
    ///
    /// ```
    /// use seluvava::{Refused, ppm};
    ///
    /// let file = b"P6 1 1 255 \x01\x02\x03";
    /// let header = ppm::header(file)?;
    /// assert_eq!(header.pixel_bytes(file)?, [1, 2, 3]);
    /// assert_eq!(header.pixel_bytes(&file[..13]), Err(Refused::PpmLength));
    /// # Ok::<(), Refused>(())
    /// ```
    pub fn pixel_bytes<'a>(&self, file: &'a [u8]) -> Result<&'a [u8], Refused> {
        file.get(self.pixels..)
            .filter(|bytes| bytes.len() == 3 * self.width * self.height)
            .ok_or(Refused::PpmLength)
    }
}

/// Reads the header of a PPM. Of the file it needs the bytes of the header alone, and looks at no others.
///
/// # Errors
///
/// [`Refused::PpmHeader`] where the bytes are no whole header, or a side is not from 1 to 65,535; and
/// [`Refused::PpmMaximum`].
///
/// ```
/// use seluvava::{Refused, ppm};
///
/// let header = ppm::header(b"P6\n1920 1080\n255\n")?;
/// assert_eq!((header.width(), header.height(), header.pixels()), (1_920, 1_080, 17));
///
/// assert_eq!(ppm::header(b"P6\n1920 1080\n65535\n"), Err(Refused::PpmMaximum));
/// assert_eq!(ppm::header(b"P3\n1920 1080\n255\n"), Err(Refused::PpmHeader));
/// assert_eq!(ppm::header(b"P6\n1920 65536\n255\n"), Err(Refused::PpmHeader));
/// assert_eq!(ppm::header(b"P6\n1920 1080\n255"), Err(Refused::PpmHeader));
/// # Ok::<(), Refused>(())
/// ```
pub fn header(file: &[u8]) -> Result<Header, Refused> {
    sys::ppm_header(file)
}

impl Table {
    /// Adds the pixels of a [PPM](crate::ppm) file, each once. The table is what [`load_bytes`](Table::load_bytes)
    /// makes of its pixels, and no byte is copied.
    ///
    /// # Errors
    ///
    /// [`Refused::PpmHeader`], [`Refused::PpmMaximum`], [`Refused::PpmLength`] where the file does not have just the
    /// pixels that its header tells, and those of [`load`](Table::load).
    ///
    /// ```
    /// use seluvava::{Grid, Refused, Table};
    ///
    /// let mut table = Table::new(Grid::rgb());
    /// table.load_ppm(b"P6\n# two pixels\n2 1\n255\n\x00\x00\x00\xff\xff\xff")?;
    /// assert_eq!(table.total(), 2);
    /// assert_eq!(table.load_ppm(b"P6 2 1 255\n\x00\x00\x00"), Err(Refused::PpmLength));
    /// assert_eq!(table.total(), 2);
    /// # Ok::<(), Refused>(())
    /// ```
    pub fn load_ppm(&mut self, file: &[u8]) -> Result<(), Refused> {
        sys::load_ppm(self.grid(), self.numbers_mut(), file)
    }
}
