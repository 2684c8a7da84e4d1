//! A file's pages, and their pictures.

use crate::lists::Global;
use crate::proved::fax_decode::damage::Damage;
use crate::proved::fax_decode::{Allowance, NoPicture, decode_page, shown_picture};
use crate::proved::fax_pages::{Found, Page, PdfPages, Refusal, TiffPages};
use crate::proved::fax_pictures::Bitmap;
use crate::proved::paid_cursor::Cursor;
use crate::proved::pdf_read::PdfError;
use crate::proved::png_write::{Density, Pixels, write_png};
use crate::proved::tiff_read::{Ratio, ResolutionUnit, TiffError};

/// How many steps may be taken to read a file's directories or objects, whatever its length, and for each of its bytes.
const LEAST_STEPS: usize = 1 << 24;
const STEPS_OF_A_BYTE: usize = 16;

/// The pages of a file.
pub struct FaxFile<'a> {
    bytes: &'a [u8],
    pages: Vec<Found<'a>>,
    end: Option<OpenError>,
}

/// Why a file, or what follows a page of it, isn't read.
#[derive(Clone, Copy, Debug, PartialEq, Eq)]
pub enum OpenError {
    /// It is no file of a kind that is read.
    NotKnown,
    /// It ends before what it says that it has.
    Outside,
    /// A directory is one that was read before.
    Loop,
    /// It is a PDF file that is encrypted.
    Encrypted,
    /// It takes too many steps for a file of its length: its parts lie over each other.
    Spent,
    /// An allocation failed.
    OutOfMemory,
}

impl From<TiffError> for OpenError {
    fn from(error: TiffError) -> Self {
        match error {
            TiffError::NotTiff => Self::NotKnown,
            TiffError::Outside => Self::Outside,
            TiffError::Loop => Self::Loop,
            TiffError::Spent => Self::Spent,
            TiffError::OutOfMemory => Self::OutOfMemory,
        }
    }
}

impl From<PdfError> for OpenError {
    fn from(error: PdfError) -> Self {
        match error {
            PdfError::NotPdf => Self::NotKnown,
            PdfError::Encrypted => Self::Encrypted,
            PdfError::NoObjects | PdfError::BadFilter => Self::Outside,
            PdfError::Spent => Self::Spent,
            PdfError::OutOfMemory => Self::OutOfMemory,
        }
    }
}

impl<'a> FaxFile<'a> {
    /// Reads the directories of a TIFF file, or the objects of a PDF file.
    pub fn open(bytes: &'a [u8]) -> Result<Self, OpenError> {
        let steps = LEAST_STEPS.saturating_add(STEPS_OF_A_BYTE.saturating_mul(bytes.len()));
        match TiffPages::open(Global, Cursor::new(bytes, steps)) {
            Ok(mut tiff) => Ok(Self::of(bytes, || tiff.next_page(Global))),
            Err(TiffError::NotTiff) => {
                let mut pdf = PdfPages::open(Global, Cursor::new(bytes, steps))?;
                Ok(Self::of(bytes, || pdf.next_page(Global)))
            }
            Err(error) => Err(error.into()),
        }
    }

    /// The file of these bytes, whose pages a call returns one after another.
    fn of<E: Into<OpenError>>(
        bytes: &'a [u8],
        mut next: impl FnMut() -> Result<Option<Found<'a>>, E>,
    ) -> Self {
        let mut pages = Vec::new();
        let end = loop {
            match next() {
                Ok(Some(page)) => pages.push(page),
                Ok(None) => break None,
                Err(error) => break Some(error.into()),
            }
        };
        Self { bytes, pages, end }
    }

    /// The number of pages.
    pub fn count(&self) -> usize {
        self.pages.len()
    }

    /// What is wrong after the last page, if anything is.
    pub fn end(&self) -> Option<OpenError> {
        self.end
    }

    /// What is known of a page before it is decoded.
    pub fn info(&self, index: usize) -> Option<PageInfo> {
        Some(match self.pages.get(index)? {
            Found::Page(page) => PageInfo::of(page),
            Found::Unread(page) => PageInfo {
                refused: number_of(page.why),
                number: page.number,
                ..PageInfo::default()
            },
        })
    }

    /// The picture of a page as it is shown, and its damage.
    pub fn shown(&self, index: usize) -> Option<Shown> {
        match self.pages.get(index)? {
            Found::Page(page) => Some(decoded(page, self.bytes.len())),
            Found::Unread(_) => None,
        }
    }
}

/// What is known of a page.
#[repr(C)]
#[derive(Clone, Copy, Default)]
pub struct PageInfo {
    /// 0 for a page that can be decoded, else why it can't: the number of a `Refusal`.
    pub refused: u32,
    pub number: u32,
    /// The size of the picture as it is shown.
    pub columns: u32,
    pub rows: u32,
    /// The pixels of an inch, or 0 if they aren't known.
    pub across: f64,
    pub down: f64,
}

impl PageInfo {
    fn of(page: &Page<'_>) -> Self {
        let is_turned = page.orientation >= 5 && page.orientation <= 8;
        let across = of_an_inch(page.resolution.across, page.resolution.unit);
        let down = of_an_inch(page.resolution.down, page.resolution.unit);
        Self {
            refused: 0,
            number: page.number,
            columns: if is_turned { page.rows } else { page.columns },
            rows: if is_turned { page.columns } else { page.rows },
            across: if is_turned { down } else { across },
            down: if is_turned { across } else { down },
        }
    }
}

/// The number of a reason for which a page isn't decoded.
fn number_of(why: Refusal) -> u32 {
    match why {
        Refusal::NotFax(_) => 1,
        Refusal::SeveralBits => 2,
        Refusal::NoSize => 3,
        Refusal::NoParts => 4,
        Refusal::TileSize => 5,
        Refusal::Filter => 6,
    }
}

/// The pixels of an inch, or 0 if they aren't known.
fn of_an_inch(ratio: Option<Ratio>, unit: ResolutionUnit) -> f64 {
    let Some(ratio) = ratio else { return 0.0 };
    let found = ratio.above as f64 / ratio.below as f64;
    match unit {
        _ if !found.is_finite() => 0.0,
        ResolutionUnit::Inch => found,
        ResolutionUnit::Centimetre => found * 2.54,
        ResolutionUnit::None => 0.0,
    }
}

/// The picture of a page as it is shown, if there is one, and its damage.
pub struct Shown {
    pub picture: Result<Bitmap, Option<NoPicture>>,
    pub damage: Option<Damage>,
}

/// The picture of a page of a file of so many bytes. There is none, and no reason, where an allocation fails.
pub fn decoded(page: &Page<'_>, bytes: usize) -> Shown {
    let mut allowance = Allowance::of_file(bytes);
    let Ok(found) = decode_page(Global, page, &mut allowance) else {
        return Shown {
            picture: Err(None),
            damage: None,
        };
    };
    let picture = match found.picture {
        Ok(picture) => shown_picture(Global, page, picture).map_err(|_| None),
        Err(why) => Err(Some(why)),
    };
    Shown {
        picture,
        damage: Some(found.damage),
    }
}

/// Packed pixels as a PNG file, with the pixels of a metre if they are known; `None` if an allocation fails, or the size is wrong.
pub fn png_of(pixels: &Pixels<'_>, density: Option<Density>) -> Option<Vec<u8>> {
    let mut file = Vec::new();
    write_png(Global, &mut file, pixels, density).ok()?;
    Some(file)
}
