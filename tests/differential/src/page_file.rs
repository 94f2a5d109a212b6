//! Page files: document 02, S-1, "A stay book on disk". A page file is its book.

use crate::calendar::LAST_DAY;
use crate::cipher::Key;
use crate::page;
use crate::refusal::{require, Refusal};

/// Bytes of a page in a file.
pub const PAGE_BYTES: usize = 512;
/// Bytes of a stay.
pub const STAY_BYTES: usize = 12;
/// The most bytes of text in a page of a file.
pub const MOST_PAGE_TEXT: usize = 474;

/// The number that stands in bytes, low byte first.
fn number(bytes: &[u8]) -> u64 {
    bytes.iter().rev().fold(0, |number, byte| 256 * number + u64::from(*byte))
}

/// A page as it stands in a file.
#[derive(Clone, Copy)]
struct Stored<'a>(&'a [u8]);

impl<'a> Stored<'a> {
    fn stay(self) -> &'a [u8] {
        &self.0[..12]
    }

    fn page_number(self) -> u64 {
        number(&self.0[12..16])
    }

    fn day(self) -> u64 {
        number(&self.0[16..20])
    }

    fn text_len(self) -> u64 {
        number(&self.0[20..22])
    }

    fn iv(self) -> &'a [u8] {
        &self.0[..16]
    }

    fn ad(self) -> &'a [u8] {
        &self.0[..22]
    }

    fn cipher(self) -> &'a [u8] {
        &self.0[22..496]
    }

    fn tag(self) -> &'a [u8] {
        &self.0[496..]
    }
}

/// Refusals 1 and 2: "2 (a stay of 12 bytes)".
fn require_names(key: &[u8], stay: &[u8]) -> Result<(), Refusal> {
    Key::new(key)?;
    require(stay.len() == STAY_BYTES, Refusal::IvLength)
}

/// "A file is pages of 512 bytes", and another length is refused with 13.
fn require_pages(file: &[u8]) -> Result<(), Refusal> {
    require(file.len().is_multiple_of(PAGE_BYTES), Refusal::BadFile)
}

/// Seals a page straight into its place, and changes no other page. Refuses 1, 2, 3, 12, 13.
pub fn seal(key: &[u8], stay: &[u8], page_number: u32, day: u64, text: &[u8], place: u64, file: &mut [u8]) -> Result<(), Refusal> {
    require_names(key, stay)?;
    require(text.len() <= MOST_PAGE_TEXT, Refusal::TooLong)?;
    require(day <= LAST_DAY, Refusal::DayRange)?;
    require_pages(file)?;
    require(place < (file.len() / PAGE_BYTES) as u64, Refusal::BadFile)?;

    let mut ad = stay.to_vec();
    ad.extend(page_number.to_le_bytes());
    ad.extend((day as u32).to_le_bytes());
    ad.extend((text.len() as u16).to_le_bytes());
    let mut padded = text.to_vec();
    padded.resize(MOST_PAGE_TEXT, 0);
    let mut cipher = [0; MOST_PAGE_TEXT];
    let tag = page::seal(key, &ad[..16], &ad, &padded, &mut cipher)?;
    let at = PAGE_BYTES * place as usize;
    file[at..at + PAGE_BYTES].copy_from_slice(&[&ad[..], &cipher, &tag].concat());
    Ok(())
}

/// The page that a stay and a page number name. Refuses 13 for what every page stores, then 14.
fn find<'a>(stay: &[u8], page_number: u32, file: &'a [u8]) -> Result<Stored<'a>, Refusal> {
    require_pages(file)?;
    let pages = || file.chunks(PAGE_BYTES).map(Stored);
    require(pages().all(|page| page.text_len() <= MOST_PAGE_TEXT as u64 && page.day() <= LAST_DAY), Refusal::BadFile)?;

    let of_stay: Vec<Stored> = pages().filter(|page| page.stay() == stay).collect();
    let named = of_stay.iter().find(|page| page.page_number() == u64::from(page_number));
    require(named.is_some(), Refusal::BadStay)?;
    require((0..).zip(&of_stay).all(|(i, page)| page.page_number() == i), Refusal::BadStay)?;
    require(of_stay.iter().all(|page| page.day() == of_stay[0].day()), Refusal::BadStay)?;
    named.copied().ok_or(Refusal::BadStay)
}

/// Writes the text of the page that a stay and a page number name, and gives its length. Refuses 1, 2, 13, 14, 4, 5, and 13 for padding.
pub fn open(key: &[u8], stay: &[u8], page_number: u32, file: &[u8], out: &mut [u8]) -> Result<usize, Refusal> {
    require_names(key, stay)?;
    let page = find(stay, page_number, file)?;
    let len = page.text_len() as usize;
    require(out.len() >= len, Refusal::ShortOutput)?;
    let mut padded = [0; MOST_PAGE_TEXT];
    page::open(key, page.iv(), page.ad(), page.cipher(), page.tag(), &mut padded)?;
    require(padded[len..].iter().all(|byte| *byte == 0), Refusal::BadFile)?;
    out[..len].copy_from_slice(&padded[..len]);
    Ok(len)
}
