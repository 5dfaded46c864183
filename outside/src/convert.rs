//! The converter between the earlier edition and this one, read off the paper: what counts values
//! takes 4 bytes there and 8 here, and all else stays as it is and where it stands among the others.

use crate::{earlier, rules};

/// The bytes of a number, or of several in a row, in the one edition and in the other.
type Widths = (usize, usize);

/// What counts values, in the earlier edition and in this one.
const COUNT: Widths = (4, 8);

const fn same(width: usize) -> Widths {
    (width, width)
}

/// A record: kind, mark and two zero bytes; start, duration; both magnitudes.
const RECORD: [Widths; 4] = [same(4), COUNT, COUNT, same(8)];

/// An image behind its table.
const BODIES: [Widths; 16] = [
    // The settings, and body 2.
    same(36),
    same(32),
    // V, the values and their marks.
    COUNT,
    same(480),
    same(120),
    // The phase; k, A(k − 1) with the greatest difference, the first stand.
    same(4),
    COUNT,
    same(8),
    COUNT,
    // Start and magnitude of the dip, of the swell, of the interruption.
    COUNT,
    same(4),
    COUNT,
    same(4),
    COUNT,
    same(4),
    // The four marks.
    same(16),
];

/// The same widths, from this edition to the earlier one.
fn back(widths: &[Widths]) -> Vec<Widths> {
    widths.iter().map(|&(earlier, this)| (this, earlier)).collect()
}

/// The numbers in the other widths; none if one does not fit.
fn moved(mut bytes: &[u8], widths: &[Widths]) -> Option<Vec<u8>> {
    let mut list = Vec::new();
    for &(from, to) in widths {
        let (number, rest) = bytes.split_at(from);
        let (kept, above) = number.split_at(from.min(to));
        if above.iter().any(|&x| x != 0) {
            return None;
        }
        list.extend(kept);
        list.extend(vec![0; to - kept.len()]);
        bytes = rest;
    }
    Some(list)
}

/// Writes what was moved: 18 if not all of it fits back, then 7.
fn write(moved: Option<Vec<u8>>, output: &mut [u8]) -> u32 {
    let Some(bytes) = moved else {
        return 18;
    };
    if output.len() < bytes.len() {
        return 7;
    }
    output[..bytes.len()].copy_from_slice(&bytes);
    0
}

/// Whether the first four bytes of a record are as they must be.
fn head_good(record: &[u8]) -> bool {
    let [kind, mark, zeros @ ..] = &record[..4] else { return false };
    (1..=4).contains(kind) && *mark <= 1 && zeros == [0, 0]
}

/// A list of records of this length: 19, 18, 7.
fn convert_list(list: &[u8], length: usize, widths: &[Widths], output: &mut [u8]) -> u32 {
    let records = || list.chunks(length);
    if !records().all(|x| x.len() == length && head_good(x)) {
        return 19;
    }
    let moved: Option<Vec<Vec<u8>>> = records().map(|x| moved(x, widths)).collect();
    write(moved.map(|x| x.concat()), output)
}

/// From records of 20 bytes to records of 28.
pub fn records(earlier: &[u8], records: &mut [u8]) -> u32 {
    convert_list(earlier, earlier::RECORD, &RECORD, records)
}

/// From records of 28 bytes to records of 20.
pub fn records_back(records: &[u8], earlier: &mut [u8]) -> u32 {
    convert_list(records, rules::RECORD, &back(&RECORD), earlier)
}

/// An image with another table, and its bodies in the other widths.
fn moved_image(image: &[u8], table: Vec<u8>, widths: &[Widths]) -> Option<Vec<u8>> {
    let bodies = moved(&image[table.len()..], widths)?;
    Some([table, bodies].concat())
}

/// From an image of 764 bytes to one of 788.
pub fn image(earlier: &[u8], image: &mut [u8]) -> u32 {
    if earlier::restore(earlier) != 0 {
        return 19;
    }
    write(moved_image(earlier, rules::table(), &BODIES), image)
}

/// From an image of 788 bytes to one of 764.
pub fn image_back(image: &[u8], earlier: &mut [u8]) -> u32 {
    if rules::restore(image) != 0 {
        return 19;
    }
    write(moved_image(image, earlier::table(), &back(&BODIES)), earlier)
}
