//! Begin, advance and trial over the logger, on byte slices, as a host in C calls them.

use crate::engineer::Fed;
use crate::image::IMAGE;
use crate::logger::Logger;

/// Begin: 1 to 6 for the settings, then 7 for the image's buffer; else 0 and a fresh image.
pub fn begin(settings: &[u8], image: &mut [u8]) -> u32 {
    match Logger::start(settings).and_then(|x| x.save(image)) {
        Ok(()) => 0,
        Err(number) => number,
    }
}

/// Advance: 8 to 11, 12, 7, 13, in that order; else 0 after restore, feed and save.
pub fn advance(
    image: &[u8],
    samples: &[u8],
    new_image: &mut [u8],
    records: &mut [u8],
    reply: &mut [u8],
) -> u32 {
    let mut logger = match Logger::from_image(image) {
        Ok(logger) => logger,
        Err(number) => return number,
    };
    let (samples, odd) = samples.as_chunks::<2>();
    if !odd.is_empty() {
        return 12;
    }
    if new_image.len() < IMAGE {
        return 7;
    }
    let Some(reply) = reply.first_chunk_mut::<24>() else {
        return 13;
    };
    let fed = logger.feed(samples, records);
    if let Err(number) = logger.save(new_image) {
        return number;
    }
    tell(fed, reply);
    0
}

/// Trial: 8 to 11, 12, 13, in that order; else 0 after restore and a trial. What it has in common
/// with advance is not shared: that made advance slower.
pub fn trial(image: &[u8], samples: &[u8], scratch: &mut [u8], reply: &mut [u8]) -> u32 {
    let logger = match Logger::from_image(image) {
        Ok(logger) => logger,
        Err(number) => return number,
    };
    let (samples, odd) = samples.as_chunks::<2>();
    if !odd.is_empty() {
        return 12;
    }
    let Some(reply) = reply.first_chunk_mut::<24>() else {
        return 13;
    };
    tell(logger.trial(samples, scratch), reply);
    0
}

/// Writes the reply.
fn tell(fed: Fed, reply: &mut [u8; 24]) {
    reply[..8].copy_from_slice(&fed.taken.to_le_bytes());
    reply[8..16].copy_from_slice(&fed.written.to_le_bytes());
    reply[16..].copy_from_slice(&fed.why.to_le_bytes());
}
