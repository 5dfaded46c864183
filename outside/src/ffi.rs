//! The proved library, called as C does: every slice is a pointer and a length.

mod library {
    extern "C" {
        pub fn pq_begin(
            settings: *const u8,
            settings_length: usize,
            image: *mut u8,
            image_length: usize,
        ) -> u32;

        pub fn pq_advance(
            image: *const u8,
            image_length: usize,
            samples: *const u8,
            samples_length: usize,
            new_image: *mut u8,
            new_image_length: usize,
            records: *mut u8,
            records_length: usize,
            reply: *mut u8,
            reply_length: usize,
        ) -> u32;

        pub fn pq_try(
            image: *const u8,
            image_length: usize,
            samples: *const u8,
            samples_length: usize,
            scratch: *mut u8,
            scratch_length: usize,
            reply: *mut u8,
            reply_length: usize,
        ) -> u32;

        pub fn pq_count_day(
            settings: *const u8,
            settings_length: usize,
            records: *const u8,
            records_length: usize,
            z: u64,
            above: u32,
            day: u64,
            reply: *mut u8,
            reply_length: usize,
        ) -> u32;

        pub fn pq_convert_records(
            earlier: *const u8,
            earlier_length: usize,
            records: *mut u8,
            records_length: usize,
        ) -> u32;

        pub fn pq_convert_records_back(
            records: *const u8,
            records_length: usize,
            earlier: *mut u8,
            earlier_length: usize,
        ) -> u32;

        pub fn pq_convert_image(
            earlier: *const u8,
            earlier_length: usize,
            image: *mut u8,
            image_length: usize,
        ) -> u32;

        pub fn pq_convert_image_back(
            image: *const u8,
            image_length: usize,
            earlier: *mut u8,
            earlier_length: usize,
        ) -> u32;
    }
}

/// The proved begin.
pub fn begin(settings: &[u8], image: &mut [u8]) -> u32 {
    // SAFETY: both slices are valid for their lengths during the call and do not overlap.
    unsafe { library::pq_begin(settings.as_ptr(), settings.len(), image.as_mut_ptr(), image.len()) }
}

/// The proved advance.
pub fn advance(
    image: &[u8],
    samples: &[u8],
    new_image: &mut [u8],
    records: &mut [u8],
    reply: &mut [u8],
) -> u32 {
    // SAFETY: all slices are valid for their lengths during the call; those written are borrowed
    // alone, so none overlaps another.
    unsafe {
        library::pq_advance(
            image.as_ptr(),
            image.len(),
            samples.as_ptr(),
            samples.len(),
            new_image.as_mut_ptr(),
            new_image.len(),
            records.as_mut_ptr(),
            records.len(),
            reply.as_mut_ptr(),
            reply.len(),
        )
    }
}

/// The proved trial.
pub fn trial(image: &[u8], samples: &[u8], scratch: &mut [u8], reply: &mut [u8]) -> u32 {
    // SAFETY: all slices are valid for their lengths during the call; those written are borrowed
    // alone, so none overlaps another.
    unsafe {
        library::pq_try(
            image.as_ptr(),
            image.len(),
            samples.as_ptr(),
            samples.len(),
            scratch.as_mut_ptr(),
            scratch.len(),
            reply.as_mut_ptr(),
            reply.len(),
        )
    }
}

/// The proved count of a day.
pub fn count_day(
    settings: &[u8],
    records: &[u8],
    z: u64,
    above: u32,
    day: u64,
    reply: &mut [u8],
) -> u32 {
    // SAFETY: all slices are valid for their lengths during the call; the reply, which is written, is
    // borrowed alone, so it overlaps no other.
    unsafe {
        library::pq_count_day(
            settings.as_ptr(),
            settings.len(),
            records.as_ptr(),
            records.len(),
            z,
            above,
            day,
            reply.as_mut_ptr(),
            reply.len(),
        )
    }
}

/// The proved converter, from records of 20 bytes to records of 28.
pub fn convert_records(given: &[u8], output: &mut [u8]) -> u32 {
    let (length, room) = (given.len(), output.len());
    // SAFETY: both slices are valid for their lengths during the call and do not overlap.
    unsafe { library::pq_convert_records(given.as_ptr(), length, output.as_mut_ptr(), room) }
}

/// The proved converter, from records of 28 bytes to records of 20.
pub fn convert_records_back(given: &[u8], output: &mut [u8]) -> u32 {
    let (length, room) = (given.len(), output.len());
    // SAFETY: both slices are valid for their lengths during the call and do not overlap.
    unsafe { library::pq_convert_records_back(given.as_ptr(), length, output.as_mut_ptr(), room) }
}

/// The proved converter, from an image of 764 bytes to one of 788.
pub fn convert_image(given: &[u8], output: &mut [u8]) -> u32 {
    let (length, room) = (given.len(), output.len());
    // SAFETY: both slices are valid for their lengths during the call and do not overlap.
    unsafe { library::pq_convert_image(given.as_ptr(), length, output.as_mut_ptr(), room) }
}

/// The proved converter, from an image of 788 bytes to one of 764.
pub fn convert_image_back(given: &[u8], output: &mut [u8]) -> u32 {
    let (length, room) = (given.len(), output.len());
    // SAFETY: both slices are valid for their lengths during the call and do not overlap.
    unsafe { library::pq_convert_image_back(given.as_ptr(), length, output.as_mut_ptr(), room) }
}
