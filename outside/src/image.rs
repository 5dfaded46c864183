//! Save and restore of the logger.

use crate::limits::Limits;
use crate::logger::{Change, Event, Logger, Phase, END, PLACES};
use crate::squares::Part;

/// Bytes in an image.
pub const IMAGE: usize = 788;

/// The table of contents: code (4 bytes), offset (2), length (2), four times.
const TABLE: [u8; 32] = [
    1, 0, 0, 0, 32, 0, 36, 0, //
    2, 0, 0, 0, 68, 0, 32, 0, //
    3, 0, 0, 0, 100, 0, 96, 2, //
    4, 0, 0, 0, 196, 2, 80, 0,
];

const TOP: u32 = 524_288;

fn get4(b: &[u8; IMAGE], at: usize) -> u32 {
    u32::from_le_bytes([b[at], b[at + 1], b[at + 2], b[at + 3]])
}

fn get8(b: &[u8; IMAGE], at: usize) -> u64 {
    get4(b, at) as u64 | (get4(b, at + 4) as u64) << 32
}

fn put4(b: &mut [u8; IMAGE], at: usize, x: u32) {
    b[at..at + 4].copy_from_slice(&x.to_le_bytes());
}

fn put8(b: &mut [u8; IMAGE], at: usize, x: u64) {
    b[at..at + 8].copy_from_slice(&x.to_le_bytes());
}

impl Logger {
    /// Save: the first 788 bytes, or refusal 7 and nothing.
    pub fn save(&self, buffer: &mut [u8]) -> Result<(), u32> {
        let Some(b) = buffer.first_chunk_mut::<IMAGE>() else {
            return Err(7);
        };
        b[..32].copy_from_slice(&TABLE);
        for (j, &x) in self.limits.raw.iter().enumerate() {
            put4(b, 32 + 4 * j, x);
        }
        put4(b, 68, self.count as u32);
        put8(b, 72, self.part.sum);
        put8(b, 80, self.last.sum);
        put4(b, 88, self.whole as u32);
        put4(b, 92, self.part.clipped as u32);
        put4(b, 96, self.last.clipped as u32);
        put8(b, 100, self.v);
        let places = b[108..588].as_chunks_mut::<4>().0;
        for (place, r) in places.iter_mut().zip(self.window) {
            *place = r.to_le_bytes();
        }
        b[588..708].copy_from_slice(&self.marks);

        let (phase, c) = match self.phase {
            Phase::Filling => (0, Change::NONE),
            Phase::NeverSteady => (1, Change::NONE),
            Phase::Steady => (2, Change::NONE),
            Phase::Change(c) => (3, c),
        };
        put4(b, 708, phase);
        put8(b, 712, c.k);
        put4(b, 720, c.before);
        put4(b, 724, c.greatest);
        put8(b, 728, c.stand);
        for (j, x) in [self.dip, self.swell, self.interruption].iter().enumerate() {
            put8(b, 736 + 12 * j, x.start);
            put4(b, 744 + 12 * j, x.magnitude);
            put4(b, 772 + 4 * j, x.clipped as u32);
        }
        put4(b, 784, c.clipped as u32);
        Ok(())
    }

    /// Restore: becomes the image's logger, or gives 8 to 11 and stays as it was.
    pub fn restore(&mut self, bytes: &[u8]) -> Result<(), u32> {
        *self = Logger::from_image(bytes)?;
        Ok(())
    }

    /// The logger of an image, or 8 to 11.
    pub fn from_image(bytes: &[u8]) -> Result<Logger, u32> {
        let Ok(b) = <&[u8; IMAGE]>::try_from(bytes) else {
            return Err(8);
        };
        if b[..32] != TABLE {
            return Err(9);
        }
        let Ok(limits) = Limits::new(&b[32..68]) else {
            return Err(10);
        };
        Logger::from_bodies(limits, b).ok_or(11)
    }

    /// From settings and bodies; none if a rule is broken.
    fn from_bodies(limits: Limits, b: &[u8; IMAGE]) -> Option<Logger> {
        let n = limits.n;

        // The gatherer.
        let count = get4(b, 68);
        let sum = get8(b, 72);
        let last = get8(b, 80);
        let whole = get4(b, 88);
        let clipped = get4(b, 92);
        let last_clipped = get4(b, 96);
        let v = get8(b, 100);
        let there = whole == 1 || (whole == 0 && last == 0 && v == 0);
        if v > END
            || count as usize >= limits.m
            || sum > (count as u64) << 30
            || last > (limits.m as u64) << 30
            || !there
            || clipped > (count > 0) as u32
            || last_clipped > whole
        {
            return None;
        }

        // The values.
        let used = v.min(n as u64) as usize;
        let mut window = [0u32; PLACES];
        for (r, place) in window.iter_mut().zip(b[108..588].as_chunks::<4>().0) {
            *r = u32::from_le_bytes(*place);
        }
        let over = window[..used].iter().fold(false, |over, &r| over | (r > TOP));
        let stray = window[used..].iter().fold(0, |all, &r| all | r);
        let mut marks = [0u8; PLACES];
        marks.copy_from_slice(&b[588..708]);
        let any = marks[..used].iter().fold(0, |all, &x| all | x);
        let stray_mark = marks[used..].iter().fold(0, |all, &x| all | x);
        if over || stray != 0 || any > 1 || stray_mark != 0 {
            return None;
        }

        // The phase.
        let code = get4(b, 708);
        let mark = get4(b, 784);
        let c = Change {
            k: get8(b, 712),
            before: get4(b, 720),
            greatest: get4(b, 724),
            stand: get8(b, 728),
            clipped: mark == 1,
        };
        if (code == 0) != (used < n) {
            return None;
        }
        let phase = match code {
            0 => Phase::Filling,
            1 => Phase::NeverSteady,
            2 => Phase::Steady,
            3 => Phase::Change(c),
            _ => return None,
        };
        let carried = if code == 3 {
            let far = n as u32 * TOP;
            // A k above V is early here, and refused below.
            let early = v.saturating_sub(c.k) < n as u64;
            (n as u64) < c.k
                && c.k <= v
                && c.before <= far
                && c.greatest <= far
                && (!early || c.greatest == 0)
                && mark <= !early as u32
                && (c.stand == 0 || (c.k <= c.stand && c.stand <= v))
        } else {
            c.k | c.stand == 0 && c.before | c.greatest | mark == 0
        };

        // The standing events.
        let event = |at: usize, mark: usize| -> Option<Event> {
            let (start, magnitude, mark) = (get8(b, at), get4(b, at + 8), get4(b, mark));
            let holds = start <= v
                && magnitude <= TOP
                && (start > 0 || magnitude == 0)
                && mark <= (start > 0) as u32;
            holds.then_some(Event { start, magnitude, clipped: mark == 1 })
        };
        let (dip, swell, interruption) = (event(736, 772)?, event(748, 776)?, event(760, 780)?);
        if !carried {
            return None;
        }

        Some(Logger {
            limits,
            count: count as usize,
            part: Part { sum, clipped: clipped == 1 },
            last: Part { sum: last, clipped: last_clipped == 1 },
            whole: whole == 1,
            v,
            window,
            marks,
            window_sum: window.iter().sum(),
            phase,
            dip,
            swell,
            interruption,
        })
    }
}
