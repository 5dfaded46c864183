//! Counts of what events that stand before a change have shown, in recordings and in images.

use crate::images::Fields;
use crate::readings::Readings;
use crate::room::RECORD;
use crate::rules::eight;
use crate::seen::KINDS;

/// What a kind of event, dips or swells, has shown about the first value of changes.
#[derive(Default)]
pub struct Before {
    /// Changes dropped since one stands at k − 1, and by nothing else: it ends at k, or goes on.
    ends: u64,
    goes_on: u64,
    /// Changes kept after one that ended at k − 1.
    ended: u64,
}

impl Before {
    /// A change from k that nothing else drops, with where the event stands.
    pub fn dropped(&mut self, k: i64, stands: &[bool]) {
        let k = k as usize;
        self.ends += (stands[k - 1] && !stands[k]) as u64;
        self.goes_on += (stands[k - 1] && stands[k]) as u64;
    }

    /// A change from k that is kept.
    pub fn kept(&mut self, k: i64, stands: &[bool]) {
        let k = k as usize;
        self.ended += (stands[k - 2] && !stands[k - 1]) as u64;
    }

    /// Every count under its name.
    pub fn counts(&self, name: &str) -> Vec<(String, u64)> {
        vec![
            (format!("change dropped by a {name} at k - 1 that ends at k"), self.ends),
            (format!("change dropped by a {name} at k - 1 that goes on"), self.goes_on),
            (format!("change kept, a {name} ended at k - 1"), self.ended),
        ]
    }
}

/// What events before the changes of one channel have shown.
#[derive(Default)]
pub struct Stands {
    /// The dip and the swell; and changes dropped by one that first stood at k − 1.
    before: [Before; 2],
    short: u64,
    /// Images whose fourth number is k by one that stood at k − 1, and none first stands at k; and
    /// those of them in which another first stands later.
    held: u64,
    held_with_another: u64,
    /// Changes recorded from accepted images: of versions 2.0 and 2.1, with 0 though one stood at k − 1;
    /// and in which only an interruption stood at k − 1.
    version_before: u64,
    interrupted: u64,
}

impl Stands {
    /// The changes of a recording.
    pub fn recording(&mut self, x: &Readings) {
        for (k, m) in x.changes() {
            let dropped = x.dropped(k, m);
            let by_standing = dropped && !x.begins_in(k, m);
            self.short += (by_standing && x.dip_or_swell_begins(k - 1)) as u64;
            for (before, (kind, _)) in self.before.iter_mut().zip(KINDS) {
                let stands = x.stands(kind as i64);
                if !dropped {
                    before.kept(k, stands);
                } else if by_standing {
                    before.dropped(k, stands);
                }
            }
        }
    }

    /// The image of a recording.
    pub fn image(&mut self, x: &Readings, image: &Fields) {
        let [k, _, _, fourth] = image.change.map(|x| x as i64);
        if image.phase == 3 && fourth == k && !x.dip_or_swell_begins(k) {
            self.held += 1;
            self.held_with_another += (x.first_stand(k) > 0) as u64;
        }
    }

    /// The records written from an image that versions 2.0 and 2.1 saved in a change.
    pub fn version_before(&mut self, image: &Fields, records: &[u8]) {
        let [k, _, _, fourth] = image.change;
        self.version_before += (fourth == 0 && change(records, k).is_some()) as u64;
    }

    /// The records written from any accepted image.
    pub fn accepted(&mut self, image: &Fields, records: &[u8]) {
        let [dip, _, swell, _, interruption, _] = image.events;
        let alone = dip == 0 && swell == 0 && interruption > 0;
        let next = image.v + 1;
        let begun = image.phase == 2 && change(records, next).is_some();
        self.interrupted += (alone && begun) as u64;
    }

    /// The counts of recordings under their names.
    pub fn recording_counts(&self) -> Vec<(String, u64)> {
        let kinds = self.before.iter().zip(KINDS);
        let mut list: Vec<_> = kinds.flat_map(|(before, (_, name))| before.counts(name)).collect();
        let mut add = |name: String, count: u64| list.push((name, count));
        add("change dropped by one that first stood at k - 1".into(), self.short);
        add("image: fourth number k by one at k - 1".into(), self.held);
        add("image: the same, another first stands later".into(), self.held_with_another);
        list
    }

    /// Every count under its name.
    pub fn counts(&self) -> Vec<(String, u64)> {
        let mut list = self.recording_counts();
        list.push((
            "change recorded from an image of version 2.0 or 2.1".into(),
            self.version_before,
        ));
        list.push(("change kept, only an interruption at k - 1".into(), self.interrupted));
        list
    }
}

/// The record of a change from k, if there is one.
pub fn change(records: &[u8], k: u64) -> Option<&[u8]> {
    records.chunks_exact(RECORD).find(|x| x[0] == 4 && eight(x, 4) == k as i128)
}
