//! The library's table, and what the daemon has to know of it: how many ranges it has, and which of
//! them the rings need.
use super::LAST_PAGE;
use log::warn;
use pitskhomu::{Access, Iotlb, Miss, QueueLayout, Status};
use std::collections::{BTreeMap, BTreeSet};

/// With more ranges than this all but the rings' are dropped, so no guest fills the host's memory.
/// The daemon asks again for those that it needs.
const MOST_RANGES: usize = 65536;

/// What I/O addresses mean, from a first one up to `end`.
#[derive(Debug, Clone, Copy, PartialEq, Eq)]
struct Range {
    end: u64,
    guest: u64,
    access: Access,
}

/// I/O addresses of whole pages, both ends included.
type Pages = (u64, u64);

/// What a push of a ring's chains loads and stores.
#[derive(Debug, Default, Clone)]
struct Parts {
    /// How many of its chains are in flight.
    in_flight: usize,
    pages: [Option<Pages>; 2],
}

fn pages(first: u64, last: u64) -> Pages {
    (first & !(Iotlb::PAGE - 1), last | (Iotlb::PAGE - 1))
}

fn overlap((first, last): Pages, (from, to): Pages) -> Option<Pages> {
    let (first, last) = (first.max(from), last.min(to));
    (first <= last).then_some((first, last))
}

impl Parts {
    fn of(layout: &QueueLayout) -> [Option<Pages>; 2] {
        let size = u64::from(layout.size);
        [(layout.available, 6 + 2 * size), (layout.used, 6 + 8 * size)]
            .map(|(at, len)| Some(pages(at, at.saturating_add(len - 1))))
    }
}

/// The table. Entries that a ring with chains in flight needs for their return stay until none is
/// in flight.
#[derive(Debug, Default)]
pub struct Mappings {
    iotlb: Option<Iotlb>,
    /// The same ranges as the library has, each by its first address. It may have some of them as
    /// one.
    ranges: BTreeMap<u64, Range>,
    /// By the rings' indices.
    rings: Vec<Parts>,
    /// Pages that the front-end has unmapped, and that a ring needs yet.
    stale: BTreeSet<u64>,
}

impl Mappings {
    /// The library's table, to be lent to a worker.
    pub fn iotlb(&mut self) -> Result<&mut Iotlb, Status> {
        if self.iotlb.is_none() {
            self.iotlb = Some(Iotlb::new()?);
        }
        self.iotlb.as_mut().ok_or(Status::OutOfMemory)
    }

    /// Whether mappings can have all parts of a ring.
    pub fn can_have(layout: &QueueLayout) -> bool {
        Parts::of(layout).into_iter().flatten().all(|(_, last)| last < LAST_PAGE)
    }

    /// A device begins: nothing is known.
    pub fn begin(&mut self) -> Result<(), Status> {
        self.iotlb()?;
        self.forget();
        Ok(())
    }

    /// All mappings go but those that chains in flight need for their return.
    pub fn forget(&mut self) {
        self.drop_all_but(|ring| ring.in_flight > 0);
    }

    /// What an I/O address means.
    pub fn guest_address(&self, iova: u64) -> Option<u64> {
        let (first, range) = self.ranges.range(..=iova).next_back()?;
        (iova < range.end && range.access != Access::None).then(|| range.guest + (iova - first))
    }

    /// A chain of a ring is in flight.
    pub fn hold(&mut self, ring: usize, layout: &QueueLayout) {
        if self.rings.len() <= ring {
            self.rings.resize(ring + 1, Parts::default());
        }
        let parts = &mut self.rings[ring];
        (parts.in_flight, parts.pages) = (parts.in_flight + 1, Parts::of(layout));
    }

    /// It was returned.
    pub fn release(&mut self, ring: usize) {
        if let Some(parts) = self.rings.get_mut(ring) {
            parts.in_flight = parts.in_flight.saturating_sub(1);
            self.forget_stale();
        }
    }

    /// All chains of a ring were dropped: none is returned.
    pub fn release_all(&mut self, ring: usize) {
        if let Some(parts) = self.rings.get_mut(ring) {
            parts.in_flight = 0;
            self.forget_stale();
        }
    }

    /// Removes the pages that the front-end has unmapped, and that no ring needs any more.
    fn forget_stale(&mut self) {
        let (stay, go) = self.stale.iter().partition(|page| self.is_held(**page));
        self.stale = stay;
        let go: BTreeSet<u64> = go;
        for page in go {
            self.remove((page, page | (Iotlb::PAGE - 1)));
        }
    }

    fn held(&self) -> impl Iterator<Item = Pages> + '_ {
        self.rings
            .iter()
            .filter(|parts| parts.in_flight > 0)
            .flat_map(|parts| parts.pages.into_iter().flatten())
    }

    fn is_held(&self, page: u64) -> bool {
        self.held().any(|part| overlap(part, (page, page)).is_some())
    }

    /// These pages in two: those that no ring needs, and those that one does.
    fn split(&self, (first, last): Pages) -> (Vec<Pages>, Vec<Pages>) {
        let mut held: Vec<Pages> =
            self.held().filter_map(|part| overlap(part, (first, last))).collect();
        held.sort_unstable();
        let (mut free, mut next) = (Vec::new(), Some(first));
        for (from, to) in &held {
            if let Some(at) = next.filter(|at| at < from) {
                free.push((at, from - 1));
            }
            next = next.and_then(|at| to.checked_add(1).map(|behind| behind.max(at)));
        }
        free.extend(next.filter(|at| *at <= last).map(|at| (at, last)));
        (free, held)
    }

    /// Enters a mapping of whole pages. In what a ring's chains in flight need, another mapping
    /// isn't entered: the old one goes when none is in flight, and the new one is asked for then.
    pub fn update(
        &mut self,
        iova: u64,
        len: u64,
        guest: u64,
        access: Access,
    ) -> Result<(), Status> {
        let (free, held) = self.split((iova, iova + (len - 1)));
        for (first, last) in free {
            self.enter(first, last - first + 1, guest + (first - iova), access)?;
        }
        for page in held.into_iter().flat_map(|(from, to)| (from..=to).step_by(4096)) {
            let meant = guest + (page - iova);
            match self.ranges.range(..=page).next_back().filter(|(_, range)| page < range.end) {
                None => self.enter(page, Iotlb::PAGE, meant, access)?,
                Some((first, range))
                    if range.guest + (page - first) == meant && range.access == access =>
                {
                    self.stale.remove(&page);
                }
                Some(_) => {
                    self.stale.insert(page);
                }
            }
        }
        if self.ranges.len() > MOST_RANGES {
            self.begin_again("has too many ranges");
        }
        Ok(())
    }

    /// Removes all mappings from an address up to another, that one included. What chains in flight
    /// need for their return goes when none is in flight.
    pub fn invalidate(&mut self, first: u64, last: u64) {
        let (free, held) = self.split(pages(first, last));
        for part in free {
            self.remove(part);
        }
        for page in held.into_iter().flat_map(|(from, to)| (from..=to).step_by(4096)) {
            if self.guest_address(page).is_some() {
                self.stale.insert(page);
            }
        }
    }

    /// Refuses the pages of a miss, for one pop.
    pub fn refuse(&mut self, miss: &Miss) -> Result<(), Status> {
        self.iotlb()?.map(miss.iova, miss.len, 0, Access::None)
    }

    /// Ends that refusal. The pages aren't mapped.
    pub fn unrefuse(&mut self, miss: &Miss) {
        self.remove((miss.iova, miss.iova + (miss.len - 1)));
    }

    fn enter(&mut self, iova: u64, len: u64, guest: u64, access: Access) -> Result<(), Status> {
        if self.iotlb()?.map(iova, len, guest, access).is_err() {
            self.begin_again("gets no memory");
            self.iotlb()?.map(iova, len, guest, access)?;
        }
        self.cut((iova, iova + (len - 1)));
        self.ranges.insert(iova, Range { end: iova + len, guest, access });
        Ok(())
    }

    fn remove(&mut self, (first, last): Pages) {
        self.cut((first, last));
        // 2^64 addresses are more than a number says.
        let half = first + (last - first) / 2 + 1;
        let halves = if last - first == u64::MAX {
            [Some((first, half)), Some((half, last - half + 1))]
        } else {
            [Some((first, last - first + 1)), None]
        };
        let Some(iotlb) = &mut self.iotlb else { return };
        let is_out = halves.into_iter().flatten().any(|(at, len)| iotlb.unmap(at, len).is_err());
        if is_out {
            self.begin_again("gets no memory");
        }
    }

    /// The same in what the daemon knows: parts of ranges before and behind stay.
    fn cut(&mut self, (first, last): Pages) {
        let before = self.ranges.range(..first).next_back().map(|(at, range)| (*at, *range));
        if let Some((at, range)) = before.filter(|(_, range)| range.end > first) {
            self.ranges.insert(at, Range { end: first, ..range });
            if range.end - 1 > last {
                let guest = range.guest + (last + 1 - at);
                self.ranges.insert(last + 1, Range { guest, ..range });
            }
        }
        while let Some((at, range)) = self.ranges.range(first..=last).next() {
            let (at, range) = (*at, *range);
            self.ranges.remove(&at);
            if range.end - 1 > last {
                let guest = range.guest + (last + 1 - at);
                self.ranges.insert(last + 1, Range { guest, ..range });
            }
        }
    }

    /// All mappings go but the rings'.
    fn begin_again(&mut self, why: &str) {
        warn!("the IOMMU's table {why}, and begins again with those of the rings");
        self.drop_all_but(|_| true);
    }

    /// Keeps what these rings need, and nothing else.
    fn drop_all_but(&mut self, stays: impl Fn(&Parts) -> bool) {
        let parts: Vec<Pages> = self
            .rings
            .iter()
            .filter(|ring| stays(ring))
            .flat_map(|ring| ring.pages.into_iter().flatten())
            .collect();
        let old = std::mem::take(&mut self.ranges);
        let Some(iotlb) = &mut self.iotlb else { return };
        iotlb.clear();
        for part in parts {
            let from = old.range(..=part.0).next_back().map_or(part.0, |(at, _)| *at);
            for (at, range) in old.range(from..=part.1) {
                let Some((first, last)) = overlap(part, (*at, range.end - 1)) else { continue };
                let (len, guest) = (last - first + 1, range.guest + (first - at));
                if iotlb.map(first, len, guest, range.access).is_ok() {
                    self.ranges.insert(first, Range { end: first + len, guest, ..*range });
                }
            }
        }
    }
}

#[cfg(test)]
mod tests {
    use super::*;

    const RW: Access = Access::ReadWrite;

    fn layout() -> QueueLayout {
        QueueLayout { size: 64, descriptors: 0x10000, available: 0x20000, used: 0x30000 }
    }

    fn mappings() -> Mappings {
        let mut mappings = Mappings::default();
        mappings.begin().expect("a table");
        mappings
    }

    fn ranges(mappings: &Mappings) -> Vec<(u64, u64, u64)> {
        mappings.ranges.iter().map(|(at, range)| (*at, range.end, range.guest)).collect()
    }

    #[test]
    fn ranges_are_cut_where_others_are_entered_or_removed() {
        let mut mappings = mappings();
        mappings.update(0x10000, 0x8000, 0x40_0000, RW).expect("a mapping");
        mappings.update(0x12000, 0x1000, 0x80_0000, RW).expect("a mapping");
        assert_eq!(
            ranges(&mappings),
            [
                (0x10000, 0x12000, 0x40_0000),
                (0x12000, 0x13000, 0x80_0000),
                (0x13000, 0x18000, 0x40_3000)
            ]
        );
        assert_eq!(mappings.guest_address(0x13010), Some(0x40_3010));
        assert_eq!(mappings.guest_address(0x18000), None);
        mappings.invalidate(0x11000, 0x15fff);
        assert_eq!(
            ranges(&mappings),
            [(0x10000, 0x11000, 0x40_0000), (0x16000, 0x18000, 0x40_6000)]
        );
        mappings.invalidate(0x16800, 0x16801); // its page
        assert_eq!(mappings.guest_address(0x16000), None);
        assert_eq!(mappings.guest_address(0x17000), Some(0x40_7000));
        mappings.invalidate(0, u64::MAX);
        assert_eq!(ranges(&mappings), []);
    }

    #[test]
    fn what_a_ring_needs_stays_while_a_chain_is_in_flight() {
        let mut mappings = mappings();
        for page in [0x10000, 0x20000, 0x30000, 0x50000] {
            mappings.update(page, 0x1000, page + 0x100_0000, RW).expect("a mapping");
        }
        mappings.hold(1, &layout());
        mappings.hold(1, &layout());
        mappings.invalidate(0, u64::MAX);
        let known = |mappings: &Mappings| {
            [0x10000, 0x20000, 0x30000, 0x50000].map(|at| mappings.guest_address(at).is_some())
        };
        assert_eq!(known(&mappings), [false, true, true, false]);
        // Another meaning waits, and the same one stays.
        mappings.update(0x20000, 0x1000, 0x200_0000, RW).expect("a mapping");
        mappings.update(0x30000, 0x1000, 0x103_0000, RW).expect("a mapping");
        mappings.release(1);
        assert_eq!(mappings.guest_address(0x20000), Some(0x102_0000));
        mappings.release(1);
        assert_eq!(known(&mappings), [false, false, true, false]);
        mappings.invalidate(0x30000, 0x30fff);
        assert_eq!(known(&mappings), [false; 4]);
    }

    #[test]
    fn a_ring_whose_chains_were_dropped_needs_nothing() {
        let mut mappings = mappings();
        mappings.update(0x30000, 0x1000, 0x103_0000, RW).expect("a mapping");
        mappings.hold(1, &layout());
        mappings.hold(1, &layout());
        mappings.update(0x30000, 0x1000, 0x203_0000, RW).expect("a mapping");
        assert_eq!(mappings.guest_address(0x30000), Some(0x103_0000));
        mappings.release_all(1);
        assert_eq!(mappings.guest_address(0x30000), None);
        mappings.update(0x30000, 0x1000, 0x203_0000, RW).expect("a mapping");
        mappings.hold(1, &layout());
        mappings.invalidate(0x30000, 0x30fff);
        assert_eq!(mappings.guest_address(0x30000), Some(0x203_0000));
    }

    #[test]
    fn too_many_ranges_are_dropped_but_the_rings() {
        let mut mappings = mappings();
        mappings.update(0x20000, 0x1000, 0x20000, RW).expect("a mapping");
        mappings.hold(0, &layout());
        mappings.release(0);
        for k in 0..=MOST_RANGES as u64 {
            mappings.update(0x100_0000 + 0x2000 * k, 0x1000, 0x5000, RW).expect("a mapping");
        }
        assert!(ranges(&mappings).len() < 10);
        assert_eq!(mappings.guest_address(0x20008), Some(0x20008));
    }

    #[test]
    fn pages_are_refused_for_a_while() {
        let mut mappings = mappings();
        let miss = Miss { iova: 0x5000, len: 0x3000, access: Access::Write };
        mappings.refuse(&miss).expect("a mapping");
        assert_eq!(mappings.guest_address(0x5000), None);
        mappings.unrefuse(&miss);
        mappings.update(0x5000, 0x1000, 0x6000, RW).expect("a mapping");
        assert_eq!(mappings.guest_address(0x5004), Some(0x6004));
    }

    #[test]
    fn no_mapping_has_a_ring_of_the_last_page() {
        let layout = layout();
        assert!(Mappings::can_have(&layout));
        assert!(Mappings::can_have(&QueueLayout { used: LAST_PAGE - 0x1000, ..layout }));
        assert!(!Mappings::can_have(&QueueLayout { used: LAST_PAGE - 8, ..layout }));
        assert!(!Mappings::can_have(&QueueLayout { available: LAST_PAGE, ..layout }));
    }
}
