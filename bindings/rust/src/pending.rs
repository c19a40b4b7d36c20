//! Requests that wait for their responses.
use crate::{Entry, Four, Refusal, Slot, raw};
use core::fmt;

/// What a step reports of its entry.
#[derive(Clone, Copy, Debug, PartialEq, Eq, Hash)]
pub enum Report {
    /// The packet was dropped.
    Dropped,
    /// The packet is no request or response of reading or writing.
    Other,
    /// The entry has no sequence number.
    NoSeq,
    /// A request: it waits in the slot at this place, the first that was free.
    Taken(usize),
    /// A request, and no slot is free: nothing is kept of it.
    TurnedAway,
    /// A response: the slot at this place, the oldest with the same four, is free now.
    Answered(usize),
    /// A response, and no slot that waits has its four.
    Stray,
}

impl Report {
    /// By the header's `CK_PENDING_..`: 7 is the last, and no other number is answered (proved).
    fn told(report: u8, place: usize) -> Self {
        match report {
            1 => Report::Dropped,
            2 => Report::Other,
            3 => Report::NoSeq,
            4 => Report::Taken(place),
            5 => Report::TurnedAway,
            6 => Report::Answered(place),
            _ => Report::Stray,
        }
    }
}

impl fmt::Display for Report {
    fn fmt(&self, f: &mut fmt::Formatter<'_>) -> fmt::Result {
        match self {
            Report::Dropped => f.pad("the packet was dropped"),
            Report::Other => f.pad("neither a request nor a response of reading or writing"),
            Report::NoSeq => f.pad("no sequence number"),
            Report::Taken(place) => write!(f, "the request waits in slot {place}"),
            Report::TurnedAway => f.pad("no slot is free for the request"),
            Report::Answered(place) => write!(f, "the request in slot {place} is answered"),
            Report::Stray => f.pad("no request waits for the response"),
        }
    }
}

impl Four {
    /// Does the request write? Else it reads.
    pub fn is_write(&self) -> bool {
        self.write == 1
    }
}

impl Slot {
    /// A slot of an empty table.
    pub const FREE: Slot = Slot {
        four: Four {
            route: 0,
            domain: 0,
            seq: 0,
            write: 0,
        },
        rank: 0,
    };

    /// Does a request wait in it?
    pub fn waits(&self) -> bool {
        self.rank != 0
    }
}

/// A table of requests that wait for their responses, over 1 to [`MOST_PENDING`](crate::MOST_PENDING) slots that the caller lends.
///
/// Step through the entries in their order; what waits behind the last is unanswered. A step judges the whole table first, whatever the entry, and so
/// do the questions: it is refused with [`Refusal::TableSize`] or [`Refusal::BrokenTable`], and then stays as it was. A table of that size that was
/// cleared is good, and stays good. A slot stays where it is while it waits, so an array beside the table can hold what else is known of its request.
///
/// ```
/// use chomkadieu::{Entry, Pending, Report, Slot};
///
/// let request = b"a-1 [002] 1.2: tb_tx: type=TB_CFG_PKG_READ size=3 domain=0 route=301 seq=1 data=[0]";
/// let response = b"a-1 [002] 1.3: tb_rx: type=TB_CFG_PKG_READ size=3 domain=0 route=8000000000000301 seq=1 data=[0]";
/// let mut slots = [Slot::FREE; 16];
/// let mut pending = Pending::clear(&mut slots);
/// let (mut a, mut b) = ([0; 1], [0; 1]);
/// assert_eq!(pending.step(&Entry::parse(request, &mut a)?)?, Report::Taken(0));
/// assert_eq!(pending.waiting()?, 1);
/// for (place, slot) in pending.oldest_first()? {
///     println!("slot {place}: route {:x}, sequence number {}", slot.four.route, slot.four.seq);
/// }
/// assert_eq!(pending.step(&Entry::parse(response, &mut b)?)?, Report::Answered(0));
/// assert_eq!(pending.waiting()?, 0);
/// # Ok::<(), chomkadieu::Refusal>(())
/// ```
#[derive(Debug)]
pub struct Pending<'a> {
    slots: &'a mut [Slot],
}

impl<'a> Pending<'a> {
    /// A table in which nothing waits: every slot is made free.
    pub fn clear(slots: &'a mut [Slot]) -> Self {
        raw::pending_clear(slots);
        Self { slots }
    }

    /// The table that the slots hold, as an earlier one left them.
    pub fn resume(slots: &'a mut [Slot]) -> Self {
        Self { slots }
    }

    /// One entry: the table changes, and the entry is reported.
    pub fn step(&mut self, entry: &Entry<'_, '_>) -> Result<Report, Refusal> {
        let (report, place) =
            raw::pending_step(entry.raw(), self.slots).map_err(Refusal::from_number)?;
        Ok(Report::told(report, place))
    }

    /// How many requests wait.
    pub fn waiting(&self) -> Result<usize, Refusal> {
        let count = raw::pending_waiting(self.slots).map_err(Refusal::from_number)?;
        Ok(count as usize)
    }

    /// The slots that wait, the oldest first, each with its place.
    pub fn oldest_first(&self) -> Result<OldestFirst<'_>, Refusal> {
        let count = raw::pending_waiting(self.slots).map_err(Refusal::from_number)?;
        Ok(OldestFirst {
            slots: self.slots,
            next: 1,
            count,
        })
    }

    /// All slots, free ones among them, each at its place.
    pub fn slots(&self) -> &[Slot] {
        self.slots
    }
}

/// The slots that wait, the oldest first: [`Pending::oldest_first`].
#[derive(Clone, Debug)]
pub struct OldestFirst<'p> {
    slots: &'p [Slot],
    next: u32,
    count: u32,
}

impl<'p> Iterator for OldestFirst<'p> {
    type Item = (usize, &'p Slot);

    fn next(&mut self) -> Option<Self::Item> {
        if self.next > self.count {
            return None;
        }
        // The table is good and has this rank; were it not so, this would end and no harm be done.
        let place = raw::pending_oldest(self.slots, self.next).ok()??;
        self.next += 1;
        self.slots.get(place).map(|slot| (place, slot))
    }

    fn size_hint(&self) -> (usize, Option<usize>) {
        let left = (self.count + 1 - self.next) as usize;
        (left, Some(left))
    }
}

impl ExactSizeIterator for OldestFirst<'_> {}
