//! What gives a number: the entry points and the calls inside a list, with the numbers that each can give.

use crate::call::Call;
use crate::named::named;

named! {
    /// What gives a number: the entry points, and the calls inside a list.
    Entry {
        Register => "register",
        Reading => "reading",
        Shape => "shape",
        Weight => "weight",
        Tolerance => "tolerance",
        Take => "take",
        Allocate => "allocate",
        Totals => "totals",
        MakeCalls => "make_calls",
        SettleList => "settle_list",
        ListedRegister => "in a list: register",
        ListedReading => "in a list: reading",
        ListedShape => "in a list: shape",
        ListedWeight => "in a list: weight",
        ListedTolerance => "in a list: tolerance",
        ListedTake => "in a list: take",
        ListedUnknown => "in a list: unknown kind",
    }
}

impl Entry {
    /// The entry point of a call; a kind that no call has, has none.
    pub fn single(call: &Call) -> Option<Entry> {
        match call {
            Call::Register { .. } => Some(Entry::Register),
            Call::Reading { .. } => Some(Entry::Reading),
            Call::Shape { .. } => Some(Entry::Shape),
            Call::Weight { .. } => Some(Entry::Weight),
            Call::Tolerance { .. } => Some(Entry::Tolerance),
            Call::Take { .. } => Some(Entry::Take),
            Call::Unknown { .. } => None,
        }
    }

    pub fn listed(call: &Call) -> Entry {
        match call {
            Call::Register { .. } => Entry::ListedRegister,
            Call::Reading { .. } => Entry::ListedReading,
            Call::Shape { .. } => Entry::ListedShape,
            Call::Weight { .. } => Entry::ListedWeight,
            Call::Tolerance { .. } => Entry::ListedTolerance,
            Call::Take { .. } => Entry::ListedTake,
            Call::Unknown { .. } => Entry::ListedUnknown,
        }
    }

    /// The numbers that it can give. A list is refused only for its shape; settling starts from fresh settings, and 1 is for its cells.
    pub fn reachable(self) -> &'static [u64] {
        match self {
            Entry::Register | Entry::ListedRegister => &[0, 1, 2, 6, 13],
            Entry::Reading | Entry::ListedReading => &[0, 1, 2, 3, 4, 5, 13],
            Entry::Allocate => &[0, 1, 7, 8, 9, 10, 11, 13],
            Entry::Totals => &[0, 1, 2, 9, 12],
            Entry::MakeCalls => &[0, 19],
            Entry::SettleList => &[0, 1, 7, 8, 9, 10, 11, 13, 19],
            Entry::ListedUnknown => &[1, 2, 13],
            _ => &[0, 1, 2, 13],
        }
    }
}
