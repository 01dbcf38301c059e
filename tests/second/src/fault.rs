//! The designs of document 01, 'Designs that look right', each as a fault that can be planted in the bench on purpose,
//! to see that `compare` notices it. `Fault::Nothing` is the bench as the document has it.

#[derive(Clone, Copy, Debug, PartialEq, Eq)]
pub enum Fault {
    Nothing,
    /// Puts stand in the order by the slots they reserved.
    OrderByReservation,
    /// Puts stand in the order in which they stored.
    OrderByStoring,
    /// A swap only reads; the thread's next step, its return, empties the slot.
    EmptyLater,
    /// The listed order leaves out operations that did not return.
    ReturnedOnly,
    /// A slot that holds sample 0 counts as empty.
    ZeroIsEmpty,
    /// Each slot of a pass reads the reservation count again and ends there.
    CountAgain,
    /// The put that a take found is the first one with that sample.
    TellBySample,
}

/// Each planted fault with the name that `answer --fault` takes.
pub const FAULTS: [(&str, Fault); 7] = [
    ("order-by-reservation", Fault::OrderByReservation),
    ("order-by-storing", Fault::OrderByStoring),
    ("empty-later", Fault::EmptyLater),
    ("returned-only", Fault::ReturnedOnly),
    ("zero-is-empty", Fault::ZeroIsEmpty),
    ("count-again", Fault::CountAgain),
    ("tell-by-sample", Fault::TellBySample),
];

/// The fault of that name.
pub fn find(name: &str) -> Option<Fault> {
    FAULTS.iter().find(|(known, _)| *known == name).map(|(_, fault)| *fault)
}
