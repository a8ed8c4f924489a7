//! The four services in safe Rust, twice, for the benchmark to hold the sequence checker against. Both are written from document 01 and know
//! nothing of the checker's code. `idiomatic` is the plain way to write them; `fastest` is as quick as safe Rust was made to be here.
//! `boundary` lets C call them; it alone has unsafe code.

pub mod boundary;
pub mod fastest;
pub mod idiomatic;

/// Which formula holds, or was proved: the goal's, or its dual.
#[derive(Clone, Copy, Debug, PartialEq, Eq)]
pub enum Side {
    Goal = 0,
    Dual = 1,
}

/// The refusals of the four services, with document 01's numbers.
#[derive(Clone, Copy, Debug, PartialEq, Eq)]
pub enum Refusal {
    ImageMark = 1,
    ImageRange = 2,
    ImageLength = 3,
    HighBit = 4,
    NoSuccessor = 5,
    TableMark = 6,
    TableLength = 7,
    Record = 8,
    OperandTwice = 9,
    Nesting = 10,
    Goal = 11,
    Start = 12,
    FreeVariable = 13,
    TooLong = 14,
    NotFired = 15,
    CertificateMark = 20,
    OtherQuestion = 21,
    Missing = 22,
    Code = 23,
    Condition = 24,
    Remaining = 25,
}
