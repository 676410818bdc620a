//! The errors that the given files name, and document 01's number for each.

/// What went wrong in a call.
#[derive(Clone, Debug, PartialEq)]
pub enum Error {
    /// The model is not one.
    InvalidModel(String),
    /// The base state breaks its rule.
    InvalidBaseState {
        /// Which part of the state.
        field: &'static str,
        /// What is wrong with it.
        reason: &'static str,
    },
    /// A list or an output has the wrong length.
    InvalidLength {
        /// Which list.
        input: &'static str,
    },
    /// A number that came in is not finite.
    NonFiniteInput {
        /// Which list.
        input: &'static str,
    },
    /// A link that is not the model's.
    InvalidLinkId,
    /// A number that was worked out is not finite.
    NumericalFailure {
        /// Which step.
        operation: &'static str,
    },
}

/// The kind of an error, told by document 01's number.
#[derive(Clone, Copy, Debug, PartialEq, Eq)]
pub struct ErrorCategory(pub u8);

/// A value or an error.
pub type Result<T> = std::result::Result<T, Error>;

impl Error {
    /// Document 01's refusal number for this error.
    pub fn category(&self) -> ErrorCategory {
        ErrorCategory(match self {
            Error::InvalidModel(_) => 1,
            Error::InvalidBaseState { .. } => 2,
            Error::InvalidLength { .. } => 3,
            Error::NonFiniteInput { .. } => 5,
            Error::InvalidLinkId => 6,
            Error::NumericalFailure { operation } if *operation == "load aggregation" => 7,
            Error::NumericalFailure { .. } => 8,
        })
    }
}
