//! How a call ends.

/// What a call that was understood and carried out has to say; of several files the gravest.
#[derive(Clone, Copy, Debug, PartialEq, Eq, PartialOrd, Ord)]
pub enum End {
    Answered,
    Refused,
    /// A file of several could not be read or written; it was named, and the others were done.
    Failed,
}

/// Why a call was not carried out, in words.
#[derive(Debug)]
pub enum Fault {
    /// Wrong use: the words of the call.
    Use(String),
    /// A read or a write that failed.
    Failed(String),
}

/// The exit status: 0 an answer, 1 a refusal, 2 wrong use, 3 a read or write that failed.
pub fn status(end: &Result<End, Fault>) -> u8 {
    match end {
        Ok(End::Answered) => 0,
        Ok(End::Refused) => 1,
        Err(Fault::Use(_)) => 2,
        Ok(End::Failed) | Err(Fault::Failed(_)) => 3,
    }
}
