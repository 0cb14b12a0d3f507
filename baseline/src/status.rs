//! What a run ends with.

use crate::fault::Fault;

pub enum Status {
    Ok,
    Usage(&'static str),
    Script(Fault),
    TooLong,
    ReadFault,
    WriteFault,
    TooManyPasses,
    Unlawful(u64),
}

impl Status {
    /// The number with which the process ends.
    pub fn number(&self) -> i32 {
        match self {
            Status::Ok => 0,
            Status::Usage(_) => 2,
            Status::Script(_) => 3,
            Status::TooLong => 4,
            Status::ReadFault => 5,
            Status::WriteFault => 6,
            Status::TooManyPasses => 9,
            Status::Unlawful(_) => 10,
        }
    }

    /// The line on standard error, without its LF; empty for Ok.
    pub fn line(&self) -> String {
        match self {
            Status::Ok => String::new(),
            Status::Usage(words) => format!("usage: {words}"),
            Status::Script(fault) => format!("line {}: {}", fault.line, fault.kind.text()),
            Status::TooLong => "input is longer than 16777216 bytes".into(),
            Status::ReadFault => "reading failed".into(),
            Status::WriteFault => "writing failed".into(),
            Status::TooManyPasses => "passes times cap is above 4194304".into(),
            Status::Unlawful(line) => format!("line {line}: not a lawful journal"),
        }
    }
}
