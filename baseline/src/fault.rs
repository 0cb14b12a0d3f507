//! Faults of texts. A line's first fault, in the order of these kinds, is the one that is named.

#[derive(Clone, Copy, Debug, PartialEq, Eq)]
pub enum FaultKind {
    After,
    Cut,
    Header,
    Word,
    Form,
    Number,
    Limit,
    Attrs,
    OverCap,
    Range,
    RangesOverMax,
    Scheme,
    Repeated,
    Outside,
    TooMuch,
}

impl FaultKind {
    pub fn text(self) -> &'static str {
        match self {
            FaultKind::After => "text after end",
            FaultKind::Cut => "input ends early",
            FaultKind::Header => "no header",
            FaultKind::Word => "unexpected word",
            FaultKind::Form => "bad form",
            FaultKind::Number => "bad number",
            FaultKind::Limit => "out of limit",
            FaultKind::Attrs => "bad attrs",
            FaultKind::OverCap => "max over cap",
            FaultKind::Range => "bad range",
            FaultKind::RangesOverMax => "ranges over max",
            FaultKind::Scheme => "bad scheme",
            FaultKind::Repeated => "slot set twice",
            FaultKind::Outside => "outside span",
            FaultKind::TooMuch => "too much work",
        }
    }
}

#[derive(Clone, Copy, Debug, PartialEq, Eq)]
pub struct Fault {
    pub line: u64,
    pub kind: FaultKind,
}

/// What a line of a text gives, or the kind of its fault.
pub type OfLine<T> = Result<T, FaultKind>;
