//! Reading scheme lines: first the form of the whole line, then its numbers, then the limit of filters.

use crate::fault::{FaultKind, OfLine};
use crate::scheme::{Action, Filter, Kind, Marks, Quota, Scheme, Span, MOST_FILTERS};
use crate::words::{address, has_form, n16, n32, n64, n8, parts};

/// The keys in the order in which a line may have them.
const KEYS: [&[u8]; 9] = [b"size", b"count", b"age", b"quota", b"time", b"weights", b"prefer", b"marks", b"filter"];
const QUOTA: usize = 3;
const TIME: usize = 4;
const FILTER: usize = 8;

/// The words of a scheme line whose form is right.
struct Form<'a> {
    slot: &'a [u8],
    action: Action,
    size: Option<[&'a [u8]; 2]>,
    count: Option<[&'a [u8]; 2]>,
    age: Option<[&'a [u8]; 2]>,
    quota: Option<[&'a [u8]; 2]>,
    time: Option<&'a [u8]>,
    weights: Option<[&'a [u8]; 3]>,
    cold: bool,
    marks: Option<[&'a [u8]; 3]>,
    filters: Vec<FilterForm<'a>>,
}

struct FilterForm<'a> {
    allow: bool,
    not: bool,
    kind: KindForm<'a>,
}

enum KindForm<'a> {
    Addr([&'a [u8]; 2]),
    Target(&'a [u8]),
    Class(&'a [u8]),
}

/// The slot and the scheme of a line that begins with `scheme`.
pub fn read(line: &[u8], version: u8) -> OfLine<(u8, Scheme)> {
    let form = form_of(line, version)?;
    let slot = n8(form.slot)?;
    let scheme = numbers_of(&form)?;
    if scheme.filters.len() > MOST_FILTERS {
        return Err(FaultKind::Limit);
    }
    Ok((slot, scheme))
}

fn form_of(line: &[u8], version: u8) -> OfLine<Form<'_>> {
    if !has_form(line) {
        return Err(FaultKind::Form);
    }
    let mut words = line.split(|&byte| byte == b' ').skip(1);
    let slot = words.next().ok_or(FaultKind::Form)?;
    let action = words.next().and_then(Action::named).ok_or(FaultKind::Form)?;
    let (size, count, age, quota, time, weights, marks) = (None, None, None, None, None, None, None);
    let mut form =
        Form { slot, action, size, count, age, quota, time, weights, cold: false, marks, filters: Vec::new() };
    let mut before = None;
    for word in words {
        before = Some(key_of(&mut form, word, before, version)?);
    }
    Ok(form)
}

/// Takes a word `key=value`, and gives the place of its key, which must come after the one before.
fn key_of<'a>(form: &mut Form<'a>, word: &'a [u8], before: Option<usize>, version: u8) -> OfLine<usize> {
    let ends = word.iter().position(|&byte| byte == b'=').ok_or(FaultKind::Form)?;
    let (key, value) = (&word[..ends], &word[ends + 1..]);
    let place = KEYS.iter().position(|&it| it == key).ok_or(FaultKind::Form)?;
    let in_order = before.map_or(true, |before| before < place || before == FILTER && place == FILTER);
    if !in_order || place == TIME && (version == 1 || before != Some(QUOTA)) {
        return Err(FaultKind::Form);
    }
    match key {
        b"size" => form.size = Some(parts(value, b',')?),
        b"count" => form.count = Some(parts(value, b',')?),
        b"age" => form.age = Some(parts(value, b',')?),
        b"quota" => form.quota = Some(parts(value, b',')?),
        b"time" => form.time = Some(parts::<1>(value, b',')?[0]),
        b"weights" => form.weights = Some(parts(value, b',')?),
        b"prefer" => {
            form.cold = match value {
                b"hot" => false,
                b"cold" => true,
                _ => return Err(FaultKind::Form),
            }
        }
        b"marks" => form.marks = Some(parts(value, b',')?),
        _ => form.filters.push(filter_of(value)?),
    }
    Ok(place)
}

fn filter_of(value: &[u8]) -> OfLine<FilterForm<'_>> {
    let [verdict, kind, what] = parts(value, b':')?;
    let allow = match verdict {
        b"allow" => true,
        b"reject" => false,
        _ => return Err(FaultKind::Form),
    };
    let (not, kind) = match kind.strip_prefix(b"not-") {
        Some(rest) => (true, rest),
        None => (false, kind),
    };
    let kind = match kind {
        b"addr" => KindForm::Addr(parts(what, b'-')?),
        b"target" => KindForm::Target(what),
        b"class" => KindForm::Class(what),
        _ => return Err(FaultKind::Form),
    };
    Ok(FilterForm { allow, not, kind })
}

fn numbers_of(form: &Form) -> OfLine<Scheme> {
    let mut scheme = Scheme::of(form.action);
    scheme.size = span_of(form.size)?;
    scheme.count = span_of(form.count)?;
    scheme.age = span_of(form.age)?;
    if let Some([bytes, reset]) = form.quota {
        scheme.quota = Some(Quota { bytes: n64(bytes)?, reset: n32(reset)?, time: form.time.map(n64).transpose()? });
    }
    if let Some([size, count, age]) = form.weights {
        scheme.weights = [n16(size)?, n16(count)?, n16(age)?];
    }
    scheme.cold = form.cold;
    if let Some([high, mid, low]) = form.marks {
        scheme.marks = Some(Marks { high: n32(high)?, mid: n32(mid)?, low: n32(low)? });
    }
    for filter in &form.filters {
        let kind = match filter.kind {
            KindForm::Addr([from, to]) => Kind::Addr { from: address(from)?, to: address(to)? },
            KindForm::Target(target) => Kind::Target(n32(target)?),
            KindForm::Class(class) => Kind::Class(n8(class)?),
        };
        scheme.filters.push(Filter { allow: filter.allow, not: filter.not, kind });
    }
    Ok(scheme)
}

fn span_of(words: Option<[&[u8]; 2]>) -> OfLine<Span> {
    match words {
        Some([least, most]) => Ok(Span { least: n32(least)?, most: n32(most)? }),
        None => Ok(Span::ALL),
    }
}
