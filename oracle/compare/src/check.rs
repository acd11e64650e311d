//! Runs a request through the library, with buffers of several lengths, and compares what each call leaves with the
//! verdict.

use crate::{
    calls::{self, Outcome},
    judge::{field, LONGEST},
    lines,
    request::{Case, Kind, Request},
    rng::Rng,
    tally::Tally,
    verdict::Verdict,
};

/// A call that left something else than its verdict allows.
pub struct Difference {
    /// The request, a tab, and the answer that is expected.
    pub line: String,
    pub given: String,
}

/// Where verdicts come from.
pub type Judge = fn(&Request) -> Verdict;

/// Checks all calls of a request; gives the first difference.
pub fn check(
    case: &Case,
    judge: Judge,
    rng: &mut Rng,
    tally: &mut Tally,
) -> Result<(), Difference> {
    tally.request(case.kind);
    let left = check_request(case, judge, rng, tally)?;
    let (Kind::Both, Request::Extract { lent, .. }) = (case.kind, &case.request) else {
        return Ok(());
    };
    if left.number() != 0 {
        return Ok(());
    }
    let resolving = Case {
        kind: case.kind,
        request: Request::Resolve {
            files: files_of(&left.scope),
            table: lent.table.clone(),
            records: field(&left.buffers[2]).to_vec(),
        },
        expected: None,
    };
    check_request(&resolving, judge, rng, tally).map(drop)
}

/// The files of a scope, in the order of the numbers.
fn files_of(scope: &[u8]) -> Vec<u8> {
    let count = usize::from(u16::from_be_bytes([scope[0], scope[1]]));
    let modules = scope[2..].chunks(3).take(count);
    modules.flat_map(|module| [module[0], module[1]]).collect()
}

/// Checks a request with buffers of several lengths; gives what the first call left.
fn check_request(
    case: &Case,
    judge: Judge,
    rng: &mut Rng,
    tally: &mut Tally,
) -> Result<Outcome, Difference> {
    let mut verdict = judge(&case.request);
    if let Some(expected) = &case.expected {
        verdict = verdict.narrowed(expected);
    }
    let (first, others) = rooms(rng, case, &verdict);
    let left = check_call(case, &verdict, &first, tally)?;
    for rooms in others {
        check_call(case, &verdict, &rooms, tally)?;
    }
    Ok(left)
}

fn check_call(
    case: &Case,
    verdict: &Verdict,
    rooms: &[usize],
    tally: &mut Tally,
) -> Result<Outcome, Difference> {
    let left = calls::make(&case.request, rooms);
    tally.answer(case.kind, left.number());
    match verdict.allows(rooms, &left) {
        true => Ok(left),
        false => Err(difference(case, verdict, rooms, &left)),
    }
}

fn difference(case: &Case, verdict: &Verdict, rooms: &[usize], left: &Outcome) -> Difference {
    let request = lines::request(&case.request, rooms);
    let expected = lines::expected(&case.request, rooms, verdict);
    Difference {
        line: format!("{request}\t{expected}"),
        given: lines::given(&case.request, left),
    }
}

/// The buffers' lengths: first with room, then exact ones, then one that is too short. Where no results are known there
/// is one call; at a limit there are two, and the first one's buffers have a byte more than any field, so that a result
/// which is too long by one byte is not refused for its buffer.
fn rooms(rng: &mut Rng, case: &Case, verdict: &Verdict) -> (Vec<usize>, Vec<Vec<usize>>) {
    let count = match case.request {
        Request::Extract { .. } => 3,
        Request::Resolve { .. } | Request::Encode { .. } => 1,
        Request::Detect { .. } => return (Vec::new(), Vec::new()),
        Request::Decode { .. } => return (vec![6], Vec::new()),
    };
    let Some(results) = &verdict.results else {
        return match case.expected {
            Some(_) => (vec![LONGEST + 1; count], vec![vec![LONGEST; count]]),
            None => (vec![rng.pick(&[0, 1, 3, 100, 1_000]); count], Vec::new()),
        };
    };
    let exact: Vec<usize> = results.buffers.iter().map(Vec::len).collect();
    let more = if rng.one_in(50) {
        LONGEST
    } else {
        rng.below(40)
    };
    let roomy = exact.iter().map(|length| length + more).collect();
    let mut short = exact.clone();
    let buffer = rng.below(count);
    short[buffer] = rng.pick(&[short[buffer] - 1, short[buffer] - 1, short[buffer] / 2, 0]);
    (roomy, vec![exact, short])
}
