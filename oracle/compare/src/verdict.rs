//! What a call may leave: the results, and the refusals that are justified.

use crate::{calls::Outcome, request::Expected};

/// What an accepted call leaves: the answer's lower half, the scope, and each buffer without the zeros behind. A report
/// is zero: nothing is counted yet.
pub struct Results {
    pub value: usize,
    pub scope: Vec<u8>,
    pub buffers: Vec<Vec<u8>>,
}

/// A refusal with the places that are justified and the scope that it leaves. All its buffers are zero.
#[derive(Clone)]
pub struct Refusal {
    pub number: u64,
    pub places: Vec<usize>,
    pub scope: Vec<u8>,
}

#[derive(Default)]
pub struct Verdict {
    pub results: Option<Results>,
    /// The scope that a refusal 9 leaves, where a buffer is shorter than its result.
    pub short: Vec<u8>,
    /// The results pass a limit, so the call may not be accepted.
    pub barred: bool,
    /// Refusals that are justified whatever the buffers' lengths.
    pub refusals: Vec<Refusal>,
    /// Why nothing is justified, where the Rust, the counts made here and the generator do not agree.
    pub conflict: Option<String>,
}

impl Verdict {
    pub fn accepted(results: Results, short: Vec<u8>) -> Self {
        Verdict {
            results: Some(results),
            short,
            ..Default::default()
        }
    }

    pub fn refused(number: u64, place: usize, scope: Vec<u8>) -> Self {
        let places = vec![place];
        Verdict {
            refusals: vec![Refusal {
                number,
                places,
                scope,
            }],
            ..Default::default()
        }
    }

    pub fn conflict(text: String) -> Self {
        Verdict {
            conflict: Some(text),
            ..Default::default()
        }
    }

    /// The verdict with what the generator knows of the answer.
    pub fn narrowed(mut self, expected: &Expected) -> Self {
        self.barred |= expected.number != 0;
        self.refusals
            .retain(|refusal| refusal.number == expected.number);
        for refusal in &mut self.refusals {
            refusal
                .places
                .retain(|place| expected.place.is_none_or(|known| known == *place));
        }
        if self.barred && self.refusals.is_empty() {
            let Expected { number, place } = expected;
            return Verdict::conflict(format!("the generator expects {number} at {place:?}"));
        }
        self
    }

    /// The results, where they fit into buffers of these lengths and pass no limit.
    pub fn accepts(&self, rooms: &[usize]) -> Option<&Results> {
        let results = self.results.as_ref()?;
        (!self.barred && results.fit(rooms)).then_some(results)
    }

    /// The refusals that are justified with buffers of these lengths.
    pub fn refusals(&self, rooms: &[usize]) -> Vec<Refusal> {
        let mut refusals = self.refusals.clone();
        if self
            .results
            .as_ref()
            .is_some_and(|results| !results.fit(rooms))
        {
            refusals.push(Refusal {
                number: 9,
                places: vec![0],
                scope: self.short.clone(),
            });
        }
        refusals
    }

    /// Whether a call with buffers of these lengths may leave this.
    pub fn allows(&self, rooms: &[usize], left: &Outcome) -> bool {
        match left.number() {
            0 => self.accepts(rooms).is_some_and(|results| results.are(left)),
            _ => self.refusals(rooms).iter().any(|refusal| refusal.is(left)),
        }
    }
}

impl Results {
    fn fit(&self, rooms: &[usize]) -> bool {
        let mut pairs = self.buffers.iter().zip(rooms);
        pairs.all(|(bytes, room)| bytes.len() <= *room)
    }

    /// The results, then zeros to the end of each buffer.
    fn are(&self, left: &Outcome) -> bool {
        let mut pairs = self.buffers.iter().zip(&left.buffers);
        self.value == left.place()
            && self.scope[..] == left.scope[..]
            && is_zero(&left.report)
            && pairs.all(|(bytes, buffer)| {
                let (front, behind) = buffer.split_at(bytes.len());
                front == bytes && is_zero(behind)
            })
    }
}

impl Refusal {
    fn is(&self, left: &Outcome) -> bool {
        self.number == left.number()
            && self.places.contains(&left.place())
            && self.scope[..] == left.scope[..]
            && is_zero(&left.report)
            && left.buffers.iter().all(|buffer| is_zero(buffer))
    }
}

pub fn is_zero(bytes: &[u8]) -> bool {
    bytes.iter().all(|byte| *byte == 0)
}
