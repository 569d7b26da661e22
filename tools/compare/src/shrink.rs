//! Makes an input on which an answer differs as small as it can be by leaving out parts of its profile, then bytes, and then what
//! was asked.
use crate::findings::Difference;
use crate::guard::guarded;
use crate::plan::Input;
use crate::profiles::PARTS;
use crate::question::Question;
use common::Random;

/// Smaller inputs are tried until they come to so many bytes together.
const TRIED: usize = 10_000_000;

/// The smallest input found, with its difference.
pub fn shrink(mut input: Input, mut difference: Difference) -> (Input, Difference) {
    for part in 0..PARTS {
        let Some(next) = input.without(part) else {
            continue;
        };
        if let Some(still) = differs(&next, &difference.question) {
            (input, difference) = (next, still);
        }
    }
    let bytes = input.bytes().1.to_vec();
    fewer(bytes, |bytes| {
        let next = input.with_bytes(bytes)?;
        difference = differs(&next, &difference.question)?;
        input = next;
        Some(())
    });
    if let Some(word) = difference.question.word().map(<[u8]>::to_vec) {
        fewer(word, |word| {
            let question = difference.question.with_word(word);
            difference = differs(&input, &question)?;
            Some(())
        });
    }
    (input, difference)
}

/// Leaves out ever smaller parts of some bytes as long as what is left will do.
fn fewer(mut bytes: Vec<u8>, mut will_do: impl FnMut(&[u8]) -> Option<()>) {
    let mut tried = 0;
    let mut size = bytes.len().next_power_of_two();
    while size > 0 {
        let before = bytes.len();
        let mut place = 0;
        while place < bytes.len() && tried < TRIED {
            let end = (place + size).min(bytes.len());
            let rest = [&bytes[..place], &bytes[end..]].concat();
            tried += rest.len();
            match will_do(&rest) {
                Some(()) => bytes = rest,
                None => place += size,
            }
        }
        // Leaving out one part may have made it possible to leave out an earlier one.
        if bytes.len() == before {
            size /= 2;
        }
    }
}

/// A difference of the same sort, if the input still has one. Some are looked for only now and then, so it is asked often.
fn differs(input: &Input, question: &Question) -> Option<Difference> {
    (0..4).find_map(|seed| {
        let found = guarded(|| input.compare_again(question, &mut Random::new(seed)));
        let mut differences = found.differences.into_iter();
        differences.find(|other| other.question.is_like(question))
    })
}
