use crate::{calls, Refusal, MAX_SELECTOR};

/// The words of a piece in its written form.
const PIECE: usize = 6;

/// One simple selector, with the names that it was written with.
#[derive(Debug, Clone, Copy, PartialEq, Eq, Hash)]
pub enum Simple<'s> {
    /// `name`: tags of this name.
    Tag(&'s [u8]),
    /// `#id`
    Id(&'s [u8]),
    /// `.class`
    Class(&'s [u8]),
    /// `*`: every node, texts and comments too.
    All,
    /// `[k]`
    Attribute(&'s [u8]),
    /// `[k=v]`
    AttributeValue(&'s [u8], &'s [u8]),
    /// `[k~=v]`: one of the value's words.
    AttributeValueWhitespacedContains(&'s [u8], &'s [u8]),
    /// `[k^=v]`
    AttributeValueStartsWith(&'s [u8], &'s [u8]),
    /// `[k$=v]`
    AttributeValueEndsWith(&'s [u8], &'s [u8]),
    /// `[k*=v]`
    AttributeValueSubstring(&'s [u8], &'s [u8]),
}

/// What joins a piece to the rest of its selector.
#[derive(Debug, Clone, Copy, PartialEq, Eq, Hash)]
pub enum Joiner {
    /// There is no rest.
    End,
    /// Written together: both.
    And,
    /// `,`: one or the other.
    Or,
    /// A space. It finds nothing, as in tl.
    Descendant,
    /// `>`. It finds nothing, as in tl.
    Parent,
}

/// A simple selector and the joiner after it.
#[derive(Debug, Clone, Copy, PartialEq, Eq, Hash)]
pub struct Piece<'s> {
    /// The simple selector.
    pub simple: Simple<'s>,
    /// How the rest is joined to it. Meaning runs from the right: `a,b c` is `a` or (`b` descendant `c`).
    pub joiner: Joiner,
}

/// Reads a selector into its pieces.
///
/// ```
/// use tl_rattle::{parse_query_selector, Joiner, Piece, Refusal, Simple};
/// let pieces = parse_query_selector("div#test")?;
/// assert_eq!(
///     pieces,
///     [
///         Piece { simple: Simple::Tag(b"div"), joiner: Joiner::And },
///         Piece { simple: Simple::Id(b"test"), joiner: Joiner::End },
///     ]
/// );
/// assert_eq!(parse_query_selector("a,"), Err(Refusal::SelectorNotRead));
/// # Ok::<(), Refusal>(())
/// ```
///
/// # Errors
/// [`Refusal::SelectorTooLong`], [`Refusal::SelectorNotRead`].
pub fn parse_query_selector<S>(selector: &S) -> Result<Vec<Piece<'_>>, Refusal>
where
    S: AsRef<[u8]> + ?Sized,
{
    let selector = selector.as_ref();
    // every piece takes a byte at least, so this is room for all
    let mut words = [0; PIECE * MAX_SELECTOR];
    let count = calls::parse_query_selector(selector, &mut words)?;
    let written = words.chunks_exact(PIECE).take(count);
    Ok(written.map(|words| piece(selector, words)).collect())
}

fn piece<'s>(selector: &'s [u8], words: &[u32]) -> Piece<'s> {
    let part = |start: u32, end: u32| &selector[start as usize..end as usize];
    let first = part(words[1], words[2]);
    let second = part(words[3], words[4]);
    Piece {
        simple: match words[0] {
            1 => Simple::Tag(first),
            2 => Simple::Id(first),
            3 => Simple::Class(first),
            4 => Simple::All,
            5 => Simple::Attribute(first),
            6 => Simple::AttributeValue(first, second),
            7 => Simple::AttributeValueWhitespacedContains(first, second),
            8 => Simple::AttributeValueStartsWith(first, second),
            9 => Simple::AttributeValueEndsWith(first, second),
            10 => Simple::AttributeValueSubstring(first, second),
            kind => unreachable!("a piece has a kind from 1 to 10, not {kind}"),
        },
        joiner: match words[5] {
            0 => Joiner::End,
            1 => Joiner::And,
            2 => Joiner::Or,
            3 => Joiner::Descendant,
            4 => Joiner::Parent,
            joiner => unreachable!("a piece has a joiner from 0 to 4, not {joiner}"),
        },
    }
}

#[cfg(test)]
mod tests {
    use super::*;

    fn kinds(selector: &str) -> Vec<Simple<'_>> {
        let pieces = parse_query_selector(selector).unwrap();
        pieces.iter().map(|piece| piece.simple).collect()
    }

    #[test]
    fn every_kind() {
        assert_eq!(
            kinds("a,#b,.c,*,[d],[e=f],[g~='h'],[i^=\"j\"],[k$=l],[m*=n]"),
            [
                Simple::Tag(b"a"),
                Simple::Id(b"b"),
                Simple::Class(b"c"),
                Simple::All,
                Simple::Attribute(b"d"),
                Simple::AttributeValue(b"e", b"f"),
                Simple::AttributeValueWhitespacedContains(b"g", b"h"),
                Simple::AttributeValueStartsWith(b"i", b"j"),
                Simple::AttributeValueEndsWith(b"k", b"l"),
                Simple::AttributeValueSubstring(b"m", b"n"),
            ]
        );
        assert_eq!(kinds("#"), [Simple::Id(b"")]);
    }

    #[test]
    fn every_joiner() {
        let pieces = parse_query_selector("a.b,c d > e  ").unwrap();
        let joiners: Vec<Joiner> = pieces.iter().map(|piece| piece.joiner).collect();
        assert_eq!(
            joiners,
            [
                Joiner::And,
                Joiner::Or,
                Joiner::Descendant,
                Joiner::Parent,
                Joiner::End
            ]
        );
    }

    #[test]
    fn as_many_pieces_as_bytes() {
        assert_eq!(
            parse_query_selector(&"*".repeat(128)).unwrap().len(),
            MAX_SELECTOR
        );
    }
}
