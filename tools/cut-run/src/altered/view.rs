//! What is altered in the answers in the finished view.

use tl_rattle::Refusal;

use crate::reader::Asked;
use crate::rows::Rows;

/// Of which lookup.
#[derive(Clone, Copy, Debug, PartialEq, Eq)]
pub enum Asking {
    Class,
    Query,
    Below,
}

/// And how.
#[derive(Clone, Copy, Debug, PartialEq, Eq)]
pub enum How {
    FindDropped,
    /// another finished tag is found
    FindInvented,
    FindsSwapped,
    /// what the view of all finds and is not finished is kept: an open tag, one that was cut short, a text or a comment
    OpenShown,
    CutShortShown,
    OtherShown,
    Refused,
    OtherRefusal,
    SelectorAccepted,
    /// below a tag that is not finished
    UnfinishedRefused,
    NotATagAccepted,
}

/// How the whole pages' answers are altered.
pub const IN_WHOLE: [How; 4] = [
    How::FindDropped,
    How::FindInvented,
    How::OpenShown,
    How::Refused,
];

/// Each lookup in every way that can be. By class neither a text nor a comment is found, and no class is refused.
pub const IN_VIEW: [(Asking, How); 26] = [
    (Asking::Class, How::FindDropped),
    (Asking::Class, How::FindInvented),
    (Asking::Class, How::FindsSwapped),
    (Asking::Class, How::OpenShown),
    (Asking::Class, How::CutShortShown),
    (Asking::Class, How::Refused),
    (Asking::Query, How::FindDropped),
    (Asking::Query, How::FindInvented),
    (Asking::Query, How::FindsSwapped),
    (Asking::Query, How::OpenShown),
    (Asking::Query, How::CutShortShown),
    (Asking::Query, How::OtherShown),
    (Asking::Query, How::Refused),
    (Asking::Query, How::OtherRefusal),
    (Asking::Query, How::SelectorAccepted),
    (Asking::Below, How::FindDropped),
    (Asking::Below, How::FindInvented),
    (Asking::Below, How::FindsSwapped),
    (Asking::Below, How::OpenShown),
    (Asking::Below, How::CutShortShown),
    (Asking::Below, How::OtherShown),
    (Asking::Below, How::Refused),
    (Asking::Below, How::OtherRefusal),
    (Asking::Below, How::SelectorAccepted),
    (Asking::Below, How::UnfinishedRefused),
    (Asking::Below, How::NotATagAccepted),
];

/// A lookup in the finished view, below which row, and how many it finds.
#[derive(Clone, Copy)]
pub struct Looked<'p> {
    pub asking: Asking,
    asked: Asked<'p>,
    below: Option<u32>,
    pub answer: Result<usize, Refusal>,
}

impl<'p> Looked<'p> {
    pub fn new(
        asking: Asking,
        asked: Asked<'p>,
        below: Option<u32>,
        answer: Result<usize, Refusal>,
    ) -> Looked<'p> {
        Looked {
            asking,
            asked,
            below,
            answer,
        }
    }
}

impl How {
    /// The answer altered, if it can be; `all` gives the finds in the view of all.
    pub fn alter(
        self,
        looked: Looked<'_>,
        out: &mut [u32],
        all: impl FnOnce() -> Vec<u32>,
    ) -> Option<Result<usize, Refusal>> {
        let rows = Rows(looked.asked.table);
        let unfinished = looked.below.is_some_and(|handle| !rows.is_finished(handle));
        match (self, looked.answer) {
            (How::Refused, Ok(_)) => Some(Err(Refusal::TableNotSound)),
            (How::UnfinishedRefused, Ok(_)) if unfinished => Some(Err(Refusal::NotATag)),
            (How::OtherRefusal, Err(Refusal::SelectorTooLong)) => {
                Some(Err(Refusal::SelectorNotRead))
            }
            (How::SelectorAccepted, Err(Refusal::SelectorTooLong | Refusal::SelectorNotRead))
            | (How::NotATagAccepted, Err(Refusal::NotATag)) => Some(Ok(0)),
            (How::FindDropped, Ok(many)) => many.checked_sub(1).map(Ok),
            (How::FindsSwapped, Ok(many)) if many > 1 => {
                out.swap(0, 1);
                Some(Ok(many))
            }
            (_, Ok(many)) => {
                let new = self.new_find(rows, &out[..many], all)?;
                insert(out, many, new);
                Some(Ok(many + 1))
            }
            _ => None,
        }
    }

    /// What is found besides.
    fn new_find(
        self,
        rows: Rows<'_>,
        found: &[u32],
        all: impl FnOnce() -> Vec<u32>,
    ) -> Option<u32> {
        let ended = |handle, how| rows.is_tag(handle) && rows.ended(handle) == how;
        let shown = |of: &dyn Fn(u32) -> bool| all().into_iter().find(|handle| of(*handle));
        match self {
            How::FindInvented => (0..rows.count())
                .find(|handle| rows.is_finished(*handle) && !found.contains(handle)),
            How::OpenShown => shown(&|handle| ended(handle, 0)),
            How::CutShortShown => shown(&|handle| ended(handle, 2)),
            How::OtherShown => shown(&|handle| !rows.is_tag(handle)),
            _ => None,
        }
    }
}

/// Puts a handle among so many that are in order.
fn insert(out: &mut [u32], many: usize, new: u32) {
    let at = out[..many].partition_point(|handle| *handle < new);
    out.copy_within(at..many, at + 1);
    out[at] = new;
}
