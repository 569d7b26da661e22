//! The questions that are put to all sides.
use crate::model::Names;
use crate::numbers::Numbers;
use std::fmt;

/// A question, with the tag and the word that it is about, and the numbers of a manner and a view.
#[derive(Clone, Debug, PartialEq)]
pub enum Question {
    Nodes,
    Version,
    SmallTable,
    MaxNodes,
    Opening(usize),
    Range(usize),
    Text(usize),
    Attribute(usize, Vec<u8>),
    /// the same with some fallbacks
    AttributeOr(usize, Vec<u8>),
    Id(Numbers, Vec<u8>),
    Class(Numbers, Vec<u8>),
    Selector,
    Query(u32, Vec<u8>),
    Below(usize, u32, Vec<u8>),
    NoTag(usize),
    /// of a list of handles
    Attributes(Vec<u32>, Vec<u8>),
    AttributesForNames(Vec<u32>, Names),
    Texts(Vec<u32>),
    Panic,
}

impl Question {
    /// The same question, perhaps of another tag or with another word.
    pub fn is_like(&self, other: &Question) -> bool {
        std::mem::discriminant(self) == std::mem::discriminant(other)
    }

    /// The name, id, class or selector that it is about, or the text of several names.
    pub fn word(&self) -> Option<&[u8]> {
        match self {
            Question::Attribute(_, word)
            | Question::AttributeOr(_, word)
            | Question::Id(_, word)
            | Question::Class(_, word)
            | Question::Query(_, word)
            | Question::Below(_, _, word)
            | Question::Attributes(_, word) => Some(word),
            Question::AttributesForNames(_, names) => Some(&names.text),
            _ => None,
        }
    }

    /// The same question about another word.
    pub fn with_word(&self, word: &[u8]) -> Question {
        let word = word.to_vec();
        match self {
            Question::Attribute(tag, _) => Question::Attribute(*tag, word),
            Question::AttributeOr(tag, _) => Question::AttributeOr(*tag, word),
            Question::Id(numbers, _) => Question::Id(*numbers, word),
            Question::Class(numbers, _) => Question::Class(*numbers, word),
            Question::Query(view, _) => Question::Query(*view, word),
            Question::Below(tag, view, _) => Question::Below(*tag, *view, word),
            Question::Attributes(list, _) => Question::Attributes(list.clone(), word),
            Question::AttributesForNames(list, names) => {
                let ends = names.ends.clone();
                Question::AttributesForNames(list.clone(), Names { text: word, ends })
            }
            other => other.clone(),
        }
    }
}

impl fmt::Display for Question {
    fn fmt(&self, f: &mut fmt::Formatter) -> fmt::Result {
        let text = |bytes: &[u8]| bytes.escape_ascii().to_string();
        match self {
            Question::Nodes => write!(f, "nodes"),
            Question::Version => write!(f, "version"),
            Question::SmallTable => write!(f, "reading into a table that is too small"),
            Question::MaxNodes => write!(f, "at most two nodes for three bytes"),
            Question::Opening(h) => write!(f, "place after the opening > of {h}"),
            Question::Range(h) => write!(f, "range of {h}"),
            Question::Text(h) => write!(f, "inner text of {h}"),
            Question::Attribute(h, name) => write!(f, "attribute `{}` of {h}", text(name)),
            Question::AttributeOr(h, name) => {
                write!(f, "attribute `{}` of {h}, with fallbacks", text(name))
            }
            Question::Id(numbers, id) => write!(f, "id `{}`, {numbers}", text(id)),
            Question::Class(numbers, class) => write!(f, "class `{}`, {numbers}", text(class)),
            Question::Selector => write!(f, "selector"),
            Question::Query(view, selector) => {
                write!(f, "query `{}`, view {view}", text(selector))
            }
            Question::Below(h, view, selector) => {
                write!(f, "query `{}` below {h}, view {view}", text(selector))
            }
            Question::NoTag(h) => write!(f, "calls on {h}, which is no tag"),
            Question::Attributes(list, name) => {
                write!(f, "attribute `{}` of the list {list:?}", text(name))
            }
            Question::AttributesForNames(list, names) => {
                let ends = &names.ends;
                let names = text(&names.text);
                write!(
                    f,
                    "attributes `{names}`, ends {ends:?}, of the list {list:?}"
                )
            }
            Question::Texts(list) => write!(f, "inner texts of the list {list:?}"),
            Question::Panic => write!(f, "a panic"),
        }
    }
}
