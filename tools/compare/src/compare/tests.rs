//! Whether a wrong rule is found of what the finished view shows, and of what a lookup with a fallback hands back. For the first the
//! model gets changed rows, which its own rule then takes for what they are not; the library keeps the page's table.
use super::fallbacks::Rule;
use super::*;
use crate::model::{Ended, Kind};
use crate::pages;

type Change = fn(&mut Row);

/// The rows as they are.
const RIGHT: Change = |_| {};

/// Each makes the finished view show tags that it must not, or leave out tags that it must show.
const WRONG: [Change; 4] = [
    |row| become_if(row, Ended::Open, Ended::Closed),
    |row| become_if(row, Ended::Closed, Ended::Open),
    |row| become_if(row, Ended::CutShort, Ended::Closed),
    |row| become_if(row, Ended::NeverOpened, Ended::Open),
];

fn become_if(row: &mut Row, from: Ended, to: Ended) {
    if row.is_tag() && row.ended == from {
        row.ended = to;
    }
}

/// And these show texts, or comments.
const WRONG_KINDS: [Change; 2] = [
    |row| as_finished(row, Kind::Text),
    |row| as_finished(row, Kind::Comment),
];

fn as_finished(row: &mut Row, kind: Kind) {
    if row.kind == kind {
        (row.kind, row.ended) = (Kind::Tag, Ended::NeverOpened);
    }
}

/// The questions on which library and model differ, if the model has changed rows.
fn differing(page: &[u8], change: Change, asks: impl FnOnce(&Asked) -> Asks) -> Vec<Question> {
    differing_in(page, change, |run| {
        let asks = asks(&run.asked);
        for manner in MANNERS {
            run.lookups(manner, &asks);
        }
        for view in VIEWS {
            run.queries(view, &asks);
        }
    })
}

fn differing_in(page: &[u8], change: Change, ask: impl FnOnce(&mut Run)) -> Vec<Question> {
    let reading = model::read(page, tl_profile());
    let table = model::words_of(page.len(), &reading);
    let mut rows = reading.rows.clone();
    rows.iter_mut().for_each(change);
    let profile = LentProfile::alone(&TL_BYTES);
    let mut run = Run {
        asked: Asked::new(page, &rows, tl_profile()),
        ours: Ours {
            profile: &profile.raw,
            page,
            table: &table,
        },
        tl: None,
        refusal: None,
        departs: false,
        random: &mut Random::new(page.len() as u64),
        found: Findings::default(),
    };
    ask(&mut run);
    let differences = run.found.differences.into_iter();
    differences.map(|difference| difference.question).collect()
}

/// The number of the view that a question is asked in; none in the closed manner.
fn view_of(question: &Question) -> Option<u32> {
    match question {
        Question::Id(numbers, _) | Question::Class(numbers, _) => {
            (numbers.manner == 0).then_some(numbers.view)
        }
        Question::Query(view, _) | Question::Below(_, view, _) => Some(*view),
        _ => None,
    }
}

fn in_finished(questions: &[Question]) -> bool {
    let finished = |question| view_of(question).is_some_and(|number| number != 0);
    questions.iter().all(finished)
}

/// Below an open tag a row of every kind and ending. Each tag has an id of its own but the two of which the first is open.
const EVERY_ROW: &[u8] =
    b"<p><b class=f id=a>x<br class=f id=v><i class=f id=a></i><!--y--><u class=f id=c></u";

fn of_every_row(_: &Asked) -> Asks {
    let words = |words: &[&[u8]]| words.iter().map(|word| word.to_vec()).collect();
    Asks {
        ids: words(&[b"a", b"v", b"c"]),
        classes: words(&[b"f"]),
        selectors: words(&[b"*", b".f"]),
        below: vec![(0, b"*".to_vec())],
        ..Asks::default()
    }
}

/// A wrong rule shows in a lookup by id, in one by class, in a query and below a tag, and in the finished view alone.
#[test]
fn wrong_rules_show_in_every_call() {
    assert_eq!(differing(EVERY_ROW, RIGHT, of_every_row), []);
    for (number, change) in WRONG.into_iter().enumerate() {
        let questions = differing(EVERY_ROW, change, of_every_row);
        let kinds: [fn(&Question) -> bool; 4] = [
            |question| matches!(question, Question::Id(..)),
            |question| matches!(question, Question::Class(..)),
            |question| matches!(question, Question::Query(..)),
            |question| matches!(question, Question::Below(..)),
        ];
        assert!(
            kinds.iter().all(|kind| questions.iter().any(kind)),
            "{number}"
        );
        assert!(in_finished(&questions), "{questions:?}");
    }
}

/// Texts and comments have neither id nor class.
#[test]
fn wrong_kinds_show_in_queries() {
    for change in WRONG_KINDS {
        let questions = differing(EVERY_ROW, change, of_every_row);
        let queries = questions.iter().filter(|question| match question {
            Question::Query(_, selector) | Question::Below(_, _, selector) => selector == b"*",
            _ => false,
        });
        assert_eq!(queries.count(), questions.len());
        assert!(questions.len() >= 2 && in_finished(&questions));
    }
}

/// On random pages that break off, asked as a run asks them, each wrong rule shows, and the right one never does.
#[test]
fn wrong_rules_show_on_random_pages() {
    const PAGES: u64 = 1_000;
    let shown = |change: Change| {
        let differs = |number: &u64| {
            let mut random = Random::for_input(1, 97, *number);
            let mut page = pages::of_markup(&mut random);
            page.truncate(random.below(page.len() + 1));
            let questions = differing(&page, change, |asked| Asks::of_page(asked, &mut random));
            assert!(in_finished(&questions), "{questions:?}");
            !questions.is_empty()
        };
        (0..PAGES).filter(differs).count()
    };
    assert_eq!(shown(RIGHT), 0);
    for (number, change) in WRONG.into_iter().enumerate() {
        assert!(shown(change) > 0, "{number}");
    }
}

/// Each hands back something else: the fallback for an empty value, nothing without a value, nothing where the name is absent, the
/// value alone, the fallback alone, and the fallback without its last byte.
const WRONG_FALLBACKS: [Rule; 6] = [
    |held, page, fallback| match held {
        Held::Value((start, end)) if start == end => fallback,
        _ => held.or(page, fallback),
    },
    |held, page, fallback| match held {
        Held::Bare => b"",
        _ => held.or(page, fallback),
    },
    |held, page, fallback| match held {
        Held::Absent => b"",
        _ => held.or(page, fallback),
    },
    |held, page, _| held.or(page, b""),
    |_, _, fallback| fallback,
    |held, page, fallback| held.or(page, &fallback[..fallback.len().saturating_sub(1)]),
];

/// The lookups with fallbacks on which library and model differ, if the model goes by this rule.
fn differing_by(page: &[u8], rule: Rule, asks: impl FnOnce(&Asked) -> Asks) -> Vec<Question> {
    differing_in(page, RIGHT, |run| {
        for (tag, name) in asks(&run.asked).attributes {
            let ours = run.ours.attribute(tag, &name);
            run.attribute_or(tag, &name, ours, rule);
        }
    })
}

/// A wrong rule shows at the names for which it is wrong, and at these alone.
#[test]
fn wrong_fallbacks_show_at_their_names() {
    const NAMES: [&str; 5] = ["bare", "empty", "valued", "absent", "id"];
    // the byte after a name without a value is passed over
    let page = b"<p bare, empty='' valued=x id>";
    let lookup = |name: &str| (0, name.as_bytes().to_vec());
    let shown = |rule: Rule| {
        let asks = |_: &Asked| Asks {
            attributes: NAMES.map(lookup).into(),
            ..Asks::default()
        };
        differing_by(page, rule, asks)
    };
    assert_eq!(shown(Held::or), []);
    let names: [&[&str]; 6] = [
        &["empty"],
        &["bare"],
        &["absent", "id"],
        &["bare", "absent", "id"],
        &["empty", "valued"],
        &["bare", "absent", "id"],
    ];
    for (rule, names) in WRONG_FALLBACKS.into_iter().zip(names) {
        let lookups = names.iter().map(|name| lookup(name));
        let questions = lookups.map(|(tag, name)| Question::AttributeOr(tag, name));
        assert_eq!(shown(rule), questions.collect::<Vec<_>>());
    }
}

/// On random pages each shows, and the right one never does.
#[test]
fn wrong_fallbacks_show_on_random_pages() {
    const PAGES: u64 = 300;
    let shown = |rule: Rule| {
        let differs = |number: &u64| {
            let mut random = Random::for_input(1, 96, *number);
            let page = pages::of_markup(&mut random);
            let questions = differing_by(&page, rule, |asked| Asks::of_page(asked, &mut random));
            !questions.is_empty()
        };
        (0..PAGES).filter(differs).count()
    };
    assert_eq!(shown(Held::or), 0);
    for (number, rule) in WRONG_FALLBACKS.into_iter().enumerate() {
        assert!(shown(rule) > 0, "{number}");
    }
}
