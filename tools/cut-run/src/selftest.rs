//! Alters answers on purpose: what must be reported, and what must not.

use common::Random;
use tl_rattle::Profile;

use crate::altered::{
    Alteration, Altered, AnyLength, Asking, EndedExchanged, How, ALTERATIONS, BY_TLS, IN_VIEW,
    IN_WHOLE, OF_FINISHED,
};
use crate::case::{case, Case, Part, SHORT};
use crate::compare::{Clause, Counts, Difference, Whole};
use crate::questions::{questions, Questions};
use crate::reader::{Compiled, Reader};
use crate::rows::Rows;
use crate::run::smallest;

/// The pages of the self-test, by tl's profile and by others.
const PAGES: usize = 60;
const TLS: Part = Part {
    long: false,
    random_profile: false,
};
const OTHERS: Part = Part {
    random_profile: true,
    ..TLS
};

/// The parts of the statement that an alteration must show in, in each of them; but where a page is read by tl's profile, in one.
fn shows_in(alteration: Alteration) -> &'static [Clause] {
    match alteration {
        Alteration::ReadingRefused => &[Clause::Reading],
        Alteration::ReadOneByteLess | Alteration::LastTagDropped | Alteration::TextMadeATag => {
            &[Clause::Tags]
        }
        Alteration::StartMoved => &[Clause::Start],
        Alteration::NameShortened => &[Clause::Name],
        Alteration::ParentForgotten => &[Clause::Parent],
        Alteration::OpenedMoved => &[Clause::Places],
        Alteration::ReadByTls => &[
            Clause::Tags,
            Clause::Start,
            Clause::Name,
            Clause::Parent,
            Clause::Places,
        ],
        Alteration::LastTooLow | Alteration::LastTooHigh => &[Clause::Descendants],
        Alteration::AbsentMadeBare
        | Alteration::BareMadeAbsent
        | Alteration::AttributeRefused
        | Alteration::AttributeByTls => &[Clause::Attribute],
        Alteration::ValueForgotten | Alteration::ValueShortened | Alteration::BareMadeEmpty => {
            &[Clause::Attribute, Clause::Value]
        }
        Alteration::FallbackForValue
        | Alteration::FallbackForEmpty
        | Alteration::NothingForAbsent
        | Alteration::NothingForBare
        | Alteration::FallbackShortened
        | Alteration::FallbackInPageShortened => &[Clause::Value],
        Alteration::FindDropped
        | Alteration::FindInvented
        | Alteration::FindsSwapped
        | Alteration::QueryRefused
        | Alteration::OtherRefusal
        | Alteration::QueryAccepted
        | Alteration::QueryByTls => &[Clause::Query],
        Alteration::FindBelowDropped | Alteration::FindBelowInvented | Alteration::BelowRefused => {
            &[Clause::Below]
        }
        Alteration::TextRefused | Alteration::TextShortened => &[Clause::Text],
        Alteration::TextLengthened => &[Clause::TextBegins],
        Alteration::ClosedTextShortened => &[Clause::TextSame, Clause::StaysText],
        Alteration::FinishedEndMoved
        | Alteration::FinishedLastMoved
        | Alteration::FinishedOtherwise
        | Alteration::CutShortMadeClosed
        | Alteration::OpenMadeNeverOpened => &[Clause::StaysRow],
        Alteration::InView(asking, how) => shows_in_view(asking, how),
    }
}

/// And of one in the finished view.
fn shows_in_view(asking: Asking, how: How) -> &'static [Clause] {
    match asking {
        // of what is no tag `Stays` says nothing
        Asking::Below if how == How::NotATagAccepted => &[Clause::ShownBelow],
        Asking::Class => &[Clause::ShownClass, Clause::StaysClass],
        Asking::Query => &[Clause::ShownQuery, Clause::StaysQuery],
        Asking::Below => &[Clause::ShownBelow, Clause::StaysBelow],
    }
}

/// At how many cuts answers were altered, and at how many that was not reported in the right clause, or something was although
/// nothing was altered.
#[derive(Default)]
struct Seen {
    altered: usize,
    missed: usize,
    other: usize,
    first: Option<Difference>,
}

impl Seen {
    fn observe(&mut self, alteration: Alteration, taken: bool, reported: Vec<Difference>) {
        let clauses = shows_in(alteration);
        let shows = |clause: &Clause| reported.iter().any(|it| it.clause == *clause);
        let shown = match alteration {
            Alteration::ReadByTls => clauses.iter().any(shows),
            _ => clauses.iter().all(shows),
        };
        self.altered += usize::from(taken);
        self.missed += usize::from(taken && !shown);
        // these two differ also where they find as many tags, or the same
        let may = [Alteration::ReadOneByteLess, Alteration::ReadByTls].contains(&alteration);
        self.other += usize::from(!taken && !may && !reported.is_empty());
        let first = || reported.into_iter().find(|it| clauses.contains(&it.clause));
        self.first = self.first.take().or_else(first);
    }
}

/// Whether a clause is on what a tag holds for a name.
fn of_names(clause: &Clause) -> bool {
    [Clause::Attribute, Clause::Value].contains(clause)
}

/// Of the questions those by which an alteration can be seen: of one in the finished view its own lookup, of one that shows in
/// the rows alone none, of one in what a tag holds the names, of any other all.
fn asked_of(alteration: Alteration, questions: Questions) -> Questions {
    let asking = match alteration {
        Alteration::InView(asking, _) => Some(asking),
        _ if shows_in(alteration) == [Clause::StaysRow] => None,
        _ if shows_in(alteration).iter().all(of_names) => {
            return Questions {
                classes: Vec::new(),
                selectors: Vec::new(),
                ..questions
            }
        }
        _ => return questions,
    };
    let mut questions = Questions {
        names: Vec::new(),
        tags: 0,
        ..questions
    };
    match asking {
        Some(Asking::Below) => {}
        Some(Asking::Query) => questions.below = 0,
        Some(Asking::Class) => {
            questions.selectors.clear();
            questions.in_view = true;
        }
        None => {
            questions.selectors.clear();
            questions.classes.clear();
        }
    }
    questions
}

/// Alters the beginnings' answers: every cut at which an answer was altered must be reported, in the right clause, and no
/// other cut. Of a page over its profile's limit nothing is compared.
fn altered_beginnings(seed: u64, alteration: Alteration, part: Part) -> bool {
    let mut seen = Seen::default();
    // few tags have a class, and little is asked of them
    let pages = match alteration {
        Alteration::InView(Asking::Class, _) => 8 * PAGES,
        _ => PAGES,
    };
    for number in 0..pages {
        let Case {
            profile,
            page,
            questions,
            mut random,
        } = case(seed, number, part);
        if page.len() > profile.limit() {
            continue;
        }
        let questions = asked_of(alteration, questions);
        let mut counts = Counts::default();
        let mut whole = Whole::new(&profile, &page, &questions, &Compiled, &mut counts);
        let reader = Altered::new(alteration);
        for n in 0..=page.len() {
            whole.cut(n, &reader, &mut random, &mut counts);
            let reported = std::mem::take(&mut whole.differences);
            seen.observe(alteration, reader.taken(), reported);
        }
    }
    let Seen {
        altered,
        missed,
        other,
        first,
    } = seen;
    let pass = altered > 0 && missed == 0 && other == 0;
    let word = if pass { "reported" } else { "NOT ALL REPORTED" };
    let name = part.name();
    println!("{alteration:?}, {name}: altered at {altered} cuts, {word}; missed {missed}, other cuts {other}");
    first.inspect(|first| println!("  {first}"));
    pass
}

/// Alters the whole pages' answers: every page that was altered must be reported under the clause on one page, and no other.
fn altered_whole(seed: u64, alteration: Alteration, clause: Clause, part: Part) -> bool {
    let (mut altered, mut missed) = (0, 0);
    for number in 0..PAGES {
        let case = case(seed, number, part);
        let reader = Altered::new(alteration);
        let counts = &mut Counts::default();
        let whole = Whole::new(&case.profile, &case.page, &case.questions, &reader, counts);
        let all = &whole.differences;
        let reported = all.iter().any(|d| d.clause == clause);
        let taken = reader.taken();
        altered += usize::from(taken);
        missed += usize::from(taken != reported);
    }
    let pass = altered > 0 && missed == 0;
    let word = if pass { "reported" } else { "NOT ALL REPORTED" };
    let name = part.name();
    println!("{alteration:?}, in the whole {name}: altered {altered}, {word}; missed {missed}");
    pass
}

/// Alters a finished row of the whole pages: every cut at which the beginning has it finished must be reported, and no other.
fn altered_row(seed: u64, alteration: Alteration, part: Part) -> bool {
    let (mut altered, mut missed) = (0, 0);
    for number in 0..PAGES {
        let mut case = case(seed, number, part);
        let reader = Altered::new(alteration);
        let counts = &mut Counts::default();
        let questions = asked_of(alteration, case.questions);
        let mut whole = Whole::new(&case.profile, &case.page, &questions, &reader, counts);
        let row = finished(&case.profile, &case.page).pop();
        for n in 0..=case.page.len() {
            whole.differences.clear();
            whole.cut(n, &Compiled, &mut case.random, counts);
            let mut all = whole.differences.iter();
            let reported = all.any(|d| d.clause == Clause::StaysRow);
            let beginning = finished(&case.profile, &case.page[..n]);
            let due = row.is_some_and(|row| beginning.contains(&row));
            altered += usize::from(due);
            missed += usize::from(due != reported);
        }
    }
    let pass = altered > 0 && missed == 0;
    let word = if pass { "reported" } else { "NOT ALL REPORTED" };
    let name = part.name();
    println!(
        "{alteration:?}, in the whole {name}: finished at {altered} cuts, {word}; missed {missed}"
    );
    pass
}

/// The finished tags of a page, unless it is over the limit.
fn finished(profile: &Profile, page: &[u8]) -> Vec<u32> {
    let Ok(dom) = tl_rattle::parse_with(profile, page) else {
        return Vec::new();
    };
    let rows = Rows(dom.table());
    let all = 0..rows.count();
    all.filter(|handle| rows.is_finished(*handle)).collect()
}

/// Lets beginnings through that are over their profile's limit: each must be reported, and no other.
fn limit_is_held(seed: u64) -> bool {
    let (mut pages, mut altered, mut missed) = (0, 0, 0);
    for number in 0..16 * PAGES {
        let mut case = case(seed, number, OTHERS);
        let (limit, length) = (case.profile.limit(), case.page.len());
        if length <= limit {
            continue;
        }
        let mut counts = Counts::default();
        let mut whole = Whole::new(
            &case.profile,
            &case.page,
            &case.questions,
            &Compiled,
            &mut counts,
        );
        for n in 0..=length {
            whole.cut(n, &AnyLength, &mut case.random, &mut counts);
            let reported = std::mem::take(&mut whole.differences);
            let right = reported.iter().all(|d| d.clause == Clause::Reading);
            missed += usize::from(!right || reported.is_empty() != (n <= limit));
        }
        pages += 1;
        altered += length - limit;
    }
    let pass = pages > 0 && missed == 0;
    let word = if pass { "reported" } else { "NOT ALL REPORTED" };
    println!("beginnings over the limit of {pages} pages read: {altered}, {word}; missed {missed}");
    pass
}

/// Where another word 8 must be reported, where it was not, and where something was that must not be.
#[derive(Default)]
struct Exchanged {
    due: usize,
    missed: usize,
    other: usize,
}

impl Exchanged {
    /// Compares at every cut. Every tag that is finished in the beginning is another one in the whole page.
    fn observe<R: Reader, B: Reader>(
        &mut self,
        case: &mut Case,
        (reader, beginnings): (&R, &B),
        counts: &mut Counts,
    ) {
        let mut whole = Whole::new(&case.profile, &case.page, &case.questions, reader, counts);
        for n in 0..=case.page.len() {
            let before = counts.view.finished_tags();
            whole.cut(n, beginnings, &mut case.random, counts);
            let due = counts.view.finished_tags() > before;
            let all = std::mem::take(&mut whole.differences);
            let reported = all.iter().any(|d| d.clause == Clause::StaysRow);
            let other = all.iter().any(|d| !GO_BY_WORD_8.contains(&d.clause));
            self.due += usize::from(due);
            self.missed += usize::from(due != reported);
            self.other += usize::from(other);
        }
    }
}

/// The clauses that compare the finished tags of two pages.
const GO_BY_WORD_8: [Clause; 5] = [
    Clause::StaysRow,
    Clause::StaysText,
    Clause::StaysClass,
    Clause::StaysQuery,
    Clause::StaysBelow,
];

/// Word 8 is left out of the other clauses on purpose: a cut may leave open what the whole page closes, and close what it
/// leaves open. Another word 8, in the beginnings or in the whole page, must be reported where the beginning has a finished
/// tag, in no clause but those on the finished tags of both, and be seen by the counts that stand apart.
fn word_8(seed: u64, part: Part) -> bool {
    let mut good = true;
    for whole in [false, true] {
        let mut counts = Counts::default();
        let mut seen = Exchanged::default();
        let altered = EndedExchanged::default();
        for number in 0..PAGES {
            let mut case = case(seed, number, part);
            if whole {
                seen.observe(&mut case, (&altered, &Compiled), &mut counts);
            } else {
                seen.observe(&mut case, (&Compiled, &altered), &mut counts);
            }
        }
        let tags = altered.exchanged.get();
        let Exchanged { due, missed, other } = seen;
        let contradicted = counts.ended.contradictions > 0;
        let pass = tags > 0 && due > 0 && missed == 0 && other == 0 && contradicted;
        good &= pass;
        let side = if whole { "whole" } else { "beginning of the" };
        let word = if pass {
            "reported"
        } else {
            "NOT AS IT MUST BE"
        };
        let name = part.name();
        println!(
            "word 8, {side} {name}: exchanged in {tags} tags, finished at {due} cuts, {word}; missed {missed}, \
             in other clauses {other}"
        );
        println!("  {}", counts.ended);
    }
    good
}

/// The smallest page on which it shows that the last tag is dropped.
fn smallest_tag(seed: u64) -> bool {
    let page = b"x <p id=a><b k=v>1</b></p><!--c--> y".to_vec();
    let mut random = Random::for_page(seed, 0);
    let dom = tl_rattle::parse(&page).expect("it is not too long");
    let questions = questions(&mut random, &dom, &SHORT);
    drop(dom);
    let case = Case {
        profile: Profile::TL,
        page,
        questions,
        random,
    };
    let reader = Altered::new(Alteration::LastTagDropped);
    let least = smallest(&case, &reader, Clause::Tags);
    let pass = least == b"<>";
    let word = if pass { "as it must be" } else { "NOT <>" };
    println!(
        "the smallest page with a tag: {}, {word}",
        least.escape_ascii()
    );
    pass
}

/// The ways in which the whole pages are altered, each with the clause that speaks of one page.
fn of_whole() -> Vec<(Alteration, Clause)> {
    let of_view = IN_VIEW
        .into_iter()
        .filter(|(_, how)| IN_WHOLE.contains(how));
    let of_view = of_view.map(|(asking, how)| {
        let alteration = Alteration::InView(asking, how);
        (alteration, shows_in(alteration)[0])
    });
    let last = [Alteration::LastTooLow, Alteration::LastTooHigh];
    let of_last = last.map(|alteration| (alteration, Clause::DescendantsWhole));
    of_last.into_iter().chain(of_view).collect()
}

/// Alters answers, one kind at a time: the beginnings', the whole pages', then word 8, which most clauses leave out.
pub fn self_test(seed: u64) -> bool {
    let mut good = true;
    let in_view = IN_VIEW.map(|(asking, how)| Alteration::InView(asking, how));
    let beginnings: Vec<Alteration> = ALTERATIONS.into_iter().chain(in_view).collect();
    let whole = of_whole();
    for part in [TLS, OTHERS] {
        let others = (part == OTHERS).then_some(BY_TLS);
        for &alteration in beginnings.iter().chain(others.iter().flatten()) {
            good &= altered_beginnings(seed, alteration, part);
        }
        for &(alteration, clause) in &whole {
            good &= altered_whole(seed, alteration, clause, part);
        }
        for alteration in OF_FINISHED {
            good &= altered_row(seed, alteration, part);
        }
        good &= word_8(seed, part);
    }
    good &= limit_is_held(seed);
    good &= smallest_tag(seed);
    let ways = beginnings.len() + whole.len() + OF_FINISHED.len();
    println!("altered in {ways} ways, by tl's profile and by others");
    println!("self-test {}", if good { "passed" } else { "FAILED" });
    good
}
