//! Whether the random profiles and pages are of every kind that they should be of.
use super::choose::{change, fine, spoil};
use super::*;

const TRIED: u64 = 3_000;

/// Random profiles that are not refused.
fn profiles() -> Vec<Profile> {
    let mut random = Random::new(1);
    let bytes = (0..TRIED).map(|_| fine(&mut random));
    bytes
        .map(|bytes| Profile::of(&bytes).expect(&shown(&bytes)))
        .collect()
}

fn inputs(kind: Kind) -> impl Iterator<Item = Under> {
    (0..TRIED).map(move |number| {
        let mut random = Random::for_input(1, kind as u64, number);
        input(kind, number, &mut random)
    })
}

/// Every way to be refused is one, whatever the profile was.
#[test]
fn spoilt_is_refused() {
    let mut random = Random::new(1);
    for number in 0..TRIED as usize {
        let mut profile = fine(&mut random);
        spoil(&mut profile, number, &mut random);
        assert!(Profile::of(&profile).is_none(), "{}", shown(&profile));
    }
}

/// Every place has every value once.
#[test]
fn every_change_once() {
    let mut seen: Vec<(usize, u8)> = (0..CHANGES).map(change).collect();
    seen.sort_unstable();
    let all = (0..CHANGES).map(|change| ((change / 256) as usize, (change % 256) as u8));
    assert!(seen.into_iter().eq(all));
}

#[test]
fn profiles_of_every_kind() {
    let twice = |profile: &Profile| {
        let mut names = profile.void_names.clone();
        names.sort_unstable();
        names.windows(2).any(|two| two[0] == two[1])
    };
    let kinds: [fn(&Profile) -> bool; 7] = [
        |profile| profile.white == b"\t",
        |profile| profile.white.is_empty(),
        |profile| profile.white.contains(&1),
        |profile| profile.white.len() > 1 && profile.white.iter().all(|b| *b == profile.white[0]),
        |profile| profile.void_names.is_empty(),
        |profile| profile.void_names == [b"x"],
        |profile| profile.void_names.len() == NAMES,
    ];
    let profiles = profiles();
    for (number, kind) in kinds.iter().enumerate() {
        assert!(profiles.iter().filter(|p| kind(p)).count() > 20, "{number}");
    }
    let long = |profile: &Profile| profile.void_names.iter().any(|n| n.len() == NAME_BYTES);
    assert!(profiles.iter().filter(|p| long(p)).count() > 20);
    assert!(profiles.iter().filter(|p| twice(p)).count() > 20);
}

#[test]
fn limits_of_every_kind() {
    let inputs: Vec<Under> = inputs(Kind::Profiles).collect();
    let limits = |of: fn(&Under) -> usize| {
        let at = |under: &&Under| limit_of(&under.profile) == of(under);
        inputs.iter().filter(at).count()
    };
    assert!(limits(|_| 1) > 20);
    assert!(limits(|_| PAGE_LIMIT) > 20);
    assert!(limits(|under| under.page.len()) > 20);
    assert!(limits(|under| under.page.len().saturating_sub(1)) > 20);
    assert!(limits(|under| under.page.len() + 1) > 20);
}

/// What a page's reading and its attributes are under some rules.
fn answers(page: &[u8], rows: &[model::Row], rules: &Profile) -> String {
    let asked = Asked::new(page, rows, rules);
    let tags = (0..rows.len()).filter(|&handle| rows[handle].is_tag());
    let held = |tag| {
        let names = asked
            .names(tag)
            .map(|name| (name, asked.value(tag, name, model::PAPER)));
        names.collect::<Vec<_>>()
    };
    let attributes: Vec<_> = tags.map(held).collect();
    let reading = model::read(page, rules);
    format!("{reading:?} {attributes:?} {}", page.len() <= rules.limit)
}

fn each_name(rules: &mut Profile, change: fn(&mut Vec<u8>)) {
    rules.void_names.iter_mut().for_each(change);
}

/// Each of these mistakes shows on some page of a short run.
#[test]
fn wrong_rules_show() {
    let mistakes: [fn(&mut Profile); 10] = [
        |rules| rules.white.push(0),
        |rules| rules.white.extend(b" \n"),
        |rules| rules.white.retain(|byte| *byte != 1),
        |rules| rules.white.truncate(3),
        |rules| rules.void_names.push(Vec::new()),
        |rules| rules.void_names.extend(tl_profile().void_names.clone()),
        |rules| rules.void_names.truncate(NAMES - 1),
        |rules| each_name(rules, |name| name.truncate(NAME_BYTES - 1)),
        |rules| each_name(rules, |name| name.make_ascii_lowercase()),
        |rules| rules.limit += 1,
    ];
    let inputs: Vec<Under> = inputs(Kind::Profiles).collect();
    for (number, mistake) in mistakes.iter().enumerate() {
        let shows = |under: &Under| {
            let right = rules(&under.profile);
            let mut wrong = right.clone();
            mistake(&mut wrong);
            let rows = model::read(&under.page, &right).rows;
            answers(&under.page, &rows, &right) != answers(&under.page, &rows, &wrong)
        };
        assert!(inputs.iter().any(shows), "{number}");
    }
}
