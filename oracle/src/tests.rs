//! Small days in the text form of text.rs, and what must come out of them.

use crate::beside::check;
use crate::compare::{aside, compare, compare_counting, table, Outcome};
use crate::domain::Why;
use crate::judge::judge;
use crate::make::{make, KINDS};
use crate::text::{assemble, numbered_lines_of};
use crate::{antt, by_value, deep, image, laps, plain};

/// The day of a text.
fn day(text: &str) -> Vec<u8> {
    assemble(text).unwrap()
}

/// Table T2 of the readings.
const T2: &str = "scope - 0 -; scope 0 0 0; scope 0 0 1; reactor 0 0; mode 1 0; mode 2 0;";
/// Table TN of the readings.
const TN: &str = "scope - 0 -; scope 0 0 0; scope 1 1 -; scope 2 1 1; scope 2 1 2; reactor 0 0; \
    reactor 2 1; mode 1 0; mode 3 1; mode 4 1; action 4 1;";

/// The plain machine's answers, on which compare, judge and the states agree.
fn answers(day: &[u8]) -> Vec<String> {
    let answers = plain::answer(day);
    let whole = Ok(Outcome::Agree {
        records: answers.lines().count() - 1,
    });
    assert_eq!(compare(day, answers.as_bytes()), whole);
    assert_eq!(judge(day, answers.as_bytes()), whole);
    assert_eq!(deep::agree(day), Ok(()));
    answers.lines().map(str::to_string).collect()
}

#[test]
fn the_paper_s_example() {
    let day = day("scope - 0 -; reactor 0 -; reaction 0; plain 5 0 0 0; pop; pop");
    let expected = [
        "table ok",
        "ok",
        "ready 5 0 terminal 0 work 1 network 0 held 0 reactions 0:0 actions -",
        "nothing",
    ];
    assert_eq!(answers(&day), expected);
}

#[test]
fn a_pop_stops_where_the_least_scope_head_falls_below_its_tag() {
    let day = day(&format!(
        "{T2} scope 0 0 -; action 1 1; action 3 1; transition 0 1 history 40 9;
         act 0 40 7 0 -; act 0 40 9 0 -; transition 0 0 history 100 2; act 1 100 7 0 -; pop; pop; pop"
    ));
    let answers = answers(&day);
    let heads: Vec<&str> = answers[6..].iter().map(|line| &line[..11]).collect();
    assert_eq!(heads, ["ready 100 7", "ready 100 3", "ready 100 7"]);
}

/// The ready lines of a day over T2, with an action in its first mode and one in its second, up to their reactions.
fn ready_over_t2(records: &str) -> Vec<String> {
    let day = day(&format!("{T2} action 1 1; action 2 1; {records}"));
    let ready = answers(&day).into_iter();
    let front = |line: String| Some(line.split_once(" reactions ")?.0.to_string());
    ready.filter_map(front).collect()
}

#[test]
fn held_is_what_the_clock_moved_at_the_pop() {
    for (records, ready, held) in [
        ("act 1 100 2 0 -", "100 3", 1),
        ("act 1 100 3 0 -", "100 3", 0),
        ("act 1 100 3 0 -; act 1 100 2 0 -", "100 3", 1),
        ("act 1 100 3 0 -; plain 100 3 0 -", "100 3", 0),
        ("plain 100 3 0 -; act 1 100 2 0 -", "100 3", 1),
        ("plain 100 2 0 -", "100 2", 0),
        // Later than G when it was pushed, and earlier than the next G.
        (
            "act 1 150 0 0 -; transition 0 0 history 200 0; transition 0 1 history 300 0",
            "300 1",
            1,
        ),
    ] {
        // The second mode is entered with G = (100, 2) and L zero.
        let told = ready_over_t2(&format!("transition 0 1 history 100 2; {records}; pop"));
        let expected = format!("ready {ready} terminal 0 work 1 network 0 held {held}");
        assert_eq!(told, [expected], "{records}");
    }
    // The first is active from the beginning: G = L, and allowed.
    let told = ready_over_t2("act 0 0 0 0 -; pop");
    assert_eq!(told, ["ready 0 0 terminal 0 work 1 network 0 held 0"]);
}

#[test]
fn a_held_event_that_a_pop_leaves_is_not_told() {
    let day = day(
        "scope - 0 -; scope 0 0 0; scope 0 0 1; scope 0 1 2; scope 0 1 3; reactor 0 0; reactor 0 2;
         mode 1 0; mode 2 0; mode 3 1; mode 4 1; action 1 1; action 4 1; transition 0 1 history 40 9;
         act 0 40 7 0 -; act 0 40 9 0 -; transition 1 3 history 100 6; act 1 100 6 0 -;
         transition 0 0 history 100 2; pop; pop; pop",
    );
    let expected = [(7, 0, 0), (3, 1, 0), (7, 1, 1)].map(|(microstep, held, action)| {
        let front = format!("ready 100 {microstep} terminal 0 work 1 network 0");
        format!("{front} held {held} reactions - actions {action}")
    });
    assert_eq!(answers(&day)[7..], expected);
}

/// The plain machine's answers, and where the comparison with the Rust leaves off; judge and the states agree.
fn parted(day: &[u8]) -> (Vec<String>, Result<(Outcome, usize), String>) {
    let answers = plain::answer(day);
    assert!(matches!(
        judge(day, answers.as_bytes()),
        Ok(Outcome::Agree { .. })
    ));
    assert_eq!(deep::agree(day), Ok(()));
    let compared = compare_counting(day, answers.as_bytes());
    (answers.lines().map(str::to_string).collect(), compared)
}

fn apart_at(record: usize, left: usize, sevens: usize) -> Result<(Outcome, usize), String> {
    let why = Why::ResetScope(4);
    Ok((Outcome::LeftDomain { record, why, left }, sevens))
}

#[test]
fn a_reset_scope_that_goes_inactive_keeps_s_at_zero() {
    let (answers, compared) = parted(&day(&format!(
        "{TN} timer 0 5 0; transition 1 2 history 10 0; transition 0 0 reset 30 0;
         transition 1 2 history 50 0; pop"
    )));
    assert!(answers[4].starts_with("ready 55 0 "));
    assert_eq!(compared, apart_at(3, 2, 0));
}

#[test]
fn the_rust_is_compared_on_where_another_reset_makes_s_zero_there_too() {
    for again in [
        "transition 0 0 reset 40 0; transition 1 2 history 50 0",
        "transition 1 2 reset 50 0",
    ] {
        let day = day(&format!(
            "{TN} timer 0 5 0; transition 1 2 history 10 0; transition 0 0 reset 30 0; {again}; pop"
        ));
        assert!(answers(&day).last().unwrap().starts_with("ready 55 0 "));
    }
}

#[test]
fn an_s_that_is_zero_in_the_rust_as_well_is_not_apart() {
    let day = day(&format!(
        "{TN} timer 0 5 0; transition 1 2 history 30 0; transition 0 0 reset 30 0;
         transition 1 2 history 50 0; pop"
    ));
    assert!(answers(&day)[4].starts_with("ready 55 0 "));
}

#[test]
fn a_seven_that_is_no_longer_given_is_told_apart_and_judged() {
    let text = |rest: &str| {
        day(&format!(
            "{TN} transition 1 2 history 10 0; transition 0 0 reset 5 0; {rest} pop"
        ))
    };
    let (answers, compared) = parted(&text(""));
    assert_eq!(answers[2], "ok");
    assert_eq!(compared, Ok((Outcome::Agree { records: 3 }, 1)));
    let (_, compared) = parted(&text("transition 1 2 history 20 0;"));
    assert_eq!(compared, apart_at(3, 2, 1));
    let as_before = "table ok\nok\nrefused 7\nnothing\n";
    match judge(&text(""), as_before.as_bytes()) {
        Ok(Outcome::Differ(words)) => assert!(words.starts_with("record 2 "), "{words}"),
        other => panic!("{other:?}"),
    }
}

#[test]
fn the_rust_s_answers_after_c_14_parts_the_two_are_not_ours() {
    let day = day(&format!(
        "{TN} timer 0 5 0; transition 1 2 history 10 0; transition 0 0 reset 30 0;
         transition 1 2 history 50 0; pop"
    ));
    let rust = plain::answer(&day).replace("ready 55 0", "ready 50 1");
    let words = check(&day, Ok(rust.into_bytes())).unwrap_err();
    assert!(words.starts_with("01: record 4 "), "{words}");
}

/// A timer's event and a push stand at one stored tag, with unlike local tags.
fn two_moves(last: &str) -> Vec<u8> {
    day(&format!(
        "{T2} action 2 1; {last} transition 0 0 history 10 7; transition 0 1 history 30 0;
         act 0 30 3 0 -; transition 0 0 history 30 1; transition 0 1 history 50 0; pop"
    ))
}

#[test]
fn moves_of_one_value_to_unlike_tags_leave_the_domain() {
    let day = two_moves("timer 0 0 3; transition 0 1 reset 10 0;");
    let answers = plain::answer(&day);
    match compare(&day, answers.as_bytes()) {
        Ok(Outcome::LeftDomain { record: 6, why, .. }) => assert!(matches!(why, Why::Moves(0, _))),
        other => panic!("{other:?}"),
    }
}

#[test]
fn moves_without_a_value_stay_in_the_domain() {
    let day = two_moves("transition 0 1 reset 10 0; act 0 10 3 0 -;");
    assert_eq!(answers(&day).len(), 9);
}

#[test]
fn a_transition_at_the_microstep_limit_leaves_the_domain() {
    let day = day(&format!("{T2} transition 0 1 history 5 4294967295"));
    let outcome = compare(&day, plain::answer(&day).as_bytes());
    assert!(matches!(outcome, Ok(Outcome::LeftDomain { record: 1, .. })));
}

#[test]
fn a_value_at_a_great_microstep_is_given_up_and_pops_go_on() {
    let day = day(&format!(
        "{T2} action 2 1; timer 0 0 4000000000; transition 0 1 reset 10 0; pop"
    ));
    assert!(answers(&day)[2].starts_with("ready 10 4000000000 "));
    let mut states = Vec::new();
    deep::print_rust(&day, None, &mut states).unwrap();
    let states = String::from_utf8(states).unwrap();
    assert!(states.lines().nth(1).unwrap().contains(" values 0:? "));
}

#[test]
fn a_push_is_refused_for_its_image_only_in_an_active_scope() {
    // G is (100, 2^32 - 2) and L zero, so the local tag (0, 2^32 - 3) has an image far beyond the limit.
    let day = day(&format!(
        "{T2} action 2 1; transition 0 1 history 100 4294967294; act 0 100 4294967293 0 -;
         transition 0 0 history 100 4294967294; act 0 100 4294967293 0 -; pop"
    ));
    let expected = ["table ok", "ok", "refused 7", "ok", "ok", "nothing"];
    assert_eq!(answers(&day), expected);
}

#[test]
fn a_text_is_told_apart_from_words() {
    let day = day("scope - 0 -; reactor 0 - # a comment; not a row\nrepeat 2 raw 0000000106; pop");
    assert_eq!(
        answers(&day),
        ["table ok", "refused 1", "refused 1", "nothing"]
    );
    for wrong in [
        "scope 0 0",
        "plain 5 0 0",
        "pop 1",
        "action 0 256",
        "repeat x pop",
        "stop",
    ] {
        assert_eq!(assemble(wrong), Err(format!("what is \"{wrong}\"?")));
    }
}

#[test]
fn every_day_has_a_text_that_gives_its_bytes_again() {
    let again = |day: &[u8], name: &str| {
        let text = numbered_lines_of(day).join("\n");
        assert!(assemble(&text).as_deref() == Ok(day), "{name}");
    };
    let mut recorded = 0;
    for entry in std::fs::read_dir("../days").unwrap() {
        let path = entry.unwrap().path();
        if path.extension().is_some_and(|end| end == "day") {
            again(&std::fs::read(&path).unwrap(), &path.display().to_string());
            recorded += 1;
        }
    }
    assert!(recorded > 40);
    for seed in 0..1000 {
        let kind = KINDS[seed as usize % KINDS.len()];
        let day = make(seed, kind).unwrap();
        again(&day, &format!("{seed} {kind}"));
        // cut anywhere, and with a byte put over another
        let at = seed as usize * 7919 % day.len().max(1);
        again(&day[..at], &format!("{seed} {kind} cut at {at}"));
        let mut hurt = day;
        if let Some(byte) = hurt.get_mut(at) {
            *byte = seed as u8;
        }
        again(&hurt, &format!("{seed} {kind} hurt at {at}"));
    }
    again(b"", "nothing");
    again(b"no day at all", "words");
}

#[test]
fn answers_stand_aside_with_the_first_difference_first() {
    let day = day(&format!("{T2} plain 5 0 0 -; pop; pop"));
    let answers = plain::answer(&day);
    let (rows, outcome) = aside(&day, answers.as_bytes()).unwrap();
    assert_eq!(outcome, Outcome::Agree { records: 3 });
    assert!(table(&rows, &outcome).starts_with("the same, over 3 records\n"));
    assert!(!table(&rows, &outcome).contains("\n!"));
    let wrong = answers.replace("ready 5", "ready 6");
    let (rows, outcome) = aside(&day, wrong.as_bytes()).unwrap();
    let shown = table(&rows, &outcome);
    assert!(shown.starts_with("they differ first at record 2 (pop)"));
    assert_eq!(shown.matches("\n! 2  pop").count(), 1);
}

#[test]
fn only_calls_that_the_rust_agrees_on_become_theorems() {
    let theorems = |text: &str| antt::file(&[("a.txt".to_string(), text.as_bytes().to_vec())]);
    let written = theorems(&format!("# shown\n{T2} pop")).unwrap();
    assert!(written.contains("-- shown\nabbrev pub a_image : Image"));
    assert!(written.contains("replies =\n          nothing ∷\n          [];"));
    let outside = theorems(&format!("{T2} transition 0 1 history 5 4294967295"));
    assert!(outside.unwrap_err().contains("leaves the domain"));
    assert!(theorems(&format!("{T2} raw 00000000"))
        .unwrap_err()
        .contains("is no call"));
    assert!(theorems("pop").unwrap_err().contains("table refused"));
}

/// What the writer answers to the counts and rows of T2, each changed as said, into a buffer of so many bytes; number and
/// place, or 0 and how many bytes. The buffer is seen to be the image in front of what it was, or all of what it was.
fn written(change: impl Fn(&mut Vec<u8>, &mut Vec<u8>), room: usize) -> (u8, usize) {
    let image = day(T2);
    let (mut counts, mut rows) = (image[5..23].to_vec(), image[23..].to_vec());
    change(&mut counts, &mut rows);
    let mut buffer = vec![0xa5; room];
    let answer = image::write(&counts, &rows, &mut buffer);
    let length = answer.unwrap_or(0);
    assert_eq!(buffer[..length], image[..length]);
    assert!(buffer[length..].iter().all(|&byte| byte == 0xa5));
    answer.map_or_else(
        |refused| (refused.number, refused.place),
        |length| (0, length),
    )
}

#[test]
fn the_writer_gives_the_image_or_the_first_refusal_in_order() {
    // Three scopes, one reactor, two modes: 23 + 18 + 4 + 8 bytes.
    assert_eq!(written(|_, _| (), 53), (0, 53));
    assert_eq!(written(|_, _| (), 99), (0, 53));
    assert_eq!(written(|_, _| (), 52), (1, 0));
    assert_eq!(written(|counts, _| counts.truncate(17), 99), (1, 0));
    assert_eq!(written(|_, rows| rows.truncate(29), 99), (1, 0));
    assert_eq!(written(|_, rows| rows.push(0), 99), (1, 0));
    // No scope; 17 reactors; 65 timers, and no rows for them.
    assert_eq!(written(|counts, _| counts[1] = 0, 99), (3, 5));
    assert_eq!(written(|counts, _| counts[3] = 17, 0), (3, 7));
    assert_eq!(written(|counts, _| counts[17] = 65, 99), (3, 21));
    // The second scope's reactor; the reactor's root scope, for which the second scope answers, as its mode is not under it;
    // the initial mode; the second mode's scope, for which the third scope answers, as it names that mode.
    assert_eq!(written(|_, rows| rows[9] = 1, 0), (4, 29));
    assert_eq!(written(|_, rows| rows[19] = 9, 0), (4, 29));
    assert_eq!(written(|_, rows| rows[21] = 9, 0), (4, 41));
    assert_eq!(written(|_, rows| rows[27] = 0, 0), (4, 35));
}

#[test]
fn the_stored_laps_are_those_of_the_rust_and_of_the_plain_machine() {
    let stored = |name| {
        let folder = env!("CARGO_MANIFEST_DIR");
        std::fs::read(format!("{folder}/../crates/{name}")).unwrap()
    };
    let walks = laps::answer(&stored("walk_laps/stdin"));
    assert_eq!(stored("walk_laps/stdout"), walks);
    let calls = by_value::answer(&stored("manager_laps/stdin"));
    assert_eq!(stored("manager_laps/stdout"), calls.unwrap());
}
