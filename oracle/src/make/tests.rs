//! What made days show: every answer that a record can have, and what each maker aims at.

use std::collections::{BTreeMap, BTreeSet};

use super::{image, largest, make, recipe, too_many_modes, KINDS};
use crate::image::{number, open, Table, LARGEST, LARGEST_ACCEPTED, MOST, SMALLEST};
use crate::plain::{Clock, Event, Mapped, Outcome, Plain, State};
use crate::records::{split, Op};
use crate::rng::Rng;

/// Seeds that are looked at, of days at the limits and bad images, and of the others.
const SEEDS: u64 = 200;
const FEWER: u64 = 60;

/// A record carried out by the plain machine.
struct Step<'s> {
    op: &'s Op,
    outcome: &'s Outcome,
    before: &'s State,
    after: &'s State,
}

impl Step<'_> {
    fn is_refused(&self, by: u8) -> bool {
        *self.outcome == Outcome::Refused(by)
    }

    fn is_accepted(&self) -> bool {
        *self.outcome == Outcome::Ok
    }

    /// What the record asks for.
    fn name(&self) -> &'static str {
        match self.op {
            Op::Plain { .. } => "plain",
            Op::Network { .. } => "network",
            Op::Control { .. } => "control",
            Op::Action { .. } => "action",
            Op::Transition { reset: true, .. } => "reset",
            Op::Transition { .. } => "history",
            Op::Pop => "pop",
            Op::Malformed => "malformed",
            Op::Broken => "broken",
        }
    }

    fn is_push(&self) -> bool {
        matches!(self.name(), "plain" | "network" | "control" | "action")
    }

    /// Scopes that a transition entered.
    fn entered(&self) -> impl Iterator<Item = usize> + '_ {
        let scopes = 0..self.before.active.len();
        scopes.filter(|&scope| !self.before.active[scope] && self.after.active[scope])
    }

    /// Whether an event waits in a scope that a transition entered and is held back to the entry's next step.
    fn holds_back(&self) -> bool {
        let entered: Vec<usize> = self.entered().collect();
        let mut events = self.before.events.iter();
        events.any(|event| {
            let in_entered = event.scope.is_some_and(|scope| entered.contains(&scope));
            in_entered && self.is_held(event)
        })
    }

    /// An event of a scope on the global scale, by the clock after the record, which a pop leaves as it was.
    fn mapped(&self, event: &Event) -> Option<Mapped> {
        let clock = self.after.clocks[event.scope?];
        clock.to_global(event.tag).ok()
    }

    fn is_held(&self, event: &Event) -> bool {
        self.mapped(event).is_some_and(|mapped| mapped.held)
    }

    /// Whether a scope's event comes out so many microsteps after G by itself, before any is held back.
    fn is_after_g(&self, event: &Event, steps: u64) -> bool {
        event.scope.is_some_and(|scope| {
            let clock = self.after.clocks[scope];
            let carried = Clock::carried(event.tag, clock.local, clock.global);
            let at = clock.global.later(steps);
            carried == (i128::from(at.offset), i128::from(at.microstep))
        })
    }

    fn is_at_g(&self, event: &Event) -> bool {
        self.is_after_g(event, 0)
    }

    fn is_next_step(&self, event: &Event) -> bool {
        self.is_after_g(event, 1)
    }

    /// What a pop took.
    fn taken(&self) -> Vec<&Event> {
        if self.name() != "pop" {
            return Vec::new();
        }
        let mut left = self.after.events.iter().peekable();
        let gone = self.before.events.iter();
        gone.filter(|event| left.next_if(|other| other == event).is_none())
            .collect()
    }

    fn takes(&self, which: impl Fn(&Event) -> bool) -> bool {
        self.taken().into_iter().any(which)
    }

    /// Whether a pop says held, and took such an event besides.
    fn takes_with_held(&self, other: impl Fn(&Event) -> bool) -> bool {
        self.says_held(true) && self.takes(|event| self.is_held(event)) && self.takes(other)
    }

    fn says_held(&self, held: bool) -> bool {
        matches!(self.outcome, Outcome::Popped(Some(ready)) if ready.held == held)
    }

    /// Whether a pop leaves such an event of its tag: its loop stops where a scope's head falls below it.
    fn leaves(&self, which: impl Fn(&Event) -> bool) -> bool {
        let Outcome::Popped(Some(ready)) = self.outcome else {
            return false;
        };
        self.after.events.iter().any(|event| {
            let active = event.scope.is_some_and(|scope| self.after.active[scope]);
            let due = self.mapped(event).map(|mapped| mapped.tag);
            active && due == Some(ready.tag()) && which(event)
        })
    }

    /// How many queues a pop took events out of.
    fn popped_queues(&self) -> usize {
        let queues = self.taken().into_iter().map(|event| event.scope);
        queues.collect::<BTreeSet<_>>().len()
    }
}

/// What must be shown, and whether a record shows it.
type Aim = (&'static str, fn(&Step<'_>) -> bool);

const AIMS: [Aim; 26] = [
    ("a push takes the last slot", |step| {
        step.is_push() && step.is_accepted() && step.after.events.len() == MOST
    }),
    ("history takes the last slot", |step| {
        let grown = step.before.events.len() < MOST && step.after.events.len() == MOST;
        step.name() == "history" && grown
    }),
    ("a reset takes the last slot", |step| {
        step.name() == "reset" && step.is_accepted() && step.after.events.len() == MOST
    }),
    ("8 where slots are left", |step| {
        step.is_refused(8) && step.before.events.len() < MOST
    }),
    ("all values held", |step| {
        step.before.store.values.len() < MOST && step.after.store.values.len() == MOST
    }),
    ("all buckets held", |step| {
        step.before.store.buckets.len() < MOST && step.after.store.buckets.len() == MOST
    }),
    ("9 before 8", |step| {
        step.is_refused(9) && step.before.events.len() == MOST
    }),
    ("7 before 8", |step| {
        step.is_refused(7) && step.before.events.len() == MOST
    }),
    ("7 where the store is full", |step| {
        let store = &step.before.store;
        step.is_refused(7) && (store.values.len() == MOST || store.buckets.len() == MOST)
    }),
    ("history moves values", |step| {
        step.name() == "history" && step.before.store.values != step.after.store.values
    }),
    ("a reset drops events", |step| {
        step.name() == "reset" && step.after.events.len() < step.before.events.len()
    }),
    ("a reset turns inner modes back", |step| {
        let modes = step.before.modes.iter().zip(&step.after.modes);
        step.name() == "reset" && modes.filter(|(before, after)| before != after).count() > 1
    }),
    ("an event is held back", |step| {
        step.name() == "history" && step.holds_back()
    }),
    ("a held event is ready, from before G", |step| {
        step.says_held(true) && step.takes(|event| step.is_held(event) && !step.is_at_g(event))
    }),
    ("a held event is ready, from G", |step| {
        step.says_held(true) && step.takes(|event| step.is_held(event) && step.is_at_g(event))
    }),
    ("an event at G is ready, and allowed", |step| {
        step.says_held(false) && step.takes(|event| step.is_at_g(event))
    }),
    ("G's next microstep by itself", |step| {
        step.says_held(false) && step.takes(|event| step.is_next_step(event))
    }),
    ("held together with G's next microstep by itself", |step| {
        step.takes_with_held(|event| step.is_next_step(event))
    }),
    (
        "held together with a scope's event at its own tag",
        |step| {
            let other = |event: &Event| event.scope.is_some() && !step.is_held(event);
            step.takes_with_held(|event| other(event) && !step.is_next_step(event))
        },
    ),
    ("held together with a root event", |step| {
        step.takes_with_held(|event| event.scope.is_none())
    }),
    ("held events of two scopes", |step| {
        let taken = step.taken().into_iter().filter(|event| step.is_held(event));
        let scopes: BTreeSet<_> = taken.map(|event| event.scope).collect();
        scopes.len() > 1
    }),
    ("a held event is left by a pop that took none", |step| {
        step.says_held(false) && step.leaves(|event| step.is_held(event))
    }),
    ("several scopes for the first time", |step| {
        let ever = step.before.ever.iter().zip(&step.after.ever);
        ever.filter(|(before, after)| before != after).count() > 1
    }),
    ("a pop of three queues", |step| {
        step.name() == "pop" && step.popped_queues() > 2
    }),
    ("a pop that stops early", |step| step.leaves(|_| true)),
    ("many events in scopes asleep", |step| {
        let asleep = |scope: usize| !step.after.active[scope];
        let events = step.after.events.iter();
        events
            .filter(|event| event.scope.is_some_and(asleep))
            .count()
            > 20
    }),
];

/// What was seen, and how often.
#[derive(Default)]
struct Seen {
    answers: BTreeMap<String, usize>,
    aims: BTreeMap<&'static str, usize>,
    /// Ready tags earlier than the one before.
    back: usize,
}

impl Seen {
    fn day(&mut self, day: &[u8]) {
        let (table, records) = match open(day) {
            Ok(opened) => opened,
            Err(refused) => return self.answer(format!("table {}", refused.number)),
        };
        let mut plain = Plain::new(&table);
        let mut last = None;
        for record in split(records) {
            let before = plain.state.clone();
            let outcome = plain.step(&record.op);
            let step = Step {
                op: &record.op,
                outcome: &outcome,
                before: &before,
                after: &plain.state,
            };
            self.step(&step);
            if let Outcome::Popped(Some(ready)) = &outcome {
                let tag = Some(ready.tag());
                self.back += usize::from(tag < last);
                last = tag;
            }
        }
    }

    fn answer(&mut self, answer: String) {
        *self.answers.entry(answer).or_default() += 1;
    }

    fn step(&mut self, step: &Step<'_>) {
        let answer = match step.outcome {
            Outcome::Refused(number) => number.to_string(),
            Outcome::Popped(None) => "nothing".to_string(),
            _ => "ok".to_string(),
        };
        self.answer(format!("{} {answer}", step.name()));
        for (name, shown) in AIMS {
            *self.aims.entry(name).or_default() += usize::from(shown(step));
        }
    }
}

/// Every answer that a record can have, by what it asks for; and every refusal of an image.
const ANSWERS: [(&str, &str); 10] = [
    ("plain", "ok 5 6 8"),
    ("network", "ok 5 6 8"),
    ("control", "ok 6 8"),
    ("action", "ok 5 6 7 8"),
    ("history", "ok 5 6 7 8 9 10"),
    ("reset", "ok 5 6 7 8 9 10"),
    ("pop", "ok nothing"),
    ("malformed", "1"),
    ("broken", "1"),
    ("table", "1 2 3 4"),
];

#[test]
fn made_days_show_every_answer_and_every_aim() {
    let mut seen = Seen::default();
    for kind in KINDS {
        let many = matches!(*kind, "edge" | "badimg");
        for seed in 0..if many { SEEDS } else { FEWER } {
            seen.day(&make(seed, kind).unwrap());
        }
    }
    let possible = ANSWERS.iter().flat_map(|(name, answers)| {
        let answers = answers.split(' ');
        answers.map(move |answer| format!("{name} {answer}"))
    });
    let possible: BTreeSet<String> = possible.collect();
    let answers: BTreeSet<String> = seen.answers.into_keys().collect();
    assert_eq!(answers, possible);
    for (name, count) in seen.aims {
        assert!(count > 0, "no record of made days shows \"{name}\"");
    }
    assert!(seen.back > 100, "ready tags seldom go back: {}", seen.back);
}

#[test]
fn the_machine_of_a_made_day_has_carried_out_its_bytes() {
    for seed in 0..40 {
        for kind in ["valid", "nested", "edge"] {
            let mut rng = Rng::named(seed, kind);
            let recipe = recipe(&mut rng, kind).unwrap();
            recipe.made(rng, |day| {
                let (table, records) = open(&day.bytes).unwrap();
                let mut plain = Plain::new(&table);
                for record in split(records) {
                    plain.step(&record.op);
                }
                assert!(plain.state == day.plain.state, "seed {seed} kind {kind}");
            });
        }
    }
}

#[test]
fn an_image_is_the_front_of_its_day_and_accepted() {
    for seed in 0..40 {
        for kind in ["valid", "nested", "edge", "badrec"] {
            let (image, day) = (image(seed, kind).unwrap(), make(seed, kind).unwrap());
            assert_eq!(number(&day[..4]) as usize + 4, image.len());
            assert_eq!(image, day[..image.len()]);
            assert!(open(&image).is_ok(), "seed {seed} kind {kind}");
        }
        assert_eq!(image(seed, "badimg"), None);
    }
    assert_eq!(make(0, "no such kind"), None);
}

#[test]
fn the_largest_images_and_the_smallest() {
    let (largest, too_large) = (largest().image(), too_many_modes().image());
    assert_eq!(
        (largest.len(), too_large.len()),
        (LARGEST_ACCEPTED, LARGEST)
    );
    assert!(open(&largest).is_ok() && open(&too_large).is_err());
    let smallest = Table::smallest().image();
    assert_eq!(smallest.len(), SMALLEST);
    assert!(open(&smallest).is_ok());
}
