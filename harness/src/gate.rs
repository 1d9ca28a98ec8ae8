//! A gate: a table, and the calls made so far.

use crate::{check_table, slices, state_after, Refused, State, TableRefused, Tag, LINE_ROOM};

/// How a mode is entered.
#[derive(Debug, Clone, Copy, PartialEq, Eq)]
pub enum Kind {
    /// Afresh: what waits under the target is dropped, its timers start again.
    Reset,
    /// As it was left.
    History,
}

/// What a pop gives.
#[derive(Debug, Clone, PartialEq, Eq)]
pub struct Ready {
    pub tag: Tag,
    pub terminal: bool,
    /// Whether some ordinary event was taken.
    pub work: bool,
    pub network: bool,
    /// Whether some event was moved to its scope's activation's next microstep, by the clock at the pop (02, C-20).
    pub held: bool,
    /// (level, reaction), ascending
    pub reactions: Vec<(u8, u16)>,
    /// In order of taking, each once.
    pub actions: Vec<u16>,
}

/// A manager in a gate. Its state is the day so far: the image and every record that was accepted, which can be saved and
/// run again (`./run-day`). A call runs the day with one record more, so it takes the longer, the longer the day is: right
/// for trying things out and for short days.
#[derive(Debug, Clone)]
pub struct Gate {
    day: Vec<u8>,
    /// Bytes that the lines of the day take.
    lines: usize,
}

impl Gate {
    /// A fresh manager over a table: the initial modes, and nothing waits or is held.
    pub fn new(image: &[u8]) -> Result<Self, TableRefused> {
        check_table(image)?;
        Ok(Self {
            day: image.to_vec(),
            lines: "table ok\n".len(),
        })
    }

    /// A plain event at a global tag.
    pub fn push_event(
        &mut self,
        tag: Tag,
        reactions: &[u16],
        terminal: bool,
    ) -> Result<(), Refused> {
        let operands = [bytes(tag), vec![u8::from(terminal)], keys(reactions)];
        self.call(1, &operands.concat())
    }

    /// A network event.
    pub fn push_network_event(&mut self, tag: Tag, reactions: &[u16]) -> Result<(), Refused> {
        self.call(2, &[bytes(tag), keys(reactions)].concat())
    }

    /// A control event.
    pub fn push_control_event(&mut self, tag: Tag) -> Result<(), Refused> {
        self.call(3, &bytes(tag))
    }

    /// An action's event: to its scope's queue if the action is logical, to the root's else.
    pub fn push_action_event(
        &mut self,
        action: u16,
        tag: Tag,
        reactions: &[u16],
        terminal: bool,
    ) -> Result<(), Refused> {
        let front = [action.to_be_bytes().to_vec(), bytes(tag)].concat();
        self.call(
            4,
            &[front, vec![u8::from(terminal)], keys(reactions)].concat(),
        )
    }

    /// Puts a reactor into a mode at a global tag.
    pub fn apply_transition(
        &mut self,
        reactor: u16,
        mode: u16,
        kind: Kind,
        tag: Tag,
    ) -> Result<(), Refused> {
        let kind = match kind {
            Kind::Reset => 0,
            Kind::History => 1,
        };
        let keys = [reactor.to_be_bytes(), mode.to_be_bytes()].concat();
        self.call(5, &[keys, vec![kind], bytes(tag)].concat())
    }

    /// Takes out all that is due next; none if nothing is.
    pub fn pop_next_event(&mut self) -> Option<Ready> {
        let line = self.line(6, &[]);
        if line == "nothing" {
            return None;
        }
        Some(ready(&line).unwrap_or_else(|| panic!("a pop was answered \"{line}\"")))
    }

    /// The tag of what is due next.
    pub fn peek_tag(&self) -> Option<Tag> {
        self.state().peek
    }

    /// Whether what is due next is control only.
    pub fn peek_is_control_only(&self) -> bool {
        self.state().control_only
    }

    /// All that the manager holds.
    pub fn state(&self) -> State {
        state_after(&self.day).expect("the image was accepted when the gate was made")
    }

    /// The day so far.
    pub fn day(&self) -> &[u8] {
        &self.day
    }

    fn call(&mut self, op: u8, operands: &[u8]) -> Result<(), Refused> {
        let line = self.line(op, operands);
        if line == "ok" {
            return Ok(());
        }
        let number = line
            .strip_prefix("refused ")
            .and_then(|number| number.parse().ok());
        Err(Refused(number.unwrap_or_else(|| {
            panic!("a call was answered \"{line}\"")
        })))
    }

    /// Runs the day with one record more, and answers its line. A record that is refused is left out again.
    fn line(&mut self, op: u8, operands: &[u8]) -> String {
        let before = self.day.len();
        self.day.extend((operands.len() as u32 + 2).to_be_bytes());
        self.day.extend([1, op]);
        self.day.extend(operands);
        let mut lines = vec![0; self.lines + LINE_ROOM];
        let length = slices::run_day(&self.day, &mut lines);
        let line = lines.get(self.lines..length).unwrap_or(&[]);
        let line = String::from_utf8_lossy(line).trim_end().to_string();
        if line.starts_with("refused") {
            self.day.truncate(before);
        } else {
            self.lines = length;
        }
        line
    }
}

fn bytes(tag: Tag) -> Vec<u8> {
    <[u8; slices::TAG_BYTES]>::from(tag).to_vec()
}

fn keys(reactions: &[u16]) -> Vec<u8> {
    let count = (reactions.len() as u16).to_be_bytes();
    let keys = reactions.iter().flat_map(|key| key.to_be_bytes());
    count.into_iter().chain(keys).collect()
}

/// Takes a pop's line apart.
fn ready(line: &str) -> Option<Ready> {
    let words: Vec<&str> = line.split(' ').collect();
    let ["ready", offset, microstep, "terminal", terminal, "work", work, "network", network, "held", held, "reactions", reactions, "actions", actions] =
        words[..]
    else {
        return None;
    };
    Some(Ready {
        tag: Tag::new(offset.parse().ok()?, microstep.parse().ok()?),
        terminal: terminal == "1",
        work: work == "1",
        network: network == "1",
        held: held == "1",
        reactions: listed(reactions, |item| {
            let (level, key) = item.split_once(':')?;
            Some((level.parse().ok()?, key.parse().ok()?))
        })?,
        actions: listed(actions, |item| item.parse().ok())?,
    })
}

/// The items of a list, "-" if it is empty.
fn listed<T>(list: &str, item: impl Fn(&str) -> Option<T>) -> Option<Vec<T>> {
    match list {
        "-" => Some(Vec::new()),
        list => list.split(',').map(item).collect(),
    }
}

#[cfg(test)]
mod tests {
    use super::*;
    use crate::{run_day, ImageRefused, Mapped, Table, NONE};

    /// A root with two modes, a reaction, and an action in the second mode.
    fn gate() -> Gate {
        let table = Table {
            scopes: vec![[NONE, 0, NONE], [0, 0, 0], [0, 0, 1]],
            reactors: vec![[0, 0]],
            modes: vec![[1, 0], [2, 0]],
            levels: vec![3],
            actions: vec![(2, true)],
            ..Table::default()
        };
        Gate::new(&table.image()).unwrap()
    }

    #[test]
    fn what_is_refused_leaves_the_day_as_it_was() {
        let mut gate = gate();
        gate.push_event(Tag::new(5, 0), &[0], true).unwrap();
        let before = gate.day().to_vec();
        assert_eq!(
            gate.push_event(Tag::new(5, 0), &[1], false),
            Err(Refused(5))
        );
        assert_eq!(
            gate.push_control_event(Tag::new(1 << 62, 0)),
            Err(Refused(6))
        );
        assert_eq!(
            gate.push_event(Tag::ZERO, &[0; 300], false),
            Err(Refused(1))
        );
        let reset = gate.apply_transition(0, 2, Kind::Reset, Tag::ZERO);
        assert_eq!(reset, Err(Refused(5)));
        assert_eq!(gate.day(), before);
        let ready = gate.pop_next_event().unwrap();
        assert_eq!((ready.tag, ready.terminal), (Tag::new(5, 0), true));
        assert_eq!((ready.work, ready.reactions), (false, vec![(3, 0)]));
    }

    #[test]
    fn the_state_is_that_of_the_calls() {
        let mut gate = gate();
        gate.apply_transition(0, 1, Kind::History, Tag::new(7, 0))
            .unwrap();
        gate.push_action_event(0, Tag::new(9, 4), &[0], false)
            .unwrap();
        gate.push_network_event(Tag::new(30, 0), &[]).unwrap();
        gate.push_control_event(Tag::new(8, 0)).unwrap();
        let state = gate.state();
        assert_eq!(
            (state.peek, state.control_only),
            (Some(Tag::new(8, 0)), true)
        );
        assert_eq!((state.work, state.modes[0]), (2, Some(1)));
        let action = &state.events[0];
        assert_eq!((action.queue, action.tag), (Some(2), Tag::new(2, 4)));
        assert_eq!(
            (action.action, action.reactions),
            (Some((0, Tag::new(9, 4))), 1)
        );
        assert!(state.events[1].network && state.events[2].control);
        assert!(!state.scopes[1].active && state.scopes[1].ever && state.scopes[2].active);
    }

    #[test]
    fn an_event_at_the_entry_is_held_back_and_one_a_step_later_is_not() {
        for (microstep, held) in [(0, true), (1, false)] {
            let mut gate = gate();
            gate.apply_transition(0, 1, Kind::History, Tag::new(7, 0))
                .unwrap();
            gate.push_action_event(0, Tag::new(7, microstep), &[0], false)
                .unwrap();
            let (clock, local) = {
                let state = gate.state();
                (state.scopes[2].clock, state.events[0].tag)
            };
            let tag = Tag::new(7, 1);
            assert_eq!(clock.local_to_global(local), Ok(Mapped { tag, held }));
            let ready = gate.pop_next_event().unwrap();
            assert_eq!((ready.tag, ready.held), (tag, held));
        }
    }

    #[test]
    fn a_long_day_has_all_its_lines() {
        let mut gate = gate();
        let pop = [0, 0, 0, 2, 1, 6];
        gate.day.extend(pop.repeat(5000));
        let lines = run_day(gate.day());
        assert_eq!(
            lines,
            ["table ok\n", &"nothing\n".repeat(5000)]
                .concat()
                .into_bytes()
        );
    }

    #[test]
    fn an_image_that_is_no_table_has_number_and_place() {
        let mut image = gate().day;
        image[4] = 2;
        let refused = Gate::new(&image).map(|_| ()).unwrap_err();
        assert_eq!((refused.number, refused.place), (2, 4));
        assert_eq!(run_day(&image), b"table refused 2 4\n");
        assert_eq!(state_after(&image), Err(ImageRefused(2)));
        assert_eq!(state_after(&image[..30]), Err(ImageRefused(1)));
    }
}
