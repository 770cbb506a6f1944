//! Patterns over printed lines, and how far lines have come in one. `./explore` reads a pattern and writes it here in a form with
//! one piece a line:
//!
//! - `sequel` begins parts that come one after another;
//! - `part WORDS` is a line that has to come, `bar WORDS` one that must not come before the next part, or after the last;
//! - `where A < B` compares two names or numbers;
//! - `calm N` asks for a last calm, of which `nothing`, `least K` and `none WORDS` say what it prints.
//!
//! In a part `_` is any word, `..` any words, and a single capital a name that is bound where it first occurs.

use crate::spelling::Spell;
use std::collections::BTreeSet;
use std::rc::Rc;

/// A word of a part.
#[derive(Clone)]
enum Word {
    Any,
    Name(u8),
    Is(Vec<u8>),
}

/// The names that are bound, in order.
type Names = Vec<(u8, Vec<u8>)>;

/// A line of a pattern: its words, whether any may follow, and after those, at the line's end, further ones.
struct Part {
    words: Vec<Word>,
    has_rest: bool,
    ending: Vec<Word>,
}

impl Part {
    /// Reads its words.
    fn read(text: &str) -> Part {
        let mut words = text.split(' ').filter(|it| !it.is_empty());
        let word = |it: &str| match it.as_bytes() {
            b"_" => Word::Any,
            [name @ b'A'..=b'Z'] => Word::Name(*name),
            octets => Word::Is(octets.to_vec()),
        };
        let before: Vec<Word> = words.by_ref().take_while(|it| *it != "..").map(word).collect();
        let has_rest = text.split(' ').any(|it| it == "..");
        Part { words: before, has_rest, ending: words.map(word).collect() }
    }

    /// The names with which a line's words are this line, if they are.
    fn matches(&self, line: &[&[u8]], names: &Names) -> Option<Names> {
        let count = self.words.len() + self.ending.len();
        if line.len() < count || (line.len() > count && !self.has_rest) {
            return None;
        }
        let ends = &line[line.len() - self.ending.len()..];
        let pairs = || self.words.iter().zip(line).chain(self.ending.iter().zip(ends));
        if pairs().any(|(wanted, word)| matches!(wanted, Word::Is(octets) if octets != word)) {
            return None;
        }
        let mut bound = names.clone();
        for (wanted, word) in pairs() {
            let Word::Name(name) = wanted else { continue };
            match bound.binary_search_by_key(name, |it| it.0) {
                Ok(at) if bound[at].1 == *word => (),
                Ok(_) => return None,
                Err(at) => bound.insert(at, (*name, word.to_vec())),
            }
        }
        Some(bound)
    }

    /// Whether its first word is this one.
    fn begins(&self, head: &[u8]) -> bool {
        matches!(self.words.first(), Some(Word::Is(octets)) if octets == head)
    }
}

/// Parts in their order, each with what must not come before it; and what must not come after the last.
#[derive(Default)]
struct Sequel {
    parts: Vec<(Vec<Part>, Part)>,
    never_after: Vec<Part>,
}

impl Sequel {
    /// What must not come where so many parts have come.
    fn barred(&self, at: usize) -> &[Part] {
        self.parts.get(at).map_or(&self.never_after, |it| &it.0)
    }

    /// Whether a line that begins with this word may change how far it has come.
    fn is_about(&self, head: &[u8]) -> bool {
        let mut parts = self.parts.iter().flat_map(|(bars, part)| bars.iter().chain([part])).chain(&self.never_after);
        parts.any(|it| it.begins(head))
    }
}

/// A comparison of two names or numbers.
struct Where(String, String, String);

/// What is wanted of a last calm.
#[derive(Default)]
pub struct LastCalm {
    pub rounds: u32,
    nothing: bool,
    least: usize,
    barred: Vec<Part>,
}

impl LastCalm {
    /// Whether its lines are as wanted.
    pub fn holds(&self, lines: &[u8]) -> bool {
        let mut lines = lines.split(|it| *it == b'\n').filter(|it| !it.is_empty());
        let is_barred = |line: &[u8]| {
            let words: Vec<&[u8]> = line.split(|it| *it == b' ').collect();
            self.barred.iter().any(|it| it.matches(&words, &Names::new()).is_some())
        };
        if self.nothing || self.barred.is_empty() {
            let count = lines.count();
            return count >= self.least && !(self.nothing && count > 0);
        }
        let mut count = 0;
        !lines.any(|line| {
            count += 1;
            is_barred(line)
        }) && count >= self.least
    }
}

/// A pattern.
#[derive(Default)]
pub struct Pattern {
    sequels: Vec<Sequel>,
    conditions: Vec<Where>,
    pub calm: LastCalm,
}

/// How far a pattern has come: for each of its sequels how many parts have come, with which names; and which packets have
/// arrived. Copies share both.
#[derive(Clone)]
pub struct Reached {
    states: Rc<Vec<Vec<(usize, Names)>>>,
    arrived: Rc<BTreeSet<Vec<u8>>>,
}

impl Pattern {
    /// Reads a pattern. There is none where a line is no piece of one.
    pub fn read(text: &str) -> Option<Pattern> {
        let mut pattern = Pattern::default();
        for line in text.lines().filter(|it| !it.is_empty()) {
            let (kind, rest) = line.split_once(' ').unwrap_or((line, ""));
            match kind {
                "sequel" => pattern.sequels.push(Sequel::default()),
                "bar" => pattern.sequels.last_mut()?.never_after.push(Part::read(rest)),
                "part" => {
                    let sequel = pattern.sequels.last_mut()?;
                    let bars = std::mem::take(&mut sequel.never_after);
                    sequel.parts.push((bars, Part::read(rest)));
                }
                "where" => {
                    let mut words = rest.split(' ').map(String::from);
                    pattern.conditions.push(Where(words.next()?, words.next()?, words.next()?));
                }
                "calm" => pattern.calm.rounds = rest.parse().ok()?,
                "nothing" => pattern.calm.nothing = true,
                "least" => pattern.calm.least = rest.parse().ok()?,
                "none" => pattern.calm.barred.push(Part::read(rest)),
                _ => return None,
            }
        }
        Some(pattern)
    }

    /// Whether a part begins with this word.
    pub fn is_about(&self, head: &str) -> bool {
        self.sequels.iter().any(|it| it.is_about(head.as_bytes()))
    }

    /// Whether it asks for nothing.
    pub fn is_empty(&self) -> bool {
        self.sequels.is_empty() && self.calm.rounds == 0
    }

    /// Where it begins.
    pub fn start(&self) -> Reached {
        Reached { states: Rc::new(vec![vec![(0, Names::new())]; self.sequels.len()]), arrived: Rc::default() }
    }

    /// Goes on by printed lines.
    pub fn advance(&self, reached: &mut Reached, lines: &[u8]) {
        for line in lines.split(|it| *it == b'\n').filter(|it| !it.is_empty()) {
            let head = line.split(|it| *it == b' ').next().unwrap_or_default();
            if head != b"arrives" && !self.sequels.iter().any(|it| it.is_about(head)) {
                continue;
            }
            let mut words: Vec<&[u8]> = line.split(|it| *it == b' ').collect();
            if head == b"arrives" {
                let packet = words.pop().unwrap_or_default();
                if !Rc::make_mut(&mut reached.arrived).insert(packet.to_vec()) {
                    continue;
                }
            }
            for (at, sequel) in self.sequels.iter().enumerate().filter(|it| it.1.is_about(head)) {
                let next = step(sequel, &reached.states[at], &words);
                if next != reached.states[at] {
                    Rc::make_mut(&mut reached.states)[at] = next;
                }
            }
        }
    }

    /// Whether it can't come to its end any more.
    pub fn is_lost(&self, reached: &Reached) -> bool {
        reached.states.iter().any(Vec::is_empty)
    }

    /// Whether it has come to its end, with names that fit together.
    pub fn is_met(&self, reached: &Reached) -> bool {
        let mut found = vec![Names::new()];
        for (sequel, states) in self.sequels.iter().zip(reached.states.iter()) {
            let ends = || states.iter().filter(|it| it.0 == sequel.parts.len());
            found = found.iter().flat_map(|one| ends().filter_map(|other| joined(one, &other.1))).collect();
        }
        found.iter().any(|names| self.conditions.iter().all(|it| it.holds(names)))
    }
}

impl Spell for Reached {
    fn spell(&self, to: &mut Vec<u8>) {
        for states in self.states.iter() {
            states.len().spell(to);
            for (at, names) in states {
                at.spell(to);
                names.spell(to);
            }
        }
        for packet in self.arrived.iter() {
            packet.spell(to);
        }
    }
}

/// How far a sequel has come after one more line.
fn step(sequel: &Sequel, states: &[(usize, Names)], words: &[&[u8]]) -> Vec<(usize, Names)> {
    let mut found = Vec::new();
    for (at, names) in states {
        if !sequel.barred(*at).iter().any(|it| it.matches(words, names).is_some()) {
            found.push((*at, names.clone()));
        }
        if let Some(bound) = sequel.parts.get(*at).and_then(|it| it.1.matches(words, names)) {
            found.push((at + 1, bound));
        }
    }
    found.sort_unstable();
    found.dedup();
    found
}

/// All names of two, if none is bound to two words.
fn joined(one: &Names, other: &Names) -> Option<Names> {
    let mut all = one.clone();
    for (name, word) in other {
        match all.binary_search_by_key(name, |it| it.0) {
            Ok(at) if all[at].1 == *word => (),
            Ok(_) => return None,
            Err(at) => all.insert(at, (*name, word.clone())),
        }
    }
    Some(all)
}

impl Where {
    /// Whether it holds of names.
    fn holds(&self, names: &Names) -> bool {
        let value = |word: &str| {
            let bound = names.iter().find(|it| word.as_bytes() == [it.0]);
            bound.map_or_else(|| word.to_string(), |it| String::from_utf8_lossy(&it.1).into_owned())
        };
        let (left, right) = (value(&self.0), value(&self.2));
        if self.1 == "!=" {
            return left != right;
        }
        let (Ok(left), Ok(right)) = (left.parse::<u64>(), right.parse::<u64>()) else { return false };
        match self.1.as_str() {
            "<" => left < right,
            ">" => left > right,
            "<=" => left <= right,
            _ => left == right,
        }
    }
}
