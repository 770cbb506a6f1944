//! The document of a topology. Of TOML it knows what topologies are written in: tables, and keys with numbers, words and texts.

use crate::names::{Host, MOST_IMPS};

/// Most lines at an IMP.
const MOST_LINES: usize = 5;
/// Most hosts at an IMP.
const MOST_HOSTS: u8 = 4;

/// A network: its carrier, whether its script sends and takes messages itself, its IMPs with their hosts, and its lines.
#[derive(Default)]
pub struct Topology {
    pub is_plain: bool,
    pub is_raw: bool,
    pub imps: Vec<(u8, u8)>,
    pub lines: Vec<(u8, u8)>,
}

/// A table of the document: the key that opens it, empty for the first one, and its keys with their values.
struct Table<'a> {
    name: &'a str,
    pairs: Vec<(&'a str, &'a str)>,
}

impl Table<'_> {
    /// The two numbers of a table that has these two keys and no others.
    fn two(&self, first: &str, second: &str) -> Option<(u8, u8)> {
        let number = |key| self.pairs.iter().find(|it| it.0 == key)?.1.parse().ok();
        if self.pairs.len() == 2 {
            Some((number(first)?, number(second)?))
        } else {
            None
        }
    }
}

impl Topology {
    /// Reads a document. There is none where it is no topology that can be replayed.
    pub fn read(document: &[u8]) -> Option<Topology> {
        let mut topology = Topology::default();
        for table in tables(std::str::from_utf8(document).ok()?)? {
            match table.name {
                "imp" => topology.imps.push(table.two("id", "hosts")?),
                "line" => topology.lines.push(table.two("a", "b")?),
                _ => topology.read_top(&table)?,
            }
        }
        topology.is_good().then_some(topology)
    }

    /// Reads the keys before the first table.
    fn read_top(&mut self, table: &Table) -> Option<()> {
        for pair in &table.pairs {
            match *pair {
                ("carrier", "\"plain\"") => self.is_plain = true,
                ("carrier", "\"subnet\"") => self.is_plain = false,
                ("raw", word) => self.is_raw = word.parse().ok()?,
                _ => return None,
            }
        }
        Some(())
    }

    /// Whether the numbers keep the rules.
    fn is_good(&self) -> bool {
        let count = |number: u8| self.imps.iter().filter(|it| it.0 == number).count();
        let joins = |a: u8, b: u8| self.lines.iter().filter(|it| **it == (a, b) || **it == (b, a)).count();
        let ends = |number: u8| self.lines.iter().filter(|it| it.0 == number || it.1 == number).count();
        !self.imps.is_empty()
            && self.imps.iter().all(|it| (1..=MOST_IMPS).contains(&it.0) && it.1 <= MOST_HOSTS && count(it.0) == 1)
            && self.imps.iter().all(|it| ends(it.0) <= MOST_LINES)
            && self.lines.iter().all(|it| it.0 != it.1 && count(it.0) == 1 && count(it.1) == 1 && joins(it.0, it.1) == 1)
    }

    /// All hosts, in their order.
    pub fn hosts(&self) -> Vec<Host> {
        let imps = self.imps.iter();
        let mut hosts: Vec<Host> = imps.flat_map(|&(imp, count)| (0..count).map(move |number| Host { imp, number })).collect();
        hosts.sort();
        hosts
    }
}

/// The tables of a document in their order, without comments. No key is twice in a table.
fn tables(document: &str) -> Option<Vec<Table<'_>>> {
    let mut tables = vec![Table { name: "", pairs: Vec::new() }];
    for line in document.split('\n') {
        let line = line.split('#').next()?.trim();
        if let Some(name) = line.strip_prefix("[[").and_then(|it| it.strip_suffix("]]")) {
            tables.push(Table { name: if matches!(name, "imp" | "line") { name } else { return None }, pairs: Vec::new() });
        } else if !line.is_empty() {
            let (key, value) = line.split_once('=')?;
            let (pairs, key) = (&mut tables.last_mut()?.pairs, key.trim());
            if pairs.iter().any(|it| it.0 == key) {
                return None;
            }
            pairs.push((key, value.trim()));
        }
    }
    Some(tables)
}
