//! Lets the tables of networks exchange their distances, each network a row, and prints what they say then.
//!
//! A block begins with `tables`. A row is the number of IMPs, the number of rounds, the distance to every IMP that each port has heard at first (`-` for
//! nothing), and the lines of the network, as `IMP-IMP`. Printed is for each IMP what
//! its table says then, as in `routes`. `check imp` compares all this with an independent model of the rules.

use crate::Layer;
use crate::route_calls::tell_table;
use crate::words::Words;
use interface::MOST_IMPS;
use routing::{RouteTable, Vector, settle};
use std::alloc::Global;

/// Networks, of which each row names one.
#[derive(Drop)]
pub struct Tables;

impl Layer for Tables {
    fn call(&mut self, alloc: Global, mut words: Words<'_>, answer: &mut String) -> Option<()> {
        let count = words.octet()?;
        let rounds = words.number()?;
        let heard = words.word()?.parse::<u8>().ok();
        let mut graph: Vec<(u8, u8)> = Vec::new(alloc);
        while let Some(word) = words.word() {
            let (a, b) = word.split_once('-')?;
            graph.push((a.parse::<u8>().ok()?, b.parse::<u8>().ok()?)).ok()?;
        }
        let mut tables = opened(alloc, count, &graph, heard)?;
        settle(alloc, &graph, &mut tables, rounds).ok()?;
        for table in tables.iter() {
            tell_table(alloc, answer, table)?;
            answer.push_str("\n").ok()?;
        }
        Some(())
    }
}

/// The tables of IMP 1 and so on, with as many ports as each has lines.
fn opened(alloc: Global, count: u8, graph: &[(u8, u8)], heard: Option<u8>) -> Option<Vec<RouteTable>> {
    let mut tables = Vec::new(alloc);
    for place in 0..count {
        let own = place + 1;
        let ports = graph.iter().filter(|line| line.0 == own || line.1 == own).count() as u8;
        let mut table = RouteTable::new(alloc, own, ports).ok()?;
        if let Some(distance) = heard {
            for port in 0..ports {
                table.hear(port, Vector::new([distance; MOST_IMPS]));
            }
        }
        tables.push(table).ok()?;
    }
    Some(tables)
}
