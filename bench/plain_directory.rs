//! The calls of the benchmark of a directory on hash maps of ordinary Rust, with the same text.
use std::collections::{BTreeSet, HashMap};
use std::net::Ipv4Addr;

const COOLDOWN: u128 = 1_000_000;

/// A key's record: its address, from when it may be dialed, and whether it is held.
struct Record {
    host: Ipv4Addr,
    next_dial: u128,
    is_held: bool,
}

struct Directory {
    records: HashMap<u64, Record>,
    counts: HashMap<Ipv4Addr, usize>,
    queue: BTreeSet<(u128, u64)>,
    blocks: HashMap<u64, u128>,
}

fn host(number: u64) -> Ipv4Addr {
    Ipv4Addr::from(number as u32)
}

impl Directory {
    fn tracking(keys: u64) -> Directory {
        let mut directory = Directory { records: HashMap::new(), counts: HashMap::new(), queue: BTreeSet::new(), blocks: HashMap::new() };
        for key in 1..=keys {
            directory.records.insert(key, Record { host: host(key), next_dial: 0, is_held: false });
            *directory.counts.entry(host(key)).or_insert(0) += 1;
            directory.queue.insert((0, key));
        }
        directory
    }

    fn overwrite(&mut self, key: u64, to: Ipv4Addr) -> bool {
        let Some(record) = self.records.get_mut(&key) else { return false };
        let from = std::mem::replace(&mut record.host, to);
        if let Some(count) = self.counts.get_mut(&from) {
            *count -= 1;
            if *count == 0 {
                self.counts.remove(&from);
            }
        }
        *self.counts.entry(to).or_insert(0) += 1;
        from != to
    }

    fn listenable_count(&self, at: Ipv4Addr, now: u128) -> usize {
        let blocked = self.blocks.iter().filter(|(key, end)| **end > now && self.records.get(key).is_some_and(|record| record.host == at)).count();
        self.counts.get(&at).copied().unwrap_or(0) - blocked
    }

    fn dial(&mut self, key: u64, now: u128, jitter: u128) {
        let Some(record) = self.records.get_mut(&key) else { return };
        self.queue.remove(&(record.next_dial, key));
        record.next_dial = now + COOLDOWN + jitter;
        record.is_held = true;
        self.queue.insert((record.next_dial, key));
    }

    fn release(&mut self, key: u64) {
        if let Some(record) = self.records.get_mut(&key) {
            record.is_held = false;
        }
    }

    fn is_free(&self, key: &u64, now: u128) -> bool {
        self.records.get(key).is_some_and(|record| !record.is_held) && self.blocks.get(key).is_none_or(|end| *end <= now)
    }

    fn dialable(&self, now: u128) -> (Vec<u64>, Option<u128>) {
        let mut peers: Vec<u64> = self.queue.range(..(now + 1, 0)).map(|entry| entry.1).filter(|key| self.is_free(key, now)).collect();
        peers.sort_unstable();
        let next = self.queue.range((now + 1, 0)..).find(|entry| self.is_free(&entry.1, now)).map(|entry| entry.0);
        let end = self.blocks.iter().filter(|(key, end)| **end > now && self.records.contains_key(key)).map(|entry| *entry.1).min();
        (peers, next.into_iter().chain(end).min())
    }
}

fn count_moved(keys: u64, rounds: u64) -> usize {
    let mut directory = Directory::tracking(keys);
    let mut sum = 0;
    for round in 0..rounds {
        let place = host(round + keys + 1);
        directory.overwrite(round % keys + 1, place);
        sum += directory.listenable_count(place, 1);
    }
    sum
}

fn list_due(keys: u64, rounds: u64) -> usize {
    let mut directory = Directory::tracking(keys);
    for key in 11..=keys {
        directory.dial(key, 0, u128::from(key));
        directory.release(key);
    }
    (0..rounds).map(|_| directory.dialable(1).0.len()).sum()
}

fn main() {
    let numbers: Vec<u64> = std::env::args().skip(1).map(|word| word.parse().expect("a number")).collect();
    let sum = if numbers[0] == 1 { list_due(numbers[1], numbers[2]) } else { count_moved(numbers[1], numbers[2]) };
    println!("{sum}");
}
