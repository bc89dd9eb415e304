//! The works `store`, `statuses` and `walk` of `pe_bench`, over std's maps and sets and without contracts, to measure
//! beside it: `rustc -O bench/beside.rs -o /tmp/beside`, then `python3 bench/instructions.py /tmp/beside store
//! statuses walk`. It says nothing of how often it did what it does.
use std::collections::{BTreeMap, BTreeSet, HashMap};

#[derive(Clone, PartialEq, Eq, Hash, PartialOrd, Ord)]
struct Tuple {
    scheme: u8,
    host: Vec<u8>,
    form: u8,
    port: u16,
}

#[derive(Clone, PartialEq, Eq, Hash, PartialOrd, Ord)]
#[allow(dead_code)]
enum Origin {
    Tuple(Tuple),
    Opaque(u32),
}

#[derive(Clone, PartialEq, Eq, Hash, PartialOrd, Ord)]
#[allow(dead_code)]
enum Key {
    One(Origin),
    Pair(Origin, Origin),
}

fn key(name: char, number: usize) -> Key {
    Key::One(Origin::Tuple(Tuple { scheme: 1, host: format!("{name}{number}.example").into_bytes(), form: 0, port: 443 }))
}

#[derive(Clone)]
struct Entry {
    feature: usize,
    key: Key,
    state: u8,
    end: Option<u64>,
}

/// Entries by feature and key, in the order of their serials, with an ordered set of the moments at which they end.
struct Store {
    serials: Vec<HashMap<Key, u64>>,
    rows: BTreeMap<(usize, u64), Entry>,
    ends: BTreeSet<(u64, usize, u64)>,
    next: u64,
}

impl Store {
    fn new() -> Store {
        Store { serials: (0..16).map(|_| HashMap::new()).collect(), rows: BTreeMap::new(), ends: BTreeSet::new(), next: 0 }
    }

    fn get(&self, feature: usize, key: &Key) -> Option<&Entry> {
        let serial = self.serials[feature].get(key)?;
        self.rows.get(&(feature, *serial))
    }

    fn set(&mut self, feature: usize, key: Key, state: u8, end: Option<u64>) {
        if let Some(serial) = self.serials[feature].get(&key) {
            let place = (feature, *serial);
            let row = self.rows.get_mut(&place).unwrap();
            if let Some(old) = row.end {
                self.ends.remove(&(old, place.0, place.1));
            }
            row.state = state;
            row.end = end;
            if let Some(new) = end {
                self.ends.insert((new, place.0, place.1));
            }
            return;
        }
        let place = (feature, self.next);
        self.next += 1;
        self.serials[feature].insert(key.clone(), place.1);
        self.rows.insert(place, Entry { feature, key, state, end });
        if let Some(end) = end {
            self.ends.insert((end, place.0, place.1));
        }
    }

    fn take_due(&mut self, upto: u64) -> Option<(u64, Entry)> {
        let first = *self.ends.first()?;
        if first.0 > upto {
            return None;
        }
        self.ends.remove(&first);
        let entry = self.rows.remove(&(first.1, first.2))?;
        self.serials[entry.feature].remove(&entry.key);
        Some((first.0, entry))
    }
}

fn store(work: &str, entries: usize, count: u64) {
    let keys: Vec<Key> = (0..entries).map(|n| key('n', n)).collect();
    let mut store = Store::new();
    for (moment, key) in keys.iter().enumerate() {
        store.set(2, key.clone(), 0, Some(moment as u64));
    }
    let mut random = 1u64;
    let mut place = || {
        random = random.wrapping_mul(6_364_136_223_846_793_005).wrapping_add(1_442_695_040_888_963_407);
        (random >> 33) as usize % entries
    };
    let mut done = 0u64;
    match work {
        "set" => (0..count).for_each(|moment| store.set(2, keys[place()].clone(), 0, Some(moment))),
        "find" => (0..count).for_each(|_| done += u64::from(store.get(2, &keys[place()]).is_some())),
        "lapse" => (0..count).for_each(|_| {
            if let Some((moment, entry)) = store.take_due(u64::MAX) {
                store.set(2, entry.key, 0, Some(moment + 65_536));
            }
        }),
        _ => (0..count).for_each(|_| {
            while store.take_due(u64::MAX).is_some() {
                done += 1;
            }
            keys.iter().for_each(|key| store.set(2, key.clone(), 0, Some(0)));
        }),
    }
    println!("{done}");
}

struct Status {
    page: u32,
    doc: u32,
    feature: usize,
    key: Key,
}

/// Statuses by number, and the numbers of each pair and of each document.
struct Statuses {
    live: BTreeMap<u32, Status>,
    pairs: Vec<HashMap<Key, BTreeSet<u32>>>,
    owned: BTreeSet<(u32, u32)>,
    pages: HashMap<u32, u32>,
    last: u32,
}

impl Statuses {
    fn query(&mut self, page: u32, feature: usize, key: Key) -> u32 {
        self.last += 1;
        *self.pages.entry(page).or_insert(0) += 1;
        self.pairs[feature].entry(key.clone()).or_default().insert(self.last);
        self.owned.insert((page + 1, self.last));
        self.live.insert(self.last, Status { page, doc: page + 1, feature, key });
        self.last
    }

    fn release(&mut self, number: u32) {
        let Some(status) = self.live.remove(&number) else { return };
        self.owned.remove(&(status.doc, number));
        *self.pages.get_mut(&status.page).unwrap() -= 1;
        let numbers = self.pairs[status.feature].get_mut(&status.key).unwrap();
        numbers.remove(&number);
        if numbers.is_empty() {
            self.pairs[status.feature].remove(&status.key);
        }
    }
}

fn filled(pairs: usize, size: u32) -> Statuses {
    let mut statuses =
        Statuses { live: BTreeMap::new(), pairs: (0..16).map(|_| HashMap::new()).collect(), owned: BTreeSet::new(), pages: HashMap::new(), last: 0 };
    for i in 0..size {
        statuses.query(i / 256, 2, key('n', i as usize % pairs));
    }
    statuses
}

fn main() {
    let words: Vec<String> = std::env::args().skip(1).collect();
    let number = |i: usize| words[i].parse::<u64>().unwrap();
    match words[0].as_str() {
        "store" => store(&words[1], number(2) as usize, number(3)),
        "statuses" => {
            let live = number(1) as u32;
            let mut statuses = filled(64, live);
            for i in 0..number(2) {
                let made = statuses.query(live / 256, 2, key('n', i as usize % 64));
                statuses.release(made);
            }
        }
        _ => {
            let (pairs, size) = (number(1) as usize, number(2) as u32);
            let statuses = filled(pairs, pairs as u32 * size);
            let mut walked = 0u64;
            for i in 0..number(3) * pairs as u64 {
                for n in &statuses.pairs[2][&key('n', i as usize % pairs)] {
                    walked += u64::from(statuses.live[n].doc != 0);
                }
            }
            println!("{walked}");
        }
    }
}
