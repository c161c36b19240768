//! The library against the ordinary implementation, on random lists and streams, good and damaged.
//!
//! A run puts 400,000 requests in a release build and 12,000 otherwise; `COMPARE_REQUESTS` and
//! `COMPARE_SEED` ask for others. The same seed puts the same requests. What fails is told by its
//! request line, which the batch program takes.

#![forbid(unsafe_code)]

use std::collections::BTreeMap;
use std::sync::atomic::{AtomicUsize, Ordering};
use std::sync::Mutex;

use compare::check::Comparison;
use compare::damage::{
    damaged_fields, damaged_list, damaged_stream, dropped_kind, faulty_list, faulty_stream,
    random_stream, EqualAttribute, ListFault, StreamFault,
};
use compare::encode::{encode, Encoded, Form};
use compare::event::{Event, Stored};
use compare::generate::{self, Profile};
use compare::lent::{
    ReadReply, ReaderSizes, Settings, WriteReply, WriterSizes, HEADER, LIMIT, LONG, ROOM, SETTINGS,
    SHAPE,
};
use compare::prng::Prng;
use compare::protocol::Request;
use compare::sizes::{
    MAX_EVENTS, MAX_GRAMMARS, MAX_LEARNED, MAX_NAMES, MAX_OPEN, MAX_STORE, MAX_STREAM, MAX_STRING,
    MAX_URIS, MAX_VALUES,
};

const PARTS: usize = 8;

/// How often each thing occurred.
#[derive(Default)]
struct Seen {
    requests: usize,
    reads: BTreeMap<u32, usize>,
    writes: BTreeMap<u32, usize>,
    /// Numbers answered to streams damaged at random.
    damaged_streams: BTreeMap<u32, usize>,
    damaged_lists: BTreeMap<u32, usize>,
    forms: BTreeMap<Form, usize>,
    stream_faults: BTreeMap<StreamFault, usize>,
    list_faults: BTreeMap<ListFault, usize>,
    /// Faults in the event of an equal attribute.
    stream_pairs: BTreeMap<StreamFault, usize>,
    list_pairs: BTreeMap<ListFault, usize>,
    profiles: BTreeMap<(Profile, u32), usize>,
}

fn count<K: Ord>(map: &mut BTreeMap<K, usize>, key: K) {
    *map.entry(key).or_default() += 1;
}

fn join<K: Ord>(map: &mut BTreeMap<K, usize>, other: BTreeMap<K, usize>) {
    for (key, times) in other {
        *map.entry(key).or_default() += times;
    }
}

impl Seen {
    fn join(&mut self, other: Seen) {
        self.requests += other.requests;
        join(&mut self.reads, other.reads);
        join(&mut self.writes, other.writes);
        join(&mut self.damaged_streams, other.damaged_streams);
        join(&mut self.damaged_lists, other.damaged_lists);
        join(&mut self.forms, other.forms);
        join(&mut self.stream_faults, other.stream_faults);
        join(&mut self.list_faults, other.list_faults);
        join(&mut self.stream_pairs, other.stream_pairs);
        join(&mut self.list_pairs, other.list_pairs);
        join(&mut self.profiles, other.profiles);
    }
}

struct Run {
    rng: Prng,
    both: Comparison,
    seen: Seen,
    /// The stream of the round before.
    before: Vec<u8>,
    part: usize,
    rounds: usize,
}

type Checked = Result<(), String>;

impl Run {
    fn new(seed: u64, part: usize) -> Run {
        Run {
            rng: Prng::new(seed.wrapping_mul(PARTS as u64) + part as u64),
            both: Comparison::new(),
            seen: Seen::default(),
            before: vec![0x80],
            part,
            rounds: 0,
        }
    }

    fn read(&mut self, settings: Settings, stream: &[u8]) -> Result<ReadReply, String> {
        let reply = self.both.read_and_back(settings, stream)?;
        count(&mut self.seen.reads, reply.number);
        Ok(reply)
    }

    fn write(&mut self, settings: Settings, list: &Stored) -> Result<WriteReply, String> {
        let reply = self.both.write_and_back(settings, list)?;
        count(&mut self.seen.writes, reply.number);
        Ok(reply)
    }

    fn read_has(&mut self, settings: Settings, stream: &[u8], answer: (u32, u32)) -> Checked {
        let reply = self.read(settings, stream)?;
        let got = (reply.number, reply.index);
        if got == answer {
            return Ok(());
        }
        let request = Request::read(settings, stream);
        Err(format!("{request}\nanswered {got:?} and not {answer:?}"))
    }

    fn write_has(&mut self, settings: Settings, list: &Stored, answer: (u32, u32)) -> Checked {
        let reply = self.write(settings, list)?;
        let got = (reply.number, reply.index);
        if got == answer {
            return Ok(());
        }
        let request = Request::write(settings, list);
        Err(format!("{request}\nanswered {got:?} and not {answer:?}"))
    }

    fn round(&mut self) -> Checked {
        let settings = generate::settings(&mut self.rng);
        self.rounds += 1;
        let profile = if self.rounds % 20 == 19 {
            let turn = self.part + PARTS * (self.rounds / 20);
            Profile::NEAR_A_SIZE[turn % Profile::NEAR_A_SIZE.len()]
        } else {
            Profile::Small
        };
        let events = generate::list(&mut self.rng, settings, profile);
        let strict = encode(settings, &events);
        let octets = strict.octets();
        let list = if self.rng.one_in(3) {
            Stored::plain(&events)
        } else {
            Stored::scattered(&events, &mut self.rng)
        };
        let number = self.good(settings, &events, &strict, &octets, &list)?;
        count(&mut self.seen.profiles, (profile, number));
        if profile == Profile::Small {
            if number != 0 {
                return Err(format!("a small list refused: {number}"));
            }
            self.faulty(settings, &events, &strict, &list)?;
        }
        if number == 0 && (profile != Profile::Small || self.rng.one_in(2)) {
            self.equal(settings, &events, profile)?;
        }
        self.damaged(settings, &strict, &octets, &list)?;
        if self.rng.one_in(4) {
            self.misused(settings, &octets, &list)?;
        }
        self.before = octets;
        Ok(())
    }

    /// A well-formed list and its strict form: accepted exactly if they pass no size.
    fn good(
        &mut self,
        settings: Settings,
        events: &[Event],
        strict: &Encoded,
        octets: &[u8],
        list: &Stored,
    ) -> Result<u32, String> {
        let inside = inside_the_limits(events, strict);
        let long = octets.len() > MAX_STREAM;
        let failed = |what: &str| {
            let request = Request::write(settings, list);
            Err(format!("{request}\n{what}"))
        };
        let reply = self.write(settings, list)?;
        let number = if !inside {
            LIMIT
        } else if long {
            LONG
        } else {
            0
        };
        if reply.number != number {
            return failed(&format!("{reply:?} and not {number}"));
        }
        if number == 0 && self.both.octets_written(&reply) != Some(octets) {
            return failed("not the strict form");
        }
        let answer = if long {
            (LONG, 0)
        } else {
            (reply.number, reply.index)
        };
        self.read_has(settings, octets, answer)?;
        if number == 0 {
            for form in &strict.forms {
                count(&mut self.seen.forms, *form);
            }
        }
        Ok(number)
    }

    /// Faults whose answer is known.
    fn faulty(
        &mut self,
        settings: Settings,
        events: &[Event],
        strict: &Encoded,
        list: &Stored,
    ) -> Checked {
        for _ in 0..4 {
            if let Some(faulty) = faulty_stream(&mut self.rng, strict, events, None) {
                let answer = (faulty.number, faulty.index);
                self.read_has(settings, &faulty.octets, answer)
                    .map_err(|error| format!("{:?}: {error}", faulty.fault))?;
                count(&mut self.seen.stream_faults, faulty.fault);
            }
            if let Some(faulty) = faulty_list(&mut self.rng, settings, list, None) {
                let answer = (faulty.number, faulty.index);
                self.write_has(settings, &faulty.list, answer)
                    .map_err(|error| format!("{:?}: {error}", faulty.fault))?;
                count(&mut self.seen.list_faults, faulty.fault);
            }
        }
        if let Some((index, is_comment)) = dropped_kind(list) {
            let mut dropping = settings;
            if is_comment {
                dropping.comments = 0;
            } else {
                dropping.instructions = 0;
            }
            self.write_has(dropping, list, (SHAPE, index as u32))?;
            count(&mut self.seen.list_faults, ListFault::DroppedKind);
        }
        Ok(())
    }

    /// An attribute twice in a start tag of a list that is accepted, by itself and, in small lists,
    /// with faults whose answer is known. Other lists may have no room for a new value.
    fn equal(&mut self, settings: Settings, events: &[Event], profile: Profile) -> Checked {
        let is_small = profile == Profile::Small;
        let Some(equal) = EqualAttribute::new(&mut self.rng, events, is_small) else {
            return Ok(());
        };
        let answer = (SHAPE, equal.index as u32);
        let list = Stored::scattered(&equal.events, &mut self.rng);
        self.write_has(settings, &list, answer)?;
        count(&mut self.seen.list_faults, ListFault::EqualAttribute);
        for by_any in [false, true] {
            let stream = equal.stream(settings, by_any);
            let octets = stream.octets();
            if octets.len() > MAX_STREAM {
                self.read_has(settings, &octets, (LONG, 0))?;
                continue;
            }
            self.read_has(settings, &octets, answer)?;
            count(&mut self.seen.stream_faults, StreamFault::EqualAttribute);
            if is_small {
                self.equal_and_faulty(settings, &equal, &stream, &list)?;
            }
        }
        Ok(())
    }

    fn equal_and_faulty(
        &mut self,
        settings: Settings,
        equal: &EqualAttribute,
        stream: &Encoded,
        list: &Stored,
    ) -> Checked {
        let index = Some(equal.index);
        for _ in 0..3 {
            if let Some(faulty) = faulty_stream(&mut self.rng, stream, &equal.events, index) {
                let answer = (faulty.number, faulty.index);
                self.read_has(settings, &faulty.octets, answer)
                    .map_err(|error| format!("{:?}, equal {index:?}: {error}", faulty.fault))?;
                if faulty.is_pair {
                    count(&mut self.seen.stream_pairs, faulty.fault);
                }
            }
            if let Some(faulty) = faulty_list(&mut self.rng, settings, list, index) {
                let answer = (faulty.number, faulty.index);
                self.write_has(settings, &faulty.list, answer)
                    .map_err(|error| format!("{:?}, equal {index:?}: {error}", faulty.fault))?;
                if faulty.is_pair {
                    count(&mut self.seen.list_pairs, faulty.fault);
                }
            }
        }
        Ok(())
    }

    /// Damage at random: both give the same answer, and what is accepted goes round.
    fn damaged(
        &mut self,
        settings: Settings,
        strict: &Encoded,
        octets: &[u8],
        list: &Stored,
    ) -> Checked {
        for k in 0..7 {
            let stream = match k {
                0 => random_stream(&mut self.rng, strict),
                1..=3 => damaged_fields(&mut self.rng, strict),
                _ => damaged_stream(&mut self.rng, octets, &self.before),
            };
            let reply = self.read(settings, &stream)?;
            count(&mut self.seen.damaged_streams, reply.number);
        }
        for _ in 0..3 {
            let damaged = damaged_list(&mut self.rng, list);
            let reply = self.write(settings, &damaged)?;
            count(&mut self.seen.damaged_lists, reply.number);
        }
        Ok(())
    }

    /// Other settings, settings without a meaning, too little memory, too long a stream.
    fn misused(&mut self, settings: Settings, octets: &[u8], list: &Stored) -> Checked {
        let other = generate::settings(&mut self.rng);
        if other.cookie != settings.cookie && octets.len() <= MAX_STREAM {
            self.read_has(other, octets, (HEADER, 0))?;
        } else {
            self.read(other, octets)?;
        }
        self.write(other, list)?;

        let place = self.rng.below(10);
        if let Some(first) = Settings::FIRST_WITHOUT_MEANING[place] {
            let number = *self.rng.pick(&[first, 2, 3, 256, 1 << 16, u32::MAX]);
            let bad = settings.with(place, number.max(first));
            self.read_has(bad, octets, (SETTINGS, 0))?;
            self.write_has(bad, list, (SETTINGS, 0))?;
        }

        let sizes = self.short_reader_sizes();
        let reply = self.both.read(settings, octets, sizes)?;
        count(&mut self.seen.reads, reply.number);
        if (reply.number, reply.index) != (ROOM, 0) {
            return Err(format!("lent to the reader: {sizes:?}: {reply:?}"));
        }
        let sizes = self.short_writer_sizes();
        let reply = self.both.write(settings, list, sizes)?;
        count(&mut self.seen.writes, reply.number);
        if (reply.number, reply.index) != (ROOM, 0) {
            return Err(format!("lent to the writer: {sizes:?}: {reply:?}"));
        }

        if self.rng.one_in(8) {
            let mut long = octets.to_vec();
            long.resize(MAX_STREAM + self.rng.between(1, 20), self.rng.octet());
            self.read_has(settings, &long, (LONG, 0))?;
        }
        Ok(())
    }

    fn short(&mut self, size: usize) -> usize {
        match self.rng.below(3) {
            0 => size - 1,
            1 => 0,
            _ => self.rng.below(size),
        }
    }

    fn short_reader_sizes(&mut self) -> ReaderSizes {
        let mut sizes = ReaderSizes::usual();
        match self.rng.below(3) {
            0 => sizes.events = self.short(ReaderSizes::stated().events),
            1 => sizes.text = self.short(ReaderSizes::stated().text),
            _ => sizes.work = self.short(ReaderSizes::stated().work),
        }
        sizes
    }

    fn short_writer_sizes(&mut self) -> WriterSizes {
        let mut sizes = WriterSizes::usual();
        match self.rng.below(2) {
            0 => sizes.octets = self.short(WriterSizes::stated().octets),
            _ => sizes.work = self.short(WriterSizes::stated().work),
        }
        sizes
    }
}

/// The sizes that LIMIT names, over a list and its strict form.
fn inside_the_limits(events: &[Event], strict: &Encoded) -> bool {
    let counts = &strict.counts;
    let fits = |event: &Event| event.strings().iter().all(|it| it.len() <= MAX_STRING);
    events.len() <= MAX_EVENTS
        && counts.open <= MAX_OPEN
        && counts.uris <= MAX_URIS
        && counts.names <= MAX_NAMES
        && counts.values <= MAX_VALUES
        && counts.grammars <= MAX_GRAMMARS
        && counts.productions <= MAX_LEARNED
        && counts.code_points <= MAX_STORE
        && events.iter().all(fits)
}

fn number_from(name: &str) -> Option<usize> {
    let value = std::env::var(name).ok()?;
    Some(value.parse().expect(name))
}

fn run_all(seed: u64, requests: usize) -> Seen {
    let next = AtomicUsize::new(0);
    let all = Mutex::new(Seen::default());
    let threads = std::thread::available_parallelism().map_or(1, usize::from);
    std::thread::scope(|scope| {
        for _ in 0..threads.min(PARTS) {
            scope.spawn(|| loop {
                let part = next.fetch_add(1, Ordering::Relaxed);
                if part >= PARTS {
                    break;
                }
                let mut run = Run::new(seed, part);
                while run.both.requests < requests.div_ceil(PARTS) {
                    if let Err(error) = run.round() {
                        panic!("seed {seed}, part {part}: {error}");
                    }
                }
                run.seen.requests = run.both.requests;
                all.lock().expect("no part has failed").join(run.seen);
            });
        }
    });
    all.into_inner().expect("no part has failed")
}

#[test]
fn library_and_ordinary_implementation_agree() {
    let usual = if cfg!(debug_assertions) {
        12_000
    } else {
        400_000
    };
    let requests = number_from("COMPARE_REQUESTS").unwrap_or(usual);
    let seed = number_from("COMPARE_SEED").unwrap_or(1);
    let seen = run_all(seed as u64, requests);

    println!("{} requests", seen.requests);
    println!("numbers answered to reads: {:?}", seen.reads);
    println!("numbers answered to writes: {:?}", seen.writes);
    println!("to damaged streams: {:?}", seen.damaged_streams);
    println!("to damaged lists: {:?}", seen.damaged_lists);
    println!("forms in accepted streams: {:?}", seen.forms);
    println!("faults in streams: {:?}", seen.stream_faults);
    println!("faults in lists: {:?}", seen.list_faults);
    println!("in streams, of an equal attribute: {:?}", seen.stream_pairs);
    println!("in lists, of an equal attribute: {:?}", seen.list_pairs);
    println!("lists near a size: {:?}", seen.profiles);

    assert!(seen.requests >= requests);
    // What a run has to contain, so that it tests what it says. A short one need not come near
    // every size.
    let least = requests / 10_000;
    let times = |found: Option<&usize>| found.copied().unwrap_or(0);
    for number in 0..=14 {
        assert!(times(seen.reads.get(&number)) >= least, "read: {number}");
    }
    for number in [0, 1, 2, 8, 11, 12, 14, 15] {
        assert!(times(seen.writes.get(&number)) >= least, "write: {number}");
    }
    for number in [0, 4, 5, 6, 7, 8, 9, 10, 11, 12, 13, 14] {
        let found = times(seen.damaged_streams.get(&number));
        assert!(found >= least, "damaged stream: {number}");
    }
    for number in [0, 8, 11, 14, 15] {
        let found = times(seen.damaged_lists.get(&number));
        assert!(found >= least, "damaged list: {number}");
    }
    let whole = requests >= 100_000;
    for form in Form::ALL {
        let found = times(seen.forms.get(&form));
        let only_near_a_size = form == Form::WideChoice;
        assert!(found >= least || only_near_a_size && !whole, "{form:?}");
    }
    for fault in StreamFault::all() {
        let found = times(seen.stream_faults.get(&fault));
        assert!(found >= least, "{fault:?}");
    }
    for fault in ListFault::ALL {
        let found = times(seen.list_faults.get(&fault));
        assert!(found >= least, "{fault:?}");
    }
    for fault in StreamFault::of_an_attribute() {
        let found = times(seen.stream_pairs.get(&fault));
        assert!(found >= least / 4, "of an equal attribute: {fault:?}");
    }
    for fault in ListFault::OF_AN_ATTRIBUTE {
        let found = times(seen.list_pairs.get(&fault));
        assert!(found >= least, "of an equal attribute: {fault:?}");
    }
    if !whole {
        return;
    }
    assert!(times(seen.writes.get(&LONG)) >= least, "write: {LONG}");
    for profile in Profile::NEAR_A_SIZE {
        let refused = if profile == Profile::Octets {
            LONG
        } else {
            LIMIT
        };
        for number in [0, refused] {
            let found = times(seen.profiles.get(&(profile, number)));
            assert!(found >= least / 4, "{profile:?}: {number}");
        }
    }
}
