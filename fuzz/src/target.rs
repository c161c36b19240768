//! The fuzzer's target: an input is a request, put to both implementations; what is accepted goes
//! round through the other call.

#![no_main]

use std::cell::RefCell;

use compare::check::Comparison;
use compare::lent::{ReaderSizes, Settings, WriterSizes};
use compare::packets::check::{run_changed, PacketComparison};
use compare::packets::{Call, PacketMemory};
use compare::prng::Prng;
use compare::protocol::Request;
use compare::readings::check::ReadingsComparison;
use compare::readings::{ListSizes, ReadingsSizes};

thread_local! {
    static BOTH: RefCell<Comparison> = RefCell::new(Comparison::new());
    static READINGS: RefCell<ReadingsComparison> = RefCell::new(ReadingsComparison::new());
    static PACKETS: RefCell<PacketComparison> = RefCell::new(PacketComparison::new());
    static CHANGED: RefCell<PacketMemory> = RefCell::new(PacketMemory::new());
}

/// # Safety
///
/// libFuzzer calls this with the place and the length of an input.
#[no_mangle]
pub unsafe extern "C" fn LLVMFuzzerTestOneInput(place: *const u8, length: usize) -> i32 {
    let input = if length == 0 {
        &[]
    } else {
        std::slice::from_raw_parts(place, length)
    };
    let Some(request) = fuzz::request(input) else {
        return 0;
    };
    if let Err(error) = check(&request) {
        eprintln!("{error}");
        std::process::abort();
    }
    0
}

fn check(request: &Request) -> Result<(), String> {
    BOTH.with(|both| {
        let mut both = both.borrow_mut();
        match request {
            Request::Read {
                settings,
                short: Some(part),
                stream,
            } => both
                .read(*settings, stream, ReaderSizes::short(*part))
                .map(|_| ()),
            Request::Write {
                settings,
                short: Some(part),
                list,
            } => both
                .write(*settings, list, WriterSizes::short(*part))
                .map(|_| ()),
            Request::Read {
                settings, stream, ..
            } => both.read_and_back(*settings, stream).map(|_| ()),
            Request::Write { settings, list, .. } => {
                both.write_and_back(*settings, list).map(|_| ())
            }
            Request::Packets { settings, calls } => check_packets(*settings, calls),
            Request::Readings { .. } | Request::List { .. } => check_readings(request),
        }
    })
}

/// The calls as they are; then once more, with record and memory changed between them.
fn check_packets(settings: Settings, calls: &[Call]) -> Result<(), String> {
    PACKETS.with(|both| both.borrow_mut().run(settings, calls).map(|_| ()))?;
    let octets = calls.iter().flat_map(|call| call.piece.iter().flatten());
    let seed = octets.fold(0u64, |seed, &octet| {
        seed.wrapping_mul(257).wrapping_add(octet.into())
    });
    CHANGED.with(|memory| {
        let mut memory = memory.borrow_mut();
        run_changed(&mut Prng::new(seed), &mut memory, settings, calls)
    })
}

fn check_readings(request: &Request) -> Result<(), String> {
    READINGS.with(|both| {
        let mut both = both.borrow_mut();
        match request {
            Request::Readings {
                short: Some(_),
                list,
            } => both.of_list(list, ReadingsSizes::short()).map(|_| ()),
            Request::Readings { list, .. } => both.of_list_and_back(list).map(|_| ()),
            Request::List {
                short: Some(part),
                readings,
            } => both.to_list(readings, ListSizes::short(*part)).map(|_| ()),
            Request::List { readings, .. } => both.to_list_and_back(readings).map(|_| ()),
            Request::Read { .. } | Request::Write { .. } | Request::Packets { .. } => Ok(()),
        }
    })
}
