//! The rows of the benchmark: a world, and calls over it.

use crate::call::{Call, PROCESS_GIVEN, SUPERVISOR};
use crate::plain::Access;
use crate::tables::{
    device_data, guest_data, process_id, size, storing, Places, Plan, World, MESSAGES,
};
use yasmurekh_reference::random::Random;

/// What a row's calls are.
#[derive(Clone, Copy, Debug, PartialEq, Eq)]
pub enum Kind {
    Requests,
    Takes,
    /// The benchmark makes these bits of the doubleword pending before each.
    TakesOfMany {
        fresh: u64,
    },
    /// The same bits by a take for each; a call of the row is all of them.
    SingleTakes {
        fresh: u64,
    },
}

pub struct Row {
    pub name: String,
    pub kind: Kind,
    pub world: World,
    pub calls: Vec<Call>,
    /// The answer kinds that the row's calls must all have.
    pub answers: &'static [u64],
    /// The cause or refusal, where the row is of one.
    pub number: Option<u64>,
}

/// Calls of a row; in random order, so that no branch predictor learns it by heart.
const CALLS: usize = 8_192;
/// Calls of the mix.
const MIX: usize = 1_000_000;

fn random() -> Random {
    Random::new(11, 0)
}

fn data_offset(random: &mut Random, plan: &Plan) -> u64 {
    let level = plan.first.or(plan.second).unwrap_or(0);
    let page = random.below(plan.pages) * size(level);
    page + random.below(size(level) / 8) * 8
}

/// Where a device's addresses of its data begin.
fn data_base(plan: &Plan) -> u64 {
    match (plan.first, plan.second) {
        (None, Some(level)) => guest_data(level),
        (level, _) => device_data(level.unwrap_or(0)),
    }
}

/// A read or a write of data.
fn data_call(random: &mut Random, world: &World) -> Call {
    let device = random.pick(&world.devices);
    let address = data_base(&world.plan) + data_offset(random, &world.plan);
    let mut call = Call::read(device, address);
    if random.chance(50) {
        call.access = Access::Write;
    }
    if world.plan.processes > 0 {
        call.process = process_id(random.below(world.plan.processes));
        call.flags = PROCESS_GIVEN;
    }
    call
}

/// A message to one of the entries that store.
fn message_call(random: &mut Random, world: &World) -> Call {
    let device = random.pick(&world.devices);
    let number = random.below(world.message_pages.len() as u64);
    let page = match world.plan.first {
        Some(_) => MESSAGES + 4_096 * number,
        None => world.message_pages[number as usize],
    };
    let identity = random.below(2_048) as u32;
    if random.chance(25) {
        return Call::write(device, page + 4, identity.swap_bytes());
    }
    Call::write(device, page, identity)
}

/// What a row's name says of the windows.
fn suffix(places: Places) -> &'static str {
    match places {
        Places::First => "",
        Places::Second => "; all in the second window",
        Places::FilesSecond => "; tables in the first window, files in the second",
        Places::FilesFirst => "; files in the first window, tables in the second",
        Places::RootFirst => "; directory root in the first window, other tables in the second",
    }
}

fn row(name: &str, plan: Plan, answers: &'static [u64]) -> Row {
    let world = World::new(plan);
    let mut random = random();
    let calls = (0..CALLS).map(|_| data_call(&mut random, &world)).collect();
    Row {
        name: format!("{name}{}", suffix(plan.places)),
        kind: Kind::Requests,
        world,
        calls,
        answers,
        number: None,
    }
}

fn messages(name: &str, mask: u64, first: Option<u32>, places: Places) -> Row {
    let plan = Plan {
        places,
        mask: Some(mask),
        first,
        ..Plan::default()
    };
    let mut row = row(name, plan, &[2]);
    let mut random = random();
    row.calls = (0..CALLS)
        .map(|_| message_call(&mut random, &row.world))
        .collect();
    row
}

/// Changes every message entry of a row, to a first doubleword by the page of its device's context.
fn change_entries(row: &mut Row, first: impl Fn(u64) -> u64) {
    // The tables of 2^4 entries begin at their own pages.
    for device in row.world.devices.clone() {
        let first = first(row.world.context_page(device));
        let table = row.world.message_table(device);
        for number in 0..16 {
            row.world.put(table + 16 * number, first);
        }
    }
}

const FOUR_ONES: u64 = 0xF;

fn redirected() -> Row {
    let name = "redirected message, both stages";
    let mut row = messages(name, FOUR_ONES, Some(0), Places::First);
    change_entries(&mut row, |_| 0xA00_0407);
    row.answers = &[1];
    row
}

fn message_fault() -> Row {
    let name = "fault: message table (262)";
    let mut row = messages(name, FOUR_ONES, Some(0), Places::First);
    change_entries(&mut row, |_| 2);
    row.answers = &[4];
    row.number = Some(262);
    row
}

fn stored(places: Places) -> Row {
    let name = "stored, both stages, mask of 8 ones";
    messages(name, 0xFF, Some(0), places)
}

fn file_outside(places: Places) -> Row {
    let name = "refusal 2007: file outside the windows, last of all";
    let mut row = messages(name, FOUR_ONES, Some(0), places);
    change_entries(&mut row, |_| storing(0x1000_0000));
    row.answers = &[5];
    row.number = Some(2007);
    row
}

fn file_over_context() -> Row {
    let name = "refusal 2012: file over its device context, last of all";
    let mut row = messages(name, FOUR_ONES, Some(0), Places::First);
    change_entries(&mut row, storing);
    row.answers = &[5];
    row.number = Some(2012);
    row
}

fn refusals() -> Row {
    let mut row = row("refusals 2003 to 2006", Plan::default(), &[5]);
    let mut random = random();
    for call in &mut row.calls {
        match random.below(4) {
            0 => call.device = 1 << 24,
            1 => (call.process, call.flags) = (1 << 20, PROCESS_GIVEN),
            2 => call.flags = SUPERVISOR,
            _ => call.length = 4_097,
        }
    }
    row
}

fn fault(name: &str, plan: Plan, number: u64, change: fn(&mut Call, &Plan)) -> Row {
    let mut row = row(name, plan, &[4]);
    row.number = Some(number);
    for call in &mut row.calls {
        call.access = Access::Read;
        change(call, &row.world.plan);
    }
    row
}

fn processes(places: Places) -> Plan {
    Plan {
        places,
        devices: 2,
        processes: 4,
        ..Plan::default()
    }
}

/// Supervisor requests onto pages with U = 1.
fn by_sum() -> Row {
    let name = "PD20 and both stages, supervisor under SUM = 1";
    let mut row = row(name, processes(Places::First), &[0]);
    for call in &mut row.calls {
        call.flags |= SUPERVISOR;
    }
    row
}

fn faults() -> Vec<Row> {
    let both = Plan::default();
    vec![
        fault("fault: directory (258)", both, 258, |call, _| {
            call.device += 32
        }),
        fault(
            "fault: process directory (266), PD20 under the second stage",
            processes(Places::First),
            266,
            |call, _| call.process ^= 0x80,
        ),
        fault(
            "fault: first stage (13), last level",
            both,
            13,
            |call, plan| call.address += 4_096 * (plan.pages + 1),
        ),
        fault(
            "fault: second stage (21), last level",
            both,
            21,
            |call, plan| call.address = data_base(plan) + 4_096 * plan.pages,
        ),
        message_fault(),
    ]
}

fn takes_plan(places: Places) -> Plan {
    Plan {
        places,
        mask: Some(FOUR_ONES),
        ..Plan::default()
    }
}

fn takes(places: Places) -> Row {
    let mut row = row("takes", takes_plan(places), &[6]);
    row.kind = Kind::Takes;
    let mut random = random();
    for call in &mut row.calls {
        call.address = random.pick(&row.world.files);
        call.value = random.below(2_048) as u32;
    }
    row
}

/// Calls that take from doublewords of all files, with these masks.
fn of_doublewords(name: &str, kind: Kind, places: Places, mask: fn(&mut Random) -> u64) -> Row {
    let mut row = row(name, takes_plan(places), &[6]);
    row.kind = kind;
    let mut random = random();
    for call in &mut row.calls {
        let file = random.pick(&row.world.files);
        let doubleword = random.below(32) as u32;
        *call = Call::take_many(file, doubleword, mask(&mut random));
    }
    row
}

/// Two bits come in before each take of many, whose mask has half of the bits, by chance: those that it
/// leaves wait for the next of that doubleword.
fn takes_of_many(places: Places) -> Row {
    let name = "takes of many, at most 2 bits pending";
    let kind = Kind::TakesOfMany {
        fresh: 1 << 20 | 1 << 42,
    };
    of_doublewords(name, kind, places, Random::number)
}

/// Req 11: 80 percent translations under both stages, 20 percent stored.
fn mix(places: Places) -> Row {
    let plan = Plan {
        places,
        mask: Some(0xFF),
        ..Plan::default()
    };
    let mut row = row(
        "mix of Req 11: 80 % both stages, 20 % stored",
        plan,
        &[0, 2],
    );
    let mut random = random();
    row.calls = (0..MIX)
        .map(|_| {
            if random.chance(80) {
                data_call(&mut random, &row.world)
            } else {
                message_call(&mut random, &row.world)
            }
        })
        .collect();
    row
}

/// Masks of 1, 8, 16, 29 and 47 ones in one run, and some with as many runs as fit. A guest address
/// of 59 bits leaves room for 47 ones, all in one run, or for 24 that stand alone.
const MASKS: [(&str, u64); 10] = [
    ("1 one", 1),
    ("1 one, at bit 28", 1 << 28),
    ("8 ones", 0xFF),
    ("8 ones, spread", 0x5555),
    ("8 ones, spread wide", 0x1111_1111),
    ("16 ones", 0xFFFF),
    ("16 ones, spread", 0x1555_5557),
    ("29 ones", 0x1FFF_FFFF),
    ("24 ones, spread", 0x5555_5555_5555),
    ("47 ones", 0x7FFF_FFFF_FFFF),
];

fn masks() -> impl Iterator<Item = Row> {
    MASKS.into_iter().map(|(ones, mask)| {
        messages(
            &format!("stored, mask of {ones}"),
            mask,
            None,
            Places::First,
        )
    })
}

/// Both stages by schemes of one mode, with pages of one level in each.
fn both_stages(mode: u64, level: u32, pages: u64, places: Places) -> Row {
    let schemes = ["Sv39 on Sv39x4", "Sv48 on Sv48x4", "Sv57 on Sv57x4"][mode as usize - 8];
    let size = ["4 KiB", "2 MiB", "1 GiB", "512 GiB", "256 TiB"][level as usize];
    let plan = Plan {
        places,
        mode,
        first: Some(level),
        second: Some(level),
        pages,
        ..Plan::default()
    };
    row(
        &format!("both stages, {size} / {size}, {schemes}"),
        plan,
        &[0],
    )
}

/// One stage alone, or both.
fn stages(name: &str, first: Option<u32>, second: Option<u32>, places: Places) -> Row {
    let plan = Plan {
        places,
        first,
        second,
        ..Plan::default()
    };
    row(name, plan, &[0])
}

fn first_only(places: Places) -> Row {
    stages("first stage only, 4 KiB", Some(0), None, places)
}

fn second_only(places: Places) -> Row {
    stages("second stage only, 4 KiB", None, Some(0), places)
}

fn by_process(places: Places) -> Row {
    let name = "PD20 and both stages, 4 KiB / 4 KiB";
    row(name, processes(places), &[0])
}

/// The rows of the main table: all in the first window.
pub fn main_rows() -> Vec<Row> {
    let schemes = [
        (8, 0, 64),
        (8, 1, 64),
        (8, 2, 8),
        (9, 0, 64),
        (9, 3, 8),
        (10, 0, 64),
        (10, 4, 8),
    ];
    let first = Places::First;
    let mut rows = vec![mix(first)];
    rows.extend(schemes.map(|(mode, level, pages)| both_stages(mode, level, pages, first)));
    rows.extend([
        first_only(first),
        second_only(first),
        by_process(first),
        by_sum(),
        stored(first),
    ]);
    rows.extend(masks());
    rows.extend([
        redirected(),
        refusals(),
        file_outside(first),
        file_over_context(),
    ]);
    rows.append(&mut faults());
    rows.push(takes(first));
    rows.push(takes_of_many(first));
    rows
}

/// The same row with its tables and files in either window; the first of a group has all in the first.
pub fn place_rows() -> Vec<Vec<Row>> {
    const ALL: [Places; 5] = [
        Places::First,
        Places::Second,
        Places::FilesSecond,
        Places::FilesFirst,
        Places::RootFirst,
    ];
    let made: [fn(Places) -> Row; 10] = [
        mix,
        |places| both_stages(8, 0, 64, places),
        |places| both_stages(10, 0, 64, places),
        first_only,
        second_only,
        by_process,
        stored,
        file_outside,
        takes,
        takes_of_many,
    ];
    made.map(|row| ALL.map(row).into()).into()
}

/// The same tables in windows of several sizes.
pub fn window_rows() -> Vec<Row> {
    let sizes = [64 << 10, 1 << 20, 16 << 20, 64 << 20];
    let made = sizes.map(|window| {
        let plan = Plan {
            window,
            directory: 1,
            devices: 1,
            ..Plan::default()
        };
        let name = match window >> 20 {
            0 => format!("window of {} KiB", window >> 10),
            mebibytes => format!("window of {mebibytes} MiB"),
        };
        row(&name, plan, &[0])
    });
    made.into()
}

/// All 64 bits of a doubleword, by one take of many and by 64 single takes.
pub fn doubleword_rows() -> Vec<Row> {
    let fresh = u64::MAX;
    let made = [
        (
            "one take of many, 64 bits pending",
            Kind::TakesOfMany { fresh },
        ),
        (
            "64 single takes, 64 bits pending",
            Kind::SingleTakes { fresh },
        ),
    ];
    let made = made.map(|(name, kind)| {
        let mut row = of_doublewords(name, kind, Places::First, |_| u64::MAX);
        row.number = Some(u64::MAX);
        row
    });
    made.into()
}

/// The same translation below directories of one, two and three levels.
pub fn depth_rows() -> Vec<Row> {
    let made = [1, 2, 3].map(|directory| {
        let plan = Plan {
            directory,
            ..Plan::default()
        };
        row(&format!("directory levels: {directory}"), plan, &[0])
    });
    made.into()
}
