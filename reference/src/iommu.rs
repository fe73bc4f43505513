//! The four calls: request, take, take of many, report (003, Process to translate an IOVA; 01; 02, Req
//! 05, 06 and 12).

use crate::device::{self, DeviceContext};
use crate::file::{self, FILE_SIZE};
use crate::many::Take;
use crate::mark::{Asked, Mark, Point, See, Walk, Word};
use crate::memory::{Memory, Side, Window};
use crate::message::{self, Located, MessageEntry};
use crate::paging::{self, FirstStage, Page};
use crate::process;
use crate::tables::{self, Message};
use crate::task::{first_broken, Task};
use crate::types::{Answer, Pair, Report, Request, Settings, Stage, Step};
use crate::windows::{Lie, Place, Purpose, Trail};

/// A file's place, the window that holds it, and the identity to set.
struct Store {
    side: Side,
    file: u64,
    identity: u64,
    notice_address: u64,
    notice_number: u64,
}

/// How a request ends that neither faults nor is refused.
enum End {
    Answer(Answer),
    Store(Store),
}

/// One device request.
pub fn request(settings: &Settings, memory: &mut Memory, request: &Request, data: u32) -> Answer {
    request_observed(settings, memory, request, data, &mut |_| {})
}

/// One device request; the observer is told of each check that decides.
pub fn request_observed(
    settings: &Settings,
    memory: &mut Memory,
    request: &Request,
    data: u32,
    see: See,
) -> Answer {
    request_followed(settings, memory, request, data, see).0
}

/// One device request, with the table entries that it read.
pub fn request_followed(
    settings: &Settings,
    memory: &mut Memory,
    request: &Request,
    data: u32,
    see: See,
) -> (Answer, Trail) {
    let mut broken = broken_windows(memory);
    broken.extend(broken_request(settings, request));
    if let Some(number) = refuse(Asked::Request, memory, &broken, see) {
        return (Answer::Refused(number), Trail::default());
    }
    let mut task = Task {
        memory,
        request: *request,
        see: &mut *see,
        trail: Trail::default(),
    };
    let end = translate(&mut task, settings, data);
    let trail = task.trail;
    let answer = match end {
        Ok(End::Answer(answer)) => answer,
        Ok(End::Store(place)) => store(memory, &place, see),
        Err(answer) => answer,
    };
    match (answer, trail.over()) {
        (Answer::Fault { cause, stage }, _) => see(Mark::Cause(stage, cause)),
        (Answer::Refused(_), _) | (_, None) => {}
        (_, Some(over)) => see(Mark::Ended(answer.numbers()[0], over)),
    }
    (answer, trail)
}

/// A broken check: the number that it refuses with, and its mark.
type Broken = (u64, Point);

/// The number of the first broken check, none where nothing is broken; the observer is told of the
/// check, of those that it comes before, and of how the windows lie.
fn refuse(asked: Asked, memory: &Memory, broken: &[Broken], see: See) -> Option<u64> {
    let of_windows = broken
        .first()
        .filter(|(number, _)| [2001, 2011].contains(number));
    let refusal = of_windows.map_or(0, |(number, _)| *number);
    see(Mark::Windows(asked, Lie::of(memory), refusal));
    let (number, point) = *broken.first()?;
    see(Mark::Point(point));
    match (asked, number) {
        (Asked::Take, 2008) => see(Mark::Point(Point::TakeRefused2008)),
        (Asked::TakeMany, 2008) => see(Mark::Point(Point::TakeManyRefused2008)),
        (Asked::Report, 2008) => see(Mark::Point(Point::ReportRefused2008)),
        _ => {}
    }
    for (other, _) in broken.iter().filter(|(other, _)| *other != number) {
        see(Mark::Before(asked, number, *other));
    }
    Some(number)
}

/// Checks 2001 and 2011: those that are broken, in order. 02, Req 05: 2001 covers both windows, and
/// 2011 comes just after it.
fn broken_windows(memory: &Memory) -> Vec<Broken> {
    let first = [
        Point::R2001FirstStart,
        Point::R2001FirstLength,
        Point::R2001FirstHigh,
    ];
    let second = [
        Point::R2001SecondStart,
        Point::R2001SecondLength,
        Point::R2001SecondHigh,
    ];
    let mut broken = Vec::new();
    broken.extend(broken_window(&memory.first, first));
    broken.extend(broken_window(&memory.second, second));
    broken.extend(memory.overlap().then_some((2011, Point::R2011)));
    broken
}

/// Check 2001 of one window, with its marks for start, length and end.
fn broken_window(window: &Window, [start, length, high]: [Point; 3]) -> Option<Broken> {
    let point = first_broken(&[
        (!window.start.is_multiple_of(4_096), start),
        (!window.bytes.len().is_multiple_of(4_096), length),
        (window.end() > 1 << 56, high),
    ])?;
    Some((2001, point))
}

/// Checks 2002 to 2006: those that are broken, in order.
fn broken_request(settings: &Settings, request: &Request) -> Vec<Broken> {
    let offset = u128::from(request.address % 4_096);
    let end = offset + u128::from(request.length);
    let process_wide = request.process_id.is_some_and(|process| process >= 1 << 20);
    let lonely_supervisor = request.supervisor && request.process_id.is_none();
    let rows = [
        (settings.mode > 4, (2002, Point::R2002Mode)),
        (settings.root >= 1 << 44, (2002, Point::R2002Root)),
        (request.device_id >= 1 << 24, (2003, Point::R2003)),
        (process_wide, (2004, Point::R2004)),
        (lonely_supervisor, (2005, Point::R2005)),
        (request.length == 0, (2006, Point::R2006Zero)),
        (end > 4_096, (2006, Point::R2006Crossing)),
    ];
    let broken = rows.into_iter().filter(|(broken, _)| *broken);
    broken.map(|(_, check)| check).collect()
}

/// 003, Process to translate an IOVA.
fn translate(task: &mut Task, settings: &Settings, data: u32) -> Step<End> {
    // Step 1.
    if settings.mode == 0 {
        return task.end(Point::ModeOff, 256, Stage::Directory);
    }
    // Step 2.
    if settings.mode == 1 {
        task.note(Point::ModeBare);
        paging::check_untranslated(task, Point::BareTooHigh)?;
        return Ok(End::Answer(Answer::Translated(task.request.address)));
    }
    task.note(match settings.mode {
        2 => Point::ModeOne,
        3 => Point::ModeTwo,
        _ => Point::ModeThree,
    });
    // Steps 3 to 5.
    let ddi = device::indices(task.request.device_id);
    device::check_width(task, device::levels(settings.mode), &ddi)?;
    // Step 6.
    let context = device::locate(task, settings)?;
    // Step 7.
    process::check_request(task, &context)?;
    // Steps 8 and 9 are those of Translated requests, which are out.
    // Steps 10 to 16.
    let first = first_stage(task, &context)?;
    translate_stages(task, &context, first, data)
}

/// 003, Process to translate an IOVA, steps 10 to 16: the first stage, none where it is Bare.
fn first_stage(task: &mut Task, context: &DeviceContext) -> Step<Option<FirstStage>> {
    // Step 10.
    if !context.pdtv() {
        task.note(Point::FirstFromDevice);
        return Ok(device::first_stage(context.fsc, None));
    }
    let process_id = match task.request.process_id {
        Some(process_id) => process_id,
        // Step 11.
        None if context.dpe() => {
            task.note(Point::DefaultProcess);
            0
        }
        // Step 12.
        None => {
            task.note(Point::NoDefaultProcess);
            return Ok(None);
        }
    };
    // Step 13.
    if context.pdtp_mode() == 0 {
        note_bare_process_directory(task, process_id);
        return Ok(None);
    }
    task.note(match context.pdtp_mode() {
        1 => Point::ProcessPd8,
        2 => Point::ProcessPd17,
        _ => Point::ProcessPd20,
    });
    // Step 14.
    let process = process::locate(task, context, process_id)?;
    // Step 15.
    if task.request.supervisor && !process.ens() {
        return task.end(Point::F260Ens, 260, Stage::Directory);
    }
    // Step 16.
    task.note(Point::FirstFromProcess);
    Ok(device::first_stage(process.fsc, Some(process.sum())))
}

/// Tells the observer of a Bare process directory: no width, no ENS (D5).
fn note_bare_process_directory(task: &mut Task, process_id: u64) {
    task.note(Point::ProcessBare);
    if process_id >= 1 << 8 {
        task.note(Point::ProcessBareWide);
    }
    if task.request.supervisor {
        task.note(Point::ProcessBareSupervisor);
    }
}

/// 003, Process to translate an IOVA, steps 17 to 20.
fn translate_stages(
    task: &mut Task,
    context: &DeviceContext,
    first: Option<FirstStage>,
    data: u32,
) -> Step<End> {
    let second = context.second_stage();
    let address = task.request.address;
    if first.is_none() && second.is_none() {
        // D4: no stage translates.
        paging::check_untranslated(task, Point::UntranslatedTooHigh)?;
        return Ok(passed(task, address, None, None));
    }
    // Step 17.
    let page = match &first {
        Some(first) => Some(paging::walk_first(task, first, second.as_ref(), address)?),
        None => None,
    };
    let guest = page.map_or(address, |page| page.address);
    // Step 18 comes before step 19, so that a message's page is recognised whether or not the
    // second stage's scheme reaches its address.
    if context.messages_on() && is_message(task, context, guest, page) {
        return message_end(task, context, guest, data);
    }
    // Step 19.
    let Some(root) = &second else {
        note_by_sum(task, page, Point::PassedFirstBySum);
        return Ok(passed(task, guest, page, None));
    };
    if !context.messages_on() {
        task.note(Point::MessageOff);
    }
    let sum = first.and_then(|first| first.sum);
    let last = paging::walk_second(task, root, Walk::SecondFinal, sum, guest)?;
    note_by_sum(task, page, Point::PassedBothBySum);
    Ok(passed(task, last.address, page, Some(last)))
}

/// 003, Process to translate an IOVA, step 20: the address, told with the page of each stage.
fn passed(task: &mut Task, address: u64, first: Option<Page>, second: Option<Page>) -> End {
    let reached = |page: Page| (page.scheme.mode, page.level);
    (task.see)(Mark::Passed(first.map(reached), second.map(reached)));
    End::Answer(Answer::Translated(address))
}

/// Tells the observer of a supervisor request whose first-stage page has U = 1.
fn note_by_sum(task: &mut Task, first: Option<Page>, point: Point) {
    if task.request.supervisor && first.is_some_and(|page| page.user) {
        task.note(point);
    }
}

/// 003, Process to translate addresses of MSIs, steps 3 and 4.
fn is_message(task: &mut Task, context: &DeviceContext, guest: u64, first: Option<Page>) -> bool {
    if !message::recognised(guest, context.mask, context.pattern) {
        task.note(match guest >> 59 {
            0 => Point::NotRecognised,
            _ => Point::NotRecognisedHigh,
        });
        return false;
    }
    note_recognised(task, context, guest, first);
    note_by_sum(task, first, Point::RecognisedBySum);
    task.note(match context.mask.count_ones() {
        0 => Point::MaskZero,
        1..=8 => Point::MaskSmall,
        _ => Point::MaskLarge,
    });
    true
}

/// Tells the observer of a recognised address: the schemes, whether the second stage's reaches it,
/// and which of the two words has the highest bit of its page number.
fn note_recognised(task: &mut Task, context: &DeviceContext, guest: u64, first: Option<Page>) {
    let second = context.second_stage();
    let modes = [
        first.map_or(0, |page| page.scheme.mode),
        second.map_or(0, |root| root.scheme.mode),
    ];
    let beyond = second.is_some_and(|root| !root.scheme.covers(guest));
    (task.see)(Mark::Recognised(modes[0], modes[1], beyond));
    if let Some(top) = (guest >> 12).checked_ilog2() {
        let word = match context.mask >> top & 1 {
            1 => Word::Mask,
            _ => Word::Pattern,
        };
        (task.see)(Mark::TopBit(word, top));
    }
}

/// 01, Messages: what a recognised access becomes.
fn message_end(task: &mut Task, context: &DeviceContext, guest: u64, data: u32) -> Step<End> {
    let Located { address, entry } = message::locate(task, context, guest)?;
    match entry {
        // 003, step 13.2: the offset is kept.
        MessageEntry::Redirect { page } => {
            task.note(Point::Redirect);
            tables::tell(task, Message::Redirect, page, false);
            Ok(End::Answer(Answer::Redirected(page | (guest % 4_096))))
        }
        MessageEntry::File {
            file,
            notice_address,
            notice_number,
        } => {
            let Some((side, identity)) = stored_identity(task, file, guest, data)? else {
                tables::tell(task, Message::Discard, file, false);
                return Ok(End::Answer(Answer::Discarded));
            };
            if is_over_tables(file, context.address, address) {
                tables::tell(task, Message::Store, file, true);
                tables::tell_refused(task, side, file, guest);
                return Err(Answer::Refused(2012));
            }
            tables::tell(task, Message::Store, file, false);
            tables::tell_stored(task, file, context.message_table());
            note_windows(task, side);
            note_store(task, guest, identity, notice_number);
            Ok(End::Store(Store {
                side,
                file,
                identity,
                notice_address,
                notice_number,
            }))
        }
    }
}

/// 01, Messages: the identity to store and the window that holds its file, none where the access is
/// discarded, or refusal 2007. 02, Req 05: 2007 considers both windows.
fn stored_identity(task: &mut Task, file: u64, guest: u64, data: u32) -> Step<Option<(Side, u64)>> {
    let request = task.request;
    let holder = task.memory.holder(file, FILE_SIZE);
    let identity = match message::identity_to_store(request.access, request.length, guest, data) {
        Ok(identity) => identity,
        // Discarded before 2007 is looked at.
        Err(point) => {
            task.note(point);
            if holder.is_none() {
                task.note(Point::DiscardOutside);
            }
            return Ok(None);
        }
    };
    let place = Place::of(task.memory, file);
    (task.see)(Mark::File(Purpose::Store, place, holder));
    // Refusal 2007: last of all but 2012 (02, Req 06).
    let Some(side) = holder else {
        task.note(match outside(task.memory, file) {
            Outside::Below => Point::R2007Below,
            Outside::Between => Point::R2007Between,
            _ => Point::R2007Above,
        });
        return Err(Answer::Refused(2007));
    };
    Ok(Some((side, identity)))
}

/// 02, Req 06: "Refuse a store with 2012 exactly when its file lies in the 4 KiB page that holds the
/// request's device context or its message entry. This comes after 2007". Each of the three begins at a
/// multiple of its size, so that it lies in one page.
fn is_over_tables(file: u64, context: u64, entry: u64) -> bool {
    let page = |address: u64| address / 4_096;
    page(file) == page(context) || page(file) == page(entry)
}

/// Tells the observer of a store's windows: that of the message entry, and that of the file.
fn note_windows(task: &mut Task, side: Side) {
    if let Some(entry) = task.trail.last() {
        (task.see)(Mark::Message(entry, side));
    }
}

/// The bytes of a file that this window holds.
fn file_of(memory: &mut Memory, side: Side, file: u64) -> &mut [u8] {
    let window = memory.window_mut(side);
    let offset = (file - window.start) as usize;
    &mut window.bytes[offset..offset + FILE_SIZE as usize]
}

/// Where a file lies that is in neither window, for coverage; empty windows don't count.
enum Outside {
    Empty,
    Below,
    Between,
    Above,
}

fn outside(memory: &Memory, file: u64) -> Outside {
    let windows = [&memory.first, &memory.second];
    let there = || windows.iter().filter(|window| !window.bytes.is_empty());
    match (there().count(), there().filter(|w| w.start > file).count()) {
        (0, _) => Outside::Empty,
        (_, 0) => Outside::Above,
        (all, above) if all == above => Outside::Below,
        _ => Outside::Between,
    }
}

/// Tells the observer of a store.
fn note_store(task: &mut Task, guest: u64, identity: u64, notice_number: u64) {
    task.note(match guest % 4_096 {
        0 => Point::StoreAt0,
        _ => Point::StoreAt4,
    });
    if identity == 0 {
        task.note(Point::StoreZero);
    }
    if identity == 2_047 {
        task.note(Point::StoreLast);
    }
    if notice_number >= 1 << 10 {
        task.note(Point::NoticeBit10);
    }
}

/// The store itself: the only change that a request makes.
fn store(memory: &mut Memory, place: &Store, see: See) -> Answer {
    let bytes = file_of(memory, place.side, place.file);
    let was_pending = file::store(bytes, place.identity);
    see(Mark::Point(match was_pending {
        true => Point::StoreMerged,
        false => Point::StoreNew,
    }));
    Answer::Stored {
        file: place.file,
        notice_address: place.notice_address,
        notice_number: place.notice_number,
    }
}

/// The window of a take's or a report's file, or check 2008. 02, Req 05: it considers both windows.
fn find_file(memory: &Memory, file: u64) -> Result<Side, Broken> {
    if !file.is_multiple_of(FILE_SIZE) {
        return Err((2008, Point::R2008Misaligned));
    }
    let point = match outside(memory, file) {
        Outside::Empty => Point::R2008Empty,
        Outside::Below => Point::R2008Below,
        Outside::Between => Point::R2008Between,
        Outside::Above => Point::R2008Above,
    };
    memory.holder(file, FILE_SIZE).ok_or((2008, point))
}

/// Tells the observer where an aligned file is, and where it was found, of windows that are legal.
fn note_file(purpose: Purpose, memory: &Memory, file: u64, found: Option<Side>, see: See) {
    if file.is_multiple_of(FILE_SIZE) {
        see(Mark::File(purpose, Place::of(memory, file), found));
    }
}

/// The take of one pending interrupt.
pub fn take(memory: &mut Memory, file: u64, identity: u64) -> Answer {
    take_observed(memory, file, identity, &mut |_| {})
}

/// The take; the observer is told of each check that decides.
pub fn take_observed(memory: &mut Memory, file: u64, identity: u64, see: See) -> Answer {
    let found = find_file(memory, file);
    let mut broken = broken_windows(memory);
    if broken.is_empty() {
        note_file(Purpose::Take, memory, file, found.ok(), see);
    }
    broken.extend(found.err());
    broken.extend((identity > 2_047).then_some((2009, Point::R2009)));
    let side = match (refuse(Asked::Take, memory, &broken, see), found) {
        (None, Ok(side)) => side,
        (number, _) => return Answer::Refused(number.unwrap_or(2008)),
    };
    let was_pending = file::take(file_of(memory, side, file), identity);
    see(Mark::Point(match was_pending {
        true => Point::TakeOfOne,
        false => Point::TakeOfZero,
    }));
    Answer::Taken(was_pending)
}

/// 02, Req 12: the take of those pending interrupts of a doubleword that are in the mask.
pub fn take_many(memory: &mut Memory, file: u64, doubleword: u64, mask: u64) -> Answer {
    take_many_observed(memory, file, doubleword, mask, &mut |_| {})
}

/// The take of many; the observer is told of each check that decides, and of the bits.
pub fn take_many_observed(
    memory: &mut Memory,
    file: u64,
    doubleword: u64,
    mask: u64,
    see: See,
) -> Answer {
    let found = find_file(memory, file);
    let mut broken = broken_windows(memory);
    if broken.is_empty() {
        note_file(Purpose::TakeMany, memory, file, found.ok(), see);
    }
    broken.extend(found.err());
    broken.extend(broken_doubleword(doubleword));
    let side = match (refuse(Asked::TakeMany, memory, &broken, see), found) {
        (None, Ok(side)) => side,
        (number, _) => return Answer::Refused(number.unwrap_or(2008)),
    };
    let bytes = file_of(memory, side, file);
    let before = file::pairs(bytes);
    let answered = file::take_many(bytes, doubleword, mask);
    let take = Take {
        before,
        after: file::pairs(bytes),
        doubleword: doubleword as usize,
        mask,
        answered,
    };
    take.tell(see);
    Answer::TakenMany(answered)
}

/// Check 2009 of a take of many. 02, Req 12: a doubleword number above 31.
fn broken_doubleword(doubleword: u64) -> Option<Broken> {
    let point = match doubleword {
        0..=31 => return None,
        32 => Point::R2009Doubleword32,
        33..=63 => Point::R2009DoublewordBelow64,
        2_047 => Point::R2009Doubleword2047,
        u64::MAX => Point::R2009DoublewordLast,
        _ if doubleword.wrapping_mul(16) < FILE_SIZE => Point::R2009DoublewordWraps,
        _ if doubleword as u32 <= 31 => Point::R2009DoublewordWide,
        _ => Point::R2009DoublewordOther,
    };
    Some((2009, point))
}

/// The report of one file.
pub fn report(memory: &Memory, file: u64) -> Report {
    report_observed(memory, file, &mut |_| {})
}

/// The report; the observer is told of each check that decides.
pub fn report_observed(memory: &Memory, file: u64, see: See) -> Report {
    let mut report = Report {
        refusal: 0,
        count: 0,
        pairs: [Pair::default(); 32],
    };
    let found = find_file(memory, file);
    let mut broken = broken_windows(memory);
    if broken.is_empty() {
        note_file(Purpose::Report, memory, file, found.ok(), see);
    }
    broken.extend(found.err());
    if let Some(number) = refuse(Asked::Report, memory, &broken, see) {
        report.refusal = number;
        return report;
    }
    let bytes = found
        .ok()
        .and_then(|side| memory.window(side).part(file, FILE_SIZE));
    report.pairs = bytes.map_or(report.pairs, file::pairs);
    report.count = file::count(&report.pairs);
    see(Mark::Point(Point::ReportMade));
    report
}

#[cfg(test)]
mod tests {
    use super::{report, request, take, take_many};
    use crate::memory::{Memory, Window};
    use crate::random::Random;
    use crate::types::{Access, Answer, Request, Settings};

    /// A number at an edge, or any number.
    fn any(random: &mut Random) -> u64 {
        let edge = 1u64 << random.below(64);
        match random.below(6) {
            0 => edge,
            1 => edge - 1,
            2 => u64::MAX - random.below(5_000),
            3 => random.below(5),
            4 => random.below(1 << 14) & !0x1FF,
            _ => random.number(),
        }
    }

    /// A window with free bytes: mostly whole pages near 0, at times any.
    fn any_window(random: &mut Random) -> Window {
        let length = random.pick(&[0, 1, 512, 4_095, 4_096, 4_096, 8_192, 8_192]);
        let full = random.number() | random.number();
        let start = match random.below(100) {
            0..=44 => 0,
            45..=69 => random.below(5) * 4_096,
            _ => any(random),
        };
        Window {
            start,
            bytes: (0..length).map(|n| (full >> (n % 61)) as u8).collect(),
        }
    }

    /// Any input is answered: wholly free arguments over free bytes.
    #[test]
    fn every_input_is_answered() {
        let mut random = Random::new(3, 3);
        for _ in 0..60_000 {
            let mut memory = Memory {
                first: any_window(&mut random),
                second: any_window(&mut random),
            };
            let [mode, root] = [(80, 2), (70, 0)].map(|(percent, usual)| {
                let other = any(&mut random);
                if random.chance(percent) {
                    usual
                } else {
                    other
                }
            });
            let settings = Settings { mode, root };
            let process = any(&mut random);
            let asked = Request {
                device_id: any(&mut random),
                process_id: random.chance(50).then_some(process),
                supervisor: random.chance(30),
                access: random.pick(&Access::ALL),
                address: any(&mut random),
                length: any(&mut random),
            };
            request(&settings, &mut memory, &asked, random.number() as u32);
            let (file, identity) = (any(&mut random), any(&mut random));
            take(&mut memory, file, identity);
            let (doubleword, mask) = (any(&mut random), any(&mut random));
            take_many(&mut memory, file, doubleword, mask);
            report(&memory, file);
        }
    }

    /// 02, Req 12: each answered bit is one successful take of its identity, so that a take of many
    /// answers and leaves what takes of the mask's identities do, one after the other.
    #[test]
    fn a_take_of_many_is_takes_of_its_identities() {
        let mut random = Random::new(12, 4);
        let mut answered_some = 0;
        for _ in 0..20_000 {
            let mut memory = Memory {
                first: any_window(&mut random),
                second: any_window(&mut random),
            };
            let mut singly = memory.clone();
            let other = any(&mut random);
            let file = match random.below(5) {
                0 => other,
                1..=2 => memory.first.start.wrapping_add(random.below(16) * 512),
                _ => memory.second.start.wrapping_add(random.below(16) * 512),
            };
            let (doubleword, mask) = (random.below(32), any(&mut random));
            let answer = take_many(&mut memory, file, doubleword, mask);
            let mut expected = Answer::TakenMany(0);
            for bit in (0..64).filter(|bit| mask >> bit & 1 == 1) {
                expected = match (take(&mut singly, file, 64 * doubleword + bit), expected) {
                    (Answer::Taken(pending), Answer::TakenMany(answered)) => {
                        Answer::TakenMany(answered | u64::from(pending) << bit)
                    }
                    (refused, _) => refused,
                };
            }
            if mask != 0 {
                assert_eq!((answer, memory), (expected, singly));
            }
            answered_some += u64::from(answer.numbers()[..2] > [6, 0][..]);
        }
        assert!(answered_some > 1_000, "{answered_some}");
    }
}
