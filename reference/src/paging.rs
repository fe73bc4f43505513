//! The page-table walk of both stages (Priv, address-translation process; 01, The two walks).

use crate::mark::{Edge, EntryFault, Mark, Point, UserBit, Walk};
use crate::scheme::{page_bits, Scheme};
use crate::task::Task;
use crate::types::{access_fault, bit, bits, fault, guest_page_fault, page_address, page_fault};
use crate::types::{Access, Answer, Request, Stage, Step};
use crate::windows::Table;

/// The root of one stage's tables.
#[derive(Clone, Copy, Debug, PartialEq, Eq)]
pub struct Root {
    pub scheme: &'static Scheme,
    pub table: u64,
}

/// The first stage's page-table information (003, Process to translate an IOVA, steps 10 and 16).
#[derive(Clone, Copy, Debug, PartialEq, Eq)]
pub struct FirstStage {
    pub root: Root,
    /// SUM of the process context; a device context has none.
    pub sum: Option<bool>,
}

/// What a walk finds.
#[derive(Clone, Copy, Debug, PartialEq, Eq)]
pub struct Page {
    pub address: u64,
    pub scheme: &'static Scheme,
    pub level: u64,
    /// U of the leaf.
    pub user: bool,
}

/// One walk: which of the four it is, and what it goes by.
struct Walker<'a> {
    walk: Walk,
    root: &'a Root,
    /// The second stage under a first-stage walk; the entries of that walk then lie at guest
    /// addresses.
    second: Option<&'a Root>,
    /// SUM of the request's process context; the second stage has it for its marks alone.
    sum: Option<bool>,
}

/// What a walk needs of a page: an implicit access is a read (D7).
fn needed(walk: Walk, original: Access) -> Access {
    match walk {
        Walk::First | Walk::SecondFinal => original,
        Walk::SecondForFirst | Walk::SecondForProcess => Access::Read,
    }
}

/// 003, Process to translate an IOVA, step 17: the walk of the first stage.
pub fn walk_first(
    task: &mut Task,
    first: &FirstStage,
    second: Option<&Root>,
    address: u64,
) -> Step<Page> {
    let walker = Walker {
        walk: Walk::First,
        root: &first.root,
        second,
        sum: first.sum,
    };
    walk(task, &walker, address)
}

/// 003, Process to translate an IOVA, step 19, and the implicit accesses: a walk of the second
/// stage.
pub fn walk_second(
    task: &mut Task,
    root: &Root,
    kind: Walk,
    sum: Option<bool>,
    address: u64,
) -> Step<Page> {
    let walker = Walker {
        walk: kind,
        root,
        second: None,
        sum,
    };
    walk(task, &walker, address)
}

/// Priv, the address-translation process, over one scheme.
fn walk(task: &mut Task, walker: &Walker, address: u64) -> Step<Page> {
    let scheme = walker.root.scheme;
    if !scheme.covers(address) {
        note_edge(task, walker, address, false);
        let rule = if scheme.signed {
            EntryFault::Sign
        } else {
            EntryFault::Limit
        };
        return Err(page_fault_of(task, walker.walk, rule));
    }
    // Step 1.
    let mut a = walker.root.table;
    let mut level = scheme.levels;
    while level > 0 {
        level -= 1;
        // Step 2.
        let entry = load_entry(task, walker, a + scheme.index(address, level) * 8)?;
        // Step 3.
        check_entry(task, walker.walk, entry)?;
        // Step 4: with R or X it is a leaf.
        if bit(entry, 1) || bit(entry, 3) {
            check_leaf(task, walker, entry, level)?;
            (task.see)(Mark::Size(walker.walk, scheme.mode, level));
            note_edge(task, walker, address, true);
            return Ok(page(scheme, level, entry, address));
        }
        check_non_leaf(task, walker.walk, entry)?;
        a = page_address(bits(entry, 53, 10));
    }
    // Step 4: a pointer at the last level.
    Err(page_fault_of(task, walker.walk, EntryFault::NonLeafAtLast))
}

/// Tells the observer of a walk at an edge of its scheme's addresses, and whether it passed.
fn note_edge(task: &mut Task, walker: &Walker, address: u64, passed: bool) {
    let scheme = walker.root.scheme;
    // Directory entries and page-table entries are read at multiples of their size.
    let within = match walker.walk {
        Walk::First | Walk::SecondFinal => 0,
        Walk::SecondForFirst => 7,
        Walk::SecondForProcess => 15,
    };
    let limit = scheme.limit();
    let high = limit.wrapping_neg();
    let edges = [
        (address == limit, Edge::FirstAbove),
        (address | within == limit - 1, Edge::LastLow),
        (scheme.signed && address == high, Edge::FirstHigh),
        (scheme.signed && address == high - 1, Edge::LastBelow),
    ];
    for (holds, edge) in edges {
        if holds {
            (task.see)(Mark::Edge(walker.walk, scheme.mode, edge, passed));
        }
    }
}

/// Step 2: the load of one entry; under the second stage its address is translated first.
fn load_entry(task: &mut Task, walker: &Walker, address: u64) -> Step<u64> {
    let place = match walker.second {
        Some(root) => walk_second(task, root, Walk::SecondForFirst, walker.sum, address)?.address,
        None => address,
    };
    let table = match walker.walk {
        Walk::First => Table::FirstStage,
        _ => Table::SecondStage,
    };
    match task.load(table, place) {
        Some(entry) => Ok(entry),
        None => Err(violation_of(task, walker.walk)),
    }
}

/// Step 3: V, W without R, and the reserved bits.
fn check_entry(task: &mut Task, walk: Walk, entry: u64) -> Step<()> {
    let reasons = [
        (!bit(entry, 0), EntryFault::NotValid),
        (
            bit(entry, 2) && !bit(entry, 1),
            EntryFault::WriteWithoutRead,
        ),
        (bits(entry, 63, 54) != 0, EntryFault::HighBits),
    ];
    end_if_any(task, walk, &reasons)
}

/// A non-leaf entry has neither A nor D nor U.
fn check_non_leaf(task: &mut Task, walk: Walk, entry: u64) -> Step<()> {
    let reasons = [
        (bit(entry, 6), EntryFault::NonLeafAccessed),
        (bit(entry, 7), EntryFault::NonLeafDirty),
        (bit(entry, 4), EntryFault::NonLeafUser),
    ];
    end_if_any(task, walk, &reasons)
}

/// Steps 5 to 7: alignment of a large page, U, permission, A and D.
fn check_leaf(task: &mut Task, walker: &Walker, entry: u64, level: u64) -> Step<()> {
    // 01, The two walks: the low page number of a large page is zero, at every level.
    if !bits(entry, 53, 10).is_multiple_of(1 << (page_bits(level) - 12)) {
        let scheme = walker.root.scheme;
        (task.see)(Mark::Misaligned(walker.walk, scheme.mode, level));
        return Err(page_fault_of(task, walker.walk, EntryFault::Misaligned));
    }
    check_user(task, walker, bit(entry, 4))?;
    check_permissions(task, walker.walk, entry)
}

/// The rule of U at a leaf; the observer is told of what it goes by and what it says.
fn check_user(task: &mut Task, walker: &Walker, user: bool) -> Step<()> {
    let request = task.request;
    let reason = barred(walker, &request, user);
    // The second stage's looks that SUM would change, were it not the first stage's alone.
    let despite_sum = request.supervisor && walker.sum == Some(true);
    if walker.walk == Walk::First || despite_sum {
        let look = UserBit {
            supervisor: request.supervisor,
            sum: walker.sum,
            user,
            access: request.access,
            open: reason.is_none(),
        };
        (task.see)(Mark::User(walker.walk, look));
    }
    match reason {
        Some(reason) => Err(page_fault_of(task, walker.walk, reason)),
        None => Ok(()),
    }
}

/// Why U bars a page, if it does.
fn barred(walker: &Walker, request: &Request, user: bool) -> Option<EntryFault> {
    // 003, Process to translate an IOVA, after step 20: the second stage treats every request as
    // not supervisor, so SUM doesn't matter there.
    if walker.walk != Walk::First {
        return (!user).then_some(EntryFault::SecondNeedsUser);
    }
    // 01, The two walks: a user request needs U = 1.
    if !request.supervisor {
        return (!user).then_some(EntryFault::UserNeedsUser);
    }
    // 003, Process-context, translation attributes; 02, Req 02: a page with U = 1 is barred where
    // SUM is 0, and to read-for-execute whatever SUM is.
    if user && walker.sum != Some(true) {
        return Some(EntryFault::SupervisorWithoutSum);
    }
    let execute = request.access == Access::ReadForExecute;
    (user && execute).then_some(EntryFault::SupervisorExecutes)
}

/// R, W or X by the access, then A and D.
fn check_permissions(task: &mut Task, walk: Walk, entry: u64) -> Step<()> {
    let need = needed(walk, task.request.access);
    let (read, write, execute) = (bit(entry, 1), bit(entry, 2), bit(entry, 3));
    let reasons = [
        (need == Access::Read && !read, EntryFault::NoRead),
        (need == Access::Write && !write, EntryFault::NoWrite),
        (
            need == Access::ReadForExecute && !execute,
            EntryFault::NoExecute,
        ),
        (!bit(entry, 6), EntryFault::NotAccessed),
        (
            need == Access::Write && !bit(entry, 7),
            EntryFault::NotDirty,
        ),
    ];
    end_if_any(task, walk, &reasons)
}

/// Step 8: the page number of the entry, with the address's own bits below the page's size.
fn page(scheme: &'static Scheme, level: u64, entry: u64, address: u64) -> Page {
    let offset = bits(address, page_bits(level) - 1, 0);
    Page {
        address: page_address(bits(entry, 53, 10)) | offset,
        scheme,
        level,
        user: bit(entry, 4),
    }
}

/// Ends the walk by the first reason that holds.
fn end_if_any(task: &mut Task, walk: Walk, reasons: &[(bool, EntryFault)]) -> Step<()> {
    for (holds, reason) in reasons {
        if *holds {
            return Err(page_fault_of(task, walk, *reason));
        }
    }
    Ok(())
}

/// 01, The two walks: page faults and guest page faults follow the original access.
fn page_fault_of(task: &mut Task, walk: Walk, reason: EntryFault) -> Answer {
    let original = task.request.access;
    (task.see)(Mark::Entry(walk, reason));
    (task.see)(Mark::PageFault(walk, original));
    let (cause, stage) = match walk {
        Walk::First => (page_fault(original), Stage::First),
        _ => (guest_page_fault(original), Stage::Second),
    };
    Answer::Fault { cause, stage }
}

/// 01, The two walks: access faults follow the original access, but 265 inside the process
/// directory's walk (D1).
fn violation_of(task: &mut Task, walk: Walk) -> Answer {
    let original = task.request.access;
    (task.see)(Mark::Entry(walk, EntryFault::LoadViolation));
    (task.see)(Mark::Violation(walk, original));
    let (cause, stage) = match walk {
        Walk::First => (access_fault(original), Stage::First),
        Walk::SecondFinal | Walk::SecondForFirst => (access_fault(original), Stage::Second),
        Walk::SecondForProcess => {
            task.note(Point::F265Second);
            (265, Stage::ProcessDirectory)
        }
    };
    Answer::Fault { cause, stage }
}

/// 01, Directories: an address of 2^56 or more that no stage translates is an access fault.
pub fn check_untranslated(task: &mut Task, point: Point) -> Step<()> {
    if task.request.address >= 1 << 56 {
        task.note(point);
        return fault(access_fault(task.request.access), Stage::Directory);
    }
    Ok(())
}
