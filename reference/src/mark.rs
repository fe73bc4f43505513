//! Marks: the names of the sub-checks and outcomes that a call passes, for coverage.

use crate::many::{self, BitCase, Many};
use crate::memory::Side;
use crate::scheme::{self, of_mode, page_bits, Scheme};
use crate::tables::{self, Beside, Held, Message, Within};
use crate::types::{Access, Stage};
use crate::windows::{self, Lie, Over, Place, Purpose, Table};

macro_rules! named {
    ($(#[$note:meta])* $type:ident { $($variant:ident = $name:literal),* $(,)? }) => {
        $(#[$note])*
        #[derive(Clone, Copy, Debug, PartialEq, Eq, PartialOrd, Ord)]
        pub enum $type { $($variant),* }

        impl $type {
            pub const ALL: &'static [$type] = &[$($type::$variant),*];

            pub fn name(self) -> &'static str {
                match self { $($type::$variant => $name),* }
            }
        }
    };
}

pub(crate) use named;

named!(
    /// The four walks: the first stage, and the second stage in its three roles.
    Walk {
        First = "first stage",
        SecondFinal = "second stage, final address",
        SecondForFirst = "second stage, first-stage entry",
        SecondForProcess = "second stage, process-directory entry",
    }
);

named!(
    /// Why a walk ends in a fault.
    EntryFault {
        Sign = "sign rule",
        Limit = "guest limit",
        LoadViolation = "load violation",
        NotValid = "V = 0",
        WriteWithoutRead = "W without R",
        HighBits = "bits 63:54",
        NonLeafAccessed = "non-leaf with A",
        NonLeafDirty = "non-leaf with D",
        NonLeafUser = "non-leaf with U",
        NonLeafAtLast = "non-leaf at the last level",
        Misaligned = "misaligned large page",
        UserNeedsUser = "user request, U = 0",
        SupervisorWithoutSum = "supervisor request, U = 1, SUM = 0",
        SupervisorExecutes = "supervisor reads for execute, U = 1, SUM = 1",
        SecondNeedsUser = "second stage, U = 0",
        NoRead = "no R",
        NoWrite = "no W",
        NoExecute = "no X",
        NotAccessed = "A = 0",
        NotDirty = "write with D = 0",
    }
);

named!(
    /// Everything that stands alone.
    Point {
        R2001FirstStart = "2001 first window, start misaligned",
        R2001FirstLength = "2001 first window, length misaligned",
        R2001FirstHigh = "2001 first window, end above 2^56",
        R2001SecondStart = "2001 second window, start misaligned",
        R2001SecondLength = "2001 second window, length misaligned",
        R2001SecondHigh = "2001 second window, end above 2^56",
        R2011 = "2011 the windows overlap",
        R2002Mode = "2002 mode above 4",
        R2002Root = "2002 root page number too wide",
        R2003 = "2003 device_id too wide",
        R2004 = "2004 process_id too wide",
        R2005 = "2005 supervisor without process_id",
        R2006Zero = "2006 length 0",
        R2006Crossing = "2006 crossing a page",
        R2007Below = "2007 file below the windows",
        R2007Between = "2007 file between the windows",
        R2007Above = "2007 file above the windows",
        R2012At0 = "2012 at offset 0",
        R2012At4 = "2012 at offset 4",
        R2012Process = "2012 with a process_id",
        R2008Misaligned = "2008 file misaligned",
        R2008Below = "2008 file below the windows",
        R2008Between = "2008 file between the windows",
        R2008Above = "2008 file above the windows",
        R2008Empty = "2008 both windows empty",
        R2009 = "2009 identity above 2047",
        R2009Doubleword32 = "2009 doubleword number 32",
        R2009DoublewordBelow64 = "2009 doubleword number 33 to 63",
        R2009Doubleword2047 = "2009 doubleword number 2047",
        R2009DoublewordWide = "2009 doubleword number of 2^32 or more, bits 31:0 below 32",
        R2009DoublewordWraps = "2009 doubleword number whose 16-fold is below 512 modulo 2^64",
        R2009DoublewordLast = "2009 doubleword number 2^64 - 1",
        R2009DoublewordOther = "2009 doubleword number, any other above 63",
        TakeRefused2008 = "take refused 2008",
        TakeManyRefused2008 = "take of many refused 2008",
        ReportRefused2008 = "report refused 2008",
        ModeOff = "directory mode 0 Off",
        ModeBare = "directory mode 1 Bare",
        ModeOne = "directory mode 2, one level",
        ModeTwo = "directory mode 3, two levels",
        ModeThree = "directory mode 4, three levels",
        BareTooHigh = "Bare directory, address of 2^56 or more",
        UntranslatedTooHigh = "both stages Bare, address of 2^56 or more",
        F257NonLeaf = "257 non-leaf",
        F257Context = "257 device context",
        F258NonLeaf = "258 non-leaf",
        F258Context = "258 device context",
        F259NonLeafLow = "259 non-leaf bits 9:1",
        F259NonLeafHigh = "259 non-leaf bits 63:54",
        F259TcEnAts = "259 tc EN_ATS, bit 1",
        F259TcEnPri = "259 tc EN_PRI, bit 2",
        F259TcT2gpa = "259 tc T2GPA, bit 3",
        F259TcPrpr = "259 tc PRPR, bit 6",
        F259TcGade = "259 tc GADE, bit 7",
        F259TcSade = "259 tc SADE, bit 8",
        F259TcSbe = "259 tc SBE, bit 10",
        F259TcSxl = "259 tc SXL, bit 11",
        F259TcReserved = "259 tc bits 23:12",
        F259TcCustom = "259 tc custom bits 31:24",
        F259TcHigh = "259 tc bits 63:32",
        F259DpeWithoutPdtv = "259 DPE without PDTV",
        F259IohgatpMode = "259 iohgatp mode",
        F259IohgatpRoot = "259 second-stage root not on 16 KiB",
        F259TaLow = "259 ta bits 11:0",
        F259TaHigh = "259 ta bits 63:32",
        F259FscReserved = "259 fsc bits 59:44",
        F259FscMode = "259 fsc mode, PDTV = 0",
        F259PdtpMode = "259 pdtp mode, PDTV = 1",
        F259MsiptpReserved = "259 msiptp bits 59:44",
        F259MsiptpMode = "259 msiptp mode",
        F259MsiptpBare = "259 msiptp on, second stage Bare",
        F259MaskReserved = "259 mask bit 47 or above",
        F259PatternReserved = "259 pattern bit 47 or above",
        F259Eighth = "259 eighth doubleword",
        F260OneLevelDdi1 = "260 one level, DDI[1]",
        F260OneLevelDdi2 = "260 one level, DDI[2]",
        F260TwoLevelsDdi2 = "260 two levels, DDI[2]",
        F260ProcessWithoutPdtv = "260 process_id, PDTV = 0",
        F260Pd8 = "260 process_id too wide for PD8",
        F260Pd17 = "260 process_id too wide for PD17",
        F260Ens = "260 supervisor without ENS",
        FirstFromDevice = "first stage from the device context",
        FirstFromProcess = "first stage from a process context",
        DefaultProcess = "DPE = 1, process 0",
        NoDefaultProcess = "DPE = 0, first stage Bare",
        ProcessBare = "pdtp Bare",
        ProcessBareWide = "pdtp Bare, process_id above 8 bits",
        ProcessBareSupervisor = "pdtp Bare, supervisor",
        ProcessPd8 = "PD8",
        ProcessPd17 = "PD17",
        ProcessPd20 = "PD20",
        ProcessPhysical = "process directory, second stage Bare",
        ProcessGuest = "process directory at guest addresses",
        F265NonLeaf = "265 non-leaf",
        F265Context = "265 process context",
        F265Second = "265 inside the second stage",
        F266NonLeaf = "266 non-leaf",
        F266Context = "266 process context",
        F267NonLeafLow = "267 non-leaf bits 9:1",
        F267NonLeafHigh = "267 non-leaf bits 63:54",
        F267TaLow = "267 ta bits 11:3",
        F267TaHigh = "267 ta bits 63:32",
        F267FscReserved = "267 fsc bits 59:44",
        F267FscMode = "267 fsc mode",
        MessageOff = "msiptp Off, second stage on",
        NotRecognised = "msiptp on, address not recognised",
        NotRecognisedHigh = "msiptp on, address of 2^59 or more",
        RecognisedBySum = "recognised after the first stage, by SUM",
        MaskZero = "recognised, mask without ones",
        MaskSmall = "recognised, 1 to 8 ones in the mask",
        MaskLarge = "recognised, more than 8 ones in the mask",
        PackedNone = "packed, no ones in the mask",
        PackedOneRun = "packed, ones in one run",
        PackedFewRuns = "packed, ones in 2 to 7 runs",
        PackedManyRuns = "packed, ones in 8 runs or more",
        PackedAll = "packed, all 47 ones",
        F261 = "261 load",
        F262 = "262 V = 0",
        F263Table = "263 table misaligned, more than 8 ones",
        F263Custom = "263 C = 1",
        F263Mode0 = "263 M = 0",
        F263Mode2 = "263 M = 2",
        F263Mode3Low = "263 M = 3, bits 9:3",
        F263Mode3High = "263 M = 3, bits 62:54",
        F263Mode1Low = "263 M = 1, bits 6:3",
        F263Mode1High = "263 M = 1, bits 62:54",
        F263SecondMiddle = "263 second doubleword, bits 59:54",
        F263SecondHigh = "263 second doubleword, bits 63:61",
        ExecuteAtRedirect = "cause 1 at a message entry, M = 3",
        ExecuteAtFile = "cause 1 at a message entry, M = 1",
        Redirect = "redirected",
        StoreAt0 = "stored at offset 0",
        StoreAt4 = "stored at offset 4",
        StoreMerged = "stored, was pending",
        StoreNew = "stored, was not pending",
        StoreZero = "stored, identity 0",
        StoreLast = "stored, identity 2047",
        NoticeBit10 = "stored, notice bit 10 set",
        StoreInMessageTable = "stored, file in the message table's first page, its entry in another",
        DiscardRead = "discarded, read",
        DiscardLength = "discarded, length",
        DiscardOffset = "discarded, offset",
        DiscardIdentity = "discarded, identity at offset 0",
        DiscardIdentityBig = "discarded, identity at offset 4",
        DiscardOutside = "discarded, file outside both windows",
        TakeOfOne = "take of 1",
        TakeOfZero = "take of 0",
        ReportMade = "report made",
        PassedFirstBySum = "translated, first stage only, by SUM",
        PassedBothBySum = "translated, both stages, by SUM",
    }
);

named!(
    /// The edges of a scheme's addresses: those that begin at 0, and those that end at 2^64 - 1 where
    /// a scheme has a sign.
    Edge {
        LastLow = "last of the low addresses",
        FirstAbove = "first above the low addresses",
        LastBelow = "last below the high addresses",
        FirstHigh = "first of the high addresses",
    }
);

named!(
    /// A field that holds a mode.
    Setting {
        Iohgatp = "iohgatp",
        DeviceFsc = "fsc of a device context, PDTV = 0",
        Pdtp = "fsc of a device context, PDTV = 1",
        ProcessFsc = "fsc of a process context",
    }
);

named!(
    /// The two words by which messages are recognised.
    Word {
        Mask = "mask",
        Pattern = "pattern",
    }
);

named!(
    /// The calls, whose checks stand in an order.
    Asked {
        Request = "request",
        Take = "take",
        TakeMany = "take of many",
        Report = "report",
    }
);

impl Asked {
    /// 01, the table of refusals, and 02, Req 05 and 12: the call's checks before any other step, in order.
    fn checks(self) -> &'static [u64] {
        match self {
            Asked::Request => &[2001, 2011, 2002, 2003, 2004, 2005, 2006],
            Asked::Take | Asked::TakeMany => &[2001, 2011, 2008, 2009],
            Asked::Report => &[2001, 2011, 2008],
        }
    }
}

/// A field of a context, as a check of its bits sees it.
#[derive(Clone, Copy, Debug, PartialEq, Eq, PartialOrd, Ord)]
pub enum Field {
    /// A mode.
    Mode(Setting, u64),
    /// The second stage's mode, and its root's page number modulo 4.
    Root(u64, u64),
    /// The highest one of a word; none where it is zero.
    Top(Word, Option<u32>),
}

impl Field {
    /// Every value that a check tells apart.
    fn all() -> Vec<Field> {
        let mut fields = Vec::new();
        for &setting in Setting::ALL {
            fields.extend((0..16).map(|mode| Field::Mode(setting, mode)));
        }
        for mode in [0, 8, 9, 10] {
            fields.extend((0..4).map(|quarter| Field::Root(mode, quarter)));
        }
        for &word in Word::ALL {
            fields.push(Field::Top(word, None));
            fields.extend((0..64).map(|top| Field::Top(word, Some(top))));
        }
        fields
    }

    /// The word that the checks must have for it (003, Tables 1 and 3, MGPAW; 01; 02, Req 03).
    fn accepted(self) -> bool {
        match self {
            Field::Mode(Setting::Pdtp, mode) => mode <= 3,
            Field::Mode(_, mode) => [0, 8, 9, 10].contains(&mode),
            Field::Root(mode, quarter) => mode == 0 || quarter == 0,
            Field::Top(_, top) => top.is_none_or(|top| top <= 46),
        }
    }

    fn name(self) -> String {
        match self {
            Field::Mode(setting, mode) => format!("{}: mode {mode}", setting.name()),
            Field::Root(mode, quarter) => {
                let scheme = scheme_name(&scheme::SECOND, mode);
                format!("{scheme}: root page number {quarter} modulo 4")
            }
            Field::Top(word, Some(top)) => format!("{}: highest one at bit {top}", word.name()),
            Field::Top(word, None) => format!("{}: no ones", word.name()),
        }
    }
}

/// The mode of a stage's scheme and the level of the page that it reached; none where it is Bare.
pub type Reached = Option<(u64, u64)>;

/// One look at the U bit of a leaf: what the rule of U goes by, and whether the page is open by it.
#[derive(Clone, Copy, Debug, PartialEq, Eq, PartialOrd, Ord)]
pub struct UserBit {
    pub supervisor: bool,
    /// SUM of the process context; a device context has none.
    pub sum: Option<bool>,
    /// U of the leaf.
    pub user: bool,
    /// The original access.
    pub access: Access,
    pub open: bool,
}

impl UserBit {
    fn name(self) -> String {
        let privilege = if self.supervisor {
            "supervisor"
        } else {
            "user"
        };
        let sum = match self.sum {
            Some(sum) => format!(", SUM = {}", u8::from(sum)),
            None => String::new(),
        };
        let user = u8::from(self.user);
        let access = self.access.name();
        let word = if self.open { "open" } else { "barred" };
        format!("{privilege}{sum}, U = {user}, {access}: {word}")
    }
}

/// One mark of coverage.
#[derive(Clone, Copy, Debug, PartialEq, Eq, PartialOrd, Ord)]
pub enum Mark {
    /// A check or outcome that stands alone.
    Point(Point),
    /// A call that is refused with the first number, while the check of the second is broken too.
    Before(Asked, u64, u64),
    /// A walk's reason for its fault.
    Entry(Walk, EntryFault),
    /// A walk's look at the U bit of a leaf: all of the first stage; of the second stage those for
    /// a supervisor under SUM = 1.
    User(Walk, UserBit),
    /// A walk's page fault under an original access.
    PageFault(Walk, Access),
    /// A walk's access violation under an original access.
    Violation(Walk, Access),
    /// A walk that reached a page: the mode of its scheme, and the level.
    Size(Walk, u64, u64),
    /// A walk that met a misaligned large page: the mode of its scheme, and the level.
    Misaligned(Walk, u64, u64),
    /// A walk at an edge of its scheme's addresses, by its mode, and whether it passed.
    Edge(Walk, u64, Edge, bool),
    /// A field of a context, and whether the checks accepted it.
    Field(Field, bool),
    /// A translation, by the page of the first stage and that of the second stage.
    Passed(Reached, Reached),
    /// A recognised address: the modes of both stages, and whether it is beyond the second one's
    /// limit.
    Recognised(u64, u64, bool),
    /// The highest one of a recognised page number, and the word that it stands in.
    TopBit(Word, u32),
    /// A call by how its windows lie, and its refusal by 2001 or 2011, or 0.
    Windows(Asked, Lie, u64),
    /// A table's entry by where it is, and the window in which it was found.
    Load(Table, Place, Option<Side>),
    /// An entry of the one table in this window, and the next load, of the other table, in the other.
    Crossed(Table, Table, Side),
    /// A file by where it is, and the window in which it was found.
    File(Purpose, Place, Option<Side>),
    /// A store by the windows of the message entry and of the file.
    Message(Side, Side),
    /// An answer's number, and the windows of the request's tables.
    Ended(u64, Over),
    /// A message, where its file or page is by the page of the device context and by that of the
    /// message entry, and whether it was refused with 2012.
    Beside(Message, Beside, Beside, bool),
    /// A store refused with 2012: the tables in whose page the file lies, and its window.
    OverTables(Held, Side),
    /// Where in the page of the one table's entry the file of a refused store is.
    Within(Table, Within),
    /// A store into a page in which the request read an entry of another table.
    StoredIn(Table),
    /// What a take of many was given and answered.
    Many(Many),
    /// A bit of a take of many's doubleword, and what became of it.
    Bit(BitCase),
    /// The bit of a doubleword that a take of many answered.
    AnsweredBit(u32),
    /// The doubleword in which a take of many answered a bit.
    AnsweredIn(usize),
    /// A cause, and the stage that found it.
    Cause(Stage, u64),
}

/// The observer that is told of each mark.
pub type See<'a> = &'a mut dyn FnMut(Mark);

/// The pairs of stage and cause that can arise.
pub const CAUSES: [(Stage, &[u64]); 5] = [
    (Stage::Directory, &[256, 257, 258, 259, 260, 1, 5, 7]),
    (Stage::ProcessDirectory, &[265, 266, 267]),
    (Stage::First, &[1, 5, 7, 12, 13, 15]),
    (Stage::Second, &[1, 5, 7, 20, 21, 23]),
    (Stage::MessageTable, &[1, 261, 262, 263]),
];

const OPEN: [bool; 3] = [true; 3];
const BARRED: [bool; 3] = [false; 3];

/// Walk, supervisor, SUM, U, and whether the page is then open to a read, a write and a
/// read-for-execute.
type UserRow = (Walk, bool, Option<bool>, bool, [bool; 3]);

/// The rule of U (01, The two walks; 003, Process-context, translation attributes; 02, Req 02).
const USER_RULE: [UserRow; 14] = [
    (Walk::First, true, Some(false), false, OPEN),
    (Walk::First, true, Some(false), true, BARRED),
    (Walk::First, true, Some(true), false, OPEN),
    (Walk::First, true, Some(true), true, [true, true, false]),
    (Walk::First, false, Some(false), false, BARRED),
    (Walk::First, false, Some(false), true, OPEN),
    (Walk::First, false, Some(true), false, BARRED),
    (Walk::First, false, Some(true), true, OPEN),
    // Only user requests come to a device context's own first stage.
    (Walk::First, false, None, false, BARRED),
    (Walk::First, false, None, true, OPEN),
    // The second stage under SUM = 1.
    (Walk::SecondFinal, true, Some(true), false, BARRED),
    (Walk::SecondFinal, true, Some(true), true, OPEN),
    (Walk::SecondForFirst, true, Some(true), false, BARRED),
    (Walk::SecondForFirst, true, Some(true), true, OPEN),
];

const SIZES: [&str; 5] = ["4 KiB", "2 MiB", "1 GiB", "512 GiB", "256 TiB"];

/// Whether a walk can end by this reason.
pub fn can_arise(walk: Walk, reason: EntryFault) -> bool {
    let first = walk == Walk::First;
    match reason {
        // The sign rule, and the rules of U by privilege and SUM, are the first stage's.
        EntryFault::Sign
        | EntryFault::UserNeedsUser
        | EntryFault::SupervisorWithoutSum
        | EntryFault::SupervisorExecutes => first,
        // The guest limit and its U rule are the second stage's.
        EntryFault::Limit | EntryFault::SecondNeedsUser => !first,
        // An implicit access is a read (D7).
        EntryFault::NoWrite | EntryFault::NoExecute | EntryFault::NotDirty => {
            first || walk == Walk::SecondFinal
        }
        _ => true,
    }
}

/// Every two checks of a call that can be broken at once.
fn order_marks() -> Vec<Mark> {
    let mut marks = Vec::new();
    for &asked in Asked::ALL {
        let checks = asked.checks();
        for (place, &first) in checks.iter().enumerate() {
            for &other in &checks[place + 1..] {
                // A process_id that is too wide isn't absent.
                if (first, other) != (2004, 2005) {
                    marks.push(Mark::Before(asked, first, other));
                }
            }
        }
    }
    marks
}

/// The marks of the rule of U, each with the word that it must have.
fn user_marks() -> Vec<Mark> {
    let mut marks = Vec::new();
    for (walk, supervisor, sum, user, opens) in USER_RULE {
        for (access, open) in Access::ALL.into_iter().zip(opens) {
            let look = UserBit {
                supervisor,
                sum,
                user,
                access,
                open,
            };
            marks.push(Mark::User(walk, look));
        }
    }
    marks
}

/// The schemes that a walk may go by.
fn schemes_of(walk: Walk) -> &'static [Scheme; 3] {
    match walk {
        Walk::First => &scheme::FIRST,
        _ => &scheme::SECOND,
    }
}

/// The name of a mode's scheme.
fn scheme_name(schemes: &'static [Scheme; 3], mode: u64) -> &'static str {
    of_mode(schemes, mode).map_or("Bare", |scheme| scheme.name)
}

/// The pages that a stage may end in, Bare among them.
fn pages(schemes: &'static [Scheme; 3]) -> Vec<Reached> {
    let mut pages = vec![None];
    for scheme in schemes {
        pages.extend((0..scheme.levels).map(|level| Some((scheme.mode, level))));
    }
    pages
}

/// Every walk with every page of its schemes, and every large page misaligned.
fn page_marks() -> Vec<Mark> {
    let mut marks = Vec::new();
    for &walk in Walk::ALL {
        for (mode, level) in pages(schemes_of(walk)).into_iter().flatten() {
            marks.push(Mark::Size(walk, mode, level));
        }
    }
    for &walk in Walk::ALL {
        for (mode, level) in pages(schemes_of(walk)).into_iter().flatten() {
            if level > 0 {
                marks.push(Mark::Misaligned(walk, mode, level));
            }
        }
    }
    marks
}

/// The edges of each walk's schemes, each with the word that it must have.
fn edge_marks() -> Vec<Mark> {
    let mut marks = Vec::new();
    for &walk in Walk::ALL {
        // Tables are named by page numbers of 44 bits, so that an entry's address stays below 2^56.
        let implicit = matches!(walk, Walk::SecondForFirst | Walk::SecondForProcess);
        for scheme in schemes_of(walk) {
            for &edge in Edge::ALL {
                let high = matches!(edge, Edge::LastBelow | Edge::FirstHigh);
                let legal = matches!(edge, Edge::LastLow | Edge::FirstHigh);
                let reached = !implicit || scheme.address_bits < 56;
                if reached && (scheme.signed || !high) {
                    marks.push(Mark::Edge(walk, scheme.mode, edge, legal));
                }
            }
        }
    }
    marks
}

/// Recognised addresses: every pair of schemes, and every bit of a page number.
fn message_marks() -> Vec<Mark> {
    let mut marks = Vec::new();
    for first in [0, 8, 9, 10] {
        for second in &scheme::SECOND {
            marks.push(Mark::Recognised(first, second.mode, false));
            // Nothing that a pattern of 47 bits recognises is beyond 59 bits.
            if second.address_bits < 59 {
                marks.push(Mark::Recognised(first, second.mode, true));
            }
        }
    }
    for &word in Word::ALL {
        marks.extend((0..47).map(|top| Mark::TopBit(word, top)));
    }
    marks
}

/// Every pair of pages that the two stages of a translation may end in.
fn passed_marks() -> Vec<Mark> {
    let mut marks = Vec::new();
    for first in pages(&scheme::FIRST) {
        let seconds = pages(&scheme::SECOND).into_iter();
        marks.extend(seconds.map(|second| Mark::Passed(first, second)));
    }
    marks
}

impl Mark {
    /// Every mark that can arise, in the order of the table.
    pub fn all() -> Vec<Mark> {
        let mut marks: Vec<Mark> = Point::ALL.iter().map(|point| Mark::Point(*point)).collect();
        marks.append(&mut order_marks());
        for &walk in Walk::ALL {
            for &reason in EntryFault::ALL {
                if can_arise(walk, reason) {
                    marks.push(Mark::Entry(walk, reason));
                }
            }
        }
        marks.append(&mut user_marks());
        for &walk in Walk::ALL {
            marks.extend(Access::ALL.map(|access| Mark::PageFault(walk, access)));
            marks.extend(Access::ALL.map(|access| Mark::Violation(walk, access)));
        }
        let fields = Field::all().into_iter();
        marks.extend(fields.map(|field| Mark::Field(field, field.accepted())));
        marks.append(&mut edge_marks());
        marks.append(&mut page_marks());
        marks.append(&mut message_marks());
        marks.append(&mut passed_marks());
        marks.append(&mut windows::marks());
        marks.append(&mut tables::marks());
        marks.append(&mut many::marks());
        for (stage, causes) in CAUSES {
            marks.extend(causes.iter().map(|cause| Mark::Cause(stage, *cause)));
        }
        marks
    }

    /// The group under which the table prints the mark.
    pub fn group(self) -> &'static str {
        match self {
            Mark::Point(_) => "checks and outcomes",
            Mark::Before(..) => "order of refusals, two checks broken",
            Mark::Entry(walk, _) => walk.name(),
            Mark::User(Walk::First, look) => match look.sum {
                Some(_) => "rule of U, first stage of a process context",
                None => "rule of U, first stage of a device context",
            },
            Mark::User(..) => "rule of U, second stage under SUM = 1",
            Mark::PageFault(..) | Mark::Violation(..) => "walk faults by original access",
            Mark::Field(Field::Mode(..), _) => "modes of contexts",
            Mark::Field(Field::Root(..), _) => "roots of second stages",
            Mark::Field(Field::Top(..), _) => "mask and pattern of contexts",
            Mark::Edge(..) => "edges of the schemes",
            Mark::Size(..) => "page sizes reached",
            Mark::Misaligned(..) => "misaligned large pages",
            Mark::Recognised(..) | Mark::TopBit(..) => "recognised addresses",
            Mark::Passed(..) => "translated, by the page of each stage",
            Mark::Windows(..) => "how the windows lie",
            Mark::Load(..) => "loads by window",
            Mark::Crossed(..) => "loads from window to window",
            Mark::File(..) | Mark::Message(..) => "files by window",
            Mark::Ended(..) => "answers by the windows of the tables",
            Mark::Beside(..) => "messages by the pages of device context and message entry",
            Mark::OverTables(..) | Mark::Within(..) => "2012 by page",
            Mark::StoredIn(_) => "stores into the pages of other tables",
            Mark::Many(_) => "takes of many",
            Mark::Bit(_) => "bits of a take of many",
            Mark::AnsweredBit(_) | Mark::AnsweredIn(_) => "answered bits of a take of many",
            Mark::Cause(..) => "cause by stage",
        }
    }

    /// The mark's name within its group.
    pub fn name(self) -> String {
        match self {
            Mark::Point(point) => point.name().to_string(),
            Mark::Before(asked, first, other) => {
                format!("{}: {first} before {other}", asked.name())
            }
            Mark::Entry(_, reason) => reason.name().to_string(),
            Mark::User(Walk::First, look) => look.name(),
            Mark::User(walk, look) => format!("{}: {}", walk.name(), look.name()),
            Mark::PageFault(walk, access) => {
                format!("{}: page fault, {}", walk.name(), access.name())
            }
            Mark::Violation(walk, access) => {
                format!("{}: access violation, {}", walk.name(), access.name())
            }
            Mark::Size(walk, mode, level) | Mark::Misaligned(walk, mode, level) => {
                let page = page_name(schemes_of(walk), Some((mode, level)));
                format!("{}: {page}", walk.name())
            }
            Mark::Edge(walk, mode, edge, passed) => {
                let scheme = scheme_name(schemes_of(walk), mode);
                let word = if passed { "passed" } else { "fault" };
                format!("{}: {scheme}, {}: {word}", walk.name(), edge.name())
            }
            Mark::Field(field, accepted) => {
                let word = if accepted { "accepted" } else { "refused" };
                format!("{}: {word}", field.name())
            }
            Mark::Passed(first, second) => {
                let first = page_name(&scheme::FIRST, first);
                format!("{first} on {}", page_name(&scheme::SECOND, second))
            }
            Mark::Recognised(first, second, beyond) => recognised_name(first, second, beyond),
            Mark::TopBit(word, top) => top_bit_name(word, top),
            Mark::Cause(stage, cause) => format!("{}: {cause}", stage.name()),
            _ => self.window_name(),
        }
    }

    /// The name of a mark about the windows.
    fn window_name(self) -> String {
        match self {
            Mark::Windows(asked, lie, refusal) => {
                let word = match refusal {
                    0 => "legal".to_string(),
                    _ => format!("refused {refusal}"),
                };
                format!("{}: {}: {word}", asked.name(), lie.name())
            }
            Mark::Load(table, place, found) => {
                format!("{} {}: {}", table.name(), place.name(), found_name(found))
            }
            Mark::Crossed(from, to, side) => {
                let (from, to) = (from.name(), to.name());
                format!("from a {from} in the {} window to a {to}", side.name())
            }
            Mark::File(purpose, place, found) => {
                let word = found_name(found);
                format!("{} of a file {}: {word}", purpose.name(), place.name())
            }
            Mark::Message(entry, file) => {
                let (entry, file) = (entry.name(), file.name());
                format!("stored, message entry in the {entry} window, file in the {file}")
            }
            Mark::Ended(answer, over) => format!("answer {answer}, {}", over.name()),
            _ => self.table_name(),
        }
    }

    /// The name of a mark about files over tables.
    fn table_name(self) -> String {
        match self {
            Mark::Beside(message, context, entry, refused) => {
                let (message, word) = (message.name(), if refused { ": refused" } else { "" });
                let (context, entry) = (context.name(), entry.name());
                format!("{message}, by the context {context}, by the entry {entry}{word}")
            }
            Mark::OverTables(over, side) => {
                format!("{}, {} window", over.name(), side.name())
            }
            Mark::Within(table, within) => format!("{}: {}", table.name(), within.name()),
            Mark::StoredIn(table) => format!("stored, page of a {}", table.name()),
            _ => self.many_name(),
        }
    }

    /// The name of a mark about takes of many.
    fn many_name(self) -> String {
        match self {
            Mark::Many(many) => many.name().to_string(),
            Mark::Bit(case) => case.name(),
            Mark::AnsweredBit(bit) => format!("bit {bit}"),
            Mark::AnsweredIn(doubleword) => format!("doubleword {doubleword}"),
            _ => String::new(),
        }
    }
}

/// Where something was found.
fn found_name(found: Option<Side>) -> String {
    match found {
        Some(side) => format!("found in the {}", side.name()),
        None => "not found".to_string(),
    }
}

/// The schemes of a recognised address, and its place by the second one's limit.
fn recognised_name(first: u64, second: u64, beyond: bool) -> String {
    let first = scheme_name(&scheme::FIRST, first);
    let second = scheme_name(&scheme::SECOND, second);
    let place = if beyond { "beyond" } else { "within" };
    format!("{first} on {second}: {place} the guest limit")
}

/// The highest bit of a recognised address, and its word.
fn top_bit_name(word: Word, top: u32) -> String {
    let bit = page_bits(0) + top;
    format!("highest one at address bit {bit}, in the {}", word.name())
}

/// The scheme of a stage and the size of its page.
fn page_name(schemes: &'static [Scheme; 3], reached: Reached) -> String {
    let Some((mode, level)) = reached else {
        return "Bare".to_string();
    };
    let size = SIZES.get(level as usize).unwrap_or(&"larger");
    format!("{} {size}", scheme_name(schemes, mode))
}
