//! What was compared: how often each thing was seen, what must be seen and how often, and the bytes
//! of the case in hand for the message of a failure.

use crate::lent::{CONTENTS, LENGTHS};
use reference::{ClashKind, Verdict};
use std::collections::{BTreeMap, VecDeque};
use std::fmt::{self, Display, Formatter};

/// The calls that are compared.
#[derive(Clone, Copy, Debug, PartialEq, Eq, PartialOrd, Ord)]
pub enum Call {
    Check,
    Make,
    /// A making with a rank list.
    RankMake,
    Read,
    List,
    Load,
    /// A load with a rank list.
    RankLoad,
    Mark,
    /// The printing of a sheet by the program print_plate.
    Print,
    /// A load that the program desk_session runs.
    RunLoad,
    /// A load with a rank list that the program desk_session runs.
    RunRank,
    /// A mark that the program desk_session runs.
    RunMark,
}

const CALLS: [Call; 12] = [
    Call::Check,
    Call::Make,
    Call::RankMake,
    Call::Read,
    Call::List,
    Call::Load,
    Call::RankLoad,
    Call::Mark,
    Call::Print,
    Call::RunLoad,
    Call::RunRank,
    Call::RunMark,
];

/// The calls that are lent a workspace.
const WITH_WORKSPACE: [Call; 4] = [Call::Make, Call::RankMake, Call::Load, Call::RankLoad];

/// Something that was seen.
#[derive(Clone, Copy, Debug, PartialEq, Eq, PartialOrd, Ord)]
pub enum Seen {
    /// A call was answered with a number, 0 for yes to all questions.
    Answer(Call, u8),
    /// A call was accepted, on a sheet of so many points.
    Points(Call, usize),
    /// A call, accepted or not, was lent a workspace of this content or length.
    Workspace(Call, bool, &'static str),
    /// A list was marked with this verdict.
    Verdict(Call, &'static str),
    /// A case had this feature.
    Feature(&'static str),
}

impl Display for Seen {
    fn fmt(&self, f: &mut Formatter) -> fmt::Result {
        match self {
            Seen::Answer(call, number) => write!(f, "{call:?} answered with {number}"),
            Seen::Points(call, n) => write!(f, "{call:?} accepted, {n} points"),
            Seen::Workspace(call, true, kind) => write!(f, "{call:?} accepted, workspace {kind}"),
            Seen::Workspace(call, false, kind) => write!(f, "{call:?} refused, workspace {kind}"),
            Seen::Verdict(call, verdict) => write!(f, "{call:?}: {verdict}"),
            Seen::Feature(feature) => write!(f, "{feature}"),
        }
    }
}

/// The numbers that each call can give, 0 for yes to all questions.
fn numbers_of(call: Call) -> Vec<u8> {
    let sheet = 11..=20;
    let own: &[u8] = match call {
        Call::Check => &[],
        Call::Print | Call::RunLoad => &[61],
        Call::RunRank => &[61, 62, 63],
        Call::Make => &[21, 22, 61],
        Call::RankMake => &[21, 22, 61, 62, 63],
        Call::Read => &[41, 42, 43, 44],
        Call::List => return vec![0],
        Call::Load => &[22, 61],
        Call::RankLoad => &[22, 61, 62, 63],
        Call::Mark | Call::RunMark => return vec![0, 31, 32, 33, 51, 52],
    };
    [0].into_iter()
        .chain(sheet)
        .chain(own.iter().copied())
        .collect()
}

/// A workspace with a number too few, where that was the first no.
pub const ONE_TOO_FEW: &str = "32,767, and refused with 22";

/// A workspace that a refusal with 61 zeroed, though it wasn't zero before.
pub const ZEROED_BY_61: &str = "not zero, and refused with 61";

/// Plates whose two counts, added as bytes, are n.
pub const WRAPPED: &str = "plates with counts that add to n + 256";

/// Plates with a point in margin column 0 that is just h below the previous one.
pub const STACKED: &str = "plates with outer labels without a gap";

/// Plates in which two outside points of one row have changed places.
pub const ROW_REVERSED: &str = "plates with a row's points reversed";

/// Plates with two outside points of one row, which are right otherwise.
pub const LEADERS_READ: &str = "plates read with two leaders in a row";

/// A loaded desk is given a sheet without a valid choice, or a rank list that is wrong.
pub const KEPT_BY_61: &str = "loads with 61 onto a loaded desk";
pub const KEPT_BY_62: &str = "loads with 62 onto a loaded desk";
pub const KEPT_BY_63: &str = "loads with 63 onto a loaded desk";

/// Desks that were looked at field by field, after an accepted load and after a refused one.
pub const WHOLE_LOADED: &str = "whole desks, a sheet loaded";
pub const WHOLE_REFUSED: &str = "whole desks, no sheet loaded";

/// A desk with ranks other than ones is given a sheet with a rank list, or without one.
pub const RANKS_REPLACED: &str = "ranks replaced by those of a list";
pub const RANKS_GONE: &str = "ranks replaced by ones";

/// Rank lists of ones that were accepted, with some points.
pub const RANKS_OF_ONES: &str = "rank lists of ones";

/// What is wrong with rank lists that got 62 or 63.
pub const RANK_FAULTS: [&str; 13] = [
    "62: no count byte",
    "62: another count, the length right",
    "62: another count, with its own ranks",
    "62: another count and another length",
    "62: a byte too short",
    "62: shorter than that",
    "62: a byte too long",
    "62: longer than that",
    "63: a rank of 0",
    "63: a rank of 10",
    "63: a rank of 255",
    "63: by the first rank alone",
    "63: by the last rank alone",
];

/// Rank lists with both faults, which got 62.
pub const BOTH_FAULTS: &str = "62: and a wrong rank";

/// Wrong rank lists that met an earlier no, or came before a later one.
pub const WRONG_BUT_SHEET: &str = "11 to 20 with a wrong rank list";
pub const WRONG_BUT_21: &str = "21 with a wrong rank list";
pub const WRONG_BUT_22: &str = "22 with a wrong rank list";
pub const WRONG_AND_NO_CHOICE: &str = "62 or 63 and no valid choice";

/// Ranked makings whose best choice is another than the one without a list, by how the reference
/// finds it, and those of them with fewer points inside.
pub const RANKS_DECIDED_TRIED: &str = "ranks decided, up to 12 points";
pub const RANKS_DECIDED_SEARCHED: &str = "ranks decided, above 12 points";
pub const RANKS_FOR_FEWER: &str = "ranks decided for fewer inside";

/// Valid lists whose sum of ranks isn't their count.
pub const SUMS: &str = "lists valid, the sum not the count";

/// Plates of random bytes.
pub const NEVER_A_PLATE: &str = "bytes that were never a plate";

/// Refused plates, as the exported call has them.
pub const EMPTY_START: &str = "refused plates with start 0, count 0";

/// Listings that don't fit, and listings of bytes that are no plate.
pub const LISTED_TOO_SHORT: &str = "listed: a buffer one byte too short";
pub const LISTED_NO_PLATE: &str = "listed: bytes that are no plate";
pub const LISTED_MANY: &str = "listed: more than 32 points";

/// How the reference found a best choice.
pub const TRIED: &str = "bests by every choice, up to 12 points";
pub const SEARCHED: &str = "bests by the search, above 12 points";

/// Ties: plates made, by how the reference finds the best sum, without a rank list and with one, and
/// plates printed.
pub const TIES_TRIED: &str = "ties decided, up to 12 points";
pub const TIES_SEARCHED: &str = "ties decided, above 12 points";
pub const RANKED_TIES_TRIED: &str = "ranked ties decided, up to 12 points";
pub const RANKED_TIES_SEARCHED: &str = "ranked ties decided, above 12 points";
pub const PRINTED_TIES: &str = "printed: ties decided";

/// The verdicts on lists.
const VERDICTS: [&str; 6] = [
    "lists valid, shortfall 0",
    "lists valid, shortfall above 0",
    "lists with a clash of labels",
    "lists with a clash with a leader",
    "lists with an overhang",
    "lists with a clash of leaders",
];

/// Which of the verdicts this one is.
fn verdict_name(verdict: Verdict) -> &'static str {
    match verdict {
        Verdict::Valid { shortfall: 0, .. } => VERDICTS[0],
        Verdict::Valid { .. } => VERDICTS[1],
        Verdict::Clash {
            kind: ClashKind::Labels,
            ..
        } => VERDICTS[2],
        Verdict::Clash {
            kind: ClashKind::LabelAndLeader,
            ..
        } => VERDICTS[3],
        Verdict::Clash {
            kind: ClashKind::Overhang,
            ..
        } => VERDICTS[4],
        Verdict::Clash {
            kind: ClashKind::Leaders,
            ..
        } => VERDICTS[5],
    }
}

/// The calls that have a verdict.
const WITH_VERDICT: [Call; 2] = [Call::Mark, Call::RunMark];

/// Printed plates whose last outside point isn't in the greatest margin column, and which use another
/// count of margin columns than they have points outside.
pub const PRINTED_NOT_LAST: &str = "printed: the last outside isn't leftmost";

/// Inputs of the programs that come in pieces.
pub const PRINTED_PIECES: &str = "printed: an input in pieces";
pub const SCRIPT_PIECES: &str = "scripts in pieces";

/// Features that must have been seen, beside the faults of rank lists.
const FEATURES: [&str; 74] = [
    "best plates with every point inside",
    "best plates with points outside",
    TRIED,
    SEARCHED,
    TIES_TRIED,
    TIES_SEARCHED,
    RANKED_TIES_TRIED,
    RANKED_TIES_SEARCHED,
    RANKS_DECIDED_TRIED,
    RANKS_DECIDED_SEARCHED,
    RANKS_FOR_FEWER,
    RANKS_OF_ONES,
    BOTH_FAULTS,
    WRONG_BUT_SHEET,
    WRONG_BUT_21,
    WRONG_BUT_22,
    WRONG_AND_NO_CHOICE,
    SUMS,
    "sheets with equal columns",
    "sheets with distinct rows",
    "sheets with shared rows",
    "sheets with shared rows, best made",
    "sheets with shared rows and no choice",
    "sheets with label width 1",
    "sheets with label width 256",
    "sheets with label height 1",
    "sheets with label height 256",
    "sheets with a map side of 4096",
    "makings with longer buffers",
    "accepted plates that are not best",
    "damaged sheets in plates",
    WRAPPED,
    STACKED,
    ROW_REVERSED,
    LEADERS_READ,
    EMPTY_START,
    NEVER_A_PLATE,
    LISTED_TOO_SHORT,
    LISTED_NO_PLATE,
    LISTED_MANY,
    "loads onto a loaded desk",
    KEPT_BY_61,
    KEPT_BY_62,
    KEPT_BY_63,
    RANKS_REPLACED,
    RANKS_GONE,
    WHOLE_LOADED,
    WHOLE_REFUSED,
    "loads after number 9999",
    "printed: no margin column",
    "printed: 1 margin column",
    "printed: several margin columns",
    PRINTED_NOT_LAST,
    PRINTED_TIES,
    "printed: an input of 0 bytes",
    "printed: an input above 4,096 bytes",
    PRINTED_PIECES,
    "scripts without a byte",
    "scripts without a bad call",
    "scripts' parts of 0 bytes",
    "scripts' parts above 4,096 bytes",
    "scripts' loads after marks",
    "bad calls of kind 0",
    "bad calls of kind 4",
    "bad calls of kind 13",
    "bad calls of kind 255",
    "bad calls of other kinds",
    "bad calls cut after the kind",
    "bad calls cut in the length",
    "bad calls cut in the bytes",
    "bad calls cut in the second part",
    "bad calls after good ones",
    "bad calls with calls after them",
    SCRIPT_PIECES,
];

/// How often each answer of each call, each point count, each workspace and a tie must be seen; and the
/// same of a program, which is run less often, as its start takes a millisecond. It is so far below what
/// is to be expected that no seed misses it by chance.
const OFTEN: u64 = 50;
const OFTEN_OF_PROGRAM: u64 = 3;

fn often(call: Call) -> u64 {
    match call {
        Call::Print | Call::RunLoad | Call::RunRank | Call::RunMark => OFTEN_OF_PROGRAM,
        _ => OFTEN,
    }
}

fn often_of_feature(feature: &str) -> u64 {
    match feature {
        TIES_TRIED | TIES_SEARCHED | RANKED_TIES_TRIED | RANKED_TIES_SEARCHED => OFTEN,
        RANKS_DECIDED_TRIED | RANKS_DECIDED_SEARCHED | RANKS_FOR_FEWER => OFTEN,
        RANKS_OF_ONES | BOTH_FAULTS | SUMS | RANKS_REPLACED | RANKS_GONE => OFTEN,
        WHOLE_LOADED | WHOLE_REFUSED => OFTEN,
        WRONG_BUT_SHEET | WRONG_BUT_21 | WRONG_BUT_22 | WRONG_AND_NO_CHOICE => OFTEN,
        PRINTED_TIES => OFTEN_OF_PROGRAM,
        _ => 1,
    }
}

/// All that must be seen with a seed, and how often.
fn required() -> Vec<(Seen, u64)> {
    let mut required = Vec::new();
    for call in CALLS {
        let answers = numbers_of(call).into_iter();
        required.extend(answers.map(|number| (Seen::Answer(call, number), often(call))));
        required.extend((0..=32).map(|n| (Seen::Points(call, n), often(call))));
    }
    for (call, accepted, kind) in workspaces() {
        required.push((Seen::Workspace(call, accepted, kind), OFTEN));
    }
    for call in WITH_VERDICT {
        required.extend(VERDICTS.map(|verdict| (Seen::Verdict(call, verdict), often(call))));
    }
    required.extend(FEATURES.map(|feature| (Seen::Feature(feature), often_of_feature(feature))));
    required.extend(RANK_FAULTS.map(|fault| (Seen::Feature(fault), OFTEN)));
    required
}

/// The workspaces that must have been lent: too short ones to refused calls, all others to
/// accepted and to refused ones.
fn workspaces() -> Vec<(Call, bool, &'static str)> {
    let mut workspaces = Vec::new();
    for call in WITH_WORKSPACE {
        for kind in workspace_kinds() {
            workspaces.push((call, false, kind));
            if ![LENGTHS[0], LENGTHS[1], ONE_TOO_FEW, ZEROED_BY_61].contains(&kind) {
                workspaces.push((call, true, kind));
            }
        }
    }
    workspaces
}

/// The contents and the lengths of workspaces.
fn workspace_kinds() -> impl Iterator<Item = &'static str> {
    let kinds = CONTENTS.into_iter().chain(LENGTHS);
    kinds.chain([ONE_TOO_FEW, ZEROED_BY_61])
}

/// So many calls of a case are kept for the message of a failure.
const KEPT: usize = 500;

#[derive(Default)]
pub struct Report {
    cases: u64,
    counts: BTreeMap<Seen, u64>,
    held: VecDeque<(&'static str, Vec<u8>)>,
}

impl Report {
    /// A new case: no bytes in hand.
    pub fn new_case(&mut self) {
        self.cases += 1;
        self.held.clear();
    }

    /// The next bytes of the case in hand.
    pub fn hold(&mut self, name: &'static str, bytes: &[u8]) {
        if self.held.len() == KEPT {
            self.held.pop_front();
        }
        self.held.push_back((name, bytes.to_vec()));
    }

    /// The bytes of the case in hand, a line each.
    pub fn held(&self) -> String {
        self.held
            .iter()
            .map(|(name, bytes)| format!("  {name} ({}):{}\n", bytes.len(), hex(bytes)))
            .collect()
    }

    /// This was seen.
    pub fn saw(&mut self, seen: Seen) {
        *self.counts.entry(seen).or_default() += 1;
    }

    /// A case had one of the features.
    pub fn feature(&mut self, feature: &'static str) {
        self.saw(Seen::Feature(feature));
    }

    /// A call was answered with this number by both.
    pub fn answered(&mut self, call: Call, number: u8) {
        self.saw(Seen::Answer(call, number));
    }

    /// A list was marked with this verdict by both.
    pub fn verdict(&mut self, call: Call, verdict: Verdict) {
        self.saw(Seen::Verdict(call, verdict_name(verdict)));
    }

    /// A call on a sheet of n points was accepted by both.
    pub fn accepted(&mut self, call: Call, n: usize) {
        self.saw(Seen::Points(call, n));
    }

    /// Adds what another report has seen.
    pub fn add(&mut self, other: &Report) {
        self.cases += other.cases;
        for (&seen, count) in &other.counts {
            *self.counts.entry(seen).or_default() += count;
        }
    }

    fn count(&self, seen: Seen) -> u64 {
        self.counts.get(&seen).copied().unwrap_or(0)
    }

    pub fn cases(&self) -> u64 {
        self.cases
    }

    /// How many calls were compared.
    pub fn calls(&self) -> u64 {
        let answers = |seen: &Seen| matches!(seen, Seen::Answer(..));
        let counts = self.counts.iter().filter(|(seen, _)| answers(seen));
        counts.map(|(_, count)| count).sum()
    }

    /// What had to be seen, and wasn't or too seldom.
    pub fn missing(&self) -> Vec<String> {
        required()
            .into_iter()
            .map(|(seen, least)| (seen, least, self.count(seen)))
            .filter(|(_, least, count)| count < least)
            .map(|(seen, least, count)| format!("{seen}: {count} times, not {least} or more"))
            .collect()
    }

    /// The tables.
    pub fn tables(&self) -> String {
        [
            self.answers(),
            self.points(),
            self.workspaces(),
            self.verdicts(),
            RANK_FAULTS
                .into_iter()
                .chain(FEATURES)
                .map(|feature| (feature, self.count(Seen::Feature(feature))))
                .map(|(feature, count)| format!("{feature:<40}{count:>9}\n"))
                .collect(),
        ]
        .join("\n")
    }

    /// A row for each number, a column for each call.
    fn answers(&self) -> String {
        let mut text = row("number", CALLS.map(|call| format!("{call:?}")));
        for number in 0..=u8::MAX {
            let counts = CALLS.map(|call| self.count(Seen::Answer(call, number)));
            let name = match number {
                0 => "yes".to_string(),
                _ => number.to_string(),
            };
            if counts.iter().any(|&count| count > 0) {
                text.push_str(&row(&name, counts.map(unless_0)));
            }
        }
        text
    }

    /// How often each call was accepted on a sheet of n points, for the n with the fewest and
    /// for the n with the most.
    fn points(&self) -> String {
        let counts = |call| (0..=32).map(move |n| self.count(Seen::Points(call, n)));
        let least = CALLS.map(|call| unless_0(counts(call).min().unwrap_or(0)));
        let most = CALLS.map(|call| unless_0(counts(call).max().unwrap_or(0)));
        row("yes for each n from 0 to 32, at least", least) + &row("at most", most)
    }

    /// A row for each content and length of workspaces.
    fn workspaces(&self) -> String {
        let columns =
            WITH_WORKSPACE.map(|call| format!("{:>9}{:>9}", format!("{call:?}"), "refused"));
        let mut text = row("workspace", columns);
        for kind in workspace_kinds() {
            let count =
                |call, accepted| unless_0(self.count(Seen::Workspace(call, accepted, kind)));
            let both = |call| format!("{:>9}{:>9}", count(call, true), count(call, false));
            text.push_str(&row(kind, WITH_WORKSPACE.map(both)));
        }
        text
    }

    /// A row for each verdict.
    fn verdicts(&self) -> String {
        let mut text = row("verdict", WITH_VERDICT.map(|call| format!("{call:?}")));
        for verdict in VERDICTS {
            let counts = WITH_VERDICT.map(|call| self.count(Seen::Verdict(call, verdict)));
            text.push_str(&row(verdict, counts.map(unless_0)));
        }
        text
    }
}

/// A line of a table.
fn row<const N: usize>(name: &str, cells: [String; N]) -> String {
    let cells: String = cells.iter().map(|cell| format!("{cell:>9}")).collect();
    format!("{name:<40}{cells}\n")
}

/// A count; nothing for 0.
fn unless_0(count: u64) -> String {
    match count {
        0 => String::new(),
        _ => count.to_string(),
    }
}

fn hex(bytes: &[u8]) -> String {
    bytes.iter().map(|byte| format!(" {byte:02x}")).collect()
}
