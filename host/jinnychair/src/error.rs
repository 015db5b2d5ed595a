//! Why an operation refuses. Each enum has one operation's refusals; `number` gives the number that the C boundary and the documents
//! have for each, and `Display` says the cause and what to do.

use std::error::Error;
use std::fmt::{Display, Formatter, Result as FmtResult};

/// What is wrong and what to do, number by number, as docs/NUMBERS.md has it.
macro_rules! refusal {
    (1 $part:ident) => { part!($part "fewer than 3 views", "Take more views of the plate, each held at another angle.") };
    (2 $part:ident) => { part!($part "a tilt list is empty", "Give at least one tilt for x and one for y; `0` alone will do.") };
    (3 $part:ident) => { part!($part "`max_abs_tilt` isn't finite or isn't above 0", "Give the largest tilt that the mount allows, in radians.") };
    (4 $part:ident) => { part!($part "rounds are asked for and `refine_step` isn't finite or isn't above 0", "Give a step in radians, or ask for 0 rounds.") };
    (5 $part:ident) => { part!($part "more than 16 tilts in a list, 256 decomposition seeds or 16 rounds; or the seeds aren't in sixes", "Shorten the lists. A seed is fx, fy, cx, cy, tilt x, tilt y.") };
    (6 $part:ident) => { part!($part "a decomposition seed has a number that isn't finite, a focal length not above 0, or a tilt beyond the bound", "Leave such seeds out before Start, or raise the bound.") };
    (7 $part:ident) => { part!($part "a tilt of a list isn't finite", "Look for a division by 0 or a missing value where the lists are made.") };
    (8 $part:ident) => { part!($part "the seed list is too short", "Lend `max(54, 6 × (decomposition seeds + x tilts × y tilts))` numbers.") };
    (9 $part:ident) => { part!($part "a seed is waiting for its answer", "Answer it first; send Failed if there is no camera.") };
    (10 $part:ident) => { part!($part "the lent list is shorter than 8 demands", "Lend the list that Start wrote, whole.") };
    (11 $part:ident) => { part!($part "the run ended and no candidate was scored", "Look at the outcomes' skip reasons. It ends so at once where no tilt of the grid is within the bound and there are no decomposition seeds.") };
    (12 $part:ident) => { part!($part "no seed is waiting", "Call Next first. Also where the record isn't one that Start or a call returned.") };
    (13 $part:ident) => { part!($part "more than 1,024 rows, not four numbers for each flag, or a flag above 1", "Send fewer dots; check that rows and flags have the same count.") };
    (14 $part:ident) => { part!($part "the run isn't over", "Go on with Next and Answer until Next says Over.") };
    (15 $part:ident) => { part!($part "the tilt's determinant is 0", "The sines and cosines aren't those of a tilt below 90°; of tilts up to 0.5 the library's own never give it.") };
    (16 $part:ident) => { part!($part "no camera has this conic", "The views are too alike: turn the plate further between them.") };
    (17 $part:ident) => { part!($part "more than 400 points", "Split or thin out longer ones.") };
    (18 $part:ident) => { part!($part "the destination is too short", "Lend as many numbers as the points have; for rows 18 for each source point.") };
    (19 $part:ident) => { part!($part "no points, or all in one place (mean distance at most 2^-52)", "Check that the dots were found.") };
    (20 $part:ident) => { part!($part "a source coordinate isn't finite", "Check the plate's description.") };
    (21 $part:ident) => { part!($part "a destination coordinate isn't finite", "Drop dots that weren't found.") };
    (22 $part:ident) => { part!($part "fewer than 4 source points", "Use views with at least 4 dots.") };
    (23 $part:ident) => { part!($part "not as many destination points as source points", "Pair each dot with its pixel.") };
    (24 $part:ident) => { part!($part "the source points lie on a line", "Use dots from more than one row of the plate.") };
    (25 $part:ident) => { part!($part "the destination points lie on a line", "The plate was seen edge on: drop the view.") };
    (27 $part:ident) => { part!($part "`max_abs_tilt` is above 0.5 radians, which is 28.6 degrees, or a tilt is NaN or beyond that", "Were degrees typed for radians? 3 degrees are 0.052. From Answer: the list was changed between the calls; Failed moves the run on.") };
    (28 $part:ident) => { part!($part "the buffer is below 256 bytes, the number above 655, the round above 16, or a score isn't a number", "Lend 256 bytes, and write the line that the search gave.") };
    (28 report $part:ident) => { part!($part "the buffer is below 24 bytes, or the five counts add up to more than 656", "Lend 24 bytes, and report the counts that the search gave, of one run.") };
    (29 $part:ident) => { part!($part "this isn't a line of a journal", "Look whether the file is a journal, and whether it was cut off or changed here. The lines before it are good.") };
    (30 $part:ident) => { part!($part "the line isn't the run's: its number, round or seed isn't the next one, its camera, mean or score can't be that of an answer, or the run was over before it", "Look whether the inputs are this journal's, and whether it was changed here or before. The lines before it were taken.") };
    (31 $part:ident) => { part!($part "the search has one axis, and its y list isn't the single value 0", "Give `0` alone for y; or search both axes.") };
    (32 $part:ident) => { part!($part "the search has one axis, and a decomposition seed has a tilt y other than 0", "Set tilt y of such seeds to 0, or leave them out; or search both axes.") };
    (33 $part:ident) => { part!($part "`min_counted` is above 100", "Give a whole per cent from 0 to 100.") };
    (34 $part:ident) => { part!($part "no power of two from 1 to 256 makes whole numbers in their ranges of all four", "Choose fx, fy, cx, cy as whole numbers times 1, 2, 4 .. or 256: 1 to 256 of them for fx and fy, −256 to 256 for cx and cy. For example 800, 808, 640, −480.") };
}

/// Either of two texts.
macro_rules! part {
    (fault $fault:literal, $remedy:literal) => {
        $fault
    };
    (remedy $fault:literal, $remedy:literal) => {
        $remedy
    };
}
pub(crate) use part;

/// Declares an enum of numbers, whose texts are those of the macro named before it. Where two operations have
/// different texts for one number, the word after `of` says which they are.
macro_rules! numbered {
    ($texts:ident $(#[$doc:meta])* $name:ident { $($variant:ident = $number:tt $(of $which:ident)?;)+ }) => {
        $(#[$doc])*
        #[derive(Clone, Copy, Debug, PartialEq, Eq)]
        #[non_exhaustive]
        pub enum $name {
            $(#[doc = concat!($number, ": ", $texts!($number $($which)? fault), ". ", $texts!($number $($which)? remedy))] $variant,)+
        }

        impl $name {
            /// All of them, in the order in which they are looked for.
            pub const ALL: &[Self] = &[$(Self::$variant),+];

            /// Its number.
            #[must_use]
            pub fn number(self) -> u8 {
                match self {
                    $(Self::$variant => $number,)+
                }
            }

            /// What is wrong.
            #[must_use]
            pub fn fault(self) -> &'static str {
                match self {
                    $(Self::$variant => $texts!($number $($which)? fault),)+
                }
            }

            /// What to do.
            #[must_use]
            pub fn remedy(self) -> &'static str {
                match self {
                    $(Self::$variant => $texts!($number $($which)? remedy),)+
                }
            }

            pub(crate) fn of_number(number: u8) -> Self {
                match number {
                    $($number => Self::$variant,)+
                    _ => unreachable!("{} has no number {number}", stringify!($name)),
                }
            }
        }

        impl Display for $name {
            fn fmt(&self, f: &mut Formatter) -> FmtResult {
                write!(f, "{} ({}). {}", self.fault(), self.number(), self.remedy())
            }
        }
    };
}
pub(crate) use numbered;

/// Declares an operation's refusals.
macro_rules! refusals {
    ($(#[$doc:meta])* $name:ident { $($body:tt)+ }) => {
        numbered! { refusal $(#[$doc])* $name { $($body)+ } }

        impl $name {
            /// The refusal of a number, or nothing for 0.
            #[inline]
            pub(crate) fn check(number: u8) -> Result<(), Self> {
                if number == 0 { Ok(()) } else { Err(Self::of_number(number)) }
            }
        }

        impl Error for $name {}
    };
}

refusals! {
    /// Why a search can't start.
    StartError {
        TooFewViews = 1;
        NoTilts = 2;
        BadBound = 3;
        BadStep = 4;
        TooMany = 5;
        BadSeed = 6;
        TiltNotFinite = 7;
        ListTooShort = 8;
        TiltTooLarge = 27;
        TiltsOffAxis = 31;
        SeedOffAxis = 32;
        ShareTooLarge = 33;
    }
}

refusals! {
    /// Why no seed is handed out.
    NextError {
        SeedWaiting = 9;
        ListShortened = 10;
        NothingScored = 11;
    }
}

refusals! {
    /// Why an answer is refused. The seed goes on waiting.
    AnswerError {
        NoSeedWaiting = 12;
        ListShortened = 10;
        BadRows = 13;
        TiltTooLarge = 27;
    }
}

refusals! {
    /// Why there is no result.
    ResultError {
        NotOver = 14;
        NothingScored = 11;
    }
}

refusals! {
    /// Why a run doesn't say how it stands.
    StopError {
        ListShortened = 10;
    }
}

refusals! {
    /// Why nothing is written. The buffer is unchanged.
    WriteError {
        NotWritable = 28;
    }
}

refusals! {
    /// Why no report is written. The buffer is unchanged.
    ReportError {
        NotWritable = 28 of report;
    }
}

refusals! {
    /// Why a line of a journal is refused.
    LineRefusal {
        NotALine = 29;
        NotTheRun = 30;
    }
}

refusals! {
    /// Why points aren't mapped. The destination is unchanged.
    PointMapError {
        BadPoints = 17;
        DestinationTooShort = 18;
        SingularTilt = 15;
    }
}

refusals! {
    /// Why a tilt has no sine and no cosine here.
    TrigError {
        TiltTooLarge = 27;
    }
}

refusals! {
    /// Why errors aren't counted: an answer would be refused for the same reason.
    CountError {
        BadRows = 13;
        TiltTooLarge = 27;
    }
}

refusals! {
    /// Why a tilt has no inverse.
    TiltError {
        SingularTilt = 15;
    }
}

refusals! {
    /// Why six numbers are no camera's conic.
    ConicError {
        DegenerateViews = 16;
    }
}

refusals! {
    /// Why a camera has no plate with a known answer.
    PlateError {
        NoSharedPower = 34;
    }
}

refusals! {
    /// Why points can't be normalised. The destination is unchanged.
    NormalizeError {
        BadPoints = 17;
        DestinationTooShort = 18;
        Coincident = 19;
    }
}

refusals! {
    /// Why there are no design rows. The destination is unchanged.
    RowsError {
        BadPoints = 17;
        DestinationTooShort = 18;
        SourceNotFinite = 20;
        DestinationNotFinite = 21;
        TooFewPoints = 22;
        CountsDiffer = 23;
        SourceCollinear = 24;
        DestinationCollinear = 25;
    }
}

/// Why a journal isn't replayed to its end.
#[derive(Clone, Copy, Debug, PartialEq, Eq)]
#[non_exhaustive]
pub enum ReplayError {
    /// The inputs are refused, as a search refuses them.
    Start(StartError),
    /// 29: what stands there isn't a line.
    NotALine {
        /// Its number, counted from 1.
        line: usize,
    },
    /// 30: the line isn't the run's. [`crate::journal::what_differs`] says why.
    NotTheRun {
        /// Its number, counted from 1.
        line: usize,
    },
}

impl ReplayError {
    /// The refusal's number.
    #[must_use]
    pub fn number(self) -> u8 {
        match self {
            Self::Start(error) => error.number(),
            Self::NotALine { .. } => LineRefusal::NotALine.number(),
            Self::NotTheRun { .. } => LineRefusal::NotTheRun.number(),
        }
    }
}

impl Display for ReplayError {
    fn fmt(&self, f: &mut Formatter) -> FmtResult {
        match self {
            Self::Start(error) => error.fmt(f),
            Self::NotALine { line } => write!(f, "line {line}: {}", LineRefusal::NotALine),
            Self::NotTheRun { line } => write!(f, "line {line}: {}", LineRefusal::NotTheRun),
        }
    }
}

impl Error for ReplayError {}

impl From<StartError> for ReplayError {
    fn from(error: StartError) -> Self {
        Self::Start(error)
    }
}

/// Why a search that runs by itself has no result: which call was refused, and why.
#[derive(Clone, Copy, Debug, PartialEq, Eq)]
#[non_exhaustive]
pub enum RunError {
    /// No seed is handed out.
    Next(NextError),
    /// The solution is refused, and its seed goes on waiting.
    Answer(AnswerError),
    /// There is no result.
    Result(ResultError),
}

impl RunError {
    /// The refusal's number.
    #[must_use]
    pub fn number(self) -> u8 {
        match self {
            Self::Next(error) => error.number(),
            Self::Answer(error) => error.number(),
            Self::Result(error) => error.number(),
        }
    }
}

impl Display for RunError {
    fn fmt(&self, f: &mut Formatter) -> FmtResult {
        match self {
            Self::Next(error) => error.fmt(f),
            Self::Answer(error) => error.fmt(f),
            Self::Result(error) => error.fmt(f),
        }
    }
}

impl Error for RunError {}

impl From<NextError> for RunError {
    fn from(error: NextError) -> Self {
        Self::Next(error)
    }
}

impl From<AnswerError> for RunError {
    fn from(error: AnswerError) -> Self {
        Self::Answer(error)
    }
}

impl From<ResultError> for RunError {
    fn from(error: ResultError) -> Self {
        Self::Result(error)
    }
}
