//! Why a call was refused. docs/GLOSSARY.md has the same reasons as a table, and a test compares both.
use std::fmt;

/// The calls, as far as they refuse for different reasons.
#[derive(Clone, Copy, Debug, PartialEq, Eq)]
pub enum Call {
    /// A mask or the named values of a plan.
    Masks,
    /// `evaluate`: one row.
    Row,
    Cell,
    /// The vectors of catalogue positions.
    Catalogue,
    FieldOfRegard,
    Begin,
    Work,
    WorkRange,
    Recover,
    Collect,
    /// The cost of a plan of a size, or a plan of that size.
    Cost,
    /// A listing of windows, as columns or as records.
    Windows,
    Expand,
    Seconds,
}

/// Declares the reasons with their numbers.
macro_rules! reasons {
    ($($name:ident = $number:literal,)*) => {
        /// A condition that refuses a call, under the number that `include/wilfnusk.h` gives it.
        #[derive(Clone, Copy, Debug, PartialEq, Eq, PartialOrd, Ord, Hash)]
        #[repr(u8)]
        pub enum Reason {
            $($name = $number,)*
        }

        impl Reason {
            /// Every reason, by its number.
            pub const ALL: &'static [Reason] = &[$(Reason::$name),*];
        }
    };
}

reasons! {
    LengthsDoNotFit = 1,
    TooLarge = 2,
    RollCountOutOfRange = 3,
    PositionOutOfRange = 4,
    TargetOutOfRange = 5,
    PanelOutOfRange = 6,
    OutputTooShort = 7,
    TimeOutOfRange = 8,
    NoSuchIndex = 9,
    ChunkHasLine = 10,
    JournalNotRight = 11,
    JournalTorn = 12,
    JournalNotEmpty = 13,
    SampleInvalid = 14,
    ChunkLacksLine = 15,
    RadecOutOfRange = 16,
    ToleranceCountDiffers = 17,
    RollTableLength = 18,
    RollTableEntry = 19,
    TargetNotUnit = 20,
}

impl Reason {
    pub fn number(self) -> u8 {
        self as u8
    }
}

/// A refused call: the first of its conditions that held. It changed nothing that was passed to it.
///
/// ```
/// let refusal = wilfnusk::cost(1, 1, 0).unwrap_err();
/// assert_eq!(refusal.reason(), wilfnusk::Reason::RollCountOutOfRange);
/// assert_eq!(refusal.to_string(), "refused with 3: the number of rolls is not within 1 to 3,600");
/// ```
#[derive(Clone, Copy, PartialEq, Eq)]
pub struct Refusal {
    reason: Reason,
    call: Call,
}

impl Refusal {
    /// The refusal that a C answer below 0 stands for.
    pub(crate) fn of(call: Call, answer: i64) -> Refusal {
        let reason = Reason::ALL.iter().find(|reason| -i64::from(reason.number()) == answer);
        Refusal { reason: *reason.expect("an answer that include/wilfnusk.h does not list"), call }
    }
    pub fn reason(self) -> Reason {
        self.reason
    }
    pub fn number(self) -> u8 {
        self.reason.number()
    }
    pub fn call(self) -> Call {
        self.call
    }
    /// What the reason means for this call.
    pub fn sentence(self) -> &'static str {
        use Call::*;
        use Reason::*;
        match (self.reason, self.call) {
            (LengthsDoNotFit, Begin | Work | WorkRange | Recover | Collect) => "the length of targets, suns or observers is not a multiple of 3, the lengths of suns and observers differ, or the used length is beyond the journal's buffer",
            (LengthsDoNotFit, Windows) => "the lengths of mask, times, severities or output columns differ",
            (LengthsDoNotFit, Expand | Seconds) => "the lists of first and last times differ in length",
            (LengthsDoNotFit, Catalogue) => "the lists of right ascensions and declinations differ in length",
            (LengthsDoNotFit, _) => "the length of targets, suns or observers is not a multiple of 3, or the lengths of suns and observers differ",
            (TooLarge, Windows) => "more than 65,536 samples",
            (TooLarge, Expand) => "more than 65,536 windows or times",
            (TooLarge, Seconds) => "more than 65,536 windows",
            (TooLarge, _) => "more than 65,536 targets or times, or more than 1,048,576 cells",
            (RollCountOutOfRange, Masks | FieldOfRegard) => "the number of rolls is over 3,600",
            (RollCountOutOfRange, _) => "the number of rolls is not within 1 to 3,600",
            (PositionOutOfRange, _) => "a Sun or observer number is not finite or is over 1e100 in size",
            (TargetOutOfRange, _) => "a target component is not within -1 to 1",
            (PanelOutOfRange, _) => "a component of the panel normal is not finite or is over 1e100 in size",
            (OutputTooShort, Begin | Work | WorkRange) => "the journal's buffer has no room for the bytes to add",
            (OutputTooShort, Windows) => "there are more windows than places",
            (OutputTooShort, _) => "an output is shorter than needed",
            (TimeOutOfRange, _) => "a time is beyond 4,000,000,000,000,000,000 nanoseconds either way",
            (NoSuchIndex, Row) => "there is no such target",
            (NoSuchIndex, FieldOfRegard) => "the time index is not below the number of times",
            (NoSuchIndex, WorkRange) => "there is no chunk in the range, or no such chunk",
            (NoSuchIndex, _) => "there is no such chunk",
            (ChunkHasLine, _) => "the chunk already has a line in the journal",
            (JournalNotRight, _) => "the journal is not right: it has another plan's header, or a line that no sweep of this plan writes",
            (JournalTorn, _) => "the journal's header is incomplete, or bytes follow its last whole line",
            (JournalNotEmpty, _) => "the journal is not empty",
            (SampleInvalid, _) => "a mask byte is neither 0 nor 1, or a severity is NaN, infinite or has its sign bit set",
            (ChunkLacksLine, _) => "a chunk has no line in the journal",
            (RadecOutOfRange, _) => "a right ascension is not within 0 to 360 degrees, or a declination is not within -90 to 90",
            (ToleranceCountDiffers, _) => "the number of tolerances differs from the number of targets",
            (RollTableLength, _) => "the table of rolls is empty or has more than 3,600 rolls",
            (RollTableEntry, _) => "a roll of the table is not within 0 to below 360, or is not above the roll before it",
            (TargetNotUnit, _) => "the squared length of a target is not within 1e-9 of 1",
        }
    }
}

impl fmt::Display for Refusal {
    fn fmt(&self, f: &mut fmt::Formatter) -> fmt::Result {
        write!(f, "refused with {}: {}", self.number(), self.sentence())
    }
}

impl fmt::Debug for Refusal {
    fn fmt(&self, f: &mut fmt::Formatter) -> fmt::Result {
        write!(f, "Refusal({} in {:?}: {})", self.number(), self.call, self.sentence())
    }
}

impl std::error::Error for Refusal {}

#[cfg(test)]
mod tests {
    use super::*;
    use std::collections::BTreeMap;

    const CALLS: [Call; 14] = [
        Call::Masks,
        Call::Row,
        Call::Cell,
        Call::Catalogue,
        Call::FieldOfRegard,
        Call::Begin,
        Call::Work,
        Call::WorkRange,
        Call::Recover,
        Call::Collect,
        Call::Cost,
        Call::Windows,
        Call::Expand,
        Call::Seconds,
    ];

    fn read(path: &str) -> String {
        std::fs::read_to_string(format!("{}/../../{}", env!("CARGO_MANIFEST_DIR"), path)).unwrap()
    }

    /// A row of the glossary's table of refusals: the calls are empty in the row for all that no other row of the number names.
    struct Row {
        place: usize,
        number: u8,
        name: String,
        calls: Vec<String>,
        sentence: String,
    }

    fn table() -> Vec<Row> {
        let glossary = read("docs/GLOSSARY.md");
        let rows = glossary.lines().skip_while(|line| !line.starts_with("| place |")).skip(2).take_while(|line| line.starts_with('|'));
        let row = |line: &str| {
            let cells: Vec<_> = line.trim_matches('|').split('|').map(|cell| cell.trim().replace('`', "")).collect();
            let [place, number, name, calls, sentence] = <[String; 5]>::try_from(cells).unwrap();
            let calls = calls.split(", ").filter(|call| !call.is_empty()).map(str::to_owned).collect();
            Row { place: place.parse().unwrap(), number: number.parse().unwrap(), name, calls, sentence }
        };
        rows.map(row).collect()
    }

    /// The comment's text with each run of spaces, line ends and stars at their start as one space.
    fn unwrapped(text: &str) -> String {
        text.split_whitespace().filter(|word| *word != "*").collect::<Vec<_>>().join(" ")
    }

    /// `RollTableEntry` as `ROLL_TABLE_ENTRY`.
    fn in_capitals(reason: Reason) -> String {
        let name = format!("{:?}", reason);
        let spaced = name.char_indices().flat_map(|(k, c)| (k > 0 && c.is_uppercase()).then_some('_').into_iter().chain([c]));
        spaced.collect::<String>().to_uppercase()
    }

    #[test]
    fn the_glossary_has_the_sentence_of_every_reason_and_call() {
        let rows = table();
        for &reason in Reason::ALL {
            let of_reason: Vec<_> = rows.iter().filter(|row| row.number == reason.number()).collect();
            for row in &of_reason {
                assert_eq!(row.name, in_capitals(reason), "the name of {}", row.number);
                assert!(row.calls.iter().all(|call| CALLS.iter().any(|known| format!("{:?}", known) == *call)), "{:?}", row.calls);
            }
            for call in CALLS {
                let named = of_reason.iter().find(|row| row.calls.contains(&format!("{:?}", call)));
                let row = named.or_else(|| of_reason.iter().find(|row| row.calls.is_empty()));
                let sentence = Refusal { reason, call }.sentence();
                assert_eq!(row.map(|row| row.sentence.as_str()), Some(sentence), "{:?} in {:?}", reason, call);
            }
        }
        assert!(rows.iter().all(|row| Reason::ALL.iter().any(|reason| reason.number() == row.number)), "a number that no reason has");
    }

    #[test]
    fn the_header_lists_the_names_and_sentences_of_the_glossary() {
        let header = read("include/wilfnusk.h");
        let enumerators = header.lines().filter_map(|line| line.trim().strip_prefix("WILFNUSK_")?.trim_end_matches(',').split_once(" = "));
        let declared: Vec<_> = enumerators.map(|(name, number)| (number.parse::<u8>().unwrap(), name.to_owned())).collect();
        let reasons: Vec<_> = Reason::ALL.iter().map(|&reason| (reason.number(), in_capitals(reason))).collect();
        assert_eq!(declared, reasons);

        // An entry goes from its number to the next one's, or to an empty line.
        let mut entries: BTreeMap<u8, String> = BTreeMap::new();
        let mut at = None;
        for line in header.lines().take_while(|line| !line.contains("#ifndef")).filter_map(|line| line.strip_prefix(" *")) {
            let number = line.split_once("  WILFNUSK_").and_then(|(number, _)| number.trim().strip_prefix('-')?.parse().ok());
            at = number.or(at).filter(|_| !line.trim().is_empty());
            if let Some(number) = at {
                *entries.entry(number).or_default() += &format!("{}\n", line);
            }
        }
        assert_eq!(entries.keys().copied().collect::<Vec<_>>(), Reason::ALL.iter().map(|reason| reason.number()).collect::<Vec<_>>());
        for row in table() {
            let entry = unwrapped(&entries[&row.number]);
            assert!(entry.starts_with(&format!("-{} WILFNUSK_{}: ", row.number, row.name)), "{}", entry);
            assert!(entry.to_lowercase().contains(&row.sentence.to_lowercase()), "{} lacks: {}", entry, row.sentence);
        }
    }

    #[test]
    fn the_header_names_the_reasons_of_each_call_in_the_order_of_the_glossary() {
        let rows = table();
        let places: BTreeMap<u8, usize> = rows.iter().map(|row| (row.number, row.place)).collect();
        assert_eq!(places.values().max(), Some(&Reason::ALL.len()));
        assert_eq!(places.values().collect::<std::collections::BTreeSet<_>>().len(), Reason::ALL.len(), "two reasons have one place");
        let header = read("include/wilfnusk.h");
        let lists: Vec<_> = header.split("/*").map(|part| unwrapped(part.split("*/").next().unwrap())).collect();
        let mut seen = 0;
        for comment in lists.iter().filter(|comment| !comment.contains("ANSWERS")) {
            let Some((_, list)) = comment.split_once("Refuses: ").or_else(|| comment.split_once("Refuse: ")) else { continue };
            let numbers =
                list.split(|c: char| !(c == '-' || c.is_ascii_digit())).filter_map(|word| word.strip_prefix('-')?.parse::<u8>().ok());
            let order: Vec<_> = numbers.map(|number| places[&number]).collect();
            assert!(order.windows(2).all(|two| two[0] <= two[1]), "{}", comment);
            seen += 1;
        }
        assert!(seen >= 20, "only {} calls of the header list their reasons", seen);
    }
}
