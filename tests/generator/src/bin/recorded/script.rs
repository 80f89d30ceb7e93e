//! How a case is written for `tests/interface/replay.c`: a title and events, which have no answers yet.

/// Kinds of events, each with what it is called in the rows of `kinds` in `replay.c`: its number is the row.
macro_rules! kinds {
    ($($kind:ident $name:literal,)*) => {
        /// What an event is.
        #[derive(Clone, Copy)]
        #[repr(u8)]
        pub enum Kind {
            $($kind,)*
        }

        /// What they are called in `replay.c`, in order.
        #[cfg(test)]
        const NAMES: &[&str] = &[$($name,)*];
    };
}

kinds! {
    Image "NULL",
    InImage "NULL",
    InState "NULL",
    InPool "NULL",
    Version "fir_version",
    StateSize "fir_state_size",
    StateAlignment "fir_state_alignment",
    QuestionText "fir_question_text",
    AnswerText "fir_answer_text",
    Check "fir_check",
    Report "fir_report",
    CheckIn "fir_check_in",
    ReportIn "fir_report_in",
    Widen "fir_widen",
    Narrow "fir_narrow",
    Join "fir_join",
    Mend "fir_mend",
    Bounds "fir_bounds",
    TableSize "fir_table_size",
    Load "fir_load",
    Begin "fir_begin",
    Step "fir_step",
    Budget "fir_budget",
    Run "fir_run",
    Change "fir_change",
    TrailStart "fir_trail_start",
    TrailStep "fir_trail_step",
    TrailBudget "fir_trail_budget",
    TrailChange "fir_trail_change",
    TrailBack "fir_trail_back",
    PoolMake "fir_pool_make",
    PoolBegin "fir_pool_begin",
    PoolStep "fir_pool_step",
    PoolBudget "fir_pool_budget",
    PoolRun "fir_pool_run",
    PoolChange "fir_pool_change",
    PoolBack "fir_pool_back",
    Look "fir_look",
    Watch "fir_watch",
    Where "fir_search and fir_where",
}

/// What a file of cases begins with.
pub const MARK: &[u8; 8] = b"FIRKIT1\n";

/// The sum behind a case, FNV-1a of 64 bits.
fn sum(bytes: &[u8]) -> u64 {
    let add = |sum: u64, &byte: &u8| (sum ^ u64::from(byte)).wrapping_mul(1_099_511_628_211);
    bytes.iter().fold(14_695_981_039_346_656_037, add)
}

/// A number, 7 bits in each byte, the lowest first.
pub fn number(to: &mut Vec<u8>, mut number: u64) {
    while number > 127 {
        to.push(number as u8 | 128);
        number >>= 7;
    }
    to.push(number as u8);
}

/// Where a run begins: level, function and version, and its argument words.
#[derive(Clone)]
pub struct Start {
    pub level: usize,
    pub entry: (usize, usize),
    pub words: Vec<i64>,
}

/// A case that is written.
pub struct Script(Vec<u8>);

impl Script {
    /// A case without an event.
    pub fn new(title: &str) -> Script {
        let mut script = Script(Vec::new());
        script.bytes(title.as_bytes());
        script
    }

    /// The case as it stands in a file, between its length and its sum.
    pub fn in_file(&self) -> Vec<u8> {
        let mut bytes = Vec::new();
        number(&mut bytes, self.0.len() as u64);
        bytes.extend(&self.0);
        bytes.extend(sum(&self.0).to_le_bytes());
        bytes
    }

    fn bytes(&mut self, bytes: &[u8]) {
        number(&mut self.0, bytes.len() as u64);
        self.0.extend(bytes);
    }

    /// An event of which so many numbers are asked.
    pub fn event(&mut self, kind: Kind, asked: &[usize]) {
        self.0.push(kind as u8);
        for &asked in asked {
            number(&mut self.0, asked as u64);
        }
    }

    /// An event that begins with bytes, behind which numbers are asked.
    pub fn with_bytes(&mut self, kind: Kind, bytes: &[u8], asked: &[usize]) {
        self.0.push(kind as u8);
        self.0.extend(bytes);
        for &asked in asked {
            number(&mut self.0, asked as u64);
        }
    }

    /// Puts an image.
    pub fn image(&mut self, image: &[u8]) {
        self.0.push(Kind::Image as u8);
        self.bytes(image);
    }

    /// Puts a byte of the image.
    pub fn in_image(&mut self, at: usize, byte: u8) {
        self.event(Kind::InImage, &[at]);
        self.0.push(byte);
    }

    /// Puts a byte of the state of a run.
    pub fn in_state(&mut self, run: usize, at: usize, byte: u8) {
        self.event(Kind::InState, &[run, at]);
        self.0.push(byte);
    }

    /// Puts a byte of the pool.
    pub fn in_pool(&mut self, at: usize, byte: u8) {
        self.event(Kind::InPool, &[at]);
        self.0.push(byte);
    }

    /// A start of a run or a number, and what is asked behind its words.
    pub fn start(&mut self, kind: Kind, run: usize, start: &Start, asked: &[usize]) {
        let (function, version) = start.entry;
        let words = start.words.len();
        self.event(kind, &[run, start.level, function, version, words]);
        for &word in &start.words {
            number(&mut self.0, (word as u64) << 1 ^ (word >> 63) as u64);
        }
        for &asked in asked {
            number(&mut self.0, asked as u64);
        }
    }
}

#[cfg(test)]
mod tests {
    use super::*;

    /// The program that plays the scripts.
    const REPLAY: &str = include_str!("../../../../interface/replay.c");

    #[test]
    fn kinds_are_the_rows_of_the_program_that_plays_them() {
        let (_, rows) = REPLAY.split_once("kinds[] = {").expect("the rows");
        let (rows, _) = rows.split_once("};").expect("their end");
        let names = rows.split('{').filter_map(|row| row.split_once(", "));
        let names: Vec<&str> = names.map(|(name, _)| name.trim_matches('"')).collect();
        assert_eq!(names, NAMES);
        assert_eq!(NAMES.len(), Kind::Where as usize + 1);
    }

    #[test]
    fn a_number_has_seven_bits_in_each_byte() {
        let bytes = |asked| {
            let mut bytes = Vec::new();
            number(&mut bytes, asked);
            bytes
        };
        assert_eq!(bytes(0), [0]);
        assert_eq!(bytes(127), [127]);
        assert_eq!(bytes(128), [128, 1]);
        let longest = [255, 255, 255, 255, 255, 255, 255, 255, 255, 1];
        assert_eq!(bytes(u64::MAX), longest);
    }

    #[test]
    fn words_are_folded() {
        let start = Start {
            level: 0,
            entry: (1, 2),
            words: vec![0, -1, 1, i64::MIN],
        };
        let mut script = Script::new("");
        script.start(Kind::Begin, 3, &start, &[16]);
        let begun = [0, Kind::Begin as u8, 3, 0, 1, 2, 4, 0, 1, 2];
        let least = [255, 255, 255, 255, 255, 255, 255, 255, 255, 1];
        assert_eq!(script.0, [&begun[..], &least, &[16]].concat());
    }

    #[test]
    fn a_case_stands_between_its_length_and_its_sum() {
        let script = Script::new("a");
        let file = script.in_file();
        assert_eq!(file[..3], [2, 1, b'a']);
        assert_eq!(file.len(), 3 + 8);
        // Sums that the makers of FNV publish.
        assert_eq!(sum(b""), 0xcbf2_9ce4_8422_2325);
        assert_eq!(sum(b"a"), 0xaf63_dc4c_8601_ec8c);
        assert_eq!(file[3..], sum(&[1, b'a']).to_le_bytes());
    }
}
