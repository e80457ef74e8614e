//! Makes each call on the library and on the own reading, and compares all that they answer and leave behind.

use std::collections::BTreeMap;
use std::fmt;

use compare_model::answers;
use compare_model::gen::Rng;
use compare_model::table::{Kind, SALVAGED_BIT};

use crate::ffi::{Lent, Linked};

/// The most bytes of a refusal's text.
const LONGEST_REASON: usize = 66;
/// Places behind each lent buffer that no call may touch.
const BEHIND: usize = 5;

/// How far the outputs of a judgement reach.
#[derive(Clone, Copy, Debug)]
pub struct Reaches {
    pub bounds: usize,
    pub rounds: usize,
    pub by: usize,
}

impl Reaches {
    pub fn all(places: usize) -> Reaches {
        Reaches { bounds: places, rounds: places, by: places }
    }
}

/// A call that the two answer differently.
#[derive(Debug)]
pub struct Difference {
    call: String,
    file: Vec<u8>,
    library: String,
    own: String,
}

impl Difference {
    /// One that no file is part of.
    pub fn of(call: String, library: String, own: String) -> Difference {
        Difference { call, file: Vec::new(), library, own }
    }
}

impl fmt::Display for Difference {
    fn fmt(&self, f: &mut fmt::Formatter) -> fmt::Result {
        writeln!(f, "DIFFERENCE in {}", self.call)?;
        writeln!(f, "file: {}", hexadecimal(&self.file))?;
        writeln!(f, "library: {}", self.library)?;
        write!(f, "own:     {}", self.own)
    }
}

/// How many tasks of the tables of one kind held by each delay, and missed.
#[derive(Clone, Debug, Default)]
pub struct Verdicts {
    pub by_request: u64,
    pub by_job: u64,
    pub misses: u64,
}

/// What became of the files that were to be salvaged.
#[derive(Clone, Debug, Default)]
pub struct Salvages {
    /// No record was lacking.
    pub all_kept: u64,
    /// It stopped at a record.
    pub stopped: u64,
    /// In how many of these the file was itself marked as salvaged.
    pub again: u64,
    pub refused: BTreeMap<u16, u64>,
    /// New files that were read, shown, cut and salvaged again.
    pub followed: u64,
    /// Salvaged files that nothing judged.
    pub unjudged: u64,
}

/// What was met, to show that the cases reach what they should.
#[derive(Clone, Debug, Default)]
pub struct Tally {
    pub calls: u64,
    pub accepted: u64,
    pub only_whole: u64,
    pub refused: BTreeMap<u16, u64>,
    pub dram: Verdicts,
    pub bus: Verdicts,
    pub most_rounds: u64,
    pub records: u64,
    pub listings: u64,
    pub too_short: u64,
    pub pairs: u64,
    pub worsened: u64,
    pub salvages: Salvages,
}

/// What a judgement answers and leaves in its outputs.
#[derive(Clone, Debug, PartialEq, Eq)]
struct Judged {
    code: u32,
    bounds: Vec<u64>,
    rounds: Vec<u64>,
    by: Vec<u8>,
}

/// What a listing answers and leaves in its output.
#[derive(Clone, Debug, PartialEq, Eq)]
struct Listed {
    length: usize,
    out: Vec<u8>,
}

/// What a salvage answers and leaves in its output.
#[derive(Clone, PartialEq, Eq)]
pub struct Salvage {
    word: u64,
    out: Vec<u8>,
}

impl Salvage {
    /// The refusal, or the counts promised and kept, and the number where it stopped.
    pub fn told(&self) -> Result<[u8; 3], u16> {
        let [number, place, promised, kept, stopped, ..] = self.word.to_le_bytes();
        match u16::from_le_bytes([number, place]) {
            0 => Ok([promised, kept, stopped]),
            code => Err(code),
        }
    }

    /// The new file, unless it is refused.
    pub fn new_file(&self) -> Option<&[u8]> {
        self.told().ok().map(|_| &self.out[..(self.word >> 40) as usize])
    }
}

impl fmt::Debug for Salvage {
    fn fmt(&self, f: &mut fmt::Formatter) -> fmt::Result {
        let length = self.word >> 40;
        write!(f, "{:#x}: {:?}, length {length}, out {}", self.word, self.told(), hexadecimal(&self.out))
    }
}

pub struct Comparer {
    filler: Rng,
    pub tally: Tally,
}

impl Comparer {
    pub fn new() -> Comparer {
        Comparer { filler: Rng::new(0), tally: Tally::default() }
    }

    /// `ryb_read`, and `ryb_whole`, which gives the same refusal where that is one of 1 to 4, and else none; answers the former's, 0 where
    /// accepted.
    pub fn read(&mut self, file: &[u8]) -> Result<u16, Difference> {
        let own = answers::read(file);
        let theirs = Linked.read(file);
        self.count(own);
        let read = same(theirs, own, file, || "ryb_read".to_owned())?;
        let whole = self.whole(file)?;
        self.tally.only_whole += u64::from(whole == 0 && read != 0);
        let first_part = if read <= 4 { read } else { 0 };
        same(whole, first_part, file, || format!("ryb_whole, where ryb_read gives {read}"))?;
        Ok(read)
    }

    /// `ryb_whole`; answers the refusal, 0 where the file came whole.
    fn whole(&mut self, file: &[u8]) -> Result<u16, Difference> {
        let own = answers::whole(file);
        let theirs = Linked.whole(file);
        self.count(own);
        same(theirs, own, file, || "ryb_whole".to_owned())
    }

    /// The same of a file that was whole, and was then cut short or had one byte altered: it isn't whole (RULES 7.6).
    pub fn read_damaged(&mut self, file: &[u8]) -> Result<u16, Difference> {
        let read = self.read(file)?;
        same((1..=4).contains(&read), true, file, || format!("ryb_read of a damaged file, which gives {read}"))?;
        Ok(read)
    }

    /// `ryb_tasks`; answers the count, 0 where refused.
    pub fn tasks(&mut self, file: &[u8]) -> Result<usize, Difference> {
        let own = answers::tasks(file);
        let theirs = Linked.tasks(file);
        self.tally.calls += 1;
        same(theirs, own, file, || "ryb_tasks".to_owned())
    }

    /// `ryb_judge`; answers the refusal, 0 where accepted.
    pub fn judge(&mut self, file: &[u8], starts: &[u64], reaches: Reaches) -> Result<u16, Difference> {
        let blank = self.blank(reaches);
        let mut own = blank.clone();
        let code = answers::judge(
            file,
            starts,
            &mut own.bounds[..reaches.bounds],
            &mut own.rounds[..reaches.rounds],
            &mut own.by[..reaches.by],
        );
        own.code = code.into();
        let mut theirs = blank;
        let answered = Linked.judge(
            file,
            starts,
            Lent::new(&mut theirs.bounds, reaches.bounds),
            Lent::new(&mut theirs.rounds, reaches.rounds),
            Lent::new(&mut theirs.by, reaches.by),
        );
        theirs.code = answered.into();
        self.count(code);
        self.count_answers(file, &own);
        same(theirs, own, file, || format!("ryb_judge from {starts:?} into {reaches:?}"))?;
        Ok(code)
    }

    /// `ryb_list` into `room` bytes; answers the length.
    pub fn list(&mut self, file: &[u8], room: usize) -> Result<usize, Difference> {
        let out = self.filled_bytes(room);
        let mut own = Listed { length: 0, out: out.clone() };
        own.length = answers::list(file, &mut own.out[..room]);
        let mut theirs = Listed { length: 0, out };
        theirs.length = Linked.list(file, Lent::new(&mut theirs.out, room));
        self.tally.calls += 1;
        self.tally.listings += u64::from(own.length > 0);
        self.tally.too_short += u64::from(own.length == 0);
        let length = own.length;
        same(theirs, own, file, || format!("ryb_list into {room} bytes"))?;
        Ok(length)
    }

    /// `ryb_view`; answers the refusal, 0 where there is such a record.
    pub fn view(&mut self, file: &[u8], number: u8) -> Result<u16, Difference> {
        let own = answers::view(file, number);
        let theirs = Linked.view(file, number);
        self.count(own);
        same(theirs, own, file, || format!("ryb_view of task {number}"))
    }

    /// `ryb_record`; answers the offset, 0 where refused.
    pub fn record(&mut self, file: &[u8], number: u8) -> Result<usize, Difference> {
        let own = answers::record(file, number);
        let theirs = Linked.record(file, number);
        self.tally.calls += 1;
        self.tally.records += u64::from(own > 0);
        same(theirs, own, file, || format!("ryb_record of task {number}"))
    }

    /// `ryb_carry`; answers the refusal with the file that it is about, 0 where accepted.
    pub fn carry(&mut self, older: &[u8], newer: &[u8], reaches: Reaches) -> Result<u32, Difference> {
        let blank = self.blank(reaches);
        let mut own = blank.clone();
        own.code = answers::carry(
            older,
            newer,
            &mut own.bounds[..reaches.bounds],
            &mut own.rounds[..reaches.rounds],
            &mut own.by[..reaches.by],
        );
        let mut theirs = blank;
        theirs.code = Linked.carry(
            older,
            newer,
            Lent::new(&mut theirs.bounds, reaches.bounds),
            Lent::new(&mut theirs.rounds, reaches.rounds),
            Lent::new(&mut theirs.by, reaches.by),
        );
        self.count(own.code as u16);
        self.count_answers(newer, &own);
        let code = own.code;
        same(theirs, own, newer, || format!("ryb_carry into {reaches:?} after {}", hexadecimal(older)))?;
        Ok(code)
    }

    /// `ryb_worsens`; answers 1 where both files are accepted and the newer is the older one worsened.
    pub fn worsens(&mut self, older: &[u8], newer: &[u8]) -> Result<u8, Difference> {
        let own = answers::worsens(older, newer);
        let theirs = Linked.worsens(older, newer);
        self.tally.calls += 1;
        self.tally.pairs += 1;
        self.tally.worsened += u64::from(own);
        same(theirs, own, newer, || format!("ryb_worsens after {}", hexadecimal(older)))
    }

    /// `ryb_salvage` into `room` bytes.
    pub fn salvage(&mut self, file: &[u8], room: usize) -> Result<Salvage, Difference> {
        let out = self.filled_bytes(room);
        let mut own = Salvage { word: 0, out: out.clone() };
        own.word = answers::salvage(file, &mut own.out[..room]);
        let mut theirs = Salvage { word: 0, out };
        theirs.word = Linked.salvage(file, Lent::new(&mut theirs.out, room));
        self.count_salvage(file, &own);
        same(theirs, own, file, || format!("ryb_salvage into {room} bytes"))
    }

    /// `ryb_reason`, whose words are the library's own: a text of some printable bytes, which fits its own length and no less. Answers it.
    pub fn reason(&mut self, number: u8) -> Result<Vec<u8>, Difference> {
        let long = self.reason_into(number, 200);
        let text = long.out.get(..long.length).unwrap_or_default().to_vec();
        let fits = (1..=LONGEST_REASON).contains(&text.len());
        if !fits || !text.iter().all(|byte| (b' '..=b'~').contains(byte)) {
            return Err(Difference::of(
                format!("ryb_reason of {number}"),
                format!("{long:?}"),
                format!("a printable text of at most {LONGEST_REASON} bytes"),
            ));
        }
        for room in [0, text.len() - 1, text.len(), text.len() + 1] {
            self.expect_reason(number, &text, room)?;
        }
        Ok(text)
    }

    fn reason_into(&mut self, number: u8, room: usize) -> Listed {
        let mut out = self.filled_bytes(room);
        let length = Linked.reason(number, Lent::new(&mut out, room));
        self.tally.calls += 1;
        Listed { length, out }
    }

    /// The text whole, or nothing where the room is too short for it; the bytes behind it as they were.
    fn expect_reason(&mut self, number: u8, text: &[u8], room: usize) -> Result<(), Difference> {
        let blank = self.filled_bytes(room);
        let mut own = Listed { length: 0, out: blank.clone() };
        if text.len() <= room {
            own.length = text.len();
            own.out[..text.len()].copy_from_slice(text);
        }
        let mut theirs = Listed { length: 0, out: blank };
        theirs.length = Linked.reason(number, Lent::new(&mut theirs.out, room));
        self.tally.calls += 1;
        same(theirs, own, &[], || format!("ryb_reason of {number} into {room} bytes"))?;
        Ok(())
    }

    fn blank(&mut self, reaches: Reaches) -> Judged {
        Judged {
            code: 0,
            bounds: self.filled(reaches.bounds),
            rounds: self.filled(reaches.rounds),
            by: self.filled_bytes(reaches.by),
        }
    }

    fn filled_bytes(&mut self, reach: usize) -> Vec<u8> {
        self.filled(reach).iter().map(|&word| word as u8).collect()
    }

    /// Words that no answer is likely to be, also behind the lent places.
    fn filled(&mut self, reach: usize) -> Vec<u64> {
        (0..reach + BEHIND).map(|_| self.filler.word()).collect()
    }

    fn count(&mut self, code: u16) {
        self.tally.calls += 1;
        match code % 256 {
            0 => self.tally.accepted += 1,
            number => *self.tally.refused.entry(number).or_default() += 1,
        }
    }

    fn count_salvage(&mut self, file: &[u8], salvage: &Salvage) {
        self.tally.calls += 1;
        let salvages = &mut self.tally.salvages;
        match salvage.told() {
            Err(code) => *salvages.refused.entry(code % 256).or_default() += 1,
            Ok([.., stopped]) => {
                salvages.all_kept += u64::from(stopped == 0);
                salvages.stopped += u64::from(stopped != 0);
                salvages.again += u64::from(file[3] & SALVAGED_BIT != 0);
            }
        }
    }

    fn count_answers(&mut self, file: &[u8], judged: &Judged) {
        if judged.code != 0 {
            return;
        }
        let tasks = usize::from(file[2]);
        let verdicts = match Kind::of(file[3]) {
            Kind::Dram => &mut self.tally.dram,
            Kind::Bus => &mut self.tally.bus,
        };
        for &by in &judged.by[..tasks] {
            match by {
                0 => verdicts.misses += 1,
                1 => verdicts.by_request += 1,
                _ => verdicts.by_job += 1,
            }
        }
        let most = judged.rounds[..tasks].iter().copied().max().unwrap_or(0);
        self.tally.most_rounds = self.tally.most_rounds.max(most);
    }
}

fn hexadecimal(bytes: &[u8]) -> String {
    bytes.iter().map(|byte| format!("{byte:02x}")).collect()
}

/// The answer, where both gave the same.
fn same<T: PartialEq + fmt::Debug>(theirs: T, own: T, file: &[u8], call: impl Fn() -> String) -> Result<T, Difference> {
    if theirs == own {
        return Ok(own);
    }
    Err(Difference { call: call(), file: file.to_vec(), library: format!("{theirs:?}"), own: format!("{own:?}") })
}
