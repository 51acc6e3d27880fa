//! The list of the program `vectors`: its lines in `stdin`, and in `stdout` what they must give.

use cases::codec::frame_bytes;
use oracle::paper::FrameRecord;
use shared::desk::changes;
use shared::desk::Desk;
use shared::desk::Role;
use std::collections::BTreeMap;
use std::collections::HashSet;
use std::hash::DefaultHasher;
use std::hash::Hash;
use std::hash::Hasher;

pub const SEED: u64 = 20261115;

/// What a line calls, by its number.
#[derive(Clone, Copy, Debug, PartialEq, Eq, PartialOrd, Ord, Hash)]
pub enum Function {
    InitFrame = 10,
    Check = 11,
    ListedSizes = 12,
    TileSbrowInit = 13,
    SplatMv = 14,
    SaveTmvs = 15,
    LoadTmvs = 16,
    Find = 17,
    Admit = 18,
    Play = 19,
    /// Steps of a batch in one order, which leave the desk as it is.
    Steps = 20,
    /// Steps of a batch in many orders, which leave the desk as it is. The program does nothing there:
    /// `compare` takes them.
    Orders = 21,
    MvProjection = 30,
    FixMvPrecision = 31,
    GetPocDiff = 32,
    Negated = 33,
    ReadCell = 34,
    ReadRecord = 35,
}

/// A line that is answered, with what must lie on the desk.
pub struct Question {
    pub function: Function,
    pub numbers: Vec<i64>,
    pub lent: Vec<(Role, Vec<u8>)>,
}

/// The numbers that are printed, and the parts that the call writes, as they are then.
pub struct Answer {
    pub numbers: Vec<i64>,
    pub after: Vec<(Role, Vec<u8>)>,
}

/// A case, which has one question or several.
pub trait Case {
    fn put(&self, list: &mut List) -> Result<(), String>;
}

pub struct List {
    desk: Desk,
    pub questions: String,
    pub answers: String,
    seen: HashSet<u64>,
    /// How many lines each function has, those of an exported one by their answer.
    counts: BTreeMap<(Function, Option<i64>), usize>,
}

impl Question {
    pub fn new<N: Into<i64>>(function: Function, numbers: impl IntoIterator<Item = N>) -> Self {
        Self {
            function,
            numbers: numbers.into_iter().map(N::into).collect(),
            lent: Vec::new(),
        }
    }

    /// With this part beside those before.
    pub fn lending(mut self, role: Role, bytes: impl Into<Vec<u8>>) -> Self {
        self.lent.push((role, bytes.into()));
        self
    }

    /// A call on a finished frame record.
    pub fn on<N: Into<i64>>(
        function: Function,
        record: &FrameRecord,
        numbers: impl IntoIterator<Item = N>,
    ) -> Self {
        Self::new(function, numbers).lending(Role::FRAME, frame_bytes(record))
    }

    /// Two questions with the same key are the same.
    pub fn key(&self) -> u64 {
        let mut hasher = DefaultHasher::new();
        (self.function, &self.numbers, &self.lent).hash(&mut hasher);
        hasher.finish()
    }
}

impl Answer {
    pub fn of(number: u8) -> Self {
        Self {
            numbers: vec![number.into()],
            after: Vec::new(),
        }
    }

    /// With this part beside those before.
    pub fn leaving(mut self, role: Role, bytes: impl Into<Vec<u8>>) -> Self {
        self.after.push((role, bytes.into()));
        self
    }
}

impl List {
    pub fn new() -> Self {
        Self {
            desk: Desk::default(),
            questions: String::new(),
            answers: String::new(),
            seen: HashSet::new(),
            counts: BTreeMap::new(),
        }
    }

    /// Puts cases behind those before, under a title, which has no digit: it is no command then.
    pub fn put_all<C: Case>(&mut self, title: &str, cases: &[C]) -> Result<(), String> {
        self.questions += &format!("{title}\n");
        for (at, case) in cases.iter().enumerate() {
            case.put(self)
                .map_err(|why| format!("{title}, case {at}: {why}"))?;
        }
        Ok(())
    }

    /// Puts a question with its answer behind those before, unless it is among them.
    pub fn put(&mut self, question: Question, answer: Answer) {
        if !self.ask(&question) {
            return;
        }
        let function = question.function;
        self.answers += &line(function, &answer.numbers);
        for (role, after) in &answer.after {
            self.answers += &changes(*role, self.desk.part(*role), after);
            if function != Function::Steps {
                self.desk.keep(*role, after);
            }
        }
        let told = answer
            .numbers
            .first()
            .copied()
            .filter(|_| function.is_exported());
        *self.counts.entry((function, told)).or_insert(0) += 1;
    }

    /// The same for a question that the program leaves to `compare`.
    pub fn put_unanswered(&mut self, question: Question) {
        if self.ask(&question) {
            *self.counts.entry((question.function, None)).or_insert(0) += 1;
        }
    }

    /// Lays what is lent, and puts the line behind those before, unless it is among them.
    fn ask(&mut self, question: &Question) -> bool {
        if !self.seen.insert(question.key()) {
            return false;
        }
        for (role, bytes) in &question.lent {
            self.questions += &self.desk.lay(*role, bytes);
        }
        self.questions += &line(question.function, &question.numbers);
        true
    }
}

impl Function {
    fn is_exported(self) -> bool {
        self < Self::Steps
    }
}

impl List {
    /// How many lines each function has.
    pub fn summary(&self) -> String {
        let mut functions: BTreeMap<Function, Vec<String>> = BTreeMap::new();
        for ((function, answer), count) in &self.counts {
            let told = match answer {
                Some(answer) => format!("{answer}: {count}"),
                None => count.to_string(),
            };
            functions.entry(*function).or_default().push(told);
        }
        let told = |(function, counts): (&Function, &Vec<String>)| {
            format!("{function:?} {}", counts.join(", "))
        };
        let lines: Vec<String> = functions.iter().map(told).collect();
        lines.join("\n")
    }
}

fn line(function: Function, numbers: &[i64]) -> String {
    let mut words = vec![(function as i64).to_string()];
    words.extend(numbers.iter().map(i64::to_string));
    words.join(" ") + "\n"
}
