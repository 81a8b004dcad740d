//! One call with all that goes in, and all that comes out, as tests/vectors/README.md writes them on a line.
//!
//! A case that differs is printed as such a line, so that it can be put in a file and run again by `compare vectors`.

use std::fmt;

#[derive(Clone, Copy, Debug, PartialEq, Eq)]
pub enum Kind {
    Format,
    SenderOpen,
    ReceiverOpen,
    Send,
    Receive,
    Line,
    Slip,
    Slips,
    StatusStep,
    StatusRun,
    CheckCharacter,
    ReadHeader,
    ReadRecord,
    JudgeLog,
    SendLog,
    ReceiveLog,
    PutHeader,
    PutRecord,
    LogList,
    Linelist,
    LinelistLimit,
    Anything,
    Salvage,
    Sheet,
    ListPieces,
    SalvagePieces,
    AnythingPieces,
    FiguresPieces,
    Aes3Import,
    Aes3Export,
    Equipment,
    Controller,
    PortSettings,
    PortPacking,
    UnitsExport,
    UnitRead,
    CircuitsCheck,
    CircuitsPlan,
}

impl Kind {
    pub fn named(name: &str) -> Option<Kind> {
        KINDS.iter().find(|row| row.1 == name).map(|row| row.0)
    }

    pub fn name(self) -> &'static str {
        KINDS.iter().find(|row| row.0 == self).map_or("", |row| row.1)
    }
}

/// Kind, name, and the fields in and out: n a number, r a run of numbers or a state, o octets, t text.
const KINDS: [(Kind, &str, &str, &str); 38] = [
    (Kind::Format, "format", "n", "nnnnn"),
    (Kind::SenderOpen, "sender_open", "nnnnnn", "nr"),
    (Kind::ReceiverOpen, "receiver_open", "nnn", "nr"),
    (Kind::Send, "send", "rnrro", "nro"),
    (Kind::Receive, "receive", "ronrrr", "nrrrrnnnn"),
    (Kind::Line, "line", "nnno", "rrrrr"),
    (Kind::Slip, "slip", "rr", "nrnn"),
    (Kind::Slips, "slips", "o", "rrrnto"),
    (Kind::StatusStep, "status_step", "nonn", "nnono"),
    (Kind::StatusRun, "status_run", "nooonn", "nnonon"),
    (Kind::CheckCharacter, "check_character", "o", "n"),
    (Kind::ReadHeader, "read_header", "o", "nnnnn"),
    (Kind::ReadRecord, "read_record", "on", "nnnnn"),
    (Kind::JudgeLog, "judge_log", "rono", "nronnn"),
    (Kind::SendLog, "send_log", "rnrron", "nronnnn"),
    (Kind::ReceiveLog, "receive_log", "ronroo", "nrroonnnnnnnnn"),
    (Kind::PutHeader, "put_header", "onnn", "non"),
    (Kind::PutRecord, "put_record", "onon", "non"),
    (Kind::LogList, "log_list", "oo", "nonn"),
    (Kind::Linelist, "linelist", "o", "o"),
    (Kind::LinelistLimit, "linelist_limit", "on", "o"),
    (Kind::Anything, "anything", "o", "nnn"),
    (Kind::Salvage, "salvage", "oor", "nornnn"),
    (Kind::Sheet, "sheet", "orn", "nrr"),
    (Kind::ListPieces, "list_pieces", "or", "non"),
    (Kind::SalvagePieces, "salvage_pieces", "or", "noon"),
    (Kind::AnythingPieces, "anything_pieces", "or", "nnn"),
    (Kind::FiguresPieces, "figures_pieces", "or", "nr"),
    (Kind::Aes3Import, "aes3_import", "or", "nrr"),
    (Kind::Aes3Export, "aes3_export", "rr", "nor"),
    (Kind::Equipment, "equipment", "ooo", "noonnnn"),
    (Kind::Controller, "controller", "oo", "no"),
    (Kind::PortSettings, "port_settings", "o", "nr"),
    (Kind::PortPacking, "port_packing", "nnn", "nn"),
    (Kind::UnitsExport, "units_export", "nnnrro", "nonnn"),
    (Kind::UnitRead, "unit_read", "nnorr", "nrrn"),
    (Kind::CircuitsCheck, "circuits_check", "nnnrr", "nnn"),
    (Kind::CircuitsPlan, "circuits_plan", "nnr", "nr"),
];

#[derive(Clone, Debug, PartialEq)]
pub enum Value {
    Number(u64),
    Run(Vec<u64>),
    Octets(Vec<u8>),
    Text(String),
}

pub type Answer = Vec<Value>;

#[derive(Clone, Debug)]
pub struct Case {
    pub kind: Kind,
    pub inputs: Vec<Value>,
}

impl From<u64> for Value {
    fn from(number: u64) -> Value {
        Value::Number(number)
    }
}

impl From<bool> for Value {
    fn from(yes: bool) -> Value {
        Value::Number(u64::from(yes))
    }
}

impl From<&str> for Value {
    fn from(text: &str) -> Value {
        Value::Text(text.to_string())
    }
}

impl From<&[u64]> for Value {
    fn from(run: &[u64]) -> Value {
        Value::Run(run.to_vec())
    }
}

impl From<&[u8]> for Value {
    fn from(octets: &[u8]) -> Value {
        Value::Octets(octets.to_vec())
    }
}

/// `values![refusal, &state[..]]`: fields of any kind as a list.
macro_rules! values {
    ($($field:expr),* $(,)?) => { vec![$($crate::case::Value::from($field)),*] };
}
pub(crate) use values;

impl Value {
    pub fn number(&self) -> u64 {
        match self {
            Value::Number(number) => *number,
            _ => panic!("{self:?} isn't a number"),
        }
    }

    pub fn run(&self) -> &[u64] {
        match self {
            Value::Run(run) => run,
            _ => panic!("{self:?} isn't a run"),
        }
    }

    pub fn octets(&self) -> &[u8] {
        match self {
            Value::Octets(octets) => octets,
            _ => panic!("{self:?} aren't octets"),
        }
    }

    fn parse(layout: char, text: &str) -> Option<Value> {
        match layout {
            'n' => text.parse().ok().map(Value::Number),
            't' => Some(Value::Text(text.to_string())),
            'r' if text == "-" => Some(Value::Run(vec![])),
            'r' => text.split(',').map(|number| number.parse().ok()).collect::<Option<_>>().map(Value::Run),
            _ if text == "-" => Some(Value::Octets(vec![])),
            _ => octets_of_hex(text).map(Value::Octets),
        }
    }
}

fn octets_of_hex(text: &str) -> Option<Vec<u8>> {
    if !text.len().is_multiple_of(2) || !text.is_ascii() {
        return None;
    }
    (0..text.len()).step_by(2).map(|at| u8::from_str_radix(&text[at..at + 2], 16).ok()).collect()
}

fn parse_fields(layout: &str, text: &str) -> Option<Vec<Value>> {
    let words: Vec<&str> = text.split_whitespace().collect();
    if words.len() != layout.len() {
        return None;
    }
    layout.chars().zip(words).map(|(letter, word)| Value::parse(letter, word)).collect()
}

impl Case {
    pub fn new(kind: Kind, inputs: Vec<Value>) -> Case {
        Case { kind, inputs }
    }

    pub fn number(&self, field: usize) -> u64 {
        self.inputs[field].number()
    }

    pub fn yes(&self, field: usize) -> bool {
        self.number(field) != 0
    }

    pub fn run(&self, field: usize) -> &[u64] {
        self.inputs[field].run()
    }

    pub fn octets(&self, field: usize) -> &[u8] {
        self.inputs[field].octets()
    }

    /// A line of the vectors up to its arrow: the case, and the layout of what must come out.
    pub fn asked(inputs: &str) -> Option<(Case, &'static str)> {
        let (name, inputs) = inputs.split_once(' ')?;
        let (kind, _, layout_in, layout_out) = *KINDS.iter().find(|row| row.1 == name)?;
        Some((Case::new(kind, parse_fields(layout_in, inputs)?), layout_out))
    }

    /// A line of the vectors: the case and what must come out.
    pub fn parse(line: &str) -> Option<(Case, Answer)> {
        let (inputs, outputs) = line.split_once(" => ")?;
        let (case, layout_out) = Case::asked(inputs)?;
        Some((case, parse_fields(layout_out, outputs)?))
    }
}

impl fmt::Display for Value {
    fn fmt(&self, out: &mut fmt::Formatter) -> fmt::Result {
        match self {
            Value::Number(number) => write!(out, "{number}"),
            Value::Run(run) if run.is_empty() => write!(out, "-"),
            Value::Run(run) => write!(out, "{}", run.iter().map(u64::to_string).collect::<Vec<_>>().join(",")),
            Value::Text(text) => write!(out, "{text}"),
            Value::Octets(octets) if octets.is_empty() => write!(out, "-"),
            Value::Octets(octets) => octets.iter().try_for_each(|octet| write!(out, "{octet:02x}")),
        }
    }
}

pub fn fields(values: &[Value]) -> String {
    values.iter().map(Value::to_string).collect::<Vec<_>>().join(" ")
}

impl fmt::Display for Case {
    fn fmt(&self, out: &mut fmt::Formatter) -> fmt::Result {
        write!(out, "{} {}", self.kind.name(), fields(&self.inputs))
    }
}
