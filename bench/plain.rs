//! A plain program for `bench/run` to measure `intos` against. It takes the same words, makes the same word writes in
//! the same order and writes the same report. Nothing of it is proved.

use std::env;
use std::fs;
use std::io::{self, StdoutLock, Write};
use std::process::ExitCode;

const WORDS: usize = 16_384;
const MAGIC_WORD: usize = 0;
const COUNTER: usize = 1;
const TICKS: usize = 2;
const NEXT_STAMP: usize = 3;
const JOURNAL_COUNT: usize = 4;
const CONSOLE_LENGTH: usize = 5;
const HEAP_HOLE: usize = 6;
const ROW_STATE: usize = 1_152;
const ROW_PRIORITY: usize = 1_154;
const ROW_CODE: usize = 1_155;
const ROW_WAKE: usize = 1_156;
const RECORDS_USED: usize = 1_167;
const RECORDS: usize = 1_184;
const CONSOLE: usize = 5_760;
const HOLE_SIZE: usize = 7_810;
const ENTRIES: usize = 11_968;

const MAGIC: u32 = 1_229_870_129;
const READY: u32 = 1;
const ENDED: u32 = 4;
const PRINT: u32 = 1;
const SERVED: u32 = 1;

/// The power was cut before a word write.
struct Cut;

/// A device of nonvolatile words under budgets of word writes.
struct Device {
    words: Vec<u32>,
    left: Option<u32>,
    budgets: Vec<u32>,
    ends: Vec<Vec<u32>>,
}

impl Device {
    /// A blank device, of which the first boot has the first budget.
    fn blank(budgets: Vec<u32>) -> Device {
        Device {
            words: vec![0; WORDS],
            left: budgets.first().copied(),
            ends: Vec::with_capacity(budgets.len()),
            budgets,
        }
    }

    fn write(&mut self, at: usize, value: u32) -> Result<(), Cut> {
        if let Some(left) = self.left {
            if left == 0 {
                return Err(Cut);
            }
            self.left = Some(left - 1);
        }
        self.words[at] = value;
        Ok(())
    }

    /// Keeps the words at the end of a boot that was cut, and begins the next boot.
    fn power_up(&mut self) {
        self.ends.push(self.words.clone());
        self.left = self.budgets.get(self.ends.len()).copied();
    }

    fn is_formatted(&self) -> bool {
        self.words[MAGIC_WORD] == MAGIC
    }

    /// Stores a word: the entry's address, its old value, the count, the new value.
    fn store(&mut self, at: usize, value: u32) -> Result<(), Cut> {
        let count = self.words[JOURNAL_COUNT];
        let entry = ENTRIES + 2 * count as usize;
        self.write(entry, at as u32)?;
        self.write(entry + 1, self.words[at])?;
        self.write(JOURNAL_COUNT, count + 1)?;
        self.write(at, value)
    }

    fn commit(&mut self) -> Result<(), Cut> {
        self.write(JOURNAL_COUNT, 0)
    }

    /// Restores the entries from the last to the first, and then empties the journal.
    fn settle(&mut self) -> Result<(), Cut> {
        let count = self.words[JOURNAL_COUNT] as usize;
        if count == 0 {
            return Ok(());
        }
        for entry in (0..count).rev() {
            let address = self.words[ENTRIES + 2 * entry] as usize;
            self.write(address, self.words[ENTRIES + 2 * entry + 1])?;
        }
        self.commit()
    }

    fn format(&mut self) -> Result<(), Cut> {
        for at in 1..WORDS {
            self.write(at, initial_word(at))?;
        }
        self.write(MAGIC_WORD, MAGIC)
    }

    fn recover(&mut self) -> Result<(), Cut> {
        if self.is_formatted() {
            self.settle()
        } else {
            self.format()
        }
    }
}

fn initial_word(at: usize) -> u32 {
    match at {
        NEXT_STAMP => 1,
        HEAP_HOLE => 2,
        ROW_STATE => READY,
        ROW_PRIORITY => 1,
        ROW_WAKE => u32::MAX,
        HOLE_SIZE => 4_094,
        _ => 0,
    }
}

/// Byte `at` of the string and its newline, or 0 behind them.
fn line_byte(string: &[u8], at: usize) -> u32 {
    match string.get(at) {
        Some(byte) => u32::from(*byte),
        None if at == string.len() => u32::from(b'\n'),
        None => 0,
    }
}

/// Word `i` of a console of this length, with the string and a newline behind its bytes.
fn grown_word(word: u32, i: usize, length: usize, string: &[u8]) -> u32 {
    (0..4)
        .filter(|byte| 4 * i + byte >= length)
        .fold(word, |word, byte| word | line_byte(string, 4 * i + byte - length) << (8 * byte))
}

/// Appends a string and a newline to the console.
fn append(device: &mut Device, string: &[u8]) -> Result<(), Cut> {
    let length = device.words[CONSOLE_LENGTH] as usize;
    let last = (length + string.len()) / 4;
    for i in length / 4..=last {
        let word = grown_word(device.words[CONSOLE + i], i, length, string);
        device.store(CONSOLE + i, word)?;
    }
    device.store(CONSOLE_LENGTH, (length + string.len() + 1) as u32)
}

fn record_print(device: &mut Device, used: u32) -> Result<(), Cut> {
    device.store(RECORDS + used as usize, PRINT)?;
    device.store(RECORDS + used as usize + 1, SERVED)?;
    device.store(RECORDS_USED, used + 2)
}

fn end(device: &mut Device) -> Result<(), Cut> {
    device.store(ROW_STATE, ENDED)?;
    device.store(ROW_CODE, 0)
}

/// One event, in one transaction: a step of the thread unless it has ended, and the counter.
fn event(device: &mut Device, prints: &[Vec<u8>]) -> Result<(), Cut> {
    let events = device.words[COUNTER];
    if device.words[ROW_STATE] == READY {
        let used = device.words[RECORDS_USED];
        match prints.get(used as usize / 2) {
            Some(string) => {
                append(device, string)?;
                record_print(device, used)?;
            }
            None => end(device)?,
        }
    }
    device.store(COUNTER, events + 1)?;
    device.commit()
}

/// Standard output, a line at a time.
struct Report<'a> {
    out: StdoutLock<'a>,
}

impl Report<'_> {
    fn line(&mut self, line: &str) -> io::Result<()> {
        let mut line = line.to_owned();
        line.push('\n');
        self.out.write_all(line.as_bytes())?;
        self.out.flush()
    }

    fn start(&mut self, device: &Device, number: usize, undone: u32) -> io::Result<()> {
        let is_live = device.words[ROW_STATE] == READY;
        let replayed = if is_live { device.words[RECORDS_USED] / 2 } else { 0 };
        self.line(&format!(
            "boot {number} start at {} undone {undone} replayed {replayed}",
            device.words[COUNTER]
        ))?;
        if is_live {
            self.line(&format!("boot {number} thread 0 t:"))?;
        }
        Ok(())
    }

    fn dump(&mut self, device: &Device) -> io::Result<()> {
        let words = &device.words;
        self.line(&format!("events {}", words[COUNTER]))?;
        self.line(&format!("ticks {}", words[TICKS]))?;
        let thread = format!("thread 0 t priority {}", words[ROW_PRIORITY]);
        if words[ROW_STATE] == READY {
            self.line(&format!("{thread} ready"))?;
            self.line(&format!("list ready {}: 0", words[ROW_PRIORITY]))?;
        } else {
            self.line(&format!("{thread} ended {}", words[ROW_CODE]))?;
        }
        let console: String = (0..words[CONSOLE_LENGTH] as usize)
            .map(|at| (words[CONSOLE + at / 4] >> (8 * (at % 4))) as u8 as char)
            .collect();
        self.line(&format!("console {}", console.len()))?;
        for line in console.lines() {
            self.line(&format!("| {line}"))?;
        }
        Ok(())
    }
}

/// One boot. It answers whether the last event is committed.
fn boot(device: &mut Device, number: usize, prints: &[Vec<u8>], steps: u32, report: &mut Report) -> io::Result<bool> {
    let is_formatted = device.is_formatted();
    let undone = if is_formatted { device.words[JOURNAL_COUNT] } else { 0 };
    if device.recover().is_err() {
        let what = if is_formatted { "undo" } else { "format" };
        report.line(&format!("boot {number} cut in {what}"))?;
        return Ok(false);
    }
    report.start(device, number, undone)?;
    for events in device.words[COUNTER]..steps {
        if event(device, prints).is_err() {
            report.line(&format!("boot {number} cut at {events}"))?;
            return Ok(false);
        }
    }
    report.line(&format!("boot {number} end at {steps}"))?;
    Ok(true)
}

fn run(prints: &[Vec<u8>], steps: u32, budgets: Vec<u32>) -> io::Result<()> {
    let mut device = Device::blank(budgets);
    let mut report = Report {
        out: io::stdout().lock(),
    };
    for number in 1.. {
        if boot(&mut device, number, prints, steps, &mut report)? {
            break;
        }
        device.power_up();
    }
    report.dump(&device)
}

/// The strings that a program prints.
fn read_prints(text: &str) -> Option<Vec<Vec<u8>>> {
    let lines = text
        .strip_prefix("thread t() priority 1 {\n")?
        .strip_suffix("}\nstart t();\n")?;
    let strings = lines
        .lines()
        .map(|line| line.strip_prefix("print \"")?.strip_suffix("\";"));
    strings.map(|string| Some(string?.as_bytes().to_vec())).collect()
}

/// The program, the steps and the budgets that the words of the command line name.
fn read_words(words: &[String]) -> Option<(Vec<Vec<u8>>, u32, Vec<u32>)> {
    let [run, program, steps, budgets @ ..] = words else {
        return None;
    };
    if run != "run" {
        return None;
    }
    let prints = read_prints(&fs::read_to_string(program).ok()?)?;
    let budgets = budgets.iter().map(|word| word.parse().ok());
    Some((prints, steps.parse().ok()?, budgets.collect::<Option<_>>()?))
}

fn main() -> ExitCode {
    let words: Vec<String> = env::args().skip(1).collect();
    let Some((prints, steps, budgets)) = read_words(&words) else {
        eprintln!("usage: plain run PROGRAM STEPS [CUT ..]");
        return ExitCode::from(2);
    };
    match run(&prints, steps, budgets) {
        Ok(()) => ExitCode::SUCCESS,
        Err(_) => ExitCode::from(6),
    }
}
