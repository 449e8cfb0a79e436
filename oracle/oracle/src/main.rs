//! Answers requests on standard input, one a line. README.md has the format.
use std::fmt::Display;
use std::io::{self, BufRead, BufWriter, Write};
use std::str::SplitAsciiWhitespace;

use oracle::{Answer, Band, CoPol, Lent, MODES, OPERATIONS, STRATEGIES, Sides, Window};

/// An element of a list: numbers in decimal, floats as the hexadecimal digits of their bits.
trait Element: Sized {
    fn read(text: &str) -> Option<Self>;
    fn show(&self) -> String;
}

impl Element for u8 {
    fn read(text: &str) -> Option<Self> {
        text.parse().ok()
    }
    fn show(&self) -> String {
        self.to_string()
    }
}

impl Element for u16 {
    fn read(text: &str) -> Option<Self> {
        text.parse().ok()
    }
    fn show(&self) -> String {
        self.to_string()
    }
}

impl Element for f32 {
    fn read(text: &str) -> Option<Self> {
        u32::from_str_radix(text, 16).ok().map(f32::from_bits)
    }
    fn show(&self) -> String {
        format!("{:08x}", self.to_bits())
    }
}

impl Element for f64 {
    fn read(text: &str) -> Option<Self> {
        u64::from_str_radix(text, 16).ok().map(f64::from_bits)
    }
    fn show(&self) -> String {
        format!("{:016x}", self.to_bits())
    }
}

/// The fields of a request, left to right.
struct Fields<'a>(SplitAsciiWhitespace<'a>);

impl Fields<'_> {
    fn word(&mut self) -> Result<&str, String> {
        self.0.next().ok_or_else(|| "a field is missing".to_string())
    }

    fn number(&mut self) -> Result<usize, String> {
        let word = self.word()?;
        word.parse().map_err(|_| format!("not a number: {word}"))
    }

    /// The co-pol band: 1 or 2.
    fn copol(&mut self) -> Result<CoPol, String> {
        match self.number()? {
            1 => Ok(CoPol::Band1),
            2 => Ok(CoPol::Band2),
            other => Err(format!("no such band: {other}")),
        }
    }

    fn sides(&mut self) -> Result<Sides, String> {
        Ok(Sides { rows: self.number()?, cols: self.number()? })
    }

    /// Elements with commas between; `-` is the empty list.
    fn list<T: Element>(&mut self) -> Result<Vec<T>, String> {
        let word = self.word()?;
        if word == "-" {
            return Ok(Vec::new());
        }
        word.split(',').map(|w| T::read(w).ok_or_else(|| format!("not an element: {w}"))).collect()
    }

    /// One of the given values, by the name that types.rs gives it.
    fn named<T: Copy + Display>(&mut self, values: &[T]) -> Result<T, String> {
        let word = self.word()?;
        values.iter().find(|v| v.to_string() == word).copied().ok_or_else(|| format!("no such name: {word}"))
    }
}

fn show<T: Element>(list: &[T]) -> String {
    if list.is_empty() {
        return "-".to_string();
    }
    list.iter().map(T::show).collect::<Vec<_>>().join(",")
}

fn reply<T>(answer: Answer<T>, done: impl FnOnce(T) -> String) -> String {
    match answer {
        Ok(given) => done(given),
        Err(number) => format!("refused {number}"),
    }
}

fn window(window: Option<Window>) -> String {
    window.map_or("blank".to_string(), |w| show(&[w.low, w.high, w.range, w.gamma]))
}

fn one<T: Element>(answer: Answer<Vec<T>>) -> String {
    reply(answer, |list| format!("done {}", show(&list)))
}

fn answer(line: &str) -> Result<String, String> {
    let mut f = Fields(line.split_ascii_whitespace());
    let name = f.word()?.to_string();
    let text = match name.as_str() {
        "statistics" => {
            let (sides, db, marks) = (f.sides()?, f.list()?, f.list()?);
            let answer = oracle::statistics(sides, Band { db: &db, marks: &marks });
            reply(answer, |s| format!("done {} {}", s.valid_count, show(&s.floats)))
        }
        "window" => {
            let (strategy, sides, db, marks) = (f.named(&STRATEGIES)?, f.sides()?, f.list()?, f.list()?);
            let answer = oracle::window(strategy, sides, Band { db: &db, marks: &marks });
            reply(answer, |w| format!("{}{}", if w.is_some() { "done " } else { "" }, window(w)))
        }
        "grey8" => {
            let (strategy, sides, db, marks) = (f.named(&STRATEGIES)?, f.sides()?, f.list()?, f.list()?);
            one(oracle::grey_u8(strategy, sides, Band { db: &db, marks: &marks }, f.number()?, f.number()?))
        }
        "grey16" => {
            let (strategy, sides, db, marks) = (f.named(&STRATEGIES)?, f.sides()?, f.list()?, f.list()?);
            one(oracle::grey_u16(strategy, sides, Band { db: &db, marks: &marks }, f.number()?, f.number()?))
        }
        "tamed" => {
            let (pol, sides, db, marks) = (f.named(&["copol", "crosspol"])?, f.sides()?, f.list()?, f.list()?);
            one(oracle::tamed_synrgb_u8(pol == "copol", sides, Band { db: &db, marks: &marks }))
        }
        "picture" => {
            let (strategy, mode, copol, sides) = (f.named(&STRATEGIES)?, f.named(&MODES)?, f.copol()?, f.sides()?);
            let (db1, marks1, db2, marks2) = (f.list()?, f.list()?, f.list()?, f.list()?);
            let lent = Lent { grey1: f.number()?, grey2: f.number()?, rgb: f.number()?, work: f.number()? };
            let (band1, band2) = (Band { db: &db1, marks: &marks1 }, Band { db: &db2, marks: &marks2 });
            let answer = oracle::picture(strategy, mode, copol, sides, band1, band2, lent);
            reply(answer, |p| format!("done {} {} {}", show(&p.grey1), show(&p.grey2), show(&p.rgb)))
        }
        "windows" => {
            let (strategy, copol, sides) = (f.named(&STRATEGIES)?, f.copol()?, f.sides()?);
            let (db1, marks1, db2, marks2) = (f.list()?, f.list()?, f.list()?, f.list()?);
            let (band1, band2) = (Band { db: &db1, marks: &marks1 }, Band { db: &db2, marks: &marks2 });
            reply(oracle::picture_windows(strategy, copol, sides, band1, band2), |[w1, w2]| format!("done {} {}", window(w1), window(w2)))
        }
        "stretch" => one(oracle::stretch(&f.list::<u16>()?, f.number()?)),
        "composition" => {
            let (mode, strategy) = (f.named(&MODES)?, f.named(&STRATEGIES)?);
            one(oracle::composition(mode, strategy, &f.list::<u8>()?, &f.list::<u8>()?, f.number()?))
        }
        "padding8" => one(oracle::padding_u8(f.sides()?, &f.list::<u8>()?, f.number()?)),
        "padding16" => one(oracle::padding_u16(f.sides()?, &f.list::<u16>()?, f.number()?)),
        "arithmetic" => one(oracle::arithmetic(f.named(&OPERATIONS)?, &f.list::<f32>()?, &f.list::<f32>()?, f.number()?)),
        "marks" => one(oracle::marks(&f.list::<f32>()?, f.number()?)),
        "clahe" => {
            let (sides, normalised, marks) = (f.sides()?, f.list()?, f.list()?);
            let answer = oracle::clahe(sides, Band { db: &normalised, marks: &marks });
            reply(answer, |(equalised, sums)| format!("done {} {}", show(&equalised), show(&sums)))
        }
        _ => return Err(format!("no such request: {name}")),
    };
    match f.0.next() {
        Some(word) => Err(format!("one field too many: {word}")),
        None => Ok(text),
    }
}

fn main() -> io::Result<()> {
    let mut out = BufWriter::new(io::stdout().lock());
    for line in io::stdin().lock().lines() {
        let line = line?;
        let text = answer(&line).unwrap_or_else(|fault| format!("error {fault}"));
        writeln!(out, "{text}")?;
        out.flush()?;
    }
    Ok(())
}
