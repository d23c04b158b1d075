// The lines that are printed, and which bars were missed.
use crate::clock::Medians;

pub struct Report {
    missed: Vec<String>,
    bars: usize,
}

// a time in nanoseconds, with a unit that suits it
fn readable(time: f64) -> String {
    match time {
        t if t < 10_000.0 => format!("{:.1} ns", t),
        t if t < 10_000_000.0 => format!("{:.1} us", t / 1e3),
        t => format!("{:.1} ms", t / 1e6),
    }
}

impl Report {
    pub fn new() -> Report {
        Report { missed: Vec::new(), bars: 0 }
    }

    pub fn section(&self, title: &str) {
        println!("\n{}", title);
        println!("{:<66} {:>11} {:>11} {:>7}  bar", "", "library", "Rust", "ratio");
    }

    // one figure; `bar`: the largest ratio that is good enough
    pub fn line(&mut self, what: &str, times: &Medians, bar: Option<f64>) {
        let verdict = self.verdict(what, times.ratio(), bar);
        println!("{:<66} {:>11} {:>11} {:>7.2}  {}", what, readable(times.library), readable(times.rust), times.ratio(), verdict);
    }

    // a ratio that is not between the two sides
    pub fn ratio(&mut self, what: &str, ratio: f64, bar: Option<f64>) {
        let verdict = self.verdict(what, ratio, bar);
        println!("{:<66} {:>11} {:>11} {:>7.2}  {}", what, "", "", ratio, verdict);
    }

    fn verdict(&mut self, what: &str, ratio: f64, bar: Option<f64>) -> String {
        let bar = match bar {
            Some(bar) => bar,
            None => return String::new(),
        };
        self.bars += 1;
        // as printed, so that the line does not contradict itself
        if (ratio * 100.0).round() <= bar * 100.0 {
            return format!("at most {:.1}: met", bar);
        }
        self.missed.push(what.trim().to_string());
        format!("at most {:.1}: MISSED", bar)
    }

    // the exit status
    pub fn close(&self) -> i32 {
        println!("\n{} of {} bars met", self.bars - self.missed.len(), self.bars);
        for what in &self.missed {
            println!("MISSED: {}", what);
        }
        i32::from(!self.missed.is_empty())
    }
}
