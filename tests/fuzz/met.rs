// How often each answer and each refusal of each call was met. A kind that was never met is a failure: the run was blind there.
use crate::call::{Kind, KINDS, NO_ROOM_LAST};
use std::ops::Range;

// after the columns of answer 0 and of answers above 0
const REFUSALS: [u64; 17] = [1, 2, 3, 4, 5, 6, 7, 8, 9, 61, 62, 63, 64, 65, 66, 67, NO_ROOM_LAST];
const COLUMNS: usize = 2 + REFUSALS.len();
// one printed table for each of these, so that the lines stay short
const TABLES: [Range<usize>; 2] = [0..11, 11..COLUMNS];

pub struct Met([[u64; COLUMNS]; KINDS.len()]);

fn title(column: usize) -> String {
    match column {
        0 => "0".to_string(),
        1 => "above 0".to_string(),
        _ if REFUSALS[column - 2] == NO_ROOM_LAST => "9 last".to_string(),
        _ => format!("refused {}", REFUSALS[column - 2]),
    }
}

fn can_be(kind: &Kind, column: usize) -> bool {
    match column {
        0 => kind.zero,
        1 => kind.more,
        _ => kind.refusals.contains(&REFUSALS[column - 2]),
    }
}

impl Met {
    pub fn new() -> Met {
        Met([[0; COLUMNS]; KINDS.len()])
    }

    // a 9 that comes although the answer slice has room for four numbers is the one that read_stack tests last
    pub fn count(&mut self, kind: usize, answer: u64, answer_room: usize) {
        let column = match (answer >> 63, answer & 255) {
            (0, _) => usize::from(answer > 0),
            (_, 9) if answer_room >= 4 => COLUMNS - 1,
            (_, refusal) => 2 + REFUSALS.iter().position(|&number| number == refusal).expect("a refusal that the header lists"),
        };
        self.0[kind][column] += 1;
    }

    pub fn calls(&self) -> u64 {
        self.0.iter().flatten().sum()
    }

    // prints the tables; answers how many entries that must be met were not
    pub fn print(&self) -> usize {
        TABLES.into_iter().map(|columns| self.print_table(columns)).sum()
    }

    // the calls that have an entry in one of these columns
    fn print_table(&self, columns: Range<usize>) -> usize {
        let titles: String = columns.clone().map(|column| format!(" {:>10}", title(column))).collect();
        println!("{:<22}{}", "call", titles);
        let mut never = 0;
        for (kind, met) in KINDS.iter().zip(&self.0) {
            let entries: Vec<(bool, u64)> = columns.clone().map(|column| (can_be(kind, column), met[column])).collect();
            if entries.iter().any(|&entry| entry != (false, 0)) {
                let texts: String = entries.iter().map(|&entry| format!(" {:>10}", text(entry))).collect();
                println!("{:<22}{}", kind.name, texts);
            }
            never += entries.iter().filter(|&&entry| entry == (true, 0)).count();
        }
        never
    }
}

fn text(entry: (bool, u64)) -> String {
    match entry {
        (true, 0) => "NEVER".to_string(),
        (false, 0) => "-".to_string(),
        (_, met) => met.to_string(),
    }
}
