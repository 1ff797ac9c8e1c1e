// Writes the list of jobs that the program `test_outputs` replays, and what the second program (tools/published, the second
// reader and the published Rust) writes for each; and the examples, a job and its output in a file each. One command makes all
// files anew, the same at every run:
//
//     tools/lists/run.sh outputs
//
// A job of the list is a line of 36 bytes, `j`, a space, its number, a space, how many bytes its text has, LF, the numbers as 16
// lowercase hexadecimal digits; then its text as it is. A line `e` of the same form ends the list. `test_outputs` writes a line `job`
// and the number, then the job's whole output; at the end how many jobs there were and how many lines that break the list's form.
//
// Each job stands with what its output says (`says`): `refused` and the number, or a word of a letter a want, p for a point, 7 or
// 8 for a refusal. It is written from document 01 and held against the second program's output.
mod jobs;
mod roads;

use lists::draft::Draft;
use published::second_program;
use second::model::Road;
use std::collections::BTreeMap;

#[derive(Default)]
pub struct List {
    jobs: Vec<u8>,
    outputs: String,
    count: usize,
    kinds: Vec<(&'static str, usize)>,
    /// How often each thing is said: points, wants refused, jobs refused.
    said: BTreeMap<String, usize>,
    /// How many of x, y, z are -0.
    below_zero: usize,
}

/// What an output says, and its f32 numbers.
fn said(output: &str) -> (String, Vec<u32>) {
    if output.starts_with("refused ") {
        return (output.trim_end().into(), Vec::new());
    }
    let (mut says, mut numbers) = (String::new(), Vec::new());
    for line in output.lines().skip(1) {
        match line.split(' ').skip(2).collect::<Vec<_>>()[..] {
            ["-", number] => says += number,
            [x, y, z] => {
                says.push('p');
                numbers.extend([x, y, z].map(|x| u32::from_str_radix(x, 16).expect("8 digits")));
            }
            _ => panic!("no line of an output: {line}"),
        }
    }
    (says, numbers)
}

impl List {
    /// The jobs that follow are of this kind.
    pub fn kind(&mut self, kind: &'static str) {
        self.kinds.push((kind, 0));
    }

    /// A job, and what its output says.
    pub fn job(&mut self, text: impl AsRef<[u8]>, says: &str) {
        let written = self.add(text.as_ref());
        assert_eq!(written, says, "job {}: what the second program writes, and what is written here", self.count);
    }

    /// A job whose wants are all answered.
    pub fn answered(&mut self, road: &Road, wants: &[[f64; 2]]) {
        self.job(job(road, wants).text(), &"p".repeat(wants.len()));
    }

    /// A job of which nothing is known. Answers what its output says.
    pub fn add(&mut self, text: &[u8]) -> String {
        self.count += 1;
        self.kinds.last_mut().expect("a kind").1 += 1;
        self.jobs.extend(format!("j {:016x} {:016x}\n", self.count, text.len()).bytes());
        self.jobs.extend(text);
        let output = second_program::output(text);
        self.outputs += &format!("job {}\n{output}", self.count);
        let (says, numbers) = said(&output);
        let finite = |&x: &u32| f32::from_bits(x).is_finite();
        assert!(numbers.iter().all(finite), "job {}: a number that is not finite", self.count);
        self.below_zero += numbers.iter().filter(|&&x| x == 0x8000_0000).count();
        if says.starts_with("refused") {
            *self.said.entry(says.clone()).or_default() += 1;
        } else {
            says.chars().for_each(|c| *self.said.entry(format!("want {c}")).or_default() += 1);
        }
        says
    }
}

/// A job without the tables that have no lines.
pub fn job(road: &Road, wants: &[[f64; 2]]) -> Draft {
    let mut job = Draft::of(road, wants);
    job.tables.retain(|&table| !job.lines[table as usize].is_empty());
    job
}

fn main() {
    let [stdin, stdout, examples]: [String; 3] =
        std::env::args().skip(1).collect::<Vec<_>>().try_into().expect("outputs STDIN STDOUT EXAMPLES");
    for (name, road, wants) in roads::examples() {
        let text = job(&road, &wants).text();
        let output = second_program::output(text.as_bytes());
        assert_eq!(said(&output).0, "p".repeat(wants.len()), "{name}: every want is a point");
        std::fs::write(format!("{examples}/{name}.job"), text).expect("an example's job");
        std::fs::write(format!("{examples}/{name}.out"), output).expect("an example's output");
    }
    let mut list = List::default();
    jobs::all(&mut list);
    list.jobs.extend(format!("e {:016x} {:016x}\n", 0, 0).bytes());
    list.outputs += &format!("{} jobs, 0 broken lines\n", list.count);
    std::fs::write(stdin, &list.jobs).expect("the list of jobs");
    std::fs::write(stdout, &list.outputs).expect("the outputs");
    println!("{} jobs, {} bytes, outputs of {}: {:?}", list.count, list.jobs.len(), list.outputs.len(), list.kinds);
    println!("{:?}, {} numbers of -0", list.said, list.below_zero);
}
