// A second program `surface`: the second reader, then the published Rust for each want. What it writes is written from document 01.
use crate::oracle::Oracle;
use second::model::{NUMBERS, Road, WORDS};
use second::reader::{self, WANTS};

/// 01: "a refused want writes s, t, `-` and the number", by rows 7 and 8.
fn want(road: &Road, oracle: &Oracle, s: u64, t: u64) -> String {
    let (at, offset) = (f64::from_bits(s), f64::from_bits(t));
    let answer = if !(0.0 <= at && at <= road.length) {
        "- 7".into()
    } else if !(-80.0 <= offset && offset <= 80.0) {
        "- 8".into()
    } else {
        oracle.surface(at, offset).0.map(|x| format!("{:08x}", x.to_bits())).join(" ")
    };
    format!("{s:016x} {t:016x} {answer}\n")
}

/// 01: "writes names `s t x y z`, then a line per want (f32 as 8 digits)"; "A refused job writes only the line `refused` and the
/// number."
pub fn output(text: &[u8]) -> String {
    let (mut words, mut numbers, mut wants) = (vec![0; WORDS], vec![0.0; NUMBERS], vec![0; WANTS]);
    match reader::read(text, &mut words, &mut numbers, &mut wants) {
        Err(number) => format!("refused {number}\n"),
        Ok(count) => {
            let road = Road::read(&words, &numbers);
            let oracle = Oracle::new(&road);
            let lines = wants.chunks_exact(2).take(count).map(|w| want(&road, &oracle, w[0], w[1]));
            "s t x y z\n".to_string() + &lines.collect::<String>()
        }
    }
}
