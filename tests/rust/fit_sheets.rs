// Runs the program fit on every line of a file of sheets, on every example, and on inputs at the limits of reading, and
// compares what it prints byte by byte. Arguments: the program, the folder of the examples, the file, and how many
// lines it has behind the names.
//
// A line: the text; Read's number, which `sheets` looks at; and what the program prints, as bytes.
mod vectors;

use std::io::{Read, Write};
use std::process::{Command, Stdio};
use std::time::Duration;

const REFUSED_1: &[u8] = b"answer number\nrefused 1\n";
const REFUSED_3: &[u8] = b"answer number\nrefused 3\n";

struct Tally {
    program: String,
    runs: usize,
    agreed: usize,
}

impl Tally {
    // The parts go to the program one by one, with a pause before each but the first. A program that has read enough
    // may stop before the last.
    fn check(&mut self, name: &str, parts: &[&[u8]], wanted: &[u8]) {
        let mut child =
            Command::new(&self.program).stdin(Stdio::piped()).stdout(Stdio::piped()).spawn().expect("the program");
        let mut input = child.stdin.take().unwrap();
        for (k, part) in parts.iter().enumerate() {
            if k > 0 {
                std::thread::sleep(Duration::from_millis(2));
            }
            if input.write_all(part).is_err() {
                break;
            }
        }
        drop(input);
        let mut got = Vec::new();
        child.stdout.take().unwrap().read_to_end(&mut got).expect("what it prints");
        child.wait().expect("its end");
        self.runs += 1;
        if got == wanted {
            self.agreed += 1;
        } else {
            println!("differs: {name}: {:?}, not {:?}", String::from_utf8_lossy(&got), String::from_utf8_lossy(wanted));
        }
    }

    fn report(&mut self, what: &str, failed: &mut bool) {
        println!("{what}: {} runs, {} agree", self.runs, self.agreed);
        *failed |= self.runs == 0 || self.runs != self.agreed;
        self.runs = 0;
        self.agreed = 0;
    }
}

fn run_vectors(t: &mut Tally, file: &str) {
    for (k, columns) in vectors::read(file).iter().enumerate() {
        let (sheet, output) = (vectors::bytes(&columns[0]), vectors::bytes(&columns[2]));
        t.check(&format!("{file}:{}", k + 2), &[&sheet], &output);
    }
}

// A text of sheet form of exactly this length, with more states and steps than a table may have: read whole it is
// refused with 3.
fn of_length(length: usize) -> Vec<u8> {
    let names = ["states edges nodes props\n255 255 1 0\ninitial label\n", "from to price\n", "kind a b\n1 0 0\n"];
    let mut extra = length - names.iter().map(|n| n.len()).sum::<usize>() - 255 * 4 - 255 * 6;
    let mut digits = |most: usize| {
        let more = extra.min(most - 1);
        extra -= more;
        "1".repeat(1 + more)
    };
    let mut text = names[0].to_string();
    for _ in 0..255 {
        text += &format!("{} {}\n", digits(3), digits(5));
    }
    text += names[1];
    for _ in 0..255 {
        text += &format!("{} {} {}\n", digits(3), digits(3), digits(3));
    }
    text += names[2];
    assert_eq!(text.len(), length);
    text.into_bytes()
}

fn run_limits(t: &mut Tally, sheet: &[u8], output: &[u8]) {
    let bytes: Vec<&[u8]> = sheet.chunks(1).collect();
    t.check("a byte at a time", &bytes, output);
    t.check("no byte", &[], REFUSED_1);
    t.check("a byte 0 behind the sheet", &[sheet, b"\0"], REFUSED_1);
    t.check("a byte 0 for a space", &[&sheet[..6], b"\0", &sheet[7..]], REFUSED_1);
    t.check("one byte cut off", &[&sheet[..sheet.len() - 1]], REFUSED_1);
    let longest = of_length(4096);
    t.check("4096 bytes", &[&longest], REFUSED_3);
    t.check("4096 bytes, the last by itself", &[&longest[..4095], &longest[4095..]], REFUSED_3);
    t.check("4097 bytes", &[&of_length(4097)], REFUSED_1);
    t.check("4097 bytes, the last by itself", &[&longest, b"\n"], REFUSED_1);
    t.check("200000 bytes", &[&vec![b'1'; 200000]], REFUSED_1);
}

fn main() {
    let args: Vec<String> = std::env::args().collect();
    let [_, program, examples, file, _] = &args[..] else { panic!("fit_sheets PROGRAM EXAMPLES VECTORS COUNT") };
    let mut t = Tally { program: program.clone(), runs: 0, agreed: 0 };
    run_vectors(&mut t, file);
    let mut failed = t.runs != vectors::wanted(4);
    t.report(file, &mut failed);
    for entry in std::fs::read_dir(examples).expect("the examples") {
        let path = entry.expect("an example").path();
        if path.extension().is_some_and(|x| x == "sheet") {
            let sheet = std::fs::read(&path).expect("a sheet");
            let output = std::fs::read(path.with_extension("out")).expect("its output");
            t.check(&path.display().to_string(), &[&sheet], &output);
        }
    }
    t.report("examples", &mut failed);
    let sheet = std::fs::read(format!("{examples}/page-notes.sheet")).expect("the sample sheet");
    let output = std::fs::read(format!("{examples}/page-notes.out")).expect("its output");
    run_limits(&mut t, &sheet, &output);
    t.report("limits of reading", &mut failed);
    std::process::exit(failed as i32);
}
