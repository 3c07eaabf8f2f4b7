// Files of vectors: tab-separated, with a line of names first. Bytes are in hex, `-` stands for empty or none.
#![allow(dead_code)]

// The lines behind the names, each as its columns.
pub fn read(path: &str) -> Vec<Vec<String>> {
    let text = std::fs::read_to_string(path).expect("the vectors");
    text.lines().skip(1).map(|line| line.split('\t').map(String::from).collect()).collect()
}

pub fn bytes(column: &str) -> Vec<u8> {
    if column == "-" {
        return vec![];
    }
    assert!(column.len() % 2 == 0, "hex digits come in pairs");
    (0..column.len() / 2).map(|i| u8::from_str_radix(&column[2 * i..2 * i + 2], 16).expect("hex")).collect()
}

// Numbers with commas between.
pub fn numbers(column: &str) -> Vec<u32> {
    if column == "-" {
        return vec![];
    }
    column.split(',').map(number).collect()
}

pub fn number(column: &str) -> u32 {
    column.parse().expect("a number")
}

// How many vectors there are to be, the argument at this place.
pub fn wanted(place: usize) -> usize {
    std::env::args().nth(place).expect("how many vectors").parse().expect("a number")
}

// Runs every line of the file that the program is called with, names those that differ, and ends the program: well
// where there are as many as the call says and all agree.
pub fn run(name: &str, agrees: impl Fn(&[String]) -> bool) -> ! {
    let lines = read(&std::env::args().nth(1).expect("the file of vectors"));
    let wanted = wanted(2);
    let mut agreed = 0;
    for (k, columns) in lines.iter().enumerate() {
        if agrees(columns) {
            agreed += 1;
        } else {
            println!("line {} differs", k + 2);
        }
    }
    println!("{}: {} of {} agree", name, agreed, lines.len());
    std::process::exit(if lines.len() == wanted && agreed == wanted { 0 } else { 1 })
}
