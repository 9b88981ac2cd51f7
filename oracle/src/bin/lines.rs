//! Prints the lines that the program `session` must print of inputs, from the Rust's answers: of each input in a file,
//! where it stands behind its length, three bytes, little-endian; after `--one`, of a file as one input.

use std::{env, fs};

/// The longest input that is not `long`.
const MAX_INPUT: usize = 65_536;

fn main() {
    let arguments: Vec<String> = env::args().skip(1).collect();
    match &arguments[..] {
        [one, file] if one == "--one" => print(&read(file)),
        [file] => print_each(&read(file)),
        _ => panic!("a file of inputs, or --one and a file"),
    }
}

fn read(file: &str) -> Vec<u8> {
    fs::read(file).expect("the file can be read")
}

fn print_each(inputs: &[u8]) {
    let mut rest = inputs;
    while let [low, middle, high, after @ ..] = rest {
        let length = u32::from_le_bytes([*low, *middle, *high, 0]) as usize;
        let (input, next) = after.split_at(length);
        print(input);
        rest = next;
    }
}

fn print(input: &[u8]) {
    if input.len() > MAX_INPUT {
        println!("long");
    } else {
        print!("{}", oracle::rust::sessions::lines(input, 1, 64));
    }
}
