//! Reads once from standard input and prints what comes of it, so that tests
//! see whether what they do interrupts a read.

#![forbid(unsafe_code)]

use std::io::{self, Read};

fn main() {
    match io::stdin().read(&mut [0; 1]) {
        Ok(size) => println!("{size} bytes"),
        Err(error) => println!("{:?}", error.kind()),
    }
}
