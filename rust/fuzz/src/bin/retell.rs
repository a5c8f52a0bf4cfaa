//! Tells the steps of kept inputs, one to a line; the last step told before a difference is the one that made it.

use fuzz::played::Played;
use std::{env, fs, io};

fn main() -> io::Result<()> {
    for name in env::args().skip(1) {
        let input = fs::read(&name)?;
        Played::default().play(&input, |step| println!("{:02x?}", step));
        println!("{}: no difference", name);
    }
    Ok(())
}
