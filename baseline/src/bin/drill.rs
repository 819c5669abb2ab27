//! Reads a script from standard input and writes its answers to standard
//! output, a block at a time.

use std::io::{self, ErrorKind, Read, Write};

use baseline::drill::Drill;

const BLOCK: usize = 64 * 1024;

fn main() -> io::Result<()> {
    let (mut input, mut output) = (io::stdin().lock(), io::stdout().lock());
    let mut block = vec![0; BLOCK];
    let mut answers = Vec::with_capacity(4 * BLOCK);
    let mut drill = Drill::new();
    loop {
        match input.read(&mut block) {
            Ok(0) => break,
            Ok(length) => drill.feed(&block[..length], &mut answers),
            Err(error) if error.kind() == ErrorKind::Interrupted => continue,
            Err(error) => return Err(error),
        }
        output.write_all(&answers)?;
        answers.clear();
    }
    drill.finish(&mut answers);
    output.write_all(&answers)?;
    output.flush()
}
