use std::io::{self, BufWriter};

fn main() -> io::Result<()> {
    let mut output = BufWriter::new(io::stdout().lock());
    oracle::probe::probe(&mut io::stdin().lock(), &mut output)
}
