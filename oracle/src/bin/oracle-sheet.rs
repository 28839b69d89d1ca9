use std::io::{self, BufReader, BufWriter};

fn main() -> io::Result<()> {
    let mut input = BufReader::new(io::stdin().lock());
    let mut output = BufWriter::new(io::stdout().lock());
    oracle::text::sheet(&mut input, &mut output)
}
