use oracle::rooms::{self, AsStated};
use std::io::{self, BufReader, BufWriter};

fn main() -> io::Result<()> {
    let mut input = BufReader::new(io::stdin().lock());
    let mut output = BufWriter::new(io::stdout().lock());
    rooms::answer(&AsStated, &mut input, &mut output)
}
