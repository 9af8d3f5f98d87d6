//! Reads a script on standard input and prints what the module answers.

use independent::module::Module;
use independent::replay::Replay;
use std::io::{self, BufRead, Write};

fn main() -> io::Result<()> {
    let mut input = io::stdin().lock();
    let mut output = io::BufWriter::new(io::stdout().lock());
    let mut replay = Replay::new(Module::default());
    let (mut line, mut out) = (vec![], vec![]);
    while input.read_until(b'\n', &mut line)? > 0 {
        replay.line(line.strip_suffix(b"\n").unwrap_or(&line), &mut out, &mut |_| {});
        output.write_all(&out)?;
        line.clear();
        out.clear();
    }
    output.flush()
}
