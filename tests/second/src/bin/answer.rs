//! `answer`: a run file on standard input, the listing on standard output, as `bench` does it.
//!
//! The hidden option `--fault NAME` plants one of document 01's 'Designs that look right'.

use second::fault::{self, Fault};
use second::{listing, rules};
use std::io::{Read, Write};

fn main() -> std::io::Result<()> {
    let arguments: Vec<String> = std::env::args().skip(1).collect();
    let planted = match arguments.as_slice() {
        [] => Some(Fault::Nothing),
        [option, name] if option == "--fault" => fault::find(name),
        _ => None,
    };
    let Some(planted) = planted else {
        eprintln!("answer takes no option, or --fault and one of: {}", fault::FAULTS.map(|(name, _)| name).join(" "));
        std::process::exit(2);
    };
    let mut text = Vec::new();
    std::io::stdin().lock().take(rules::MOST_BYTES as u64 + 1).read_to_end(&mut text)?;
    std::io::stdout().write_all(&listing::answer_with(&text, planted))
}
