//! `shows --fault NAME [--cases N] [--seed S] [--most K] [--save FOLDER]`: the first K of the cases of `compare` in which
//! a planted fault changes the listing, one case number a line.
//!
//! Each is saved in the folder: `NUMBER.run` is the input and `NUMBER.listing` the right listing. The exit status is 1
//! if no case shows the fault, 2 if the call was wrong.

use second::fault::{self, Fault, FAULTS};
use second::{gen, listing};
use std::path::PathBuf;

struct Options {
    fault: Fault,
    cases: u64,
    seed: u64,
    most: usize,
    save: Option<PathBuf>,
}

fn main() -> std::io::Result<()> {
    let Some(options) = read_options() else {
        eprintln!("shows --fault NAME [--cases N] [--seed S] [--most K] [--save FOLDER], where NAME is one of:");
        eprintln!("{}", FAULTS.map(|(name, _)| name).join(" "));
        std::process::exit(2);
    };
    let mut shown = 0;
    for number in 0..options.cases {
        let text = gen::make_case(options.seed, number).text;
        let right = listing::answer(&text);
        if listing::answer_with(&text, options.fault) == right {
            continue;
        }
        println!("{number}");
        if let Some(folder) = &options.save {
            std::fs::write(folder.join(format!("{number}.run")), text)?;
            std::fs::write(folder.join(format!("{number}.listing")), right)?;
        }
        shown += 1;
        if shown == options.most {
            break;
        }
    }
    std::process::exit(i32::from(shown == 0));
}

/// The options of the call, or `None` if it is wrong.
fn read_options() -> Option<Options> {
    let (fault, save) = (Fault::Nothing, None);
    let mut options = Options { fault, cases: 3_000, seed: gen::DEFAULT_SEED, most: 5, save };
    let mut given = std::env::args().skip(1);
    while let Some(name) = given.next() {
        match name.as_str() {
            "--fault" => options.fault = fault::find(&given.next()?)?,
            "--cases" => options.cases = given.next()?.parse().ok()?,
            "--seed" => options.seed = given.next()?.parse().ok()?,
            "--most" => options.most = given.next()?.parse().ok()?,
            "--save" => options.save = Some(given.next()?.into()),
            _ => return None,
        }
    }
    (options.fault != Fault::Nothing && options.most > 0).then_some(options)
}
