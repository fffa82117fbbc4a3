//! Compares the archive of the crate c_api_c with the Rust that was ported, on every exported function; the functions of pictures, of scaling lists, of tables of them, of the block tools, of the searches for levels and for edits, of the contributions and of the rounding bound, which were not ported, with a plain writing of their rules.
#![cfg_attr(not(all(has_contributions, has_scaling, has_transform, has_edits, has_lists, has_picture, has_rounding, has_search, has_tables, has_tools)), allow(dead_code, unused_mut))]
mod archive;
mod blocks;
#[cfg(has_contributions)]
mod contributions;
#[cfg(has_edits)]
mod edits;
#[cfg(has_lists)]
mod lists;
mod parameters;
#[cfg(has_picture)]
mod picture;
mod random;
mod record;
mod reference;
#[cfg(has_rounding)]
mod rounding;
#[cfg(has_scaling)]
mod scaling;
#[cfg(has_search)]
mod search;
#[cfg(has_tables)]
mod tables;
mod tally;
mod timing;
#[cfg(has_tools)]
mod tools;
#[cfg(has_transform)]
mod transform;

const USAGE: &str = "usage: harness differential [--seed S] [--cases N]
       harness record [FOLDER]     writes the recorded cases to crates/oracle_cases, or to FOLDER
       harness time [RUNS]         times both sides, the least of RUNS runs (200)";

struct Arguments {
    seed: u64,
    cases: usize,
}

fn arguments(rest: &[String]) -> Arguments {
    let mut read = Arguments { seed: 1, cases: 200_000 };
    for pair in rest.chunks(2) {
        let number = pair.get(1).and_then(|n| n.parse().ok());
        match (pair[0].as_str(), number) {
            ("--seed", Some(n)) => read.seed = n,
            ("--cases", Some(n)) => read.cases = n as usize,
            _ => stop(USAGE),
        }
    }
    read
}

fn stop(why: &str) -> ! {
    eprintln!("{why}");
    std::process::exit(2)
}

fn differential(arguments: &Arguments) -> bool {
    // the checked oracle panics where it overflows; that is counted, not shown
    std::panic::set_hook(Box::new(|_| {}));
    let mut planned = parameters::FUNCTIONS;
    #[cfg(has_scaling)]
    {
        planned += scaling::FUNCTIONS;
    }
    #[cfg(has_transform)]
    {
        planned += transform::FUNCTIONS;
    }
    #[cfg(has_edits)]
    {
        planned += edits::FUNCTIONS;
    }
    #[cfg(has_picture)]
    {
        planned += picture::FUNCTIONS;
    }
    #[cfg(has_lists)]
    {
        planned += lists::FUNCTIONS;
    }
    #[cfg(has_rounding)]
    {
        planned += rounding::FUNCTIONS;
    }
    #[cfg(has_tables)]
    {
        planned += tables::FUNCTIONS;
    }
    #[cfg(has_tools)]
    {
        planned += tools::FUNCTIONS;
    }
    #[cfg(has_search)]
    {
        planned += search::FUNCTIONS;
    }
    #[cfg(has_contributions)]
    {
        planned += contributions::FUNCTIONS;
    }
    let mut tally = tally::Tally::new(planned);
    parameters::compare(&mut tally, arguments.seed, arguments.cases);
    #[cfg(has_scaling)]
    scaling::compare(&mut tally, arguments.seed, arguments.cases);
    #[cfg(has_transform)]
    transform::compare(&mut tally, arguments.seed, arguments.cases);
    #[cfg(has_edits)]
    edits::compare(&mut tally, arguments.seed, arguments.cases);
    #[cfg(has_picture)]
    picture::compare(&mut tally, arguments.seed, arguments.cases);
    #[cfg(has_lists)]
    lists::compare(&mut tally, arguments.seed, arguments.cases);
    #[cfg(has_rounding)]
    rounding::compare(&mut tally, arguments.seed, arguments.cases);
    #[cfg(has_tables)]
    tables::compare(&mut tally, arguments.seed, arguments.cases);
    #[cfg(has_tools)]
    tools::compare(&mut tally, arguments.seed, arguments.cases);
    #[cfg(has_search)]
    search::compare(&mut tally, arguments.seed, arguments.cases);
    #[cfg(has_contributions)]
    contributions::compare(&mut tally, arguments.seed, arguments.cases);
    println!("seed {}, {} random cases a function", arguments.seed, arguments.cases);
    tally.finish()
}

fn main() {
    let words: Vec<String> = std::env::args().skip(1).collect();
    let Some((mode, rest)) = words.split_first() else { stop(USAGE) };
    let ok = match mode.as_str() {
        "differential" => differential(&arguments(rest)),
        "record" => {
            let folder = rest.first().map_or("crates/oracle_cases", String::as_str);
            record::record(folder.as_ref()).unwrap_or_else(|why| stop(&why.to_string()));
            true
        }
        "time" => {
            timing::time(rest.first().map_or(200, |n| n.parse().unwrap_or_else(|_| stop(USAGE))));
            true
        }
        "count-instructions" => {
            timing::count_instructions();
            true
        }
        _ => stop(USAGE),
    };
    std::process::exit(i32::from(!ok));
}
