//! Compares the library with the model over many sessions, or the model with itself (`--self`).

use std::env;
use std::process::ExitCode;
use std::time::{Instant, SystemTime, UNIX_EPOCH};
use tollgutter_tests::coverage::Coverage;
use tollgutter_tests::packing::{self, Packer};
use tollgutter_tests::recorder::Recorder;
use tollgutter_tests::runner::{Difference, Runner};
use tollgutter_tests::session::Session;
use tollgutter_tests::{generate, model, random, show, shrink, trace};

const USAGE: &str = "sessions [--calls N] [--seed S|random] [--session S] [--announce] [--self]";
const DEFAULT_SEED: u64 = 20_240_611;
const DEFAULT_CALLS: u64 = 1_500_000;

struct Options {
    calls: u64,
    seed: u64,
    session: Option<u64>,
    /// Compare the model with itself.
    own: bool,
    /// Print each session's seed before it runs: the last one printed is the one that crashed.
    announce: bool,
}

/// A number, decimal or with 0x in front.
fn number(text: &str) -> Option<u64> {
    match text.strip_prefix("0x") {
        Some(digits) => u64::from_str_radix(digits, 16).ok(),
        None => text.parse().ok(),
    }
}

fn clock() -> u64 {
    let elapsed = SystemTime::now().duration_since(UNIX_EPOCH).unwrap_or_default();
    random::mix(elapsed.as_nanos() as u64)
}

fn options() -> Option<Options> {
    let mut options = Options { calls: DEFAULT_CALLS, seed: DEFAULT_SEED, session: None, own: false, announce: false };
    let mut arguments = env::args().skip(1);
    while let Some(name) = arguments.next() {
        match name.as_str() {
            "--self" => options.own = true,
            "--announce" => options.announce = true,
            "--calls" => options.calls = number(&arguments.next()?)?,
            "--session" => options.session = Some(number(&arguments.next()?)?),
            "--seed" => {
                let text = arguments.next()?;
                options.seed = if text == "random" { clock() } else { number(&text)? };
            }
            _ => return None,
        }
    }
    Some(options)
}

fn main() -> ExitCode {
    let Some(options) = options() else {
        eprintln!("{USAGE}");
        return ExitCode::from(2);
    };
    if options.own {
        return all(&options, model::Device::closed, |options| packed(options, &packing::Model));
    }
    with_library(&options)
}

#[cfg(feature = "library")]
fn with_library(options: &Options) -> ExitCode {
    use tollgutter_tests::{anything, ffi};
    all(options, ffi::Device::zeroed, |options| {
        let seen = anything::run(options.seed, options.calls / 10)?;
        println!("devices of any content: {}", seen.in_short());
        println!("{} calls on devices of any content: all answered", seen.calls);
        packed(options, &ffi::Packing)
    })
}

#[cfg(not(feature = "library"))]
fn with_library(_: &Options) -> ExitCode {
    eprintln!("built without the library: only --self can run");
    ExitCode::from(2)
}

/// Calls of the packing, which is no part of a session.
fn packed<T: Packer>(options: &Options, tested: &T) -> Result<(), String> {
    let seen = packing::run(options.seed, options.calls / 10, &packing::Model, tested)?;
    println!("{seen}");
    let missing = seen.missing();
    if !missing.is_empty() {
        return Err(missing.join("\n"));
    }
    println!("{} calls of the packing compared: all equal", seen.calls);
    Ok(())
}

/// One session if one is named, else many, and then what `more` does.
fn all<T: Recorder>(
    options: &Options,
    make: impl Fn() -> T,
    more: impl Fn(&Options) -> Result<(), String>,
) -> ExitCode {
    if let Some(seed) = options.session {
        return one(seed, make);
    }
    println!("seed {}", options.seed);
    let Some(coverage) = many(options, make) else {
        return ExitCode::FAILURE;
    };
    if let Err(fault) = more(options) {
        println!("{fault}\nrerun with --seed {}", options.seed);
        return ExitCode::FAILURE;
    }
    println!("{} calls, {} sessions compared: all equal", coverage.calls, coverage.sessions);
    ExitCode::SUCCESS
}

/// Runs a session on new devices.
fn difference<T: Recorder>(session: &Session, make: &impl Fn() -> T) -> Option<Difference> {
    let mut unused = Coverage::default();
    Runner::default().run(session, &mut model::Device::closed(), &mut make(), &mut unused).err()
}

/// One session, with all its steps printed.
fn one<T: Recorder>(seed: u64, make: impl Fn() -> T) -> ExitCode {
    let session = generate::session(seed);
    for (place, text) in trace::trace(&session).iter().enumerate() {
        println!("  {place:>4}  {text}");
    }
    match difference(&session, &make) {
        None => {
            println!("session {seed:#x}: {} steps, all equal", session.steps.len());
            ExitCode::SUCCESS
        }
        Some(found) => {
            report(&session, found, make);
            ExitCode::FAILURE
        }
    }
}

fn report<T: Recorder>(session: &Session, found: Difference, make: impl Fn() -> T) {
    println!("session {:#x} differs after step {}: {}", session.seed, found.step, found.what);
    println!("    expected {}\n    got      {}", found.expected, found.got);
    let (short, found) = shrink::shrink(session, found, |candidate| difference(candidate, &make));
    println!("shrunk to {} steps:\n{}", short.steps.len(), show::report(&short, &found));
    println!("rerun with --session {:#x}", session.seed);
}

/// Runs sessions until enough calls were made. Nothing if a difference was found, or an answer was never seen.
fn many<T: Recorder>(options: &Options, make: impl Fn() -> T) -> Option<Coverage> {
    let started = Instant::now();
    let mut coverage = Coverage::default();
    let mut runner = Runner::default();
    let mut expected = model::Device::closed();
    let mut tested = make();
    let mut index = 0;
    while coverage.calls < options.calls {
        let session = generate::session(random::mix(options.seed ^ random::mix(index)));
        index += 1;
        if options.announce {
            println!("session {:#x}", session.seed);
        }
        if let Err(found) = runner.run(&session, &mut expected, &mut tested, &mut coverage) {
            println!("{coverage}");
            report(&session, found, make);
            return None;
        }
    }
    println!("{coverage}");
    let seconds = started.elapsed().as_secs_f64();
    println!("{seconds:.1} s, {:.0} calls in a second", coverage.calls as f64 / seconds);
    let missing = coverage.missing();
    if !missing.is_empty() {
        println!("{}", missing.join("\n"));
        return None;
    }
    Some(coverage)
}
