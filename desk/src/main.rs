//! The planner's desk. `./hrt` builds and calls it; `./hrt --help` says what its words do.

mod bursts;
mod bytes;
mod end;
mod ending;
mod input;
mod offering;
mod offers;
mod output;
mod plan;
mod progress;
mod recent;
mod replace;
mod run;
mod signals;
mod tally;
mod text;
mod watch;
mod why;
mod words;

use ending::Ending;
use std::process::ExitCode;
use words::Work;

fn main() -> ExitCode {
    signals::end_on_closed_pipe();
    match words::read(std::env::args_os().skip(1)).and_then(work) {
        Ok(()) => ExitCode::SUCCESS,
        Err(ending) => ending.tell(),
    }
}

fn work(work: Work) -> Result<(), Ending> {
    match work {
        Work::Plan(text, plan) => plan::plan(text, plan),
        Work::Show(plan) => plan::show(plan),
        Work::Bursts(plan) => bursts::bursts(plan),
        Work::Run(request) => run::run(request),
    }
}
