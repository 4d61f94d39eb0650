//! A million offers through the desk's `run`, beside the archive's own calls for them.

use crate::loads::{Case, Load, case};
use crate::processor::{ended, own, stay};
use second::lent::{Call, Copied, Engine};
use std::fmt::Write;
use std::fs::{self, File};
use std::hint::black_box;
use std::path::Path;
use std::process::{Child, Command};

const OFFERS: usize = 1_000_000;
/// Pairs of the two. The archive's own calls and the desk run at once on one core, which turns from
/// one to the other every few milliseconds, so that what others do to the machine slows both alike.
/// The best of each gives its time, and the median of the pairs' ratios the ratio.
const PAIRS: usize = 9;

/// Offers of all flows in turn, as many in each cycle, and as text.
struct Stream {
    offers: Vec<(u32, u32)>,
    text: String,
}

fn stream(flows: usize, per_cycle: usize) -> Stream {
    let offers: Vec<(u32, u32)> =
        (0..OFFERS).map(|at| ((at / per_cycle) as u32, (at % flows) as u32)).collect();
    let mut text = String::new();
    for (cycle, flow) in &offers {
        writeln!(text, "{cycle} {flow}").unwrap();
    }
    Stream { offers, text }
}

/// Times the program on 8 by 8 with 64 flows, with few packets waiting and with many.
pub fn time(program: &str, archive: Engine) {
    let folder = std::env::temp_dir().join(format!("bench.{}", std::process::id()));
    fs::create_dir(&folder).unwrap();
    stay();
    println!("call           torus  flows  offers per cycle  archive ms  desk ms  ratio");
    for per_cycle in [1, 64] {
        let case = case(8, 64, Load::Saturated);
        let stream = stream(case.flows, per_cycle);
        fs::write(folder.join("plan"), &case.file).unwrap();
        fs::write(folder.join("offers"), &stream.text).unwrap();
        for (call, options) in [("run", &[][..]), ("run --summary", &["--summary"])] {
            let pairs = [(); PAIRS].map(|()| {
                pair(|| calls(archive, &case, &stream.offers), || run(program, &folder, options))
            });
            let best = |which: usize| pairs.map(|pair| pair[which]).into_iter().reduce(f64::min);
            let (calls, desk, ratio) = (best(0).unwrap(), best(1).unwrap(), middle_ratio(&pairs));
            let flows = case.flows;
            println!(
                "{call:13}  8x8    {flows:5} {per_cycle:17} {calls:11.0} {desk:8.0} {ratio:6.2}"
            );
        }
    }
    fs::remove_dir_all(&folder).unwrap();
}

/// Milliseconds of processor time of some work here, and of a program beside it.
fn pair(work: impl Fn(), start: impl Fn() -> Child) -> [f64; 2] {
    let before = ended();
    let mut program = start();
    let began = own();
    work();
    let worked = own() - began;
    assert!(program.wait().unwrap().success());
    [worked, ended() - before]
}

fn middle_ratio(pairs: &[[f64; 2]; PAIRS]) -> f64 {
    let mut ratios = pairs.map(|[calls, desk]| desk / calls);
    ratios.sort_by(f64::total_cmp);
    ratios[PAIRS / 2]
}

/// The archive's own calls: each offer before the step of its cycle, until everything has left.
fn calls(archive: Engine, case: &Case, offers: &[(u32, u32)]) {
    let mut memories = Copied {
        file: case.file.clone(),
        state: vec![0; case.words()],
        delivery: vec![0; case.room()],
        ..Copied::default()
    };
    memories.call = Call::Reset;
    assert_eq!(archive(&mut memories.lent()), 0);
    memories.call = Call::Step;
    let mut lent = memories.lent();
    let mut here = 0;
    let mut offers = offers.iter().peekable();
    let mut clock = 0;
    while here > 0 || offers.peek().is_some() {
        while let Some((_, flow)) = offers.next_if(|(cycle, _)| *cycle == clock) {
            lent.call = Call::Offer(*flow);
            here += (archive(&mut lent) == 0) as u64;
        }
        lent.call = Call::Step;
        here -= black_box(archive(&mut lent));
        clock += 1;
    }
}

fn run(program: &str, folder: &Path, options: &[&str]) -> Child {
    Command::new(program)
        .arg("run")
        .args([folder.join("plan"), folder.join("offers")])
        .args(options)
        .stdout(File::create("/dev/null").unwrap())
        .spawn()
        .unwrap()
}
