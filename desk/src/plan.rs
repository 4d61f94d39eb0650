//! `plan`: the plan file of a text. `show`: the text of a plan file.

use crate::ending::{Ending, Stop};
use crate::input::{is_standard, open, read_most, read_plan};
use crate::replace::{is_same_file, replace};
use crate::text::{self, Mode};
use hrt::{Plan, Refusal, State};
use std::ffi::{OsStr, OsString};
use std::io::{stdout, Write};
use std::path::Path;

/// More than any text of a plan that isn't comments for the most part.
const MOST_TEXT_BYTES: usize = 16 << 20;

/// Writes the plan file of a text, and says what it wrote.
pub fn plan(text_path: OsString, plan_path: Option<OsString>) -> Result<(), Ending> {
    let mut input = open(&text_path)?;
    let target = match plan_path {
        Some(path) => path,
        None if !input.file.metadata().is_ok_and(|data| data.is_file()) => {
            let text = "a text that is no file needs a name for its plan: ./hrt plan TEXT PLAN";
            return Err(Ending::wrong(text.to_string()));
        }
        None => beside(&text_path),
    };
    if is_same_file(&input.file, &target) {
        let name = target.to_string_lossy();
        let text = format!("'{name}' is the text itself; name another file for the plan");
        return Err(Ending::wrong(text));
    }
    let text = read_most(&mut input, MOST_TEXT_BYTES + 1)?;
    if text.len() > MOST_TEXT_BYTES {
        let text = format!("{}: a text has at most {MOST_TEXT_BYTES} bytes", input.name);
        return Err(Ending::wrong(text));
    }
    let mode = text::read(&text).map_err(|faults| {
        let told = |fault: text::Fault| format!("{}:{}: {}", input.name, fault.line, fault.text);
        Ending { stop: Stop::Wrong, messages: faults.into_iter().map(told).collect() }
    })?;
    let bytes = made(&mode)?;
    let said = said(&mode, bytes.len());
    if is_standard(&target) {
        check(&mode, bytes.clone())?;
        print(&bytes)?;
        eprintln!("standard output: {said}");
        return Ok(());
    }
    replace(&target, &bytes, |written| check(&mode, written))?;
    print(format!("{}: {said}\n", target.to_string_lossy()).as_bytes())
}

/// The name of a text's plan file: .plan for .txt.
fn beside(text_path: &OsStr) -> OsString {
    let path = Path::new(text_path);
    let mut plan = match path.extension() {
        Some(end) if end == "txt" => path.with_extension("").into_os_string(),
        _ => text_path.to_os_string(),
    };
    plan.push(".plan");
    plan
}

/// The plan file of a mode, written by the archive.
fn made(mode: &Mode) -> Result<Vec<u8>, Ending> {
    let state = State::fresh(mode.sx, mode.sy, &mode.flows);
    let file = state.and_then(|state| state.write(&mode.notes));
    file.map_err(|refusal| Ending::broken(format!("the archive won't write this plan: {refusal}")))
}

/// Reads a plan file back through the archive, and compares it with the text number by number.
fn check(mode: &Mode, file: Vec<u8>) -> Result<(), Ending> {
    let differ = |what: String| Err(Ending::broken(format!("what was made differs: {what}")));
    let back = match mode_of(file) {
        Ok(back) => back,
        Err(refusal) => return differ(refusal.to_string()),
    };
    let flows = |mode: &Mode| mode.flows.len() as u32;
    let heads =
        [("SX", mode.sx, back.sx), ("SY", mode.sy, back.sy), ("F", flows(mode), flows(&back))];
    for (name, asked, read) in heads {
        if asked != read {
            return differ(format!("{name} is {read}, not {asked}"));
        }
    }
    for (flow, (asked, read)) in mode.flows.iter().zip(&back.flows).enumerate() {
        let names = ["XS", "YS", "XD", "YD", "P", "SIGMA"];
        for ((name, asked), read) in names.iter().zip(asked.numbers()).zip(read.numbers()) {
            if asked != read {
                return differ(format!("{name} of flow {flow} is {read}, not {asked}"));
            }
        }
    }
    if mode.notes != back.notes {
        return differ("the notes".to_string());
    }
    Ok(())
}

/// What a plan file says, read by the archive.
fn mode_of(file: Vec<u8>) -> Result<Mode, Refusal> {
    let plan = Plan::read(file)?;
    let state = plan.reset()?;
    let flows = (0..state.flows()).map(|flow| state.flow(flow)).collect();
    Ok(Mode { sx: state.sx(), sy: state.sy(), flows, notes: plan.notes().to_vec() })
}

fn said(mode: &Mode, bytes: usize) -> String {
    let flows = match mode.flows.len() {
        1 => "1 flow".to_string(),
        flows => format!("{flows} flows"),
    };
    let notes = mode.notes.len();
    format!("{flows} on {} by {}, {notes} bytes of notes, {bytes} bytes in all", mode.sx, mode.sy)
}

/// Prints the text of a plan file.
pub fn show(plan_path: OsString) -> Result<(), Ending> {
    let plan = read_plan(&plan_path)?;
    let mode = mode_of(plan.bytes().to_vec()).map_err(refused)?;
    print(text::write(&mode).as_bytes())
}

/// What can't happen to an accepted plan.
pub fn refused(refusal: Refusal) -> Ending {
    Ending::broken(format!("an accepted plan is {refusal}"))
}

pub fn print(bytes: &[u8]) -> Result<(), Ending> {
    let mut out = stdout().lock();
    out.write_all(bytes).and_then(|()| out.flush()).map_err(cant_print)
}

pub fn cant_print(why: std::io::Error) -> Ending {
    Ending::failed(format!("standard output can't be written: {why}"))
}
