//! The show program against the model: the sample dumps' kind of input, other lengths, and random flashes of its geometry.

use std::io::Write;
use std::process::{Command, Stdio};

use crate::compare::Outcome;
use crate::edges::SMALL;
use crate::flash::Flash;
use crate::random::Random;
use crate::samples::line;

/// The line that show has to print for this input, with its line end.
fn wanted(input: &[u8]) -> String {
    if input.len() != 3072 {
        return "none 0 0 refused 1\n".into();
    }
    let mut flash = Flash { areas: [0, 1, 2].map(|index| input[1024 * index..1024 * (index + 1)].to_vec()) };
    format!("{}\n", line(&SMALL.power_up(&mut flash, 4000, false)))
}

/// What the program writes for this input. That it may stop reading early is its own affair.
fn printed(program: &str, input: &[u8]) -> std::io::Result<String> {
    let mut child = Command::new(program).stdin(Stdio::piped()).stdout(Stdio::piped()).spawn()?;
    let mut pipe = child.stdin.take().expect("a pipe was asked for");
    let unread = pipe.write_all(input).err().filter(|problem| problem.kind() != std::io::ErrorKind::BrokenPipe);
    drop(pipe);
    let output = child.wait_with_output()?;
    match unread {
        Some(problem) => Err(problem),
        None if output.status.success() => Ok(String::from_utf8_lossy(&output.stdout).into_owned()),
        None => Ok(format!("{} after {:?}", output.status, String::from_utf8_lossy(&output.stdout))),
    }
}

fn one(program: &str, what: &str, input: &[u8]) -> Outcome {
    let got = printed(program, input).map_err(|problem| format!("{program}: {problem}"))?;
    let wanted = wanted(input);
    if got == wanted { Ok(1) } else { Err(format!("show, {what}: got {got:?}, wanted {wanted:?}")) }
}

pub fn compare(program: &str, base: u64, random_dumps: u64) -> Outcome {
    let mut runs = 0;
    for length in [0, 1, 1024, 3071, 3072, 3073, 4096, 6144, 200_000] {
        for byte in [0xff, 0] {
            runs += one(program, &format!("{length} bytes of {byte:02x}"), &vec![byte; length])?;
        }
    }
    let mut random = Random(base);
    for dump in 0..random_dumps {
        let flash = SMALL.state(&mut random);
        runs += one(program, &format!("random dump {dump} of seed {base}"), &flash.areas.concat())?;
    }
    Ok(runs)
}
