//! This program run once more, as a child with a time limit: for what may never end.

use std::io::{Read, Write};
use std::process::{Command, Stdio};
use std::thread::sleep;
use std::time::{Duration, Instant};

/// How a child ended.
pub enum Ended {
    Answered {
        output: String,
        time: Duration,
    },
    Failed(String),
    /// Still running at the limit, and stopped.
    TooLong,
}

pub fn run(arguments: &[&str], input: &str, limit: Duration) -> Result<Ended, String> {
    let told = |error: std::io::Error| format!("cannot run a child: {error}");
    let program = std::env::current_exe().map_err(told)?;
    let start = Instant::now();
    let mut child = Command::new(program)
        .args(arguments)
        .stdin(Stdio::piped())
        .stdout(Stdio::piped())
        .stderr(Stdio::piped())
        .spawn()
        .map_err(told)?;
    child.stdin.take().unwrap().write_all(input.as_bytes()).map_err(told)?;
    let status = loop {
        if let Some(status) = child.try_wait().map_err(told)? {
            break status;
        }
        if start.elapsed() > limit {
            child.kill().map_err(told)?;
            child.wait().map_err(told)?;
            return Ok(Ended::TooLong);
        }
        sleep(Duration::from_millis(1));
    };
    let time = start.elapsed();
    let (mut output, mut errors) = (String::new(), String::new());
    child.stdout.unwrap().read_to_string(&mut output).map_err(told)?;
    child.stderr.unwrap().read_to_string(&mut errors).map_err(told)?;
    Ok(if status.success() { Ended::Answered { output, time } } else { Ended::Failed(output + &errors) })
}
