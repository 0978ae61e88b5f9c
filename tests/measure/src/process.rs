//! Other programs: run to their end, or stopped at a limit.

use std::io::Read;
use std::process::{Child, Command, Stdio};
use std::thread::{sleep, spawn, JoinHandle};
use std::time::{Duration, Instant};

/// What a program that ended well printed, on both of its outputs.
pub fn run(command: &mut Command, limit: Duration) -> Result<String, String> {
    let spawned =
        command.stdin(Stdio::null()).stdout(Stdio::piped()).stderr(Stdio::piped()).spawn();
    let mut child = spawned.map_err(|error| format!("{command:?}: {error}"))?;
    let printed = [reader(child.stdout.take()), reader(child.stderr.take())];
    let ended_well = wait(&mut child, limit).map_err(|why| format!("{command:?}: {why}"))?;
    let printed: String = printed.into_iter().map(|text| text.join().unwrap_or_default()).collect();
    match ended_well {
        true => Ok(printed),
        false => Err(format!("{command:?} failed:\n{printed}")),
    }
}

/// Reads an output as it comes, so that a program that prints much is not held up.
fn reader(output: Option<impl Read + Send + 'static>) -> JoinHandle<String> {
    spawn(move || {
        let mut bytes = Vec::new();
        if let Some(mut output) = output {
            // What could be read before an error is still worth showing.
            let _ = output.read_to_end(&mut bytes);
        }
        String::from_utf8_lossy(&bytes).into_owned()
    })
}

/// Whether the program ended well. One that is still at work at the limit is stopped.
fn wait(child: &mut Child, limit: Duration) -> Result<bool, String> {
    let start = Instant::now();
    loop {
        match child.try_wait() {
            Ok(Some(status)) => return Ok(status.success()),
            Ok(None) if start.elapsed() < limit => sleep(Duration::from_millis(2)),
            Ok(None) => {
                child.kill().and_then(|()| child.wait()).map_err(|error| error.to_string())?;
                return Err(format!("no end after {} s", limit.as_secs()));
            }
            Err(error) => return Err(error.to_string()),
        }
    }
}

#[cfg(test)]
mod tests {
    use super::*;

    fn shell(script: &str, limit: Duration) -> Result<String, String> {
        run(Command::new("sh").args(["-c", script]), limit)
    }

    #[test]
    fn both_outputs_are_read() {
        let limit = Duration::from_secs(10);
        assert_eq!(shell("echo one; echo two >&2", limit), Ok(String::from("one\ntwo\n")));
    }

    #[test]
    fn failures_and_endless_programs_are_errors() {
        assert!(shell("exit 3", Duration::from_secs(10)).is_err());
        let endless = shell("exec sleep 20", Duration::from_millis(50));
        assert!(endless.unwrap_err().contains("no end"));
    }
}
