//! The driver as a child process: cases go in, answers come out and are compared.
//!
//! A thread of its own makes and sends the cases, since a pipe holds little: whoever sends and receives in turn may wait for ever.

use crate::case::{Case, Tables};
use crate::totals::Totals;
use std::io::{BufReader, BufWriter, Read, Write};
use std::process::{Child, ChildStdin, ChildStdout, Command, Stdio};
use std::sync::mpsc::{channel, Receiver, Sender};
use std::thread;

/// What the head has to say.
const VERSION: u32 = 8;
const SIZE_BYTES: u32 = 8;

/// A case with its name, e.g. "line 17".
pub type Named = (String, Case);

pub struct Driver {
    child: Child,
    output: BufReader<ChildStdout>,
}

impl Driver {
    /// Starts the command and checks the head that the driver sends.
    pub fn start(command: &[String]) -> Result<(Driver, ChildStdin), String> {
        let mut child = Command::new(&command[0])
            .args(&command[1..])
            .stdin(Stdio::piped())
            .stdout(Stdio::piped())
            .spawn()
            .map_err(|error| format!("{}: {}", command[0], error))?;
        let input = child.stdin.take().ok_or("no input of the driver")?;
        let output = child.stdout.take().ok_or("no output of the driver")?;
        let mut driver = Driver { child, output: BufReader::with_capacity(1 << 16, output) };
        let head = driver.answer()?;
        if head != [VERSION.to_be_bytes(), SIZE_BYTES.to_be_bytes()].concat() {
            return Err(format!("version {} and a size_t of {} bytes are needed, came {:?}", VERSION, SIZE_BYTES, head));
        }
        Ok((driver, input))
    }

    fn answer(&mut self) -> Result<Vec<u8>, String> {
        let gone = |error: std::io::Error| format!("the driver gives no answer: {}", error);
        let mut length = [0; 4];
        self.output.read_exact(&mut length).map_err(gone)?;
        let mut answer = vec![0; u32::from_be_bytes(length) as usize];
        self.output.read_exact(&mut answer).map_err(gone)?;
        Ok(answer)
    }

    /// The driver has to end well and say nothing more.
    fn finish(mut self) -> Result<(), String> {
        let mut rest = Vec::new();
        self.output.read_to_end(&mut rest).map_err(|error| error.to_string())?;
        let status = self.child.wait().map_err(|error| error.to_string())?;
        if status.success() && rest.is_empty() {
            Ok(())
        } else {
            Err(format!("the driver ended with {}, {} bytes too many", status, rest.len()))
        }
    }
}

/// Hands each case to the comparing thread before it is sent, so that the answers are always read.
fn send(cases: impl Iterator<Item = Named>, input: ChildStdin, to: &Sender<Named>) {
    let mut pipe = BufWriter::with_capacity(1 << 16, input);
    for named in cases {
        let message = named.1.message();
        // Either fails only when the other side has given up, and then it says why itself.
        if to.send(named).is_err() || pipe.write_all(&message).is_err() {
            return;
        }
    }
    let _ = pipe.flush();
}

fn compare(driver: &mut Driver, tables: &Tables, totals: &mut Totals, named: &Named) -> Result<(), String> {
    let expected = named.1.expect(tables, totals, false);
    let shown = || format!("{}: {}", named.0, named.1.shown());
    let came = driver.answer().map_err(|error| format!("{}\n{}", shown(), error))?;
    named.1.check(&came, totals).map_err(|error| format!("{}\n{}", shown(), error))?;
    if came == expected.bytes {
        return Ok(());
    }
    let with_names = named.1.expect(tables, &mut Totals::default(), true);
    let (difference, place) = with_names.difference(&came);
    Err(format!("{}\n{}{}", shown(), difference, named.1.near(place)))
}

/// Runs all cases that the maker gives, and answers what was met.
pub fn run<M, I>(command: &[String], make: M) -> Result<Totals, String>
where
    M: FnOnce() -> I + Send + 'static,
    I: Iterator<Item = Named>,
{
    let tables = Tables::new();
    let (mut driver, input) = Driver::start(command)?;
    let (to, from): (Sender<Named>, Receiver<Named>) = channel();
    let sender = thread::spawn(move || send(make(), input, &to));
    let mut totals = Totals::default();
    for named in from {
        if let Err(difference) = compare(&mut driver, &tables, &mut totals, &named) {
            // The child would wait for more cases while the sender waits for it.
            let _ = driver.child.kill();
            let _ = driver.child.wait();
            return Err(difference);
        }
    }
    sender.join().map_err(|_| "the sending thread failed".to_string())?;
    driver.finish()?;
    Ok(totals)
}
