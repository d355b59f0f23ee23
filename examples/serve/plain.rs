//! A plain server to measure `kactd` beside: `rustc -O plain.rs -o plain`, then `./figures.py ./plain`.
//!
//! It takes kactd's words and a fixed revision's setup, and serves so many rounds in as many threads as slots: each request waits for a seat at a pod
//! behind one mutex and a condition variable, goes to its pod over a connection of its own, and its reply comes back as it is, until its end. It keeps
//! no history, prints no journal, and checks nothing that it forwards: what kactd costs more is what it pays for these.

use std::collections::HashMap;
use std::io::{Error, ErrorKind, Read, Result, Write};
use std::net::{Shutdown, TcpListener, TcpStream};
use std::sync::{Condvar, Mutex};

const MOST: usize = 1 << 20;

struct Seats {
    limit: usize,
    running: Mutex<Vec<usize>>,
    left: Condvar,
}

impl Seats {
    /// Waits for a seat: at the pod with the fewest requests.
    fn take(&self) -> usize {
        let mut running = self.running.lock().unwrap();
        loop {
            let pod = (0..running.len()).min_by_key(|pod| running[*pod]).unwrap();
            if self.limit == 0 || running[pod] < self.limit {
                running[pod] += 1;
                return pod;
            }
            running = self.left.wait(running).unwrap();
        }
    }

    fn give(&self, pod: usize) {
        self.running.lock().unwrap()[pod] -= 1;
        self.left.notify_one();
    }
}

fn end_of_head(bytes: &[u8]) -> Option<usize> {
    bytes.windows(4).position(|part| part == b"\r\n\r\n").map(|at| at + 4)
}

fn length_in(head: &[u8]) -> usize {
    let text = String::from_utf8_lossy(head).to_ascii_lowercase();
    let value = text.split("\r\ncontent-length:").nth(1).and_then(|rest| rest.split("\r\n").next());
    value.and_then(|digits| digits.trim().parse().ok()).unwrap_or(0)
}

/// Reads a head, and a body of as many bytes as it says. Where the head ends.
fn read_message(stream: &mut TcpStream, bytes: &mut Vec<u8>) -> Result<usize> {
    bytes.clear();
    let mut part = [0; 16384];
    loop {
        if let Some(end) = end_of_head(bytes) {
            if bytes.len() >= end + length_in(&bytes[..end]) {
                return Ok(end);
            }
        }
        let n = stream.read(&mut part)?;
        if n == 0 || bytes.len() > MOST {
            return Err(Error::from(ErrorKind::UnexpectedEof));
        }
        bytes.extend_from_slice(&part[..n]);
    }
}

/// The message with `Connection: close` in its head.
fn closing(bytes: &[u8], end: usize) -> Vec<u8> {
    let mut out = Vec::with_capacity(bytes.len() + 32);
    for line in bytes[..end - 2].split_inclusive(|byte| *byte == b'\n') {
        if !line.to_ascii_lowercase().starts_with(b"connection:") {
            out.extend_from_slice(line);
        }
    }
    out.extend_from_slice(b"Connection: close\r\n\r\n");
    out.extend_from_slice(&bytes[end..]);
    out
}

fn call(pod: &str, request: &[u8], reply: &mut Vec<u8>) -> Result<usize> {
    let mut stream = TcpStream::connect(pod)?;
    stream.set_nodelay(true)?;
    stream.write_all(request)?;
    read_message(&mut stream, reply)
}

fn serve(listener: &TcpListener, seats: &Seats, pods: &[String], bytes: &mut Vec<u8>) -> Result<()> {
    let (mut client, _) = listener.accept()?;
    client.set_nodelay(true)?;
    let end = read_message(&mut client, bytes)?;
    let request = closing(bytes, end);
    let pod = seats.take();
    let called = call(&pods[pod % pods.len()], &request, bytes);
    seats.give(pod);
    match called {
        Ok(end) => client.write_all(&closing(bytes, end))?,
        Err(_) => client.write_all(b"HTTP/1.1 502 Bad Gateway\r\nContent-Length: 0\r\nConnection: close\r\n\r\n")?,
    }
    client.shutdown(Shutdown::Write)
}

fn main() {
    let words: Vec<String> = std::env::args().skip(1).collect();
    let given: HashMap<_, _> = words.chunks(2).map(|pair| (&pair[0][2..], pair[1].as_str())).collect();
    let mut setup = String::new();
    std::io::stdin().read_to_string(&mut setup).unwrap();
    let named = |name: &str| -> usize {
        let word = setup.split_whitespace().find_map(|word| word.strip_prefix(name)?.strip_prefix('='));
        word.unwrap().parse().unwrap()
    };
    let (slots, rounds): (usize, usize) = (given["slots"].parse().unwrap(), given["rounds"].parse().unwrap());
    let pods: Vec<String> = given["pods"].split(',').map(String::from).collect();
    let seats = Seats { limit: named("limit"), running: Mutex::new(vec![0; named("pods")]), left: Condvar::new() };
    let listener = TcpListener::bind(given["listen"]).unwrap();
    std::thread::scope(|scope| {
        for _ in 0..slots {
            scope.spawn(|| {
                let mut bytes = Vec::new();
                for _ in 0..rounds {
                    // (a client that fails ends its round alone)
                    let _ = serve(&listener, &seats, &pods, &mut bytes);
                }
            });
        }
    });
}
