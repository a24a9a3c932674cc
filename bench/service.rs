//! A plain server of the calls that `bench/service` makes, and the client that makes them.
//!
//!     service serve                                       listens on 127.0.0.1 and prints the address
//!     service ask ADDRESS one|all CALLS REPLIES COUNT     prints the seconds of COUNT connections
//!
//! The server has a thread for each connection, and a table of matches of Countdown from 100 behind a mutex. It knows `open`, `next`, `submit` and
//! `query`, and keeps each call with its reply. It checks neither names nor clocks, writes no records, and proves nothing. The client makes the calls
//! of the files CALLS.0, CALLS.1 and so on, each over a connection: it sends all at once, or one after another, and compares the replies with the file
//! REPLIES.
use std::collections::HashMap;
use std::io::{BufRead, BufReader, BufWriter, Read, Result, Write};
use std::net::{TcpListener, TcpStream};
use std::sync::{Barrier, Mutex};
use std::time::Instant;
use std::{env, fs, thread};

const HEAP: usize = 100;

#[derive(Default)]
struct Match {
    taken: usize,
    round: usize,
    answers: [Option<String>; 2],
    turns: Vec<[String; 2]>,
    substitutions: usize,
    is_over: bool,
}

impl Match {
    fn phase(&self) -> &'static str {
        match (self.round, self.taken, self.is_over) {
            (0, ..) => "starting",
            (_, HEAP, false) => "stopping",
            (_, HEAP, true) => "finished",
            _ => "playing",
        }
    }

    fn next(&self, role: usize) -> String {
        let joint = self.turns.last().map_or("NIL".into(), |[red, blue]| format!("({red} {blue})"));
        match self.phase() {
            "finished" => "over".into(),
            _ if self.answers[role].is_some() => format!("hold {}", self.round),
            "starting" => "owe 0 start".into(),
            "playing" => format!("owe {} play {joint}", self.round),
            _ => format!("owe {} stop {joint}", self.round),
        }
    }

    fn submit(&mut self, role: usize, round: usize, answer: &str) -> String {
        if self.is_over {
            return "refused over".into();
        } else if round != self.round {
            return format!("refused stale {}", self.round);
        } else if self.answers[role].is_some() {
            return "refused twice".into();
        }
        self.answers[role] = Some(answer.to_string());
        if let [Some(red), Some(blue)] = &self.answers {
            let turn = [red.clone(), blue.clone()];
            self.advance(turn);
            self.answers = [None, None];
        }
        "taken".into()
    }

    fn advance(&mut self, answers: [String; 2]) {
        match self.phase() {
            "stopping" => self.is_over = true,
            "starting" => self.round = 1,
            _ => {
                let turn = [0, 1].map(|role| {
                    let legal = if self.round % 2 == role { &["noop"][..] } else { &["(take 1)", "(take 2)"][..(HEAP - self.taken).min(2)] };
                    let is_legal = legal.contains(&answers[role].as_str());
                    self.substitutions += usize::from(!is_legal);
                    if is_legal { answers[role].clone() } else { legal[0].to_string() }
                });
                self.taken += if turn.iter().any(|made| made == "(take 2)") { 2 } else { 1 };
                self.turns.push(turn);
                self.round += 1;
            }
        }
    }
}

#[derive(Default)]
struct Desk {
    matches: HashMap<String, Match>,
    history: Vec<(usize, String, String)>,
}

impl Desk {
    /// Makes a call. Returns `None` if the row is not a call.
    fn reply(&mut self, row: &str) -> Option<String> {
        let mut words = row.split(' ');
        let (name, id) = (words.next()?, words.next()?);
        let mut number = || words.next()?.parse::<usize>().ok();
        if name == "open" {
            let is_new = !self.matches.contains_key(id);
            self.matches.entry(id.into()).or_default();
            return Some(if is_new { "opened" } else { "refused idused" }.into());
        }
        let Some(found) = self.matches.get_mut(id) else { return Some("refused nomatch".into()) };
        match name {
            "next" => Some(found.next(number()?)),
            "submit" => {
                let (role, round) = (number()?, number()?);
                Some(found.submit(role, round, row.splitn(5, ' ').nth(4).unwrap_or("")))
            }
            "query" => Some(format!("status {} round {} turns {} substitutions {}", found.phase(), found.round, found.turns.len(), found.substitutions)),
            _ => None,
        }
    }

    fn call(&mut self, line: usize, row: &str) -> String {
        let reply = self.reply(row).unwrap_or("badline".into());
        self.history.push((line, row.into(), reply.clone()));
        reply
    }
}

fn serve(line: usize, stream: TcpStream, desk: &Mutex<Desk>) -> Result<()> {
    stream.set_nodelay(true)?;
    let mut reader = BufReader::with_capacity(65536, stream.try_clone()?);
    let mut writer = BufWriter::with_capacity(65536, stream);
    let mut row = String::new();
    while reader.read_line(&mut row)? > 0 {
        let reply = desk.lock().unwrap().call(line, row.trim_end_matches('\n'));
        writeln!(writer, "{reply}")?;
        if !reader.buffer().contains(&b'\n') {
            writer.flush()?;
        }
        row.clear();
    }
    Ok(())
}

fn ask(stream: &TcpStream, at_once: bool, calls: &[u8], replies: &[u8]) -> Result<()> {
    let (mut reader, mut sender) = (BufReader::with_capacity(65536, stream), stream);
    let mut got = Vec::with_capacity(replies.len());
    if at_once {
        thread::scope(|scope| {
            scope.spawn(move || sender.write_all(calls));
            reader.by_ref().take(replies.len() as u64).read_to_end(&mut got)
        })?;
    } else {
        for row in calls.split_inclusive(|byte| *byte == b'\n') {
            sender.write_all(row)?;
            reader.read_until(b'\n', &mut got)?;
        }
    }
    assert!(got == replies, "the replies differ");
    Ok(())
}

fn main() -> Result<()> {
    let words: Vec<String> = env::args().collect();
    if words[1] == "serve" {
        let (listener, desk) = (TcpListener::bind("127.0.0.1:0")?, Mutex::new(Desk::default()));
        println!("listening on {}", listener.local_addr()?);
        return thread::scope(|scope| loop {
            let (stream, desk) = (listener.accept()?.0, &desk);
            scope.spawn(move || serve(0, stream, desk));
        });
    }
    let count: usize = words[6].parse().unwrap();
    let (barrier, replies) = (Barrier::new(count), fs::read(&words[5])?);
    let times = thread::scope(|scope| {
        let clients: Vec<_> = (0..count)
            .map(|number| {
                let (barrier, replies, words) = (&barrier, &replies, &words);
                scope.spawn(move || {
                    let calls = fs::read(format!("{}.{number}", words[4])).unwrap();
                    let stream = TcpStream::connect(&words[2]).unwrap();
                    stream.set_nodelay(true).unwrap();
                    barrier.wait();
                    let began = Instant::now();
                    ask(&stream, words[3] == "all", &calls, replies).unwrap();
                    (began, Instant::now())
                })
            })
            .collect();
        clients.into_iter().map(|client| client.join().unwrap()).collect::<Vec<_>>()
    });
    let (began, ended) = (times.iter().map(|time| time.0).min().unwrap(), times.iter().map(|time| time.1).max().unwrap());
    println!("{}", (ended - began).as_secs_f64());
    Ok(())
}
