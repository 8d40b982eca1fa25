//! The rounds of the kernel's round trips in plain Rust, with which the kernel is compared.
//!
//! usage: peers PEER CLIENTS SERVERS ROUNDS
//!
//! Each client makes ROUNDS rounds. It sends 4 bytes in a buffer with room for 8, a server receives them into
//! 16 bytes and replies with 4, and the client checks them. PEER is one of
//!
//!   rendezvous  a channel of `std` without room, one receiver for all servers under a mutex, and a reply channel for
//!               each client
//!   condvar     one mutex over a queue of requests and a slot for each client's reply, with a condition variable for
//!               the servers and one for each client
//!   crossbeam   a channel of `crossbeam_channel` without room, and a reply channel for each client
//!
//! It prints the microseconds of a round trip: the time until all clients have ended, divided by the number
//! of all rounds.

use std::collections::VecDeque;
use std::env;
use std::process::ExitCode;
use std::sync::mpsc;
use std::sync::{Condvar, Mutex};
use std::thread;
use std::time::{Duration, Instant};

/// The numbers of clients and servers, and the number of rounds that each client makes.
#[derive(Clone, Copy)]
struct Case {
    clients: usize,
    servers: usize,
    rounds: u32,
}

/// A client's request. The reply comes in the same buffer.
struct Request {
    client: usize,
    buffer: Vec<u8>,
}

/// The rounds of one client. Each round is made by `exchange`, which takes the request's buffer and returns
/// the reply's.
fn client(number: usize, rounds: u32, mut exchange: impl FnMut(Vec<u8>) -> Vec<u8>) {
    for round in 0..rounds {
        let bytes = round.to_be_bytes();
        let message = [number as u8, bytes[1], bytes[2], bytes[3]];
        let mut buffer = Vec::with_capacity(8);
        buffer.extend_from_slice(&message);
        let reply = exchange(buffer);
        assert!(reply == message, "client {number} got {reply:?} for {message:?}");
    }
}

/// The work of a server for a request: it receives into 16 bytes, and puts the reply of 4 in place of the
/// message.
fn answer(buffer: &mut Vec<u8>) {
    let mut received = [0; 16];
    let length = buffer.len().min(received.len());
    received[..length].copy_from_slice(&buffer[..length]);
    buffer.clear();
    buffer.extend_from_slice(&received[..4]);
}

/// The time of all rounds over a channel of `std`.
fn rendezvous(case: Case) -> Duration {
    let (requests, received) = mpsc::sync_channel::<Request>(0);
    let received = Mutex::new(received);
    let (answers, replies): (Vec<_>, Vec<_>) = (0..case.clients).map(|_| mpsc::sync_channel::<Vec<u8>>(1)).unzip();
    let next = || received.lock().unwrap().recv();
    let start = Instant::now();
    thread::scope(|scope| {
        for _ in 0..case.servers {
            scope.spawn(|| {
                while let Ok(Request { client, mut buffer }) = next() {
                    answer(&mut buffer);
                    answers[client].send(buffer).unwrap();
                }
            });
        }
        let clients: Vec<_> = replies
            .into_iter()
            .enumerate()
            .map(|(number, reply)| {
                let requests = requests.clone();
                scope.spawn(move || {
                    client(number, case.rounds, |buffer| {
                        requests.send(Request { client: number, buffer }).unwrap();
                        reply.recv().unwrap()
                    })
                })
            })
            .collect();
        for client in clients {
            client.join().unwrap();
        }
        drop(requests);
        start.elapsed()
    })
}

/// The data under the mutex.
struct Desk {
    requests: VecDeque<Request>,
    replies: Vec<Option<Vec<u8>>>,
    over: bool,
}

/// The time of all rounds by a mutex and condition variables.
fn condvar(case: Case) -> Duration {
    let desk = Mutex::new(Desk {
        requests: VecDeque::with_capacity(case.clients),
        replies: (0..case.clients).map(|_| None).collect(),
        over: false,
    });
    let requested = Condvar::new();
    let replied: Vec<Condvar> = (0..case.clients).map(|_| Condvar::new()).collect();
    let next = || {
        let mut desk = requested
            .wait_while(desk.lock().unwrap(), |desk| desk.requests.is_empty() && !desk.over)
            .unwrap();
        desk.requests.pop_front()
    };
    let exchange = |number: usize, buffer: Vec<u8>| {
        desk.lock()
            .unwrap()
            .requests
            .push_back(Request { client: number, buffer });
        requested.notify_one();
        let mut desk = replied[number]
            .wait_while(desk.lock().unwrap(), |desk| desk.replies[number].is_none())
            .unwrap();
        desk.replies[number].take().unwrap()
    };
    let start = Instant::now();
    thread::scope(|scope| {
        for _ in 0..case.servers {
            scope.spawn(|| {
                while let Some(Request { client, mut buffer }) = next() {
                    answer(&mut buffer);
                    desk.lock().unwrap().replies[client] = Some(buffer);
                    replied[client].notify_one();
                }
            });
        }
        let exchange = &exchange;
        let clients: Vec<_> = (0..case.clients)
            .map(|number| scope.spawn(move || client(number, case.rounds, |buffer| exchange(number, buffer))))
            .collect();
        for client in clients {
            client.join().unwrap();
        }
        let elapsed = start.elapsed();
        desk.lock().unwrap().over = true;
        requested.notify_all();
        elapsed
    })
}

/// The time of all rounds over a channel of crossbeam.
fn crossbeam(case: Case) -> Duration {
    let (requests, received) = crossbeam_channel::bounded::<Request>(0);
    let (answers, replies): (Vec<_>, Vec<_>) = (0..case.clients)
        .map(|_| crossbeam_channel::bounded::<Vec<u8>>(1))
        .unzip();
    let start = Instant::now();
    thread::scope(|scope| {
        for _ in 0..case.servers {
            scope.spawn(|| {
                while let Ok(Request { client, mut buffer }) = received.recv() {
                    answer(&mut buffer);
                    answers[client].send(buffer).unwrap();
                }
            });
        }
        let clients: Vec<_> = replies
            .into_iter()
            .enumerate()
            .map(|(number, reply)| {
                let requests = requests.clone();
                scope.spawn(move || {
                    client(number, case.rounds, |buffer| {
                        requests.send(Request { client: number, buffer }).unwrap();
                        reply.recv().unwrap()
                    })
                })
            })
            .collect();
        for client in clients {
            client.join().unwrap();
        }
        drop(requests);
        start.elapsed()
    })
}

/// A number of the command line that is at least 1.
fn number(word: Option<&String>) -> Option<u32> {
    word?.parse().ok().filter(|number| *number > 0)
}

/// The peer and the case that the command line names.
fn asked(words: &[String]) -> Option<(fn(Case) -> Duration, Case)> {
    let peer = match words.first()?.as_str() {
        "rendezvous" => rendezvous,
        "condvar" => condvar,
        "crossbeam" => crossbeam,
        _ => return None,
    };
    let clients = number(words.get(1))?;
    let servers = number(words.get(2))?;
    let rounds = number(words.get(3))?;
    Some((
        peer,
        Case {
            clients: clients as usize,
            servers: servers as usize,
            rounds,
        },
    ))
}

fn main() -> ExitCode {
    let words: Vec<String> = env::args().skip(1).collect();
    let Some((peer, case)) = asked(&words) else {
        eprintln!("usage: peers PEER CLIENTS SERVERS ROUNDS\nPEER is rendezvous, condvar or crossbeam");
        return ExitCode::from(2);
    };
    let elapsed = peer(case);
    let rounds = case.clients as f64 * f64::from(case.rounds);
    println!("{:.2} us", elapsed.as_secs_f64() * 1e6 / rounds);
    ExitCode::SUCCESS
}
