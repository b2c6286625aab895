//! The least that a server and its client can be, for bench/serve.
//!
//! `serve loop [FILE]` prints its port, and answers connections one after another with one fixed reply; with a FILE it first appends what
//! it read to that file and sees it to the disk. It ends when its client says so. `serve ask PORT FILE` sends the requests in FILE, each led by
//! a line of its length, one on each connection, and prints how many were answered 200, how many otherwise, and the seconds.

use std::io::{Read, Write};
use std::net::{TcpListener, TcpStream};
use std::time::Instant;

const REPLY: &str = "HTTP/1.1 200 OK\r\nContent-Type: application/json\r\nContent-Length: 13\r\nConnection: close\r\n\r\n{\"done\":true}";
const END: &[u8] = b"END";

fn answer_all(file: Option<&String>) {
    let mut log = file.map(|it| std::fs::File::create(it).expect("a file"));
    let listener = TcpListener::bind("127.0.0.1:0").expect("a port");
    println!("{}", listener.local_addr().expect("an address").port());
    let mut buffer = [0; 4096];
    loop {
        let (mut connection, _) = listener.accept().expect("a connection");
        let length = connection.read(&mut buffer).expect("a request");
        if &buffer[..length] == END {
            return;
        }
        if let Some(log) = &mut log {
            log.write_all(&buffer[..length]).expect("a write");
            log.sync_data().expect("a disk");
        }
        connection.write_all(REPLY.as_bytes()).expect("a reply");
    }
}

fn requests_in(bytes: &[u8]) -> Vec<&[u8]> {
    let (mut found, mut rest) = (Vec::new(), bytes);
    while let Some(end) = rest.iter().position(|&it| it == b'\n') {
        let length: usize = std::str::from_utf8(&rest[..end]).expect("a line").parse().expect("a length");
        found.push(&rest[end + 1..end + 1 + length]);
        rest = &rest[end + 1 + length..];
    }
    found
}

fn ask_all(port: u16, requests: &[&[u8]]) {
    let (mut taken, mut others, mut reply) = (0, 0, Vec::new());
    let begun = Instant::now();
    for request in requests {
        let mut connection = TcpStream::connect(("127.0.0.1", port)).expect("a connection");
        connection.write_all(request).expect("a request");
        reply.clear();
        connection.read_to_end(&mut reply).expect("a reply");
        if reply.starts_with(b"HTTP/1.1 200 ") {
            taken += 1;
        } else {
            others += 1;
        }
    }
    println!("{taken} {others} {}", begun.elapsed().as_secs_f64());
}

fn main() {
    let words: Vec<String> = std::env::args().collect();
    match words.get(1).map(String::as_str) {
        Some("loop") => answer_all(words.get(2)),
        Some("ask") => {
            let bytes = std::fs::read(&words[3]).expect("a file");
            ask_all(words[2].parse().expect("a port"), &requests_in(&bytes));
        }
        _ => panic!("serve loop [FILE], or serve ask PORT FILE"),
    }
}
