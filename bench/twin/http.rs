//! The counterpart of `profhouse serve`, and its clients, in plain Rust: no store, one thread for the server.
//!
//! http serve REQUESTS FILE       answers each request by the bytes of FILE, whatever it asks
//! http ask PORT REQUESTS CLIENTS PATH   asks for PATH, so many times in all, by so many clients at once;
//!                                prints the seconds and the bytes of the last answer
use std::io::{Read, Write};
use std::net::{Shutdown, TcpListener, TcpStream};
use std::time::{Duration, Instant};
use std::{env, fs, thread};

fn answer(stream: &mut TcpStream, answer: &[u8]) -> std::io::Result<()> {
    stream.set_read_timeout(Some(Duration::from_secs(10)))?;
    stream.set_write_timeout(Some(Duration::from_secs(30)))?;
    let mut head = [0u8; 16_384];
    let mut filled = 0;
    while !head[..filled].windows(4).any(|four| four == b"\r\n\r\n") {
        match stream.read(&mut head[filled..])? {
            0 => return Ok(()),
            count => filled += count,
        }
    }
    stream.write_all(answer)?;
    stream.shutdown(Shutdown::Write)
}

fn serve(requests: u32, path: &str) {
    let text = fs::read(path).expect("the answer");
    let listener = TcpListener::bind("127.0.0.1:0").expect("a port");
    println!("listening {}", listener.local_addr().expect("its address"));
    for _ in 0..requests {
        let (mut stream, _) = listener.accept().expect("a client");
        let _ = answer(&mut stream, &text);
    }
}

fn ask_once(port: u16, request: &[u8]) -> Vec<u8> {
    let mut stream = TcpStream::connect(("127.0.0.1", port)).expect("a connection");
    stream.write_all(request).expect("a request");
    let mut answer = Vec::new();
    stream.read_to_end(&mut answer).expect("an answer");
    answer
}

fn ask(port: u16, requests: u32, clients: u32, path: &str) {
    let request = format!("GET {path} HTTP/1.1\r\nHost: 127.0.0.1\r\nUser-Agent: twin\r\nAccept: */*\r\n\r\n");
    let start = Instant::now();
    let asking: Vec<_> = (0..clients)
        .map(|client| {
            let request = request.clone();
            let share = requests / clients + u32::from(client < requests % clients);
            thread::spawn(move || (0..share).map(|_| ask_once(port, request.as_bytes())).last())
        })
        .collect();
    let last = asking.into_iter().filter_map(|one| one.join().expect("a client")).last();
    println!("{}", start.elapsed().as_secs_f64());
    std::io::stdout().write_all(&last.unwrap_or_default()).expect("the answer");
}

fn main() {
    let words: Vec<String> = env::args().skip(1).collect();
    let number = |at: usize| words[at].parse().expect("a number");
    match words[0].as_str() {
        "serve" => serve(number(1), &words[2]),
        _ => ask(number(1) as u16, number(2), number(3), &words[4]),
    }
}
