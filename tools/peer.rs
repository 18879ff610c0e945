//! The peer of `serve_bench.py`: a plain Rust server of the design of `am serve`, with nothing proved. It has a thread for
//! each connection, keep-alive HTTP/1.1, one mutex around its state, and JSON by hand. It knows `GET /v1/status` and
//! `POST /v1/start`, which stores an entry.
//!
//!     peer PORT THREADS
use std::io::{ErrorKind, Read, Result, Write};
use std::net::{TcpListener, TcpStream};
use std::sync::{Arc, Mutex};
use std::time::{SystemTime, UNIX_EPOCH};

/// The greatest head and body of a request, in bytes.
const WINDOW: usize = 73_728;

struct Entry {
    at: u64,
    uid: u32,
    body: Vec<u8>,
}

#[derive(Default)]
struct State {
    history: Vec<Entry>,
    tasks: u64,
}

struct Answer {
    status: u16,
    stored: u8,
    place: usize,
    json: String,
}

fn header<'a>(head: &'a str, name: &str) -> Option<&'a str> {
    head.split("\r\n").skip(1).find_map(|line| {
        let (key, value) = line.split_once(':')?;
        key.eq_ignore_ascii_case(name).then(|| value.trim())
    })
}

fn now() -> u64 {
    SystemTime::now().duration_since(UNIX_EPOCH).map_or(0, |passed| passed.as_millis() as u64)
}

fn answer(state: &Mutex<State>, path: &str, key: &str, body: &[u8]) -> Answer {
    let at = now();
    let Ok(mut state) = state.lock() else { std::process::abort() };
    match path {
        "/v1/status" => {
            let place = state.history.len();
            let tasks = state.tasks;
            let json = format!(
                "{{\"broadcasts\":0,\"grants\":0,\"history\":{place},\"links\":0,\"now\":{at},\"packages\":2,\"tasks\":{tasks}}}"
            );
            Answer { status: 200, stored: 0, place, json }
        }
        "/v1/start" => {
            let place = state.history.len();
            state.tasks += 1;
            state.history.push(Entry { at, uid: if key.is_empty() { 0 } else { 10_000 }, body: body.to_vec() });
            let task = state.tasks;
            let json = format!("{{\"instance\":{task},\"placed\":\"fresh\",\"task\":{task}}}");
            Answer { status: 200, stored: 1, place, json }
        }
        _ => Answer { status: 404, stored: 0, place: 0, json: "{\"error\":\"no_route\"}".to_owned() },
    }
}

fn serve(mut link: TcpStream, state: &Mutex<State>) -> Result<()> {
    link.set_nodelay(true)?;
    let mut window = vec![0_u8; WINDOW];
    let mut held = 0;
    let mut out = Vec::new();
    let fill = |link: &mut TcpStream, window: &mut [u8], held: &mut usize| -> Result<()> {
        match link.read(&mut window[*held..])? {
            0 => Err(ErrorKind::UnexpectedEof.into()),
            count => {
                *held += count;
                Ok(())
            }
        }
    };
    loop {
        let head = loop {
            if let Some(at) = window[..held].windows(4).position(|four| four == b"\r\n\r\n") {
                break at + 4;
            }
            fill(&mut link, &mut window, &mut held)?;
        };
        let (length, key, path) = {
            let text = std::str::from_utf8(&window[..head]).map_err(|_| ErrorKind::InvalidData)?;
            let length: usize = header(text, "content-length").and_then(|value| value.parse().ok()).unwrap_or(0);
            let path = text.split(' ').nth(1).unwrap_or("").to_owned();
            (length, header(text, "am-key").unwrap_or("").to_owned(), path)
        };
        while held < head + length {
            fill(&mut link, &mut window, &mut held)?;
        }
        let Answer { status, stored, place, json } = answer(state, &path, &key, &window[head..head + length]);
        out.clear();
        write!(
            out,
            "HTTP/1.1 {status} OK\r\nContent-Type: application/json\r\nContent-Length: {}\r\nAM-At: {place}\r\nAM-Stored: {stored}\r\n\r\n{json}",
            json.len()
        )?;
        link.write_all(&out)?;
        window.copy_within(head + length..held, 0);
        held -= head + length;
    }
}

fn main() -> Result<()> {
    let words: Vec<String> = std::env::args().skip(1).collect();
    let [port, threads] = words.as_slice() else {
        eprintln!("usage: peer PORT THREADS");
        std::process::exit(2);
    };
    let port: u16 = port.parse().map_err(|_| ErrorKind::InvalidInput)?;
    let threads: usize = threads.parse().map_err(|_| ErrorKind::InvalidInput)?;
    let listener = Arc::new(TcpListener::bind(("127.0.0.1", port))?);
    let state = Arc::new(Mutex::new(State::default()));
    let workers: Vec<_> = (0..threads)
        .map(|_| {
            let (listener, state) = (Arc::clone(&listener), Arc::clone(&state));
            std::thread::spawn(move || {
                while let Ok((link, _)) = listener.accept() {
                    // A link that ends or fails is over; the next one is served.
                    let _ = serve(link, &state);
                }
            })
        })
        .collect();
    for worker in workers {
        let _ = worker.join();
    }
    let Ok(state) = state.lock() else { std::process::abort() };
    println!("{:?}", state.history.last().map(|entry| (entry.at, entry.uid, entry.body.len())));
    Ok(())
}
