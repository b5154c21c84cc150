//! A plain server for pushes, for comparison: what `hg_pushd` does in `one`, `replay` and `serve`, in plain Rust.

mod bundle;
mod repo;
mod sha1;

use bundle::{Cut, read_bundle, write_bundle};
use repo::{Repo, abort};
use std::fs::File;
use std::io::{BufRead, BufReader, Read, Write};
use std::net::{Shutdown, TcpListener, TcpStream};
use std::process::exit;
use std::sync::Mutex;
use std::sync::atomic::{AtomicU32, Ordering};
use std::time::Duration;

const USAGE: &str = "plain one [--publishing] < BUNDLE
plain replay [--publishing] FILES..
plain serve --listen ADDR --connections N [--bundles M] [--publishing] [--report FILE]";

/// Ends the program with status 3.
fn device_fault() -> ! {
    eprintln!("plain: device fault");
    exit(3)
}

fn usage() -> ! {
    eprintln!("{USAGE}");
    exit(2)
}

/// Reads a push and runs it: its reply, and whether it is done, was aborted, or could not be read to its end.
fn take_push(input: &mut impl Read, repo: &Mutex<Repo>, push: u32) -> (Vec<u8>, Result<(), Option<Cut>>) {
    let parts = match read_bundle(input) {
        Ok(parts) => parts,
        Err(cut) => {
            let message = match cut {
                Cut::Fault(number) => format!("stream fault {number}"),
                Cut::ReadFailed => "connection lost".to_string(),
            };
            return (write_bundle(&[abort(message)]), Err(Some(cut)));
        }
    };
    let mut repo = repo.lock().unwrap();
    let result = repo.run(&parts);
    if result.is_ok() {
        repo.journal.push(push);
    }
    drop(repo);
    match result {
        Ok(replies) => (write_bundle(&replies), Ok(())),
        Err(reply) => (write_bundle(&[reply]), Err(None)),
    }
}

fn status_of(result: Result<(), Option<Cut>>) -> i32 {
    match result {
        Ok(()) => 0,
        Err(Some(Cut::ReadFailed)) => 3,
        Err(_) => 1,
    }
}

/// Status 3 stands before 1.
fn end(status: i32) -> ! {
    match status {
        0 => exit(0),
        1 => eprintln!("plain: push aborted"),
        _ => device_fault(),
    }
    exit(status)
}

fn one(repo: Mutex<Repo>) -> ! {
    let (reply, result) = take_push(&mut std::io::stdin().lock(), &repo, 0);
    let mut output = std::io::stdout().lock();
    if output.write_all(&reply).and_then(|()| output.flush()).is_err() {
        device_fault();
    }
    end(status_of(result))
}

fn replay(repo: Mutex<Repo>, names: &[String]) -> ! {
    let files: Result<Vec<File>, _> = names.iter().map(File::open).collect();
    let Ok(files) = files else { device_fault() };
    let mut status = 0;
    for (push, file) in files.into_iter().enumerate() {
        let (_, result) = take_push(&mut BufReader::new(file), &repo, push as u32);
        status = status.max(status_of(result));
    }
    let report = repo.lock().unwrap().report();
    if std::io::stdout().write_all(&report).is_err() {
        device_fault();
    }
    end(status)
}

/// Serves so many bundles of a connection, up to the end of its input or a fault.
fn serve_connection(stream: &TcpStream, repo: &Mutex<Repo>, pushes: &AtomicU32, bundles: u32) {
    let mut input = BufReader::new(stream);
    let mut output = stream;
    for number in 0..bundles {
        if number > 0 && input.fill_buf().is_ok_and(|bytes| bytes.is_empty()) {
            break;
        }
        let push = pushes.fetch_add(1, Ordering::Relaxed);
        let (reply, result) = take_push(&mut input, repo, push);
        if output.write_all(&reply).is_err() || matches!(result, Err(Some(_))) {
            break;
        }
    }
}

/// Says that no more is written, and drops what the client still sends, so that its replies are not lost.
fn linger(stream: &TcpStream) {
    let _ = stream.shutdown(Shutdown::Write);
    let _ = stream.set_read_timeout(Some(Duration::from_secs(5)));
    let _ = std::io::copy(&mut stream.take(67_108_864), &mut std::io::sink());
}

fn serve(repo: Mutex<Repo>, listen: &str, connections: u32, bundles: u32, report: Option<&str>) -> ! {
    let Ok(listener) = TcpListener::bind(listen) else { device_fault() };
    let report = report.map(|name| File::create(name).unwrap_or_else(|_| device_fault()));
    let pushes = AtomicU32::new(0);
    println!("listening on {}", listener.local_addr().unwrap());
    std::thread::scope(|scope| {
        for _ in 0..connections {
            let Ok((stream, _)) = listener.accept() else { device_fault() };
            let _ = stream.set_nodelay(true);
            let (repo, pushes) = (&repo, &pushes);
            scope.spawn(move || {
                serve_connection(&stream, repo, pushes, bundles);
                linger(&stream);
            });
        }
    });
    if let Some(mut file) = report {
        let repo = repo.lock().unwrap();
        let mut text = repo.report();
        for push in &repo.journal {
            let _ = writeln!(text, "J {push}");
        }
        if file.write_all(&text).is_err() {
            device_fault();
        }
    }
    exit(0)
}

fn main() {
    let mut words: Vec<String> = std::env::args().skip(1).collect();
    let count = words.len();
    words.retain(|word| word != "--publishing");
    let repo = Mutex::new(Repo::new(words.len() < count));
    let option = |name: &str| Some(words[words.iter().position(|word| word == name)? + 1..].first()?.as_str());
    let number = |name| option(name).map(|text| text.parse().unwrap_or_else(|_| usage()));
    match words.first().map(String::as_str) {
        Some("one") => one(repo),
        Some("replay") if words.len() > 1 => replay(repo, &words[1..]),
        Some("serve") => {
            let (Some(listen), Some(connections)) = (option("--listen"), number("--connections")) else { usage() };
            serve(repo, listen, connections, number("--bundles").unwrap_or(1), option("--report"))
        }
        _ => usage(),
    }
}
