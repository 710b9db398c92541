//! Scripts and sockets.
use crate::answer::{answer, Book};
use crate::lab::{Lab, Who};
use crate::lines::answer_lines;
use std::fs::File;
use std::io::{stdout, BufRead, BufReader, Write};
use std::net::{TcpListener, TcpStream};
use std::os::unix::io::{AsRawFd, FromRawFd};
use std::sync::RwLock;
use std::thread;

/// The length of the longest request line in bytes.
const MAX_LINE: usize = 4096;

/// The reply of the echo server to each line.
const ECHOED: &[u8] = b"{\"at\":0,\"m\":false,\"node\":2,\"ok\":\"see\",\"p\":null}\n";

/// Answers a script on standard output. Stops at a line that isn't a line of a script.
pub fn run_script(lab: &Lab, book: &mut Book, mut input: File) {
    let mut known: Vec<Option<Who>> = vec![None; lab.sessions + 1];
    let mut output = unbuffered();
    answer_lines(&mut input, &mut output, 1 << 16, |line, out| match split(lab, line) {
        Some((connection, front)) => {
            out.extend_from_slice(&line[..front]);
            answer(lab, book, &mut known[connection], &line[front..], out);
            false
        }
        None => true,
    });
}

/// Returns the standard output without a buffer, since all replies to the lines of one read are written together.
fn unbuffered() -> File {
    // Safety: the descriptor is open until the program ends, which closes it.
    unsafe { File::from_raw_fd(stdout().as_raw_fd()) }
}

/// Returns the number of the connection in a line of a script, and the position at which the request begins.
#[inline(always)]
fn split(lab: &Lab, line: &[u8]) -> Option<(usize, usize)> {
    let (connection, front) = match *line {
        [a @ b'1'..=b'9', b' ', ..] => (usize::from(a - b'0'), 2),
        [a @ b'1'..=b'9', b @ b'0'..=b'9', b' ', ..] => (10 * usize::from(a - b'0') + usize::from(b - b'0'), 3),
        _ => return None,
    };
    (connection <= lab.sessions && line.len() - front <= MAX_LINE).then(|| (connection, front))
}

/// Serves `count` connections, each in its own thread. Returns the book at the end.
pub fn serve(lab: Lab, book: Book, port: u16, count: u16) -> Book {
    let book = RwLock::new(book);
    serve_each(port, count, |stream| {
        let mut known = None;
        answer_lines(&mut &*stream, &mut &*stream, 1 << 14, |line, out| {
            line.len() > MAX_LINE || answer(&lab, &mut &book, &mut known, line, out)
        });
    });
    book.into_inner().expect("a thread panicked")
}

/// Answers each line with a separate write of a line that is as long as the reply to a `see`.
pub fn echo(port: u16, count: u16) {
    serve_each(port, count, |mut stream| {
        let mut line = Vec::with_capacity(MAX_LINE);
        let mut lines = BufReader::new(stream);
        while lines.read_until(b'\n', &mut line).map_or(false, |count| count > 0) {
            line.clear();
            if stream.write_all(ECHOED).is_err() {
                return;
            }
        }
    });
}

/// Serves `count` connections, each in its own thread.
fn serve_each(port: u16, count: u16, serve: impl Fn(&TcpStream) + Sync) {
    let listener = TcpListener::bind(("127.0.0.1", port)).expect("the port may not be used");
    println!("listening on port {port}");
    thread::scope(|scope| {
        for _ in 0..count {
            let (stream, _) = listener.accept().expect("an accept failed");
            let _ = stream.set_nodelay(true);
            let serve = &serve;
            scope.spawn(move || serve(&stream));
        }
    });
}
