//! Plays a student's nodes, without crates: rustc -O bot.rs, then ./bot SLIP, or ./bot PORT NAME KEYFILE NODE,..
//! If SLIP is -, the slip is in the environment's CENDUWA_SLIP. If KEYFILE is -, the key is in CENDUWA_KEY.
use std::io::{BufRead, BufReader, Write};
use std::net::TcpStream;
use std::{env, fs, iter, process, thread, time::Duration};
/// The denials and refusals that end the bot, each with its exit status and a line. After others, it looks again.
const STOPS: [(&str, i32, &str); 5] = [
    ("unknown", 2, "name and key don't match: take both from your slip"),
    ("not-owner", 3, "a node isn't yours: take the nodes from your slip"),
    ("malformed", 3, "the server couldn't read a line as a request: correct the program"),
    ("full journal", 6, "nothing is granted any longer: tell your teacher"),
    ("over", 0, "the run is over"),
];
fn stop(status: i32, sentence: &str) -> ! {
    eprintln!("bot: {sentence}");
    process::exit(status)
}

/// Returns the text between a key and the next comma or bracket, without quotes, or `None` if the key is missing.
fn at<'a>(reply: &'a str, key: &str) -> Option<&'a str> {
    let (_, rest) = reply.split_once(&format!("\"{key}\":"))?;
    rest.split([',', '}']).next().map(|found| found.trim_matches('"'))
}

/// Sends a line, and returns the reply, or `None` if the connection is lost.
fn ask(server: &mut BufReader<TcpStream>, line: &str) -> Option<String> {
    let mut reply = String::new();
    server.get_mut().write_all(format!("{line}\n").as_bytes()).ok()?;
    server.read_line(&mut reply).ok().filter(|count| *count > 0)?;
    let no = at(&reply, "deny").or(at(&reply, "refuse"));
    STOPS.iter().filter(|it| it.0.split(' ').any(|word| no == Some(word))).for_each(|it| stop(it.1, it.2));
    Some(reply)
}

/// Connects and says hello. If no seat is free or the connection was lost, tries again each second for a minute.
fn enter(port: u16, name: &str, key: &str, is_lost: bool) -> BufReader<TcpStream> {
    for second in 0..=60 {
        thread::sleep(Duration::from_secs(if second > 0 || is_lost { 1 } else { 0 }));
        let mut server = TcpStream::connect(("127.0.0.1", port)).map(BufReader::new);
        let reply = server.as_mut().ok().and_then(|it| ask(it, &format!(r#"{{"do":"hello","name":"{name}","key":"{key}"}}"#)));
        match (reply, server) {
            (Some(reply), Ok(server)) if reply.starts_with(r#"{"ok""#) => return server,
            (Some(reply), _) if !reply.starts_with('{') => stop(4, &format!("another program uses port {port}; ask your teacher for the port")),
            (None, _) if !is_lost => stop(4, &format!("no server at port {port} answers a hello; ask your teacher for the port")),
            _ => {}
        }
    }
    stop(if is_lost { 7 } else { 5 }, if is_lost { "the connection was lost: start again" } else { "all seats were taken for a minute: try again later" })
}

/// Looks at a node, and asks for the rule that is enabled there. Returns `None` if the connection is lost.
fn play(server: &mut BufReader<TcpStream>, node: &str) -> Option<()> {
    let look = ask(server, &format!(r#"{{"do":"look","node":{node}}}"#))?;
    let (number, rule, chosen) = (at(&look, "at").unwrap_or(""), at(&look, "rule").unwrap_or("null"), at(&look, "chosen"));
    if rule == "null" || chosen != Some("null") { return Some(()) }
    let suitor = look.split('{').skip(2).find(|near| at(near, "p") == Some(node)).and_then(|near| at(near, "node"));
    let with = suitor.filter(|_| rule == "marriage").map_or(String::new(), |it| format!(r#","with":{it}"#));
    print!("{}", ask(server, &format!(r#"{{"do":"move","node":{node},"rule":"{rule}","at":{number}{with}}}"#))?);
    Some(())
}

fn main() {
    let words: Vec<String> = env::args().skip(1).collect();
    let is_slip = words.len() == 1;
    if !is_slip && words.len() != 4 { stop(1, "usage: bot SLIP, or PORT NAME KEYFILE NODE,..") }
    let (file, variable, place) = if is_slip { (&words[0], "CENDUWA_SLIP", words[0].as_str()) } else { (&words[2], "CENDUWA_KEY", "the arguments") };
    let text = if file == "-" { env::var(variable).ok() } else { fs::read_to_string(file).ok() };
    let text = text.unwrap_or_else(|| stop(1, &if file == "-" { format!("the environment variable {variable} isn't set") } else { format!("{file} can't be read") }));
    let after = |word: &str| text.lines().find_map(|line| line.strip_prefix(word)?.strip_prefix(' ')).map(str::trim);
    let said = |word, place: usize| if is_slip { after(word).unwrap_or("") } else { &words[place] };
    let port = said("port", 0).parse().unwrap_or_else(|_| stop(1, &format!("there is no port in {place}")));
    let nodes: Vec<&str> = said("nodes", 3).split(',').collect();
    if nodes.iter().any(|it| it.parse::<u16>().is_err()) { stop(1, &format!("there are no nodes in {place}")) }
    let key = after("key").unwrap_or(text.trim()).replace('\\', r"\\").replace('"', r#"\""#);
    for is_lost in iter::once(false).chain(iter::repeat(true)) {
        let mut server = enter(port, said("name", 1), &key, is_lost);
        while nodes.iter().try_for_each(|node| play(&mut server, node)).is_some() { thread::sleep(Duration::from_millis(100)) }
    }
}
