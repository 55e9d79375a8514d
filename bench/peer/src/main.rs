//! A collector to measure `wef collect` beside: one thread, one connection after the other, a transaction for each batch. It reads
//! what bench/peer.py sends, batches of events as text or as CDATA for one subscription, and keeps the rows that `wef` keeps.
//!
//!     peer ADDRESS CONNECTIONS FILE

use roxmltree::{Document, Node};
use rusqlite::{params, Connection};
use std::error::Error;
use std::io::{Read, Write};
use std::net::{TcpListener, TcpStream};
use std::time::{SystemTime, UNIX_EPOCH};

const SOAP: &str = "http://www.w3.org/2003/05/soap-envelope";
const ADDRESSING: &str = "http://schemas.xmlsoap.org/ws/2004/08/addressing";
const MANAGEMENT: &str = "http://schemas.dmtf.org/wbem/wsman/1/wsman.xsd";
const EVENTS: &str = "http://schemas.dmtf.org/wbem/wsman/1/wsman/Events";
const EVENT: &str = "http://schemas.microsoft.com/win/2004/08/events/event";
const DELIVERIES: &str = "/wsman/subscriptions/base/";
const MOST_FIELDS: usize = 64;
const MOST_BODY: usize = 16_777_216;

type Fallible<T> = Result<T, Box<dyn Error>>;

/// The head of a request, as far as it says how to go on.
struct Head {
    path: String,
    length: usize,
    size: usize,
}

/// An event of a batch: its channel, its number and its text.
struct Item {
    channel: String,
    number: i64,
    text: String,
}

/// A batch: who sent which events, up to which record of which channels.
struct Batch {
    source: String,
    message: String,
    items: Vec<Item>,
    bookmark: Vec<(String, i64)>,
}

fn head(bytes: &[u8]) -> Fallible<Option<Head>> {
    let mut fields = [httparse::EMPTY_HEADER; MOST_FIELDS];
    let mut request = httparse::Request::new(&mut fields);
    let httparse::Status::Complete(size) = request.parse(bytes)? else {
        return Ok(None);
    };
    if request.method != Some("POST") {
        return Err("not a POST".into());
    }
    let mut length = None;
    for field in request.headers.iter() {
        if field.name.eq_ignore_ascii_case("content-length") {
            length = Some(std::str::from_utf8(field.value)?.parse()?);
        }
    }
    let length = length.ok_or("no length")?;
    if length > MOST_BODY {
        return Err("too long".into());
    }
    Ok(Some(Head { path: request.path.unwrap_or("").to_owned(), length, size }))
}

/// The next request of a connection, or none at its end. What comes behind it stays in the buffer.
fn request(link: &mut TcpStream, held: &mut Vec<u8>) -> Fallible<Option<(String, Vec<u8>)>> {
    let mut room = [0; 65536];
    loop {
        if let Some(head) = head(held)? {
            while held.len() < head.size + head.length {
                match link.read(&mut room)? {
                    0 => return Err("cut".into()),
                    count => held.extend_from_slice(&room[..count]),
                }
            }
            let body = held[head.size..head.size + head.length].to_vec();
            held.drain(..head.size + head.length);
            return Ok(Some((head.path, body)));
        }
        match link.read(&mut room)? {
            0 if held.is_empty() => return Ok(None),
            0 => return Err("cut".into()),
            count => held.extend_from_slice(&room[..count]),
        }
    }
}

fn child<'a, 'b>(node: Node<'a, 'b>, space: &str, name: &str) -> Fallible<Node<'a, 'b>> {
    node.children().find(|it| it.has_tag_name((space, name))).ok_or_else(|| format!("no {name}").into())
}

fn text<'a>(node: Node<'a, '_>) -> &'a str {
    node.text().unwrap_or("").trim()
}

/// An event as it stands in a message, as text.
fn item(text_of: &str) -> Fallible<Item> {
    let document = Document::parse(text_of)?;
    let root = document.root_element();
    if !root.has_tag_name((EVENT, "Event")) {
        return Err("no event".into());
    }
    let system = child(root, EVENT, "System")?;
    let number = text(child(system, EVENT, "EventRecordID")?).parse()?;
    let channel = text(child(system, EVENT, "Channel")?).to_ascii_lowercase();
    Ok(Item { channel, number, text: text_of.to_owned() })
}

fn batch(path: &str, body: &[u8]) -> Fallible<Batch> {
    let document = Document::parse(std::str::from_utf8(body)?)?;
    let envelope = document.root_element();
    let header = child(envelope, SOAP, "Header")?;
    if text(child(header, ADDRESSING, "Action")?) != EVENTS {
        return Err("another action".into());
    }
    let message = text(child(header, ADDRESSING, "MessageID")?).to_owned();
    let mut bookmark = Vec::new();
    for mark in child(header, MANAGEMENT, "Bookmark")?.descendants().filter(|it| it.has_tag_name("Bookmark")) {
        if let (Some(channel), Some(number)) = (mark.attribute("Channel"), mark.attribute("RecordId")) {
            bookmark.push((channel.to_ascii_lowercase(), number.parse()?));
        }
    }
    let events = child(child(envelope, SOAP, "Body")?, MANAGEMENT, "Events")?;
    let mut items = Vec::new();
    for event in events.children().filter(|it| it.is_element()) {
        items.push(item(event.text().unwrap_or(""))?);
    }
    Ok(Batch { source: path[DELIVERIES.len()..].to_owned(), message, items, bookmark })
}

/// Whether the numbers rise in each channel, and none is above the bookmark.
fn is_well_formed(batch: &Batch) -> bool {
    batch.bookmark.iter().all(|(channel, last)| {
        let numbers = batch.items.iter().filter(|it| it.channel == *channel).map(|it| it.number);
        let mut before = 0;
        numbers.into_iter().all(|number| {
            let is_next = before < number && number <= *last;
            before = number;
            is_next
        })
    }) && batch.items.iter().all(|it| batch.bookmark.iter().any(|(channel, _)| *channel == it.channel))
}

fn open(path: &str) -> Fallible<Connection> {
    let database = Connection::open(path)?;
    database.pragma_update(None, "journal_mode", "WAL")?;
    database.pragma_update(None, "synchronous", "FULL")?;
    database.execute(
        "CREATE TABLE IF NOT EXISTS kept (kind INTEGER NOT NULL, sub TEXT NOT NULL, source TEXT NOT NULL, channel TEXT NOT NULL, number INTEGER NOT NULL,
         value INTEGER NOT NULL, body TEXT NOT NULL, PRIMARY KEY (kind, sub, source, channel, number)) STRICT",
        [],
    )?;
    Ok(database)
}

/// Keeps what is new in a batch, in one transaction.
fn keep(database: &mut Connection, batch: &Batch) -> Fallible<()> {
    let transaction = database.transaction()?;
    {
        let mut put = transaction.prepare_cached("INSERT OR REPLACE INTO kept VALUES (?, 'base', ?, ?, ?, ?, ?)")?;
        let mut get = transaction.prepare_cached("SELECT value FROM kept WHERE kind = 2 AND sub = 'base' AND source = ? AND channel = ? AND number = 0")?;
        for (channel, last) in &batch.bookmark {
            let kept: i64 = get.query_row(params![batch.source, channel], |row| row.get(0)).or_else(none_is_zero)?;
            for item in batch.items.iter().filter(|it| it.channel == *channel && it.number > kept) {
                put.execute(params![3, batch.source, channel, item.number, 0, item.text])?;
            }
            if *last > kept {
                put.execute(params![2, batch.source, channel, 0, last, ""])?;
            }
        }
        let now = SystemTime::now().duration_since(UNIX_EPOCH)?.as_millis() as i64;
        put.execute(params![6, batch.source, "", 0, now, ""])?;
    }
    transaction.commit()?;
    Ok(())
}

fn none_is_zero(error: rusqlite::Error) -> rusqlite::Result<i64> {
    match error {
        rusqlite::Error::QueryReturnedNoRows => Ok(0),
        other => Err(other),
    }
}

fn envelope(action: &str, message: &str, body: &str) -> String {
    format!(
        "<s:Envelope xmlns:s=\"{SOAP}\" xmlns:a=\"{ADDRESSING}\"><s:Header><a:Action>{action}</a:Action><a:MessageID>uuid:00000000-0000-0001-0000-000000000001</a:MessageID>\
         <a:RelatesTo>{message}</a:RelatesTo></s:Header><s:Body>{body}</s:Body></s:Envelope>"
    )
}

/// The answer to a request: its status and its body.
fn answer(database: &mut Connection, path: &str, body: &[u8]) -> Fallible<(&'static str, String)> {
    if !path.starts_with(DELIVERIES) {
        return Ok(("404 Not Found", String::new()));
    }
    let batch = match batch(path, body) {
        Ok(batch) if is_well_formed(&batch) => batch,
        _ => return Ok(("500 Internal Server Error", envelope("fault", "", "<s:Fault/>"))),
    };
    keep(database, &batch)?;
    Ok(("200 OK", envelope("http://schemas.dmtf.org/wbem/wsman/1/wsman/Ack", &batch.message, "")))
}

fn serve(link: &mut TcpStream, database: &mut Connection) -> Fallible<()> {
    link.set_nodelay(true)?;
    let mut held = Vec::new();
    while let Some((path, body)) = request(link, &mut held)? {
        let (status, text) = answer(database, &path, &body)?;
        let head = format!("HTTP/1.1 {status}\r\nContent-Type: application/soap+xml;charset=UTF-8\r\nContent-Length: {}\r\n\r\n", text.len());
        link.write_all((head + &text).as_bytes())?;
    }
    Ok(())
}

fn main() -> Fallible<()> {
    let words: Vec<String> = std::env::args().collect();
    let [_, address, connections, path] = &words[..] else {
        return Err("peer ADDRESS CONNECTIONS FILE".into());
    };
    let mut database = open(path)?;
    let listener = TcpListener::bind(address)?;
    println!("listening {address}");
    for number in 1..=connections.parse::<u64>()? {
        let (mut link, _) = listener.accept()?;
        let word = if serve(&mut link, &mut database).is_ok() { "end" } else { "failed" };
        println!("connection {number} {word}");
    }
    Ok(())
}
