//! The main story in Rust, as ../../../examples/clinic.c tells it in C: the same steps and the same output, which is
//! kept in ../../../examples/clinic.expected.
//!
//! A fitting program and a record server are joined by a link, here in memory. The first patient's audiogram is
//! fetched; a second copy of it is left unread; then the same identifier is opened for the next patient, who must see
//! none of it.

use sootlark::link::STORE_LENGTH;
use sootlark::{write, End, Endpoint, Message};
use std::error::Error;

/// The identifier that serves the file of whoever is in the room. It has the high bit, since the fitting program began
/// the link.
const FILE: u16 = 0x8000;

/// The version that both ends agreed on.
const VERSION: u64 = 1004;

/// What came over the wire is given to an endpoint. Hands back what the endpoint has to say to it.
fn deliver<'o>(bytes: &[u8], to: &mut Endpoint, out: &'o mut [u8]) -> Result<&'o [u8], Box<dyn Error>> {
    let ran = to.run(usize::MAX, bytes, out);
    ran.answer?;
    Ok(ran.written)
}

fn main() -> Result<(), Box<dyn Error>> {
    // Each end has a store, which it lends to its endpoint. The fitting program began the link.
    let (mut fitting_store, mut server_store) = ([0; STORE_LENGTH], [0; STORE_LENGTH]);
    let mut fitting = Endpoint::new(End::Began, &mut fitting_store);
    let mut server = Endpoint::new(End::Other, &mut server_store);
    let (mut wire, mut answer) = ([0; 512], [0; 16]);

    // The fitting program opens the first patient's file. The server learns its own session from its row.
    let opened = fitting.open(FILE, &mut wire)?;
    deliver(opened.record, &mut server, &mut answer)?;
    let first = opened.session;
    let serving = server.latest(FILE).ok_or("the server has no session")?;
    println!("first patient: session {}", first.number);

    // It grants the server credit. Without that the server may send nothing.
    let record = fitting.request(first, 256, &mut wire)?;
    deliver(record, &mut server, &mut answer)?;
    println!("first patient: granted {} bytes", server.row(FILE).map_or(0, |row| row.output));

    // The server answers with a casual message, type 3103, and sends it twice.
    let head = write::Head { version: VERSION, correlation: &[0x11; 16], execution: &[0x22; 16] };
    let reply = write::ServiceReply {
        buffer_type: b".binary/",
        buffer_data: b"audiogram of the first patient",
        ..Default::default()
    };
    let mut message = [0; 256];
    let message = reply.write(&head, &mut message)?;
    for _ in 0..2 {
        let record = server.transmit(serving, message, &mut wire)?;
        deliver(record, &mut fitting, &mut answer)?;
        println!("first patient: sent {} bytes", message.len());
    }

    // The fitting program reads one message and decodes it. The data is a part of the bytes that it read.
    let mut bytes = vec![0; message.len()];
    let read = fitting.read(first, &mut bytes)?;
    let message = Message::read(read, VERSION)?;
    let data = String::from_utf8_lossy(message.buffer_data()?);
    println!("first patient: read {} bytes, type {}: {data}", message.used(), message.kind().number());
    println!("first patient: {} bytes are unread", fitting.row(FILE).map_or(0, |row| row.unread));

    // The server closes the file. The fitting program acknowledges it, and the identifier is free again at both ends.
    let record = server.close(serving, &mut wire)?;
    let closeack = deliver(record, &mut fitting, &mut answer)?;
    deliver(closeack, &mut server, &mut wire)?;
    println!("first patient: closed");

    // The next patient's file is opened on the same identifier.
    let opened = fitting.open(FILE, &mut wire)?;
    deliver(opened.record, &mut server, &mut answer)?;
    let next = opened.session;
    println!("next patient: session {}", next.number);

    // The old session is refused from now on, and the new one has nothing of what was left unread.
    match fitting.read(first, &mut bytes) {
        Ok(read) => return Err(format!("the old session read {} bytes", read.len()).into()),
        Err(refusal) => println!("first patient: refused, number {}", refusal.number()),
    }
    println!("next patient: read {} bytes", fitting.read(next, &mut bytes)?.len());
    Ok(())
}
