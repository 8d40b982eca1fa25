//! A server and a client as two programs, over a `balsaeuchred`. In three terminals:
//!
//! ```sh
//! balsaeuchred "$XDG_RUNTIME_DIR/bus"
//! cargo run --example hello -- server "$XDG_RUNTIME_DIR/bus"
//! cargo run --example hello -- client "$XDG_RUNTIME_DIR/bus"
//! ```

use balsaeuchre::{ChannelFlags, Port, Pulse, Received, What};
use std::error::Error;

/// Replies to messages until the client has ended.
fn serve(port: &mut Port) -> Result<(), Box<dyn Error>> {
    let channel = port.channel_create(ChannelFlags::DISCONNECT)?;
    port.name_attach(channel, "hello")?;
    let mut buffer = [0; 64];
    loop {
        match port.msg_receive(channel, &mut buffer)? {
            Received::Message(request) => {
                println!("server: {:?}", String::from_utf8_lossy(request.bytes()));
                port.msg_reply(request.rcvid, 7, b"world")?;
            }
            Received::Pulse(Pulse { what: What::Disconnect(_), .. }) => {
                println!("server: the client has ended");
                return Ok(());
            }
            Received::Pulse(pulse) => println!("server: {:?}", pulse.what),
        }
    }
}

fn ask(port: &mut Port) -> Result<(), Box<dyn Error>> {
    let channel = port.name_find("hello")?;
    let connection = port.connect_attach(channel)?;
    let mut buffer = [0; 64];
    let answer = port.msg_send(connection, b"hello", &mut buffer)?;
    println!("client: {} {:?}", answer.status, String::from_utf8_lossy(answer.bytes()));
    Ok(())
}

fn main() -> Result<(), Box<dyn Error>> {
    let words: Vec<String> = std::env::args().collect();
    let [_, role, path] = words.as_slice() else { return Err("usage: hello server|client SOCKET".into()) };
    let mut port = Port::connect(path)?;
    if role == "server" { serve(&mut port) } else { ask(&mut port) }
}
