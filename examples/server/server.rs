//! A TCP server over a live channel (`pl_live.h`): a thread a connection, std alone. It is not proved.
//!
//! usage: server SESSION [PORT [CONNECTIONS]]
//!
//! Each connection is a channel of the session text in the file SESSION. It listens on 127.0.0.1, on any free port where
//! PORT is 0 or absent, and says on which. After so many CONNECTIONS it takes no more, and ends with the last of them.
use std::io::{Read, Write};
use std::net::{TcpListener, TcpStream};
use std::{env, fs, io, ptr, thread};

/// What comes in at once, and what goes out at once: so little that the stack of an idle connection stays within two pages.
const BUFFER: usize = 2048;

const OK: u32 = 0;

/// A channel.
#[repr(C)]
struct Live {
    at: *mut u8,
}

extern "C" {
    fn pl_live_open(live: &mut Live, text: *const u8, length: usize) -> u32;
    fn pl_live_feed(live: &mut Live, bytes: *const u8, length: usize) -> u32;
    fn pl_live_end(live: &mut Live) -> bool;
    fn pl_live_take_output(live: &mut Live, into: *mut u8, room: usize) -> usize;
    fn pl_live_wants_input(live: &mut Live) -> bool;
    fn pl_live_close(live: &mut Live);
}

// A slice gives a pointer that is not null, to as many bytes as its length says, which nothing else changes in the call.
impl Live {
    fn open(text: &[u8]) -> Result<Live, u32> {
        let mut live = Live { at: ptr::null_mut() };
        match unsafe { pl_live_open(&mut live, text.as_ptr(), text.len()) } {
            OK => Ok(live),
            answer => Err(answer),
        }
    }
    fn feed(&mut self, bytes: &[u8]) -> bool {
        unsafe { pl_live_feed(self, bytes.as_ptr(), bytes.len()) == OK }
    }
    fn end(&mut self) {
        unsafe { pl_live_end(self) };
    }
    fn take_output(&mut self, into: &mut [u8]) -> usize {
        unsafe { pl_live_take_output(self, into.as_mut_ptr(), into.len()) }
    }
    fn wants_input(&mut self) -> bool {
        unsafe { pl_live_wants_input(self) }
    }
}

// It may go to another thread between two calls (crates/pl_live_c/README.md).
unsafe impl Send for Live {}

impl Drop for Live {
    fn drop(&mut self) {
        unsafe { pl_live_close(self) }
    }
}

/// Sends all that is to be sent.
fn send(live: &mut Live, stream: &mut TcpStream, buffer: &mut [u8]) -> io::Result<()> {
    loop {
        let taken = live.take_output(buffer);
        if taken == 0 {
            return Ok(());
        }
        stream.write_all(&buffer[..taken])?;
    }
}

/// Reads while the channel wants input, each time once all that was to be sent is sent. It wants none any more where a
/// handler has quit, and where something has failed.
fn serve(mut stream: TcpStream, mut live: Live) -> io::Result<()> {
    let mut buffer = [0; BUFFER];
    while live.wants_input() {
        let count = stream.read(&mut buffer)?;
        if count == 0 || !live.feed(&buffer[..count]) {
            break;
        }
        send(&mut live, &mut stream, &mut buffer)?;
    }
    live.end();
    send(&mut live, &mut stream, &mut buffer)
}

fn main() -> Result<(), Box<dyn std::error::Error>> {
    let mut words = env::args().skip(1);
    let session = words.next().ok_or("usage: server SESSION [PORT [CONNECTIONS]]")?;
    let port: u16 = words.next().map_or(Ok(0), |word| word.parse())?;
    let connections: usize = words.next().map_or(Ok(usize::MAX), |word| word.parse())?;
    let text = fs::read(session)?;
    let open = || Live::open(&text).map_err(|answer| format!("pl_live_open answered {answer}"));
    // A session that is refused is refused before anybody connects.
    open()?;
    let listener = TcpListener::bind(("127.0.0.1", port))?;
    println!("listening on {}", listener.local_addr()?);
    let mut threads = Vec::new();
    for stream in listener.incoming().take(connections) {
        let (stream, live) = (stream?, open()?);
        stream.set_nodelay(true)?;
        threads.retain(|thread: &thread::JoinHandle<_>| !thread.is_finished());
        threads.push(thread::spawn(move || serve(stream, live)));
    }
    for thread in threads {
        let _ended = thread.join();
    }
    Ok(())
}
