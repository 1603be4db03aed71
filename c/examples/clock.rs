//! clock.rs [PORT [SECONDS]]: a clock, as clock.c, of the time in UTC, by a caller in Rust. It ends after so many seconds, where they are
//! given. Of port 0 the system chooses one; it prints which. Where the library was installed below PREFIX:
//! rustc --edition 2021 -L PREFIX/lib -l static=vnc_server clock.rs
use std::time::{Duration, Instant, SystemTime};

type Memory = *mut u128;

#[repr(C)]
#[derive(Clone, Copy, Default)]
struct Input(u64, [u32; 6], u64, u32); // vnc_input

unsafe extern "C" {
    fn vnc_server_size() -> usize;
    fn vnc_server_init(at: Memory);
    fn vnc_server_listen_n(at: Memory, address: *const u8, address_count: usize, port: u16, width: u32, height: u32, name: *const u8, name_count: usize, viewers: u32) -> i32;
    fn vnc_server_close(at: Memory) -> i32;
    fn vnc_server_port(at: Memory) -> i32;
    fn vnc_server_process_events(at: Memory, milliseconds: i32) -> i32;
    fn vnc_server_next_inputs(at: Memory, room: *mut Input, count: usize) -> i64;
    fn vnc_server_paint(at: Memory, x1: i32, y1: i32, x2: i32, y2: i32, colours: *const u32, count: usize) -> i32;
}

/// 0 or more, or the code of a refusal.
fn done(code: i32) -> Result<i32, i32> {
    if code < 0 { Err(code) } else { Ok(code) }
}

/// A server that listens, in memory of its own at a multiple of 16. It is closed when it is dropped.
struct Server(Vec<u128>);

impl Server {
    fn new(port: u16, width: u32, height: u32, name: &str) -> Result<Server, i32> {
        let home = "127.0.0.1";
        // SAFETY: the memory is as large as it is to be, here and below, and stays where it is as long as the server lives
        let mut server = Server(vec![0; unsafe { vnc_server_size() }.div_ceil(16)]);
        unsafe { vnc_server_init(server.0.as_mut_ptr()) };
        done(unsafe { vnc_server_listen_n(server.0.as_mut_ptr(), home.as_ptr(), home.len(), port, width, height, name.as_ptr(), name.len(), 64) })?;
        Ok(server)
    }

    fn fill(&mut self, x: i32, y: i32, width: i32, height: i32, colour: u32) -> Result<(), i32> {
        let colours = vec![colour; (width * height) as usize];
        done(unsafe { vnc_server_paint(self.0.as_mut_ptr(), x, y, x + width, y + height, colours.as_ptr(), colours.len()) }).map(drop)
    }

    /// A turn. Nobody heeds what viewers told.
    fn turn(&mut self, milliseconds: i32) -> Result<(), i32> {
        let mut room = [Input::default(); 16];
        done(unsafe { vnc_server_process_events(self.0.as_mut_ptr(), milliseconds) })?;
        while unsafe { vnc_server_next_inputs(self.0.as_mut_ptr(), room.as_mut_ptr(), room.len()) } > 0 {}
        Ok(())
    }
}

impl Drop for Server {
    fn drop(&mut self) {
        unsafe { vnc_server_close(self.0.as_mut_ptr()) };
    }
}

/// Which bars of a digit are lit, a bit each, and where they are: x, y, width and height.
const LIT: [u8; 10] = [0x3f, 0x06, 0x5b, 0x4f, 0x66, 0x6d, 0x7d, 0x07, 0x7f, 0x6f];
const BARS: [(i32, i32, i32, i32); 7] = [(4, 0, 12, 4), (16, 4, 4, 12), (16, 20, 4, 12), (4, 32, 12, 4), (0, 20, 4, 12), (0, 4, 4, 12), (4, 16, 12, 4)];

fn draw_digit(server: &mut Server, left: i32, digit: u64) -> Result<(), i32> {
    for (k, &(x, y, width, height)) in BARS.iter().enumerate() {
        server.fill(left + x, 4 + y, width, height, if LIT[digit as usize] >> k & 1 == 1 { 0xff5020 } else { 0x301008 })?;
    }
    Ok(())
}

fn serve(port: u16, seconds: u64) -> Result<(), i32> {
    let mut server = Server::new(port, 172, 44, "clock")?;
    println!("port {}", unsafe { vnc_server_port(server.0.as_mut_ptr()) });
    for (x, y) in [(54, 14), (54, 28), (114, 14), (114, 28)] {
        server.fill(x, y, 4, 4, 0xff5020)?;
    }
    let began = Instant::now();
    while began.elapsed() < Duration::from_secs(seconds) {
        let now = SystemTime::now().duration_since(SystemTime::UNIX_EPOCH).unwrap_or_default();
        for (left, number) in [(4, now.as_secs() / 3600 % 24), (64, now.as_secs() / 60 % 60), (124, now.as_secs() % 60)] {
            draw_digit(&mut server, left, number / 10)?;
            draw_digit(&mut server, left + 24, number % 10)?;
        }
        server.turn(1000 - now.subsec_millis() as i32)?;
    }
    Ok(())
}

fn main() {
    let mut given = std::env::args().skip(1).map(|it| it.parse().expect("a number"));
    let port = given.next().unwrap_or(5900) as u16;
    if let Err(code) = serve(port, given.next().unwrap_or(u64::MAX)) {
        eprintln!("clock: code {code}");
        std::process::exit(1);
    }
}
