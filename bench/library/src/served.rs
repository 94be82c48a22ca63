//! The C functions in a process of their own, on a processor that they are not compiled for.
//!
//! `server.c` calls them, under the toolchain's emulator. What is lent for the calls goes there and
//! comes back in a message. Each thread has its own process, which ends with it.

mod message;

use crate::{emulated, Line, ListRows, Listed, Told};
use message::{Call, Message};
use std::cell::RefCell;
use std::io::{Read, Write};
use std::net::Shutdown;
use std::ops::Range;
use std::os::fd::OwnedFd;
use std::os::unix::net::UnixStream;
use std::process::Child;

thread_local! {
    static SERVER: RefCell<Server> = RefCell::new(Server::start());
}

/// Rows are listed together, since a message costs more than a call.
pub const LIST_ROWS: Option<ListRows> = Some(list_rows);

/// Decides a problem. Both lists are left as document 01 says.
pub fn decide(bytes: &[u8], nums: &mut [i32], dens: &mut [i32]) -> Told {
    SERVER.with_borrow_mut(|server| {
        let message = &mut server.message;
        message.begin(1);
        let problem = message.lend(bytes);
        let lists = [message.lend_list(nums), message.lend_list(dens)];
        let call = Call {
            lists_a_row: false,
            bytes: (problem.start, bytes.len()),
            nums: (lists[0].start, nums.len()),
            dens: (lists[1].start, dens.len()),
            at: 0,
            row: 0,
        };
        message.ask(0, call);
        let message = server.exchange(&lists);
        message.take_list(&lists[0], nums);
        message.take_list(&lists[1], dens);
        let (figure, word, number) = message.answer(0);
        Told { word, number, figure }
    })
}

/// Lists row `t` of two lists into `buf` from place `at` on.
pub fn list_row(buf: &mut [u8], at: usize, nums: &[i32], dens: &[i32], t: usize) -> Listed {
    let line = Line { buf, at, nums_len: nums.len(), dens_len: dens.len(), t };
    list_rows(&mut [line], nums, dens)[0]
}

fn list_rows(lines: &mut [Line], nums: &[i32], dens: &[i32]) -> Vec<Listed> {
    SERVER.with_borrow_mut(|server| {
        let message = &mut server.message;
        message.begin(lines.len());
        let lists = [message.lend_list(nums), message.lend_list(dens)];
        let buffers: Vec<Range<usize>> = lines.iter().map(|line| message.lend(line.buf)).collect();
        for (index, line) in lines.iter().enumerate() {
            let call = Call {
                lists_a_row: true,
                bytes: (buffers[index].start, line.buf.len()),
                nums: (lists[0].start, line.nums_len),
                dens: (lists[1].start, line.dens_len),
                at: line.at,
                row: line.t,
            };
            message.ask(index, call);
        }
        let message = server.exchange(&buffers);
        let take = |(index, line): (usize, &mut Line)| {
            message.take(&buffers[index], line.buf);
            let (place, _, number) = message.answer(index);
            Listed { number, place }
        };
        lines.iter_mut().enumerate().map(take).collect()
    })
}

/// The process, the connection to it, and what was last sent and came back.
struct Server {
    process: Child,
    connection: UnixStream,
    message: Message,
}

impl Server {
    /// Starts the process.
    fn start() -> Server {
        let mut command = emulated::command(&[], env!("HAMZULAPH_SERVER"));
        let (connection, other_end) = UnixStream::pair().expect("a connection");
        command.stdin(OwnedFd::from(other_end));
        let process = command.spawn().unwrap_or_else(|error| panic!("{command:?}: {error}"));
        Server { process, connection, message: Message::default() }
    }

    /// Has the calls of the message made, which may write to some ranges of it and nowhere else.
    fn exchange(&mut self, lent_to_write: &[Range<usize>]) -> &Message {
        let (sent, got) = self.message.both();
        let passed = self.connection.write_all(sent).and_then(|()| self.connection.read_exact(got));
        passed.unwrap_or_else(|error| panic!("the library's process has ended: {error}"));
        self.message.hold_to_guards(lent_to_write);
        &self.message
    }
}

impl Drop for Server {
    /// Ends the connection, which ends the process.
    fn drop(&mut self) {
        let _ = self.connection.shutdown(Shutdown::Both);
        let _ = self.process.wait();
    }
}
