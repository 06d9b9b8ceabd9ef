//! The calls of `threads N M` on a plain mutex around a `VecDeque`, with the same text.
use std::collections::VecDeque;
use std::io::Write;
use std::sync::Mutex;
use std::thread;

fn main() {
    let mut words = std::env::args().skip(1).map(|word| word.parse::<usize>().expect("a number"));
    let (n, m) = (words.next().expect("senders"), words.next().expect("messages"));
    let mailbox: Mutex<VecDeque<(usize, usize)>> = Mutex::new(VecDeque::new());
    thread::scope(|scope| {
        for sender in 0..n {
            let mailbox = &mailbox;
            scope.spawn(move || {
                for number in 0..m {
                    let mut messages = mailbox.lock().expect("the lock");
                    if messages.len() < n * m {
                        messages.push_back((sender, number));
                    }
                }
            });
        }
    });
    let mut taken = vec![Vec::new(); n];
    for (sender, number) in mailbox.into_inner().expect("the lock") {
        taken[sender].push(number.to_string());
    }
    let mut out = std::io::stdout().lock();
    for (sender, numbers) in taken.iter().enumerate() {
        writeln!(out, "{{\"calls\":{m},\"sender\":{sender},\"taken\":[{}]}}", numbers.join(",")).expect("a write");
    }
}
