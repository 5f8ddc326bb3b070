// nonblocking DESCRIPTOR PROGRAM ARGS..: runs a program one of whose descriptors does not block, as another process may leave it.
use std::os::unix::process::CommandExt;

extern "C" {
    fn fcntl(fd: i32, command: i32, ...) -> i32;
}

const F_GETFL: i32 = 3;
const F_SETFL: i32 = 4;
const O_NONBLOCK: i32 = 0o4000;

fn main() {
    let words: Vec<String> = std::env::args().collect();
    let fd: i32 = words[1].parse().expect("a descriptor");
    let flags = unsafe { fcntl(fd, F_GETFL) };
    assert!(flags >= 0 && unsafe { fcntl(fd, F_SETFL, flags | O_NONBLOCK) } == 0, "descriptor {fd} cannot be set");
    panic!("{}", std::process::Command::new(&words[2]).args(&words[3..]).exec());
}
