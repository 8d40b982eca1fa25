//! Compares the declarations of `wire.rs`, `host.rs` and `kernel.rs` with the headers, by a program in C that
//! prints the values of the same names. It needs cc and a clone of the repository. The package by itself has
//! no headers, and then nothing is compared.

use super::*;
use crate::host::{self, Address, Packet, Part, Peer, Rights, User};
use crate::kernel::kind;
use std::path::Path;
use std::process::Command;
use std::{env, fs};

/// An expression in C, and its value in Rust.
type Row = (String, i64);

fn size_of_field<T, F>(_: fn(&T) -> &F) -> usize {
    size_of::<F>()
}

/// The size of a struct, and the offset and the size of each field. A field in a part of a struct is named by
/// its path.
macro_rules! layout {
    ($rust:ty, $c:literal: $($($field:ident).+),+) => {{
        let mut rows: Vec<Row> = vec![(format!("sizeof({})", $c), size_of::<$rust>() as i64)];
        $(
            let name = [$(stringify!($field)),+].last().unwrap().trim_start_matches("r#").to_string();
            let size = size_of_field(|of: &$rust| &of.$($field).+);
            rows.push((format!("offsetof({}, {name})", $c), offset_of!($rust, $($field).+) as i64));
            rows.push((format!("sizeof ((({} *)0)->{name})", $c), size as i64));
        )+
        rows
    }};
}

/// Constants, by their names in C.
macro_rules! values {
    ($($c:ident: $rust:expr),+ $(,)?) => { vec![$((stringify!($c).to_string(), $rust as i64)),+] };
}

/// Constants of a module that have the same names in C.
macro_rules! same {
    ($of:ident: $($name:ident),+ $(,)?) => { vec![$((stringify!($name).to_string(), $of::$name as i64)),+] };
}

fn structs() -> Vec<Row> {
    [
        layout!(Ask, "struct wire_ask": op, call, number, pid, states, flags, time, value, sent_len, room_len, request),
        layout!(Answer, "struct wire_answer": error, length, result, count, how, priority, info),
        layout!(Shared, "struct wire_box": asked, given_up, ask, back.word, back.rings, back.answer, back.bytes),
        layout!(MsgInfo, "struct _msg_info": nd, srcnd, pid, tid, chid, scoid, coid, priority, flags, msglen, srcmsglen,
                dstmsglen, type_id, reserved),
        layout!(RawPulse, "struct _pulse": r#type, subtype, code, zero, value, scoid),
        layout!(RawRequest, "balsaeuchre_request": kind, thread, target, priority, flags, pulse_code, code, value, id,
                status, offset),
        layout!(Address, "struct sockaddr_un": sun_family, sun_path),
        layout!(Part, "struct iovec": iov_base, iov_len),
        layout!(Packet, "struct msghdr": msg_name, msg_namelen, msg_iov, msg_iovlen, msg_control, msg_controllen,
                msg_flags),
        layout!(Rights, "struct rights": cmsg_len, cmsg_level, cmsg_type, files),
        layout!(Peer, "struct ucred": pid, uid, gid),
        layout!(User, "struct passwd": pw_name, pw_passwd, pw_uid, pw_gid, pw_gecos, pw_dir, pw_shell),
    ]
    .concat()
}

fn constants() -> Vec<Row> {
    [
        values!(WIRE_VERSION: VERSION, WIRE_MOST: MOST, WIRE_NAME: NAME_ROOM, WIRE_CUT: CUT, WIRE_CODE: CODE,
                WIRE_OPEN: OPEN, WIRE_ASLEEP: ASLEEP, WIRE_ANSWERED: ANSWERED,
                OP_PROCESS: OP_PROCESS, OP_THREAD: OP_THREAD, OP_CALL: OP_CALL, OP_NAME: OP_NAME,
                OP_UNNAME: OP_UNNAME, OP_FIND: OP_FIND,
                STATE_SEND: STATE_SEND, STATE_RECEIVE: STATE_RECEIVE, STATE_REPLY: STATE_REPLY,
                _PULSE_CODE_UNBLOCK: CODE_UNBLOCK, _PULSE_CODE_DISCONNECT: CODE_DISCONNECT),
        vec![("_NTO_TIMEOUT_SEND | _NTO_TIMEOUT_RECEIVE | _NTO_TIMEOUT_REPLY".to_string(), TIMED_STATES.into())],
        same!(host: AF_UNIX, SOCK_SEQPACKET, SOCK_CLOEXEC, SOL_SOCKET, SO_PEERCRED, SCM_RIGHTS, SHUT_RDWR, MSG_PEEK,
              MSG_DONTWAIT, MSG_NOSIGNAL, MSG_CMSG_CLOEXEC, PROT_READ, PROT_WRITE, MAP_SHARED, MADV_DONTFORK,
              AT_SECURE),
        values!(FUTEX_WAIT: host::FUTEX_WAIT, SYS_gettid: host::SYS_GETTID, SYS_futex: host::SYS_FUTEX),
        same!(host: ENOENT, ESRCH, EINTR, EBADF, EAGAIN, ENOMEM, EBUSY, EEXIST, EOVERFLOW, ESHUTDOWN, ETIMEDOUT),
    ]
    .concat()
}

fn kinds() -> Vec<Row> {
    let rows: Vec<Row> = same!(kind: CHANNEL_CREATE, CONNECT_ATTACH, SEND, RECEIVE, REPLY, ERROR, READ, WRITE, INFO,
        RECEIVE_PULSE, PULSE, PRIORITY_SET, STATE, CHANNEL_DESTROY, SHUTDOWN, UNBLOCK, CONNECT_DETACH);
    rows.into_iter().map(|(name, value)| (format!("BALSAEUCHRE_{name}"), value)).collect()
}

/// Returns the values that C has for the rows.
fn printed(foreign: &Path, rows: &[Row]) -> Vec<i64> {
    let folder = env::temp_dir().join(format!("balsaeuchre-wire-{}", std::process::id()));
    fs::create_dir_all(&folder).unwrap();
    let (source, program) = (folder.join("wire.c"), folder.join("wire"));
    let prints: String = rows.iter().map(|(c, _)| format!("    printf(\"%lld\\n\", (long long)({c}));\n")).collect();
    let text = format!("{HEAD}int main(void) {{\n{prints}}}\n");
    fs::write(&source, text).unwrap();
    let mut cc = Command::new("cc");
    cc.arg("-std=gnu11").args(["daemon", "threads", "include"].map(|of| format!("-I{}/{of}", foreign.display())));
    assert!(cc.arg("-o").args([&program, &source]).status().unwrap().success(), "cc refuses {}", source.display());
    let said = Command::new(&program).output().unwrap().stdout;
    fs::remove_dir_all(folder).unwrap();
    String::from_utf8(said).unwrap().lines().map(|line| line.parse().unwrap()).collect()
}

const HEAD: &str = "#define _GNU_SOURCE\n\
    #include <errno.h>\n#include <linux/futex.h>\n#include <pwd.h>\n#include <stdio.h>\n\
    #include <sys/auxv.h>\n#include <sys/mman.h>\n#include <sys/socket.h>\n\
    #include <sys/syscall.h>\n#include <sys/uio.h>\n#include <sys/un.h>\n#include \"wire.h\"\n\
    struct rights { size_t cmsg_len; int cmsg_level, cmsg_type, files[2]; };\n\
    _Static_assert(sizeof(struct cmsghdr) == offsetof(struct rights, files), \"files follow the head\");\n";

#[test]
fn as_the_headers_have_it() {
    let foreign = Path::new(env!("CARGO_MANIFEST_DIR")).join("..");
    if !foreign.join("daemon/wire.h").exists() {
        return;
    }
    let rows = [structs(), constants(), kinds()].concat();
    let printed = printed(&foreign, &rows);
    assert_eq!(rows.len(), printed.len());
    let differ = rows.iter().zip(printed).filter(|((_, rust), c)| rust != c);
    let told: Vec<String> = differ.map(|((name, rust), c)| format!("{name}: C has {c}, Rust {rust}")).collect();
    assert!(told.is_empty(), "change foreign/rust/src to what the headers have:\n{}", told.join("\n"));
}
