//! Tests of the data that the ports of a program share.

use super::*;
use std::fs;
use std::io::Read;
use std::os::unix::net::UnixStream;
use std::sync::mpsc;
use std::time::Instant;

/// While a thread may open the program's next socket, the previous socket is still known, or it has ended.
#[test]
fn a_program_ends_under_the_lock() {
    let (socket, mut other) = UnixStream::pair().unwrap();
    let taken = Mutex::new([false; 256]);
    let program =
        Arc::new(Program { path: "/none".into(), socket: socket.into(), pid: process::id(), scoid: 1, taken });
    let known = Arc::downgrade(&program);
    let programs = lock(&PROGRAMS);
    let (begins, begun) = mpsc::channel();
    thread::scope(|scope| {
        let dropping = scope.spawn(move || {
            begins.send(fs::read_link("/proc/thread-self").unwrap()).unwrap();
            drop(Use(Some(program)))
        });
        // Under ThreadSanitizer no thread sleeps for a lock, so there the wait ends by time.
        let most = if cfg!(tsan) { Duration::from_millis(50) } else { Duration::from_secs(10) };
        let (since, thread) = (Instant::now(), begun.recv().unwrap());
        while !dropping.is_finished() && !sleeps(&thread) && since.elapsed() < most {
            thread::sleep(Duration::from_millis(1));
        }
        assert!(known.upgrade().is_some());
        drop(programs);
        dropping.join().unwrap();
    });
    assert_eq!(other.read(&mut [0]).unwrap(), 0);
}

/// Returns whether a thread of this process sleeps. Its path is relative to `/proc`.
fn sleeps(thread: &Path) -> bool {
    let stat = fs::read_to_string(Path::new("/proc").join(thread).join("stat")).unwrap_or_default();
    stat.rsplit(')').next().is_some_and(|words| words.starts_with(" S"))
}

/// A daemon that refuses a socket sends an answer, and closes the socket before the ask comes, or without
/// reading the ask.
#[test]
fn a_refusal_before_the_ask() {
    for is_asked in [false, true] {
        let (one, other) = pair();
        let refusal = Answer { error: host::EAGAIN, ..Answer::default() };
        let bytes = ptr::from_ref(&refusal).cast();
        // SAFETY: the pointer is an answer's, and is passed with the answer's length.
        let sent = unsafe { host::send(other.as_raw_fd(), bytes, size_of::<Answer>(), host::MSG_NOSIGNAL) };
        assert_eq!(sent, size_of::<Answer>() as isize);
        if is_asked {
            // SAFETY: the pointer is an ask's, and is passed with the ask's length. Nothing reads the ask.
            unsafe { host::send(one.as_raw_fd(), ptr::from_ref(&Ask::default()).cast(), size_of::<Ask>(), 0) };
        }
        drop(other);
        let answer = if is_asked { receive(&one) } else { exchange(&one, &Ask::default()) };
        assert_eq!(answer.err().unwrap().raw_os_error(), Some(host::EAGAIN));
    }
}

/// Returns the two ends of a socket of packets.
fn pair() -> (OwnedFd, OwnedFd) {
    unsafe extern "C" {
        fn socketpair(domain: c_int, kind: c_int, protocol: c_int, ends: *mut c_int) -> c_int;
    }
    let mut ends = [0; 2];
    // SAFETY:
    // - `ends` has room for two files.
    // - The files are made here, and nothing else owns them.
    unsafe {
        assert_eq!(socketpair(host::AF_UNIX, host::SOCK_SEQPACKET, 0, ends.as_mut_ptr()), 0);
        (OwnedFd::from_raw_fd(ends[0]), OwnedFd::from_raw_fd(ends[1]))
    }
}

/// The daemon's number of a program has more bits than a process number in a kernel of one program.
#[test]
fn programs_have_whole_numbers() {
    let scoid = i32::MAX - 1;
    let info = MsgInfo { scoid, ..MsgInfo::default() };
    assert_eq!(info_of(&info, 0).process, scoid as u32);
    let mut bytes = [0; size_of::<RawPulse>()];
    bytes[offset_of!(RawPulse, code)] = wire::CODE_DISCONNECT as u8;
    bytes[offset_of!(RawPulse, scoid)..][..4].copy_from_slice(&scoid.to_ne_bytes());
    let Mark::Pulse { pulse, .. } = pulse_of(&Answer::default(), &bytes) else { panic!("no pulse") };
    assert_eq!(pulse.what, What::Disconnect(scoid as u32));
    bytes[offset_of!(RawPulse, code)] = wire::CODE_UNBLOCK as u8;
    bytes[offset_of!(RawPulse, value)..][..4].copy_from_slice(&i32::MAX.to_ne_bytes());
    let Mark::Pulse { pulse, .. } = pulse_of(&Answer::default(), &bytes) else { panic!("no pulse") };
    assert_eq!(pulse.what, What::Unblock(ReceiveId(i32::MAX as u64)));
}

#[test]
fn whose_daemon_is_trusted() {
    assert!([0, 7].iter().all(|user| is_trusted(*user, 7, None)));
    assert!([8, 70].iter().all(|user| !is_trusted(*user, 7, None)));
    assert!([0, 7, 8].iter().all(|user| is_trusted(*user, 7, Some(8))));
    assert!(!is_trusted(9, 7, Some(8)));
    assert_eq!(host::user_named("root".as_ref()), Some(0));
    assert_eq!(host::user_named("4294967294".as_ref()), Some(u32::MAX - 1));
    for name in ["no such user", "4294967295", "4294967296", "+7", ""] {
        assert_eq!(host::user_named(name.as_ref()), None, "{name}");
    }
    let (one, _other) = UnixStream::pair().unwrap();
    assert_eq!(host::user_of(&one.into()).unwrap(), host::own_user());
}
