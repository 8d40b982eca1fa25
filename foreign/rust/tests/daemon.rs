//! Ports in a daemon's kernel. The tests need BALSAEUCHRE_DAEMON, the path of a `balsaeuchred`; without it
//! they test nothing. If a test needs another program, it runs its own program again, with a role in ROLE.

use balsaeuchre::{CallError, ChannelFlags, ChannelId, Errno, Port, Pulse, Received, State, ThreadState, What};
use std::io::ErrorKind;
use std::os::unix::process::CommandExt;
use std::path::PathBuf;
use std::process::{Child, Command};
use std::sync::atomic::{AtomicBool, AtomicUsize, Ordering};
use std::time::{Duration, Instant};
use std::{env, fs, thread};

/// A daemon for one test. It ends when this value is dropped.
struct Daemon {
    process: Child,
    path: PathBuf,
}

impl Daemon {
    fn start(name: &str) -> Option<Daemon> {
        Daemon::start_by(name, Command::new(env::var_os("BALSAEUCHRE_DAEMON")?))
    }

    fn start_by(name: &str, mut command: Command) -> Option<Daemon> {
        let path = env::temp_dir().join(format!("balsaeuchre-{}-{name}", std::process::id()));
        let process = command.args(["--threads", "4"]).arg(&path).spawn().unwrap();
        while !path.exists() {
            thread::sleep(Duration::from_millis(5));
        }
        Some(Daemon { process, path })
    }

    fn connect(&self) -> Port {
        loop {
            match Port::connect(&self.path) {
                // The daemon doesn't listen yet, or a place of the daemon isn't free yet.
                Err(error) if matches!(error.kind(), ErrorKind::ConnectionRefused | ErrorKind::WouldBlock) => {
                    thread::sleep(Duration::from_millis(5));
                }
                port => return port.unwrap(),
            }
        }
    }

    /// Runs this test again, as another program.
    fn spawn(&self, test: &str, role: &str) -> Child {
        self.program(test, role).spawn().unwrap()
    }

    /// Returns the command that runs a test again, as another program.
    fn program(&self, test: &str, role: &str) -> Command {
        let mut command = Command::new(env::current_exe().unwrap());
        command.args(["--exact", test, "--nocapture"]).env("ROLE", role).env("SOCKET", &self.path);
        command
    }
}

impl Drop for Daemon {
    fn drop(&mut self) {
        let _ = self.process.kill();
        let _ = self.process.wait();
        let _ = fs::remove_file(&self.path);
        let _ = fs::remove_file(format!("{}.lock", self.path.display()));
    }
}

/// Returns the role and the port of this program, if a test has spawned it.
fn spawned() -> Option<(String, Port)> {
    Some((env::var("ROLE").ok()?, Port::connect(env::var_os("SOCKET")?).unwrap()))
}

fn find(port: &mut Port, name: &str) -> ChannelId {
    loop {
        match port.name_find(name) {
            Ok(channel) => return channel,
            Err(error) => assert_eq!(error, CallError::Refused(Errno::Srch)),
        }
        thread::sleep(Duration::from_millis(1));
    }
}

const REFUSED: fn(Errno) -> CallError = CallError::Refused;

#[test]
fn two_programs() {
    if let Some((_, mut client)) = spawned() {
        let channel = find(&mut client, "server");
        let connection = client.connect_attach(channel).unwrap();
        for length in [0, 1, 1023, 1024, 1025, 100_000, 1 << 20] {
            let sent: Vec<u8> = (0..length).map(|at| (at % 251) as u8).collect();
            let mut back = vec![0; length + 3];
            let room = length.min(1 << 20);
            let answer = client.msg_send(connection, &sent, &mut back[..room]).unwrap();
            assert_eq!((answer.status, answer.bytes()), (length as i64, &sent[..]));
        }
        assert_eq!(client.msg_send(connection, b"error", &mut []), Err(CallError::Code(1000)));
        client.msg_send_pulse(connection, 11, 5, -6).unwrap();
        return;
    }
    let Some(daemon) = Daemon::start("two") else { return };
    let mut server = daemon.connect();
    let channel = server.channel_create(ChannelFlags::DISCONNECT).unwrap();
    server.name_attach(channel, "server").unwrap();
    let mut child = daemon.spawn("two_programs", "client");
    let mut buffer = vec![0; 1 << 20];
    let (mut pulses, mut processes) = (Vec::new(), Vec::new());
    while pulses.len() < 2 {
        match server.msg_receive(channel, &mut buffer).unwrap() {
            Received::Message(request) if request.bytes() == b"error" => server.msg_error(request.rcvid, 1000).unwrap(),
            Received::Message(request) => {
                let info = server.msg_info(request.rcvid).unwrap();
                assert_eq!(info, request.info);
                assert_ne!(info.process, server.process());
                processes.push(info.process);
                assert_eq!(info.srcmsglen, request.copied);
                server.msg_reply(request.rcvid, request.copied as i64, request.bytes()).unwrap();
            }
            Received::Pulse(pulse) => pulses.push(pulse),
        }
    }
    assert_eq!(pulses[0], Pulse { priority: 11, what: What::User { code: 5, value: -6 } });
    assert!(processes.iter().all(|process| pulses[1].what == What::Disconnect(*process)));
    assert!(child.wait().unwrap().success());
}

#[test]
fn a_killed_server() {
    if let Some((_, mut server)) = spawned() {
        let channel = server.channel_create(ChannelFlags::NONE).unwrap();
        server.name_attach(channel, "server").unwrap();
        let _ = server.msg_receive(channel, &mut []).unwrap();
        thread::sleep(Duration::from_secs(60));
        return;
    }
    let Some(daemon) = Daemon::start("killed") else { return };
    let mut child = daemon.spawn("a_killed_server", "server");
    let (mut client, mut other) = (daemon.connect(), daemon.connect());
    let channel = find(&mut client, "server");
    let connection = client.connect_attach(channel).unwrap();
    let tid = client.thread().thread;
    let waiting = thread::spawn(move || (client.msg_send(connection, b"", &mut []), client));
    while !matches!(other.state(tid), Ok(State { state: ThreadState::ReplyBlocked(on), .. }) if on == channel) {
        thread::sleep(Duration::from_millis(1));
    }
    child.kill().unwrap();
    let (ended, mut client) = waiting.join().unwrap();
    assert_eq!(ended, Err(CallError::Cancelled(Errno::Srch)));
    assert_eq!(client.msg_send(connection, b"", &mut []), Err(REFUSED(Errno::Badf)));
    assert_eq!(client.name_find("server"), Err(REFUSED(Errno::Srch)));
    child.wait().unwrap();
}

#[test]
fn one_program() {
    let Some(daemon) = Daemon::start("one") else { return };
    let (mut server, mut client) = (daemon.connect(), daemon.connect());
    let channel = server.channel_create(ChannelFlags::UNBLOCK).unwrap();
    let connection = client.connect_attach(channel).unwrap();
    let start = Instant::now();
    let time = Duration::from_millis(20);
    assert_eq!(server.timeout(time).msg_receive(channel, &mut []), Err(CallError::TimedOut));
    assert!(start.elapsed() >= time);
    let mut back = *b"................";
    let written = thread::scope(|scope| {
        let serving = scope.spawn(|| {
            let mut buffer = [0; 4];
            let Received::Message(request) = server.msg_receive(channel, &mut buffer).unwrap() else { panic!() };
            let (rcvid, copied) = (request.rcvid, request.copied);
            let mut rest = [0; 16];
            assert_eq!((copied, server.msg_read(rcvid, 4, &mut rest).unwrap()), (4, &b"age"[..]));
            assert_eq!(server.msg_write(rcvid, 6, b"WW"), Ok(2));
            server.msg_reply(rcvid, 3, b"R").unwrap();
        });
        let answer = client.msg_send(connection, b"message", &mut back).map(|answer| (answer.status, answer.copied));
        serving.join().unwrap();
        answer
    });
    assert_eq!((written, &back), (Ok((3, 1)), b"R.....WW........"));
    client.sched_set(client.thread().thread, 20).unwrap();
    assert_eq!(client.state(client.thread().thread).unwrap().priority, 20);
    assert_eq!(server.msg_reply(balsaeuchre::ReceiveId(99), 0, b""), Err(REFUSED(Errno::Srch)));
    assert_eq!(client.connect_attach(ChannelId(77)), Err(REFUSED(Errno::Srch)));
    assert_eq!(server.shutdown(), Err(REFUSED(Errno::Inval)));
    server.name_attach(channel, "one").unwrap();
    assert_eq!(client.name_find("one"), Ok(channel));
    assert_eq!(server.name_attach(channel, "two"), Err(REFUSED(Errno::Inval)));
    server.name_detach(channel).unwrap();
    assert_eq!(client.name_find("one"), Err(REFUSED(Errno::Srch)));
    client.connect_detach(connection).unwrap();
    server.channel_destroy(channel).unwrap();
}

#[test]
fn places_and_ends() {
    let Some(mut daemon) = Daemon::start("places") else { return };
    let mut ports: Vec<Port> = (0..4).map(|_| daemon.connect()).collect();
    assert_eq!(Port::connect(&daemon.path).err().unwrap().kind(), ErrorKind::WouldBlock);
    ports.pop();
    ports.push(daemon.connect());
    let channel = ports[0].channel_create(ChannelFlags::NONE).unwrap();
    let mut waiter = ports.pop().unwrap();
    let waiting = thread::spawn(move || waiter.msg_receive_pulse(channel));
    thread::sleep(Duration::from_millis(50));
    daemon.process.kill().unwrap();
    assert_eq!(waiting.join().unwrap(), Err(REFUSED(Errno::Down)));
    assert_eq!(ports[0].channel_create(ChannelFlags::NONE), Err(REFUSED(Errno::Down)));
    assert!(Port::connect("/none/such").is_err());
}

/// Opens ports in several threads at once, and drops them. Returns all errors.
fn come_and_go(daemon: &Daemon, rounds: usize) -> Vec<std::io::Error> {
    let open = || {
        let mut errors = Vec::new();
        for _ in 0..rounds {
            match Port::connect(&daemon.path) {
                Ok(mut port) => {
                    let channel = port.channel_create(ChannelFlags::NONE).unwrap();
                    port.channel_destroy(channel).unwrap();
                }
                Err(error) => errors.push(error),
            }
        }
        errors
    };
    thread::scope(|scope| {
        let threads: Vec<_> = (0..3).map(|_| scope.spawn(open)).collect();
        threads.into_iter().flat_map(|thread| thread.join().unwrap()).collect()
    })
}

/// A thread's number is used again only after the daemon has removed the thread that had it.
#[test]
fn ports_come_and_go() {
    let Some(daemon) = Daemon::start("ports") else { return };
    let _first = daemon.connect();
    assert!(come_and_go(&daemon, 2000).is_empty());
}

/// The program's last port is dropped while another thread opens the next.
#[test]
fn programs_come_and_go() {
    let Some(daemon) = Daemon::start("programs") else { return };
    drop(daemon.connect());
    assert!(come_and_go(&daemon, 2000).is_empty());
}

unsafe extern "C" {
    fn fork() -> i32;
    fn geteuid() -> u32;
    fn waitpid(pid: i32, status: *mut i32, flags: i32) -> i32;
    fn _exit(status: i32) -> !;
    fn kill(pid: i32, signal: i32) -> i32;
    fn signal(number: i32, handler: extern "C" fn(i32)) -> usize;
    fn siginterrupt(number: i32, interrupts: i32) -> i32;
    fn pthread_self() -> usize;
    fn pthread_kill(thread: usize, signal: i32) -> i32;
}

const SIGUSR1: i32 = 10;
const SIGCONT: i32 = 18;
const SIGSTOP: i32 = 19;

static SIGNALS: AtomicUsize = AtomicUsize::new(0);

extern "C" fn count(_: i32) {
    SIGNALS.fetch_add(1, Ordering::SeqCst);
}

/// A signal's handler runs while a thread waits for the daemon's answer to its join.
#[test]
fn signals_while_a_thread_joins() {
    let Some(daemon) = Daemon::start("signals") else { return };
    let _first = daemon.connect();
    let pid = daemon.process.id() as i32;
    // SAFETY:
    // - The handler only adds to a number.
    // - Only this test uses the signal, and only threads of this test get it.
    unsafe {
        signal(SIGUSR1, count);
        siginterrupt(SIGUSR1, 1);
        kill(pid, SIGSTOP);
    }
    let (joining, is_over) = (AtomicUsize::new(0), AtomicBool::new(false));
    thread::scope(|scope| {
        let joined = scope.spawn(|| {
            // SAFETY: the function has no parameters.
            joining.store(unsafe { pthread_self() }, Ordering::SeqCst);
            let port = Port::connect(&daemon.path);
            is_over.store(true, Ordering::SeqCst);
            port.map(|_| ())
        });
        while joining.load(Ordering::SeqCst) == 0 {
            thread::yield_now();
        }
        for _ in 0..50 {
            // SAFETY: the thread is joined below.
            unsafe { pthread_kill(joining.load(Ordering::SeqCst), SIGUSR1) };
            thread::sleep(Duration::from_millis(2));
        }
        assert!(SIGNALS.load(Ordering::SeqCst) > 0);
        let ended_early = is_over.load(Ordering::SeqCst);
        // SAFETY: the call takes only numbers.
        unsafe { kill(pid, SIGCONT) };
        joined.join().unwrap().unwrap();
        assert!(!ended_early);
    });
}

/// Returns the number of the first check that fails in a forked child, or 0. The child drops its parent's
/// ports.
fn in_a_child(mut ports: [Port; 2], path: &str) -> i32 {
    let maps = fs::read_to_string("/proc/self/maps").unwrap_or_default();
    if maps.is_empty() || maps.contains("memfd:balsaeuchre") {
        return 1;
    }
    if ports[0].channel_create(ChannelFlags::NONE) != Err(REFUSED(Errno::Down)) {
        return 2;
    }
    let Ok(mut own) = Port::connect(path) else { return 3 };
    if own.channel_create(ChannelFlags::NONE).is_err() {
        return 4;
    }
    drop(ports);
    0
}

/// A forked child has no box of its parent, can't make calls by its parent's ports, and ends none of these
/// ports.
#[test]
fn a_forked_child() {
    if let Some((_, port)) = spawned() {
        let path = env::var("SOCKET").unwrap();
        let ports = [port, Port::connect(&path).unwrap()];
        // SAFETY: no other thread of this program makes calls, and the child ends by `_exit`.
        let child = unsafe { fork() };
        if child == 0 {
            // SAFETY: the call takes only a number.
            unsafe { _exit(in_a_child(ports, &path)) };
        }
        let mut status = 0;
        // SAFETY: `status` is a place for the status.
        assert_eq!(unsafe { waitpid(child, &mut status, 0) }, child);
        assert_eq!(status, 0, "the number of what is wrong is {}", status >> 8);
        for mut port in ports {
            let channel = port.channel_create(ChannelFlags::NONE).unwrap();
            port.channel_destroy(channel).unwrap();
        }
        return;
    }
    let Some(daemon) = Daemon::start("forked") else { return };
    assert!(daemon.spawn("a_forked_child", "parent").wait().unwrap().success());
}

/// A relative path is relative to the program's current folder at the time of the connect.
#[test]
fn the_same_name_in_two_folders() {
    if let Ok(folders) = env::var("FOLDERS") {
        let ports: Vec<Port> = folders
            .split(':')
            .map(|folder| {
                env::set_current_dir(folder).unwrap();
                Port::connect("bus").unwrap()
            })
            .collect();
        assert_eq!(ports.len(), 2);
        return;
    }
    let daemons = ["first", "second"].map(Daemon::start);
    let [Some(first), Some(second)] = &daemons else { return };
    let folders = [first, second].map(|daemon| {
        drop(daemon.connect());
        let folder = daemon.path.with_extension("folder");
        fs::create_dir(&folder).unwrap();
        std::os::unix::fs::symlink(&daemon.path, folder.join("bus")).unwrap();
        folder
    });
    let mut command = Command::new(env::current_exe().unwrap());
    command.args(["--exact", "the_same_name_in_two_folders", "--nocapture"]);
    command.env("FOLDERS", folders.each_ref().map(|folder| folder.to_str().unwrap()).join(":"));
    assert!(command.status().unwrap().success());
    folders.iter().for_each(|folder| fs::remove_dir_all(folder).unwrap());
}

/// Messages, replies and writes of over 1 MiB are refused, and so is a reply buffer of over 1 MiB. Other
/// buffers may be longer, although no message is.
#[test]
fn over_a_mebibyte() {
    const MOST: usize = 1 << 20;
    let Some(daemon) = Daemon::start("mebibyte") else { return };
    let (mut server, mut client) = (daemon.connect(), daemon.connect());
    let channel = server.channel_create(ChannelFlags::NONE).unwrap();
    let connection = client.connect_attach(channel).unwrap();
    let (long, mut room) = (vec![7; MOST + 1], vec![0; MOST + 1]);
    let soon = Duration::from_millis(100);
    assert_eq!(client.timeout(soon).msg_send(connection, &long, &mut []), Err(REFUSED(Errno::Inval)));
    assert_eq!(client.timeout(soon).msg_send(connection, b"", &mut room), Err(REFUSED(Errno::Inval)));
    thread::scope(|scope| {
        let serving = scope.spawn(|| {
            let (mut buffer, patience) = (vec![0; MOST + 1], Duration::from_secs(30));
            let received = server.timeout(patience).msg_receive(channel, &mut buffer);
            let Ok(Received::Message(request)) = received else { panic!("{received:?}") };
            let (rcvid, copied) = (request.rcvid, request.copied);
            assert_eq!((copied, server.msg_read(rcvid, 0, &mut buffer).unwrap().len()), (MOST, MOST));
            assert_eq!(server.msg_write(rcvid, 1, &long), Err(REFUSED(Errno::Inval)));
            assert_eq!(server.msg_write(rcvid, 1, &long[..MOST]), Ok(MOST - 1));
            assert_eq!(server.msg_reply(rcvid, 5, &long), Err(REFUSED(Errno::Inval)));
            server.msg_reply(rcvid, 5, &long[..MOST]).unwrap();
        });
        let patient = client.timeout(Duration::from_secs(30));
        let answer = patient.msg_send(connection, &long[..MOST], &mut room[..MOST]).unwrap();
        assert_eq!((answer.status, answer.bytes()), (5, &long[..MOST]));
        serving.join().unwrap();
    });
}

/// A daemon of another user is refused, unless the environment names that user. Only root can start
/// such a daemon.
#[test]
fn a_daemon_of_another_user() {
    const NOBODY: u32 = 65534;
    if let Ok(role) = env::var("ROLE") {
        let error = Port::connect(env::var_os("SOCKET").unwrap()).err().map(|error| error.kind());
        assert_eq!(error, (role == "refused").then_some(ErrorKind::PermissionDenied));
        return;
    }
    let Some(program) = env::var_os("BALSAEUCHRE_DAEMON") else { return };
    // SAFETY: the function has no parameters.
    if unsafe { geteuid() } != 0 {
        return;
    }
    // The other user may lack the right to enter the folder of the daemon's program, so the test runs a copy.
    // Another program makes the copy: a file that this program writes can't be run while a child that another
    // test forks has it open.
    let copy = env::temp_dir().join(format!("balsaeuchred-{}", std::process::id()));
    assert!(Command::new("install").args(["-m", "755"]).arg(program).arg(&copy).status().unwrap().success());
    let mut command = Command::new(&copy);
    command.uid(NOBODY).gid(0).args(["--group", "root"]);
    let daemon = Daemon::start_by("another", command).unwrap();
    let error = loop {
        let error = Port::connect(&daemon.path).err().unwrap();
        if error.kind() != ErrorKind::ConnectionRefused {
            break error;
        }
        thread::sleep(Duration::from_millis(5));
    };
    assert_eq!(error.kind(), ErrorKind::PermissionDenied);
    assert!(error.to_string().contains("is of user 65534: "), "{error}");
    for (user, role) in [("65534", "trusted"), ("65533", "refused"), ("no such user", "refused"), ("", "refused")] {
        let mut named = daemon.program("a_daemon_of_another_user", role);
        assert!(named.env("BALSAEUCHRE_SYSTEM_USER", user).status().unwrap().success(), "{user}");
    }
    fs::remove_file(copy).unwrap();
}
