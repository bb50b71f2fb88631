//! The worked hosts of docs/INTEGRATING.md, in C and in Rust. A client tells each the same story and looks at every byte that comes back.

use std::io::{Read, Write};
use std::path::{Path, PathBuf};
use std::process::{Child, ChildStdin, ChildStdout, Command, Stdio};

const DEVID: u32 = 0x0001_000f;
const OUT: u32 = 0;
const IN: u32 = 1;
const ECONNRESET: i32 = -104;

fn words(words: [u32; 12]) -> Vec<u8> {
    words.map(u32::to_be_bytes).concat()
}

fn submit(seqnum: u32, direction: u32, length: u32) -> Vec<u8> {
    words([1, seqnum, DEVID, direction, 1, 0, length, 0, 0, 0, 0, 0])
}

/// Isochronous, with offset and length of each packet.
fn submit_iso(seqnum: u32, length: u32, packets: [(u32, u32); 2]) -> Vec<u8> {
    let header = words([1, seqnum, DEVID, IN, 1, 0, length, 0, 2, 1, 0, 0]);
    let asked = packets.map(|(offset, length)| [offset, length, 0, 0]);
    [header, descriptors(asked)].concat()
}

/// Offset, length, actual length and status of each packet.
fn descriptors(fields: [[u32; 4]; 2]) -> Vec<u8> {
    fields
        .concat()
        .into_iter()
        .flat_map(u32::to_be_bytes)
        .collect()
}

fn unlink(seqnum: u32, target: u32) -> Vec<u8> {
    words([2, seqnum, DEVID, 0, 0, target, 0, 0, 0, 0, 0, 0])
}

fn returned(seqnum: u32, actual: u32) -> Vec<u8> {
    words([3, seqnum, 0, 0, 0, 0, actual, 0, 0, 0, 0, 0])
}

/// The reply to an isochronous submit whose packets are transferred whole.
fn returned_iso(seqnum: u32, data: Vec<u8>, packets: [(u32, u32); 2]) -> Vec<u8> {
    let header = words([3, seqnum, 0, 0, 0, 0, data.len() as u32, 0, 2, 0, 0, 0]);
    let whole = packets.map(|(offset, length)| [offset, length, length, 0]);
    [header, data, descriptors(whole)].concat()
}

fn unlinked(seqnum: u32, status: i32) -> Vec<u8> {
    words([4, seqnum, 0, 0, 0, status as u32, 0, 0, 0, 0, 0, 0])
}

/// The camera's picture of a number.
fn picture(number: u8, length: usize) -> Vec<u8> {
    let mut picture = vec![number - 1; length];
    picture[0] = number;
    picture
}

struct Client {
    child: Child,
    to: Option<ChildStdin>,
    from: ChildStdout,
}

impl Client {
    fn of(host: &Path) -> Client {
        let mut child = Command::new(host)
            .stdin(Stdio::piped())
            .stdout(Stdio::piped())
            .stderr(Stdio::piped())
            .spawn()
            .unwrap_or_else(|e| panic!("{}: {e}", host.display()));
        let (to, from) = (child.stdin.take(), child.stdout.take().expect("piped"));
        Client { child, to, from }
    }

    fn says(&mut self, bytes: &[u8]) {
        let to = self.to.as_mut().expect("not hung up yet");
        to.write_all(bytes).expect("the host reads");
        to.flush().expect("the host reads");
    }

    fn hears(&mut self, expected: &[u8]) {
        let mut bytes = vec![0; expected.len()];
        self.from.read_exact(&mut bytes).expect("the host answers");
        assert_eq!(bytes, expected);
    }

    /// Hangs up; nothing more comes, and the host says this to its log.
    fn hangs_up(mut self) -> String {
        self.to = None;
        let mut rest = Vec::new();
        self.from.read_to_end(&mut rest).expect("the host ends");
        assert_eq!(rest, [], "bytes after the last reply");
        let output = self.child.wait_with_output().expect("the host ends");
        assert!(output.status.success());
        String::from_utf8(output.stderr).expect("a log is text")
    }
}

fn import(client: &mut Client) {
    let mut request = [0; 40];
    request[..11].copy_from_slice(b"\x01\x11\x80\x03\0\0\0\x001-1");
    client.says(&request[..20]);
    client.says(&request[20..]);
    let mut reply = [0; 320];
    reply[..4].copy_from_slice(&[0x01, 0x11, 0x00, 0x03]);
    reply[8..17].copy_from_slice(b"/deck/1-1");
    reply[264..267].copy_from_slice(b"1-1");
    reply[299] = 1;
    reply[303] = 15;
    client.hears(&reply);
}

/// A picture; then one that is cancelled, whose seqnum is used again at once: the second submit gets the third picture, never the
/// second, which comes late. Then one in two packets with gaps around them, which the data doesn't have.
fn story(host: &Path) -> String {
    let mut client = Client::of(host);
    import(&mut client);
    client.says(&submit(7, IN, 64));
    client.hears(&[returned(7, 64), picture(1, 64)].concat());
    client.says(&[submit(8, IN, 64), unlink(9, 8), submit(8, IN, 64)].concat());
    client.hears(&[unlinked(9, ECONNRESET), returned(8, 64), picture(3, 64)].concat());
    let out = [submit(10, OUT, 100), vec![0x5a; 100]].concat();
    client.says(&out[..70]);
    client.says(&out[70..]);
    client.hears(&returned(10, 100));
    let packets = [(10, 20), (40, 50)];
    client.says(&submit_iso(11, 100, packets));
    client.hears(&returned_iso(11, picture(4, 70), packets));
    client.hangs_up()
}

/// Beside this test's own program, which cargo puts into `deps`.
fn in_rust() -> PathBuf {
    let test = std::env::current_exe().expect("this program");
    test.ancestors().nth(2).expect("deps").join("examples/host")
}

/// Built as docs/INTEGRATING.md says.
fn in_c() -> PathBuf {
    let package = Path::new(env!("CARGO_MANIFEST_DIR"));
    let root = package.join("..");
    let host = Path::new(env!("CARGO_TARGET_TMPDIR")).join("host");
    let status = Command::new("cc")
        .args([
            "-std=c99",
            "-D_POSIX_C_SOURCE=200809L",
            "-Wall",
            "-Wextra",
            "-pedantic",
            "-Werror",
            "-Iinclude",
            "-o",
        ])
        .arg(&host)
        .args(["examples/host.c", "target/lib/librimemaple.a"])
        .current_dir(&root)
        .status()
        .expect("cc");
    assert!(status.success());
    host
}

#[test]
fn the_host_in_c() {
    let log = story(&in_c());
    assert_eq!(log, "ticket 2: refused 4, its picture is dropped\naccepted 5, returned 4, unlinked 1, dropped 0\n");
}

#[test]
fn the_host_in_rust() {
    let log = story(&in_rust());
    assert_eq!(
        log,
        "ticket 2: refused 4: ticket not pending: its picture is dropped\naccepted 5, returned 4, unlinked 1, dropped 0\n"
    );
}
