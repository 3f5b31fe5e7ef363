//! The program `arcbench`: its arguments and statuses, what it prints, a fault at each read and
//! each write, and which of two faults is told.
use arcbench_core::port::Port;
use arcbench_core::program::{serve, serve_without_words};
use arcbench_core::script::{CopyFault, answer, copy};
use linked_list_allocator::LocalHeap;
use std::alloc::{AllocError, AllocGlobal};
use std::io;
use std::io::{ErrorKind, Read, Write};
use std::sync::Wait;
use std::test::Fail;
use std::thread::Threads;

const SCRIPT: &str = "limit 5\nmake\nclone 0\nlook 1\nbegin 0\nsub 0\nlook 1\n";

const ANSWER: &str = "made 0\nhandle 1\ncount 2\nlooked\nleft\ncount 1\n";

const USAGE: &str = "usage: arcbench script, arcbench threads N, arcbench tokens N\n";

const TOO_LARGE: &str = "arcbench: limit too large\n";

const NO_MEMORY: &str = "arcbench: out of memory\n";

const IO: &str = "arcbench: io\n";

const NOT_UTF8: &str = "arcbench: not UTF-8\n";

const LINES: &str = "foo   bar\n\naé b\n";

const WORDS_OF_LINES: &str = "0 0..3 foo\n0 6..9 bar\n2 0..3 aé\n2 4..5 b\n";

/// The number of a call that no test makes.
const NEVER: usize = usize::MAX;

/// Gives three bytes at a time, and fails at the read of this number. A caller that repeats an
/// interrupted read gets the remaining bytes, and no error.
#[derive(Drop)]
struct FakeReader<'a> {
    rest: &'a [u8],
    reads: usize,
    fails_at: usize,
}

impl<'a> FakeReader<'a> {
    fn new(rest: &'a [u8], fails_at: usize) -> FakeReader<'a> {
        FakeReader {
            rest,
            reads: 0,
            fails_at,
        }
    }
}

impl Read for FakeReader<'_> {
    fn read(&mut self, buf: &mut [u8]) -> io::Result<usize> {
        self.reads += 1;
        if self.reads - 1 == self.fails_at {
            return Err(io::Error::from(ErrorKind::Interrupted));
        }
        let count = self.rest.len().min(buf.len()).min(3);
        buf[..count].copy_from_slice(&self.rest[..count]);
        self.rest = &self.rest[count..];
        Ok(count)
    }
}

/// Takes two bytes at a time, and fails at the write of this number.
#[derive(Drop)]
struct FakeWriter {
    taken: Vec<u8>,
    writes: usize,
    fails_at: usize,
}

impl FakeWriter {
    fn new(taken: Vec<u8>, fails_at: usize) -> FakeWriter {
        FakeWriter {
            taken,
            writes: 0,
            fails_at,
        }
    }
}

impl Write for FakeWriter {
    fn write(&mut self, buf: &[u8]) -> io::Result<usize> {
        self.writes += 1;
        if self.writes - 1 == self.fails_at {
            return Err(io::Error::from(ErrorKind::StorageFull));
        }
        let count = buf.len().min(2);
        self.taken.extend_from_slice(&buf[..count])?;
        Ok(count)
    }

    fn flush(&mut self) -> io::Result<()> {
        Ok(())
    }
}

/// Which read, which write of the output and which write of the errors fails.
#[derive(Clone, Copy)]
struct FailsAt {
    read: usize,
    write: usize,
    error: usize,
}

const NO_FAULT: FailsAt = FailsAt {
    read: NEVER,
    write: NEVER,
    error: NEVER,
};

fn fails_at(read: usize, write: usize) -> FailsAt {
    FailsAt {
        read,
        write,
        error: NEVER,
    }
}

/// What the program did.
#[derive(Drop)]
struct Outcome {
    status: u8,
    output: Vec<u8>,
    errors: Vec<u8>,
}

impl Outcome {
    fn is(&self, status: u8, output: &str, errors: &str) -> bool {
        self.status == status
            && self.output.as_slice() == output.as_bytes()
            && self.errors.as_slice() == errors.as_bytes()
    }
}

fn run<R: Threads + Wait + Sync + AllocGlobal>(
    rt: &R,
    arguments: &[&str],
    input: &[u8],
    at: FailsAt,
) -> Result<Outcome, AllocError> {
    let (alloc, mut owned) = (rt.alloc(), Vec::new(rt.alloc()));
    for argument in arguments {
        owned.push(String::from_str(alloc, argument)?)?;
    }
    let mut errors = FakeWriter::new(Vec::new(alloc), at.error);
    let mut writer = FakeWriter::new(Vec::new(alloc), at.write);
    let (mut input, mut output) = (
        Port::new(FakeReader::new(input, at.read)),
        Port::new(&mut writer),
    );
    let status = serve(rt, alloc, &owned, &mut input, &mut output, &mut errors);
    Ok(Outcome {
        status,
        output: writer.taken,
        errors: errors.taken,
    })
}

#[test]
fn each_command_has_its_answer(ref rt: HostRuntime) -> Result<(), Fail> {
    let two = "worker 0 foobar\nworker 1 foobar\ndone 2\n";
    let rows: [(&[&str], &str, &str); 9] = [
        (&["script"], SCRIPT, ANSWER),
        (&["threads", "2"], "", two),
        (&["tokens", "1"], LINES, WORDS_OF_LINES),
        (&["tokens", "2"], LINES, WORDS_OF_LINES),
        (&["tokens", "64"], LINES, WORDS_OF_LINES),
        (&["tokens", "2"], " a\r\nb", "0 1..2 a\n1 0..1 b\n"),
        (&["tokens", "2"], "", ""),
        (&["tokens", "2"], "\n", ""),
        (&["tokens", "2"], " \n\t\n", ""),
    ];
    for (arguments, input, output) in rows {
        let found = run(rt, arguments, input.as_bytes(), NO_FAULT)?;
        assert!(rt; found.is(0, output, ""), "{arguments:?} {input:?}");
    }
    let mut lines = String::new(rt.alloc());
    for worker in 0..64 {
        write!(lines, "worker {worker} foobar\n")?;
    }
    lines.push_str("done 64\n")?;
    assert!(rt; run(rt, &["threads", "64"], b"", NO_FAULT)?.is(0, &lines, ""));
    Ok(())
}

#[test]
fn other_arguments_print_the_usage(ref rt: HostRuntime) -> Result<(), Fail> {
    let lists: [&[&str]; 8] = [
        &[],
        &["scripts"],
        &["Script"],
        &["script", ""],
        &["threads"],
        &["tokens"],
        &["script", "script"],
        &["threads", "2", "2"],
    ];
    for arguments in lists {
        let found = run(rt, arguments, SCRIPT.as_bytes(), NO_FAULT)?;
        assert!(rt; found.is(1, "", USAGE), "{arguments:?}");
    }
    for number in ["0", "65", "02", "+2", "2 ", "", "two"] {
        for command in ["threads", "tokens"] {
            let found = run(rt, &[command, number], LINES.as_bytes(), NO_FAULT)?;
            assert!(rt; found.is(1, "", USAGE), "{command} {number}");
        }
    }
    // The status stays where the error cannot be printed.
    for error in 0..4 {
        let found = run(rt, &[], SCRIPT.as_bytes(), FailsAt { error, ..NO_FAULT })?;
        assert_eq!(rt; (found.status, found.output.len()), (1, 0));
    }
    for (kind, status, line) in [
        (ErrorKind::InvalidData, 1, USAGE),
        (ErrorKind::OutOfMemory, 3, NO_MEMORY),
    ] {
        let mut errors = Vec::new(rt.alloc());
        assert_eq!(rt;
            serve_without_words(&mut errors, &io::Error::from(kind)),
            status
        );
        assert_eq!(rt; errors.as_slice(), line.as_bytes());
    }
    Ok(())
}

/// Asserts the outcome where one read and one write fail. Only a read before the end of the input
/// and a write before the end of the answer can fail. Each write before the fault writes two bytes,
/// and what fails to be read is not answered.
fn check_faults<R: Threads + Wait + Sync + AllocGlobal + std::process::Abort>(
    rt: &R,
    arguments: &[&str],
    input: &str,
    answer: &str,
) -> Result<(), AllocError> {
    let (reads, writes) = (input.len().div_ceil(3) + 1, answer.len().div_ceil(2));
    for read in 0..reads + 2 {
        for write in 0..writes + 2 {
            let found = run(rt, arguments, input.as_bytes(), fails_at(read, write))?;
            let taken = if read < reads { 0 } else { write.min(writes) };
            let fails = read < reads || write < writes;
            let (status, line) = if fails { (4, IO) } else { (0, "") };
            let written = answer
                .as_bytes()
                .get(..answer.len().min(2 * taken))
                .unwrap_or(b"");
            assert_eq!(rt;
                (found.status, found.errors.as_slice()),
                (status, line.as_bytes())
            );
            assert_eq!(rt; found.output.as_slice(), written, "{read} {write}");
        }
    }
    Ok(())
}

#[test]
fn each_read_and_write_may_fail(ref rt: HostRuntime) -> Result<(), Fail> {
    check_faults(rt, &["script"], SCRIPT, ANSWER)?;
    check_faults(rt, &["tokens", "2"], LINES, WORDS_OF_LINES)?;
    let found = run(rt, &["threads", "1"], b"", fails_at(NEVER, 3))?;
    assert!(rt; found.is(4, "worker", IO));
    Ok(())
}

/// A script whose limit is too large.
const TOO_LARGE_A_LIMIT: &[u8] = b"limit 4611686018427387904\nmake\n";

/// Arguments are tested first. Then a fault of reading comes before a limit that is too large and
/// before an input that is not UTF-8, and these come before a fault of writing.
#[test]
fn the_first_of_two_faults_is_told(ref rt: HostRuntime) -> Result<(), Fail> {
    let rows: [(&[&str], &[u8], FailsAt, u8, &str); 9] = [
        (&[], TOO_LARGE_A_LIMIT, fails_at(0, 0), 1, USAGE),
        (&["script"], TOO_LARGE_A_LIMIT, fails_at(9, NEVER), 4, IO),
        (
            &["script"],
            TOO_LARGE_A_LIMIT,
            fails_at(NEVER, 0),
            2,
            TOO_LARGE,
        ),
        (&["script"], TOO_LARGE_A_LIMIT, NO_FAULT, 2, TOO_LARGE),
        (&["tokens", "2"], b"\xff foo", fails_at(1, NEVER), 4, IO),
        (
            &["tokens", "2"],
            b"\xff foo",
            fails_at(NEVER, 0),
            6,
            NOT_UTF8,
        ),
        (&["tokens", "2"], b"\xff", NO_FAULT, 6, NOT_UTF8),
        (&["tokens", "2"], b"a b\n\xc3", NO_FAULT, 6, NOT_UTF8),
        (&["tokens", "2"], b"\xc3\n\xa9", NO_FAULT, 6, NOT_UTF8),
    ];
    for (arguments, input, at, status, line) in rows {
        let found = run(rt, arguments, input, at)?;
        assert!(rt; found.is(status, "", line), "{arguments:?} {input:?}");
    }
    Ok(())
}

/// The smallest block that a heap hands out, in bytes.
const GRAIN: usize = 16;

/// With room for one grain, an allocation fails while the script is read. A fault of a read before
/// that is `Io`; a fault of a read after it is not reached.
#[test]
fn the_first_of_reading_and_memory_is_told(ref rt: HostRuntime) -> Result<(), Fail> {
    let mut refused = false;
    for read in 0..18 {
        let heap = LocalHeap::new(rt.alloc(), GRAIN)?;
        let mut writer = FakeWriter::new(Vec::new(rt.alloc()), NEVER);
        let mut input = Port::new(FakeReader::new(SCRIPT.as_bytes(), read));
        let result = copy(&heap, &mut input, &mut Port::new(&mut writer));
        refused = refused || result == Err(CopyFault::Memory);
        let fault = if refused {
            CopyFault::Memory
        } else {
            CopyFault::Io
        };
        assert_eq!(rt; (result, writer.taken.len()), (Err(fault), 0), "{read}");
        assert!(rt; read > 0 || !refused);
    }
    assert!(rt; refused);
    Ok(())
}

/// Lines outside the grammar are `bad`, and a first line outside it is the whole answer.
#[test]
fn lines_outside_the_grammar_are_bad(ref rt: HostRuntime) -> Result<(), Fail> {
    let lines: [&[u8]; 12] = [
        b"make\r",
        b"make ",
        b" make",
        b"Make",
        b"look",
        b"look ",
        b"look 0 ",
        b"look\t0",
        b"look 00",
        b"look +0",
        b"look \xff",
        b"\xe9",
    ];
    for line in lines {
        let mut script = b"limit 5\nmake\n".to_vec(rt.alloc())?;
        script.extend_from_slice(line)?;
        let out = answer(rt.alloc(), &script)?;
        assert_eq!(rt; out.as_slice(), b"made 0\nbad\n".as_slice(), "{line:?}");
    }
    let scripts: [&[u8]; 10] = [
        b"",
        b"\n",
        b"limit 05\nmake\n",
        b"limit  5\n",
        b"limit\n",
        b"limit \n",
        b" limit 5\n",
        b"limit 5\r\n",
        b"limit 18446744073709551616\n",
        b"make\nlimit 5\n",
    ];
    for script in scripts {
        let out = answer(rt.alloc(), script)?;
        assert_eq!(rt; out.as_slice(), b"bad limit\n".as_slice(), "{script:?}");
    }
    Ok(())
}

/// A script of 130,025 bytes clones one handle and makes another block 10,000 times. The last line
/// of another has 3,000,000 bytes, which the reader gives three at a time. Each of 3,000 lines of
/// words has 404 bytes.
#[test]
fn long_inputs_are_answered(ref rt: HostRuntime) -> Result<(), Fail> {
    let alloc = rt.alloc();
    let mut script = String::from_str(alloc, "limit 1000000\nmake\n")?;
    let mut wanted = String::from_str(alloc, "made 0\n")?;
    for round in 0..10_000 {
        script.push_str("clone 0\nmake\n")?;
        write!(wanted, "handle {}\nmade {}\n", 2 * round + 1, 2 * round + 2)?;
    }
    script.push_str("look 0")?;
    wanted.push_str("count 10001\n")?;
    assert_eq!(rt; script.len(), 130_025);
    assert!(rt; run(rt, &["script"], script.as_bytes(), NO_FAULT)?.is(0, &wanted, ""));

    let script = format!(in alloc; "{SCRIPT}{}", "x".repeat(alloc, 3_000_000)?)?;
    let wanted = format!(in alloc; "{ANSWER}bad\n")?;
    assert!(rt; run(rt, &["script"], script.as_bytes(), NO_FAULT)?.is(0, &wanted, ""));

    let (mut lines, mut wanted) = (String::new(alloc), String::new(alloc));
    for number in 0..3_000 {
        write!(lines, "{:>403}\n", "ab")?;
        write!(wanted, "{number} 401..403 ab\n")?;
    }
    assert!(rt; run(rt, &["tokens", "3"], lines.as_bytes(), NO_FAULT)?.is(0, &wanted, ""));
    Ok(())
}

/// A port hands on what its reader gives and its writer takes, and remembers a fault after calls
/// that succeed.
#[test]
fn a_port_remembers_a_fault(ref rt: HostRuntime) -> Result<(), Fail> {
    let (alloc, mut buf) = (rt.alloc(), [0; 8]);
    let mut port = Port::new(FakeReader::new(b"abcd", NEVER));
    assert_eq!(rt; (port.read(&mut buf)?, port.read(&mut buf[3..])?), (3, 1));
    assert_eq!(rt;
        (buf.as_slice(), port.failed()),
        (b"abcd\0\0\0\0".as_slice(), false)
    );
    let mut writer = FakeWriter::new(Vec::new(alloc), NEVER);
    let mut port = Port::new(&mut writer);
    port.write_all(b"abcde")?;
    assert_eq!(rt;
        (port.failed(), writer.taken.as_slice()),
        (false, b"abcde".as_slice())
    );

    let mut port = Port::new(FakeReader::new(b"abcd", 0));
    let fault = port.read(&mut buf).map_err(|error| error.kind());
    assert_eq!(rt; fault, Err(ErrorKind::Interrupted));
    assert_eq!(rt; (port.read(&mut buf)?, port.failed()), (3, true));
    let mut port = Port::new(FakeWriter::new(Vec::new(alloc), 0));
    let fault = port.write_all(b"ab").map_err(|error| error.kind());
    assert_eq!(rt; fault, Err(ErrorKind::StorageFull));
    port.write_all(b"ab")?;
    assert!(rt; port.failed());
    Ok(())
}
