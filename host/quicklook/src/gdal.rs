//! The other end of the process `quicklook-gdal`, which opens, decodes and writes rasters by GDAL. What ends that process (a decoder that
//! crashes, memory or time beyond its bounds) is the file's trouble here.

use std::ffi::OsString;
use std::io::{self, BufReader, BufWriter, Read, Write};
use std::os::unix::io::AsRawFd;
use std::path::PathBuf;
use std::process::{Child, ChildStdin, ChildStdout, Command, Stdio};
use std::time::Duration;
use wire::{Fields, Part, Pieces};

pub struct Process {
    child: Child,
    input: Option<BufWriter<Patient<ChildStdin>>>,
    output: BufReader<Patient<ChildStdout>>,
    /// Whether the process is of no use any more, whatever it was asked.
    pub is_lost: bool,
}

/// What the process sees of the environment: where libraries and their data stand.
const KEPT: [&str; 7] = ["PATH", "LD_LIBRARY_PATH", "TMPDIR", "GDAL_DATA", "GDAL_DRIVER_PATH", "PROJ_DATA", "PROJ_LIB"];

/// Where the process's program stands: beside this one, or where QUICKLOOK_GDAL says.
fn program() -> io::Result<OsString> {
    match std::env::var_os("QUICKLOOK_GDAL") {
        Some(path) => Ok(path),
        None => Ok(std::env::current_exe()?.with_file_name("quicklook-gdal").into_os_string()),
    }
}

impl Process {
    pub fn start() -> Result<Self, String> {
        if !cfg!(feature = "gdal") {
            return Err("this program was built without GDAL: .npy files alone are read, and .npy and .png written".into());
        }
        let path = program().map_err(|e| e.to_string())?;
        // Any variable may be one of GDAL's options, and change what it reads.
        let kept = KEPT.iter().filter_map(|name| Some((*name, std::env::var_os(name)?)));
        let started = Command::new(&path).env_clear().envs(kept).stdin(Stdio::piped()).stdout(Stdio::piped()).stderr(Stdio::null()).spawn();
        let mut child =
            started.map_err(|e| format!("GDAL's part of the program, {}, does not start: {e}", PathBuf::from(&path).display()))?;
        let (Some(input), Some(output)) = (child.stdin.take(), child.stdout.take()) else {
            return Err("GDAL's part of the program has no pipes".into());
        };
        let input = Patient::new(input, libc::POLLOUT).map_err(|e| e.to_string())?;
        let output = Patient::new(output, libc::POLLIN).map_err(|e| e.to_string())?;
        Ok(Process { child, input: Some(BufWriter::new(input)), output: BufReader::with_capacity(1 << 18, output), is_lost: false })
    }

    /// Sends a request and gives the answer's fields.
    pub fn ask(&mut self, verb: &str, fields: &Fields) -> Result<Fields, String> {
        self.request(verb, fields)?;
        self.answer()
    }

    /// Why the process is not there any more, or of no use. One that goes on without sense is ended.
    fn lost(&mut self, error: &io::Error) -> String {
        self.input = None;
        self.is_lost = true;
        for _ in 0..100 {
            match self.child.try_wait() {
                Ok(None) => std::thread::sleep(Duration::from_millis(10)),
                Ok(Some(status)) => return format!("its decoder gave up ({status})"),
                Err(_) => break,
            }
        }
        let _ = self.child.kill();
        format!("its decoder gave up ({error})")
    }

    fn request(&mut self, verb: &str, fields: &Fields) -> Result<(), String> {
        let mut list = vec![verb.to_string()];
        list.extend_from_slice(fields.list());
        let sent = match &mut self.input {
            Some(input) => wire::send(input, &list),
            None => Err(io::ErrorKind::BrokenPipe.into()),
        };
        sent.map_err(|e| self.lost(&e))
    }

    fn answer(&mut self) -> Result<Fields, String> {
        let mut list = wire::receive(&mut self.output).map_err(|e| self.lost(&e))?;
        if list.is_empty() {
            return Err("its decoder gave an empty answer".into());
        }
        let verdict = list.remove(0);
        if verdict == "ok" { Ok(Fields::from_list(list)) } else { Err(list.pop().unwrap_or_default()) }
    }

    /// The elements of a part of a band, or of its mask, taken in by `take`; anything left over is an error.
    pub fn elements<T, E: From<io::Error> + ToString>(
        &mut self, verb: &str, band: usize, part: Part, take: impl FnOnce(&mut dyn Read) -> Result<T, E>,
    ) -> Result<Result<T, E>, String> {
        let mut fields = Fields::default();
        for (name, value) in [("band", band), ("row", part.row), ("col", part.col), ("rows", part.rows), ("cols", part.cols)] {
            fields.put(name, value);
        }
        self.ask(verb, &fields)?;
        let mut pieces = Pieces::new(&mut self.output);
        let taken = take(&mut pieces);
        if let Some(why) = pieces.broken.take() {
            return Err(why);
        }
        if taken.is_err() {
            // The rest of the bytes is not read: the process is of no use any more. It may be gone by itself.
            let mut probe = [0];
            if let Err(error) = pieces.read(&mut probe) {
                return Err(self.lost(&error));
            }
            if let Some(why) = pieces.broken.take() {
                return Err(why);
            }
            self.input = None;
            return Ok(taken);
        }
        let mut probe = [0];
        match pieces.read(&mut probe) {
            Ok(0) => match pieces.broken.take() {
                Some(why) => Err(why),
                None => Ok(taken),
            },
            Ok(_) => Err("its decoder gave more elements than its sides say".into()),
            Err(error) => Err(self.lost(&error)),
        }
    }

    /// Makes a raster of the request, its elements and its mask, and gives the endings of the files that it consists of, whose bytes
    /// `file` hands over in the same order.
    pub fn write(&mut self, fields: &Fields, elements: &[u8], mask: &[u8]) -> Result<Vec<String>, String> {
        self.request("write", fields)?;
        let sent = match &mut self.input {
            Some(input) => [elements, mask].iter().try_for_each(|list| {
                list.chunks(1 << 20).try_for_each(|piece| wire::send_piece(input, piece))?;
                wire::send_piece(input, &[])
            }),
            None => Ok(()),
        };
        sent.and_then(|()| self.input.as_mut().map_or(Ok(()), Write::flush)).map_err(|e| self.lost(&e))?;
        Ok(self.answer()?.all("file").map(str::to_string).collect())
    }

    /// The bytes of the next file that the process made. The inner error is of `out`.
    pub fn file(&mut self, out: &mut impl Write) -> Result<io::Result<()>, String> {
        let mut pieces = Pieces::new(&mut self.output);
        let mut bytes = vec![0; 1 << 16];
        loop {
            match pieces.read(&mut bytes) {
                Ok(0) => return pieces.broken.take().map_or(Ok(Ok(())), Err),
                Ok(got) => {
                    if let Err(error) = out.write_all(&bytes[..got]) {
                        return Ok(Err(error));
                    }
                }
                Err(error) => return Err(self.lost(&error)),
            }
        }
    }
}

impl Drop for Process {
    fn drop(&mut self) {
        self.input = None;
        let _ = self.child.kill();
        let _ = self.child.wait();
    }
}

/// An end of a pipe to the process. It ends by itself after two minutes of one request; a program that is another one may not.
struct Patient<T> {
    end: T,
    event: i16,
}

impl<T: AsRawFd> Patient<T> {
    fn new(end: T, event: i16) -> io::Result<Self> {
        let descriptor = end.as_raw_fd();
        let flags = unsafe { libc::fcntl(descriptor, libc::F_GETFL) };
        if flags < 0 || unsafe { libc::fcntl(descriptor, libc::F_SETFL, flags | libc::O_NONBLOCK) } < 0 {
            return Err(io::Error::last_os_error());
        }
        Ok(Patient { end, event })
    }

    /// Tries until the other end is ready, or too long.
    fn wait<R>(&mut self, mut attempt: impl FnMut(&mut T) -> io::Result<R>) -> io::Result<R> {
        const LONGEST: i32 = 150_000;
        loop {
            match attempt(&mut self.end) {
                Err(e) if e.kind() == io::ErrorKind::WouldBlock => {}
                done => return done,
            }
            let mut poll = libc::pollfd { fd: self.end.as_raw_fd(), events: self.event, revents: 0 };
            match unsafe { libc::poll(&mut poll, 1, LONGEST) } {
                0 => return Err(io::ErrorKind::TimedOut.into()),
                ready if ready < 0 && io::Error::last_os_error().kind() != io::ErrorKind::Interrupted => {
                    return Err(io::Error::last_os_error());
                }
                _ => {}
            }
        }
    }
}

impl<T: AsRawFd + Read> Read for Patient<T> {
    fn read(&mut self, bytes: &mut [u8]) -> io::Result<usize> {
        self.wait(|end| end.read(bytes))
    }
}

impl<T: AsRawFd + Write> Write for Patient<T> {
    fn write(&mut self, bytes: &[u8]) -> io::Result<usize> {
        self.wait(|end| end.write(bytes))
    }

    fn flush(&mut self) -> io::Result<()> {
        self.wait(|end| end.flush())
    }
}
