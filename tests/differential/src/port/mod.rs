//! The port, called in a process of its own.
//!
//! Its archive is code for x86-64, whatever this program is compiled for; `caller.c` says how the two talk. Where this
//! machine is another one, an emulator runs the other process.

use std::env;
use std::fs;
use std::io::{Read, Result as IoResult, Write};
use std::path::{Path, PathBuf};
use std::process::{Child, ChildStdin, ChildStdout, Command, Stdio};

/// The repository's root, seen from this package.
const ROOT: &str = concat!(env!("CARGO_MANIFEST_DIR"), "/../..");

/// The most words that a call may have, as in `caller.c`.
const ARGUMENTS: usize = 12;

/// How many bytes of the work room are filled at a time, as there, and how many times where not all of it is.
const FILLED: u64 = 64;
const FILLED_PARTS: u64 = 128;

/// One word of a call.
#[derive(Debug, Clone, Copy)]
pub enum Word {
    Number(u64),
    /// A pointer to this place in the image.
    Place(usize),
    /// A pointer to the work room, which begins so many bytes on, below 8.
    Room(usize),
}

/// The work room to lend.
#[derive(Debug, Clone, Copy, Default)]
pub struct Room {
    pub length: usize,
    /// Eight bytes that it is filled with before the call, over and over.
    pub fill: u64,
    /// Whether all of it is filled; else only some parts, and the rest is as calls before have left it.
    pub whole: bool,
}

/// What can be seen of a call beside the image.
#[derive(Debug, Clone, Copy)]
pub struct Reply {
    pub returned: u64,
    /// Whether bytes beside the work room were written to.
    pub beside_room: bool,
}

pub struct Port {
    command: Vec<PathBuf>,
    functions: Vec<&'static str>,
    process: Process,
}

struct Process {
    child: Child,
    requests: ChildStdin,
    replies: ChildStdout,
}

impl Port {
    /// Links the named functions and starts the process.
    pub fn start(functions: Vec<&'static str>) -> Result<Port, String> {
        let tools = tools()?;
        let mut command = vec![linked(&tools, &functions)?];
        if env::consts::ARCH != "x86_64" {
            command.insert(0, emulator());
        }
        let process = Process::start(&command)?;
        Ok(Port {
            command,
            functions,
            process,
        })
    }

    /// Calls a function on words, and on the image and the work room that they point into. None where it did not return:
    /// its process has ended, and another one takes its place.
    pub fn call(
        &mut self,
        function: &str,
        words: &[Word],
        room: Room,
        image: &mut [u8],
    ) -> Option<Reply> {
        let known = self.functions.iter().position(|name| *name == function);
        let number = known.expect("a call names a function that was linked");
        match self.process.call(number, words, room, image) {
            Ok(reply) => Some(reply),
            Err(_) => {
                self.process = Process::start(&self.command).expect("the process started before");
                None
            }
        }
    }
}

impl Process {
    fn start(command: &[PathBuf]) -> Result<Process, String> {
        let mut child = Command::new(&command[0])
            .args(&command[1..])
            // A process that crashes may leave a file behind and a message; a disagreement says it better.
            .current_dir(env::temp_dir())
            .stderr(Stdio::null())
            .stdin(Stdio::piped())
            .stdout(Stdio::piped())
            .spawn()
            .map_err(|e| format!("{}: {e}", command[0].display()))?;
        let requests = child.stdin.take().expect("standard input is a pipe");
        let replies = child.stdout.take().expect("standard output is a pipe");
        Ok(Process {
            child,
            requests,
            replies,
        })
    }

    fn call(
        &mut self,
        function: usize,
        words: &[Word],
        room: Room,
        image: &mut [u8],
    ) -> IoResult<Reply> {
        let mut arguments = [0; ARGUMENTS];
        let (mut places, mut rooms) = (0, 0);
        for (i, word) in words.iter().enumerate() {
            arguments[i] = match *word {
                Word::Number(n) => n,
                Word::Place(at) => {
                    places |= 1 << i;
                    at as u64
                }
                Word::Room(on) => {
                    rooms |= 1 << i;
                    on as u64
                }
            };
        }
        let lengths = [function, image.len(), room.length].map(|n| n as u64);
        let step = if room.whole {
            0
        } else {
            room.length as u64 / FILLED_PARTS
        };
        let numbers = [
            &lengths[..],
            &[room.fill, step.max(FILLED), places, rooms],
            &arguments,
        ]
        .concat();
        let mut request: Vec<u8> = numbers.iter().flat_map(|n| n.to_le_bytes()).collect();
        request.extend_from_slice(image);
        self.requests.write_all(&request)?;

        let mut reply = vec![0; 16 + image.len()];
        self.replies.read_exact(&mut reply)?;
        let (returned, reply) = reply.split_at(8);
        let (beside_room, after) = reply.split_at(8);
        image.copy_from_slice(after);
        Ok(Reply {
            returned: u64::from_le_bytes(returned.try_into().expect("eight bytes")),
            beside_room: beside_room[0] != 0,
        })
    }
}

impl Drop for Process {
    /// A process that still waits for a request is ended; one that has ended already is only collected.
    fn drop(&mut self) {
        let _ = self.child.kill();
        let _ = self.child.wait();
    }
}

/// What runs code for x86-64 where this machine is another one.
fn emulator() -> PathBuf {
    env::var_os("OHG_EMULATOR")
        .unwrap_or("qemu-x86_64".into())
        .into()
}

/// The folder of the toolchain's `clang` and `ld.lld`.
fn tools() -> Result<PathBuf, String> {
    if let Some(folder) = env::var_os("OHG_TOOLS") {
        return Ok(folder.into());
    }
    let output = Command::new("rt").arg("doc").output();
    let output = output.map_err(|e| format!("rt: {e}; put it on the PATH or set OHG_TOOLS"))?;
    let guide = PathBuf::from(String::from_utf8_lossy(&output.stdout).trim());
    let kit = guide.parent();
    let kit = kit.ok_or("`rt doc` names no file of the kit; set OHG_TOOLS")?;
    Ok(kit.join("toolchain/bin"))
}

/// Compiles `caller.c` with a table of the functions, links it with the archives, and says where it is.
fn linked(tools: &Path, functions: &[&str]) -> Result<PathBuf, String> {
    let library =
        Path::new(ROOT).join(env::var_os("OHG_LIB_DIR").unwrap_or("target/staticlib".into()));
    let archives = ["ohg", "price"].map(|name| (name, library.join(format!("lib{name}.a"))));
    for (name, archive) in &archives {
        if !archive.is_file() {
            return Err(format!(
                "no {}: run `tools/archive {name}` first",
                archive.display()
            ));
        }
    }
    let own = env::current_exe().map_err(|e| e.to_string())?;
    let program = own.with_file_name("caller");
    let source = own.with_file_name("caller.c");
    let text = [include_str!("caller.c"), &table(functions)].concat();
    fs::write(&source, text).map_err(|e| format!("{}: {e}", source.display()))?;

    let output = Command::new(tools.join("clang"))
        .args(["--target=x86_64-unknown-linux-gnu", "-O2", "-ffreestanding"])
        .args(["-fno-builtin", "-nostdlib", "-static", "-fuse-ld=lld", "-o"])
        .args([&program, &source])
        .args(archives.map(|(_, archive)| archive))
        .output()
        .map_err(|e| format!("clang: {e}"))?;
    if output.status.success() {
        Ok(program)
    } else {
        Err(String::from_utf8_lossy(&output.stderr).into_owned())
    }
}

/// The C text of the table of functions; its order is the numbers of the requests.
fn table(functions: &[&str]) -> String {
    let declared: String = functions
        .iter()
        .map(|name| format!("extern function {name};\n"))
        .collect();
    format!(
        "\n{declared}function *const functions[] = {{{}}};\n",
        functions.join(", ")
    )
}
