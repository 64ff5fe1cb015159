"""What `./vendor --struct` writes for a user's own structs, and what it refuses. `cases/programs.py` runs a program over two of them."""
import re
import sys
import tempfile
from pathlib import Path

from cases.kit import TOP, case, expect, expect_in
from cases.vendoring import vendor

# A struct, the line that is refused if it is one, and why.
REFUSED = {
    "pub struct A {\n    pub x: u64,\n    pub y: String,\n}\n": ":3: a field of type String isn't supported",
    "pub struct A {\n    pub x: [u8; 16],\n    pub y: [u8; 17],\n}\n": ":3: a field of type [u8; 17] isn't supported",
    "pub struct A {\n    pub y: [[u8; 2]; 2],\n}\n": ":2: a field of type [[u8; 2]; 2] isn't supported",
    "pub struct A {\n    // x: u8,\n    pub x: u64,\n    y: u8,\n}\n": ":4: y is private; write `pub(crate) y`",
    "pub struct A {\n    pub x u64,\n}\n": ":2: expected a field such as `pub x: f64`, not `pub x u64`",
    "struct A(u64);\n": ":1: A has no named fields",
    "\nstruct A<T> {\n    pub x: T,\n}\n": ":2: A has no named fields, or it has type parameters",
    "struct A {}\n": ":1: A has no fields",
    "struct A {\n    pub x: u64,\n": ":1: A has no closing brace",
    "#[derive(Clone, Debug)]\nstruct A {\n    pub x: u64,\n}\n": ":2: A isn't `Copy`; write `#[derive(Clone, Copy)]`",
    "// struct A {}\n": ": it has no struct with named fields",
}
# The fields of a struct, with its size and its alignment by `#[repr(C)]`.
SIZES = {
    "pub a: u8, pub b: u64, pub c: u8": (24, 8),
    "pub a: u8, pub b: u16, pub c: u8": (6, 2),
    "pub a: f32, pub b: char, pub c: bool": (12, 4),
    "pub a: bool": (1, 1),
    "pub a: i64, pub b: i32, pub c: i16, pub d: i8, pub e: u8": (16, 8),
    "pub a: usize, pub b: isize, pub c: f64, pub d: u32": (32, 8),
    "pub a: u8, pub b: [f32; 3], pub c: [u8; 3]": (20, 4),
}
# A program over two structs of all kinds: it has each value go through its words. It also runs the whole examples of the API pages.
PROGRAM = """\
//! Values of structs go through their words.
#![tactic(auto)]

mod imu;
mod imu_words;
mod whole;

use anyhow::Result;
use imu::{Imu, Lamp};
use iox_hub::prelude::*;
use whole::Bus;

fn copied<T: Words>(value: &T) -> T {
    let mut words = [0u64; 32];
    for i in 0..T::WORDS {
        words[i] = value.word(i);
    }
    T::of_words(&words[..T::WORDS])
}

fn main(rt: HostRuntime) -> Result<()> {
    println!(rt; "{:?}", whole::run_all(rt.alloc(), &mut Bus::new(rt.alloc(), HubConfig::default()))?)?;
    let imu = Imu {
        a: 255, b: 65_535, c: 1 << 31, d: u64::MAX, e: -128, f: -2, g: i32::MIN,
        h: i64::MIN, i: 7, j: -7, k: 0.5, l: -2.25, m: 'ß', n: true, o: [1.5, -0.5, 0.0], p: [0, 255],
    };
    println!(rt; "{:?}", copied(&imu))?;
    println!(rt; "{:?}", copied(&Lamp { is_on: false }))?;
    let (one, many) = (<Imu as Payload>::type_detail(), <Imu as ZeroCopySend>::type_detail(TypeVariant::Dynamic));
    Ok(println!(rt; "{} {} {} {}", one.size(), one.alignment(), many.size(), many.type_name().len())?)
}
"""
WHOLE = """\
//! The whole examples of the API pages, over two services, of single values and of slices.
use anyhow::{Context, Result, bail, ensure};
use iox_hub::prelude::*;
use iox_lanes::threads::{DomainThreads, abandon, end, open_threads};
use iox_lanes::{DomainLanes, into_lanes};

pub type Bus = Hub<u64, (), Nobody, Nobody>;
pub type Service = PortFactory<PublishSubscribe>;

EXAMPLES
// Takes a service out and puts it back, with all its ports and without one; meanwhile a value is sent. No thread is begun here.
fn go_by_lanes(alloc: Global, hub: &mut Bus, service: &Service, publisher: Publisher<u64, ()>) -> Result<(bool, bool)> {
    let (id, is_refused) = (publisher.id(), lanes_of(alloc, hub, service).is_err());
    // (What is refused is back.)
    publisher.update_connections(alloc, hub)?;
    ensure!(is_refused, "a subscriber came later, and the publisher isn't connected to it");
    let lanes = lanes_of(alloc, hub, service)?;
    ensure!(lanes_of(alloc, hub, service).is_err(), "a service is taken out once");
    let mut ports = ports_of(alloc, hub, lanes)?;
    let mut port = ports.take_publisher(id).context("no such port")?;
    let loan = port.loan()?;
    port.write(&loan, &1, &())?;
    port.send(loan).map_err(|unsent| unsent.error)?;
    ensure!(ports.put_publisher(port).is_ok(), "a port too many");
    let first = put_back(hub, ports)?;
    let lanes = lanes_of(alloc, hub, service)?;
    let mut ports = ports_of(alloc, hub, lanes)?;
    ensure!(ports.take_publisher(id).is_some(), "no such port");
    Ok((first, put_back(hub, ports)?))
}

pub fn run_all(alloc: Global, hub: &mut Bus) -> Result<((bool, bool), usize, usize, u64, usize, usize)> {
    let node = hub.new_node()?;
    let asked = hub.service_builder(&node, ServiceName::new(b"single values")?).publish_subscribe::<u64>();
    let service = asked.create_in(alloc, hub, Vec::new(alloc))?;
    let builder = hub.publisher_builder(&service).context("no domain")?;
    let publisher = builder.set_handlers(Nobody).create(alloc, hub)?;
    let builder = hub.subscriber_builder(&service).context("no domain")?;
    let subscriber = builder.set_handler(Nobody).create(alloc, hub)?;
    let went = go_by_lanes(alloc, hub, &service, publisher)?;
    let asked = hub.service_builder(&node, ServiceName::new(b"slices")?).publish_subscribe::<Slice<u64>>();
    let service = asked.create_in(alloc, hub, Vec::new(alloc))?;
    let builder = hub.slice_publisher_builder(&service).context("no domain")?.initial_max_slice_len(2);
    let of_slices = builder.set_handlers(Nobody).create_slice(alloc, hub)?;
    let without = send_values(alloc, hub, of_slices, &[5, 6])?;
    let builder = hub.slice_subscriber_builder(&service).context("no domain")?;
    builder.set_handler(Nobody).create_slice(alloc, hub)?;
    let first = send_value(alloc, hub, publisher, 3)?;
    let second = send_in_place(alloc, hub, publisher, 4)?;
    let sum = receive_all(alloc, hub, subscriber)?;
    Ok((went, first, second, sum, without, send_copied(alloc, hub, of_slices, &[7, 8])?))
}
"""
STRUCTS = """\
//! What a sensor measured.

#[derive(Clone, Copy, Debug)]
pub struct Imu {
    /// Its comment, with a comma, and `x: y`.
    pub a: u8,
    pub b: u16, // and one behind a field
    pub(crate) c: u32,
    pub d: u64,
    pub e: i8,
    pub f: i16,
    pub g: i32,
    pub h: i64,
    pub i: usize,
    pub j: isize,
    pub k: f32,
    pub l: f64,
    pub m: char,
    pub n: bool,
    pub o: [f32; 3],
    pub p: [u8; 2],
}

#[derive(Clone, Copy, Debug)]
pub struct Lamp {
    pub is_on: bool,
}
"""
OUTPUT = (
    "((true, false), 1, 1, 7, 0, 1)\nImu { a: 255, b: 65535, c: 2147483648, d: 18446744073709551615, e: -128, f: -2, g: -2147483648,"
    " h: -9223372036854775808, i: 7, j: -7, k: 0.5, l: -2.25, m: 'ß', n: true, o: [1.5, -0.5, 0.0], p: [0, 255] }\n"
    "Lamp { is_on: false }\n88 8 88 3\n"
)


def whole():
    """The whole examples of the API pages, as a module of that program."""
    sys.path.insert(0, str(TOP / "docs"))
    from api.whole import whole_examples

    return WHOLE.replace("EXAMPLES", "\n\n".join(whole_examples().values()))


def written(folder, text):
    """Returns what the call answered, and the file that it wrote or None."""
    source = Path(folder) / "own.rt"
    source.write_text(text, encoding="utf-8")
    ran, made = vendor("--struct", source), source.with_name("own_words.rt")
    return ran, made.read_text(encoding="utf-8") if made.exists() else None


@case
def a_struct_that_is_not_supported_is_refused_with_its_line():
    with tempfile.TemporaryDirectory(prefix="iox-check-") as folder:
        for text, why in REFUSED.items():
            ran, made = written(folder, text)
            expect((text, ran.returncode, ran.stdout, made), (text, 64, "", None))
            expect_in(f"own.rt{why}", ran.stderr)
        (Path(folder) / "latin.rt").write_bytes("// Größe\n".encode("latin-1"))
        ran = vendor("--struct", f"{folder}/latin.rt")
        expect((ran.returncode, ran.stdout, ran.stderr), (66, "", f"vendor: {folder}/latin.rt has bytes that aren't UTF-8\n"))
        misused = {64: (["--struct"], ["--struct", "x", "--list"]), 66: [["--struct", it] for it in (f"{folder}/missing.rt", folder, ".")]}
        for status, words in ((status, it) for status, calls in misused.items() for it in calls):
            refused = vendor(*words)
            expect((words, refused.returncode, refused.stderr.count("\n")), (words, status, 1))


@case
def a_file_that_was_written_otherwise_stays():
    with tempfile.TemporaryDirectory(prefix="iox-check-") as folder:
        text = "#[derive(Clone, Copy)]\npub struct A {\n    pub x: u64,\n}\n"
        own = Path(folder) / "own_words.rt"
        for fields in (text, text.replace("x: u64", "y: u64")):
            ran, made = written(folder, fields)
            expect((ran.returncode, ran.stderr), (0, ""))
        first = made.partition("\n")[0]
        # A file of the user's, also below such a first line, and what was written and then changed. Other breaks of lines are no change.
        for mine in ("mine\n", f"{first}\n// mine\n", made.replace("_ => 0", "_ => 1"), made + "// mine\n"):
            own.write_text(mine, encoding="utf-8")
            ran, left = written(folder, text)
            expect((ran.returncode, ran.stdout, left), (64, "", mine))
            expect_in("own_words.rt exists, and `vendor --struct` didn't write it, or it was changed since: move it away", ran.stderr)
        own.write_text(made.replace(" {\n", "\n{\n\n"), encoding="utf-8")
        ran, made = written(folder, text)
        expect((ran.returncode, ran.stderr), (0, ""))
        expect(ran.stdout, f"wrote {folder}/own_words.rt: name it beside `mod own;` by `mod own_words;`\n")
        expect(sorted(it.name for it in Path(folder).iterdir()), ["own.rt", "own_words.rt"])


@case
def a_struct_has_the_size_and_the_alignment_of_repr_c():
    with tempfile.TemporaryDirectory(prefix="iox-check-") as folder:
        for fields, sizes in SIZES.items():
            _, made = written(folder, f"#[derive(Clone, Copy)]\npub struct A {{ {fields} }}\n")
            told = re.search(r'known\(variant, b"A", (\d+), (\d+)\)', made)
            expect((fields, (int(told[1]), int(told[2]))), (fields, sizes))
