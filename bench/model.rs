// A model in plain safe Rust of what the load asks of the device and its memories, and the load of `crates/speed` on it: the same
// generator, the same bursts, the same checksums. It is what the times of the proved program are compared with. Beside each read it
// also times a plain copy of the same bytes.
//
//     model                     prints the rows with their checksums
//     model time ROUNDS [ROW]   also the picoseconds of a burst, for reads also those of the copy

use std::fmt;
use std::hint::black_box;
use std::time::Instant;

// ---------------------------------------------------------------- memories

#[derive(Clone, Copy, Debug, PartialEq, Eq)]
enum MemoryFault {
    Absent(u64),
    Spoiled(u64),
}

trait Memory {
    fn present(&self, line: u64) -> bool;
    fn read(&self, line: u64, place: &mut [u8; 32]) -> Result<(), MemoryFault>;
    fn write(&mut self, line: u64, bytes: &[u8; 32], mask: u32) -> Result<(), MemoryFault>;

    // The bytes of all lines, and where an address lies among them: for the plain copy alone.
    fn bytes(&self) -> &[u8];
    fn place_of_address(&self, address: usize) -> usize;
}

// A memory has the lines below this number.
const MEMORY_LINES: u64 = 0xC00_0000;

fn merge(line: &mut [u8], new: &[u8; 32], mask: u32) {
    if mask == u32::MAX {
        line.copy_from_slice(new);
    } else {
        for (i, (byte, new)) in line.iter_mut().zip(new).enumerate() {
            if mask >> i & 1 == 1 {
                *byte = *new;
            }
        }
    }
}

struct Flat {
    bytes: Vec<u8>,
}

impl Flat {
    fn zeros(n: usize) -> Flat {
        Flat { bytes: vec![0; n] }
    }
}

impl Memory for Flat {
    fn present(&self, line: u64) -> bool {
        line < MEMORY_LINES && line as usize * 32 + 32 <= self.bytes.len()
    }

    fn read(&self, line: u64, place: &mut [u8; 32]) -> Result<(), MemoryFault> {
        if !self.present(line) {
            return Err(MemoryFault::Absent(line));
        }
        let at = line as usize * 32;
        place.copy_from_slice(&self.bytes[at..at + 32]);
        Ok(())
    }

    fn write(&mut self, line: u64, bytes: &[u8; 32], mask: u32) -> Result<(), MemoryFault> {
        if !self.present(line) {
            return Err(MemoryFault::Absent(line));
        }
        let at = line as usize * 32;
        merge(&mut self.bytes[at..at + 32], bytes, mask);
        Ok(())
    }

    fn bytes(&self) -> &[u8] {
        &self.bytes
    }

    fn place_of_address(&self, address: usize) -> usize {
        address
    }
}

// A bank, and where its bytes begin among those of all banks.
#[derive(Clone, Copy)]
struct Bank {
    base: u64,
    size: u64,
    start: usize,
}

struct Banked {
    banks: Vec<Bank>,
    bytes: Vec<u8>,
}

impl Banked {
    // The list is taken to be sound.
    fn zeros(list: &[(u64, u64)]) -> Banked {
        let mut start = 0;
        let mut banks = Vec::new();
        for &(base, size) in list {
            banks.push(Bank { base, size, start });
            start += size as usize;
        }
        Banked {
            banks,
            bytes: vec![0; start],
        }
    }

    fn place_of(&self, line: u64) -> Option<usize> {
        if line >= MEMORY_LINES {
            return None;
        }
        let address = line * 32;
        let bank = self
            .banks
            .iter()
            .find(|bank| address >= bank.base && address - bank.base < bank.size)?;
        Some(bank.start + (address - bank.base) as usize)
    }
}

impl Memory for Banked {
    fn present(&self, line: u64) -> bool {
        self.place_of(line).is_some()
    }

    fn read(&self, line: u64, place: &mut [u8; 32]) -> Result<(), MemoryFault> {
        let at = self.place_of(line).ok_or(MemoryFault::Absent(line))?;
        place.copy_from_slice(&self.bytes[at..at + 32]);
        Ok(())
    }

    fn write(&mut self, line: u64, bytes: &[u8; 32], mask: u32) -> Result<(), MemoryFault> {
        let at = self.place_of(line).ok_or(MemoryFault::Absent(line))?;
        merge(&mut self.bytes[at..at + 32], bytes, mask);
        Ok(())
    }

    fn bytes(&self) -> &[u8] {
        &self.bytes
    }

    fn place_of_address(&self, address: usize) -> usize {
        self.place_of(address as u64 / 32).unwrap() + address % 32
    }
}

struct Marks<M> {
    below: M,
    marks: Vec<u64>,
}

impl<M: Memory> Marks<M> {
    fn new(below: M) -> Marks<M> {
        Marks {
            below,
            marks: Vec::with_capacity(32),
        }
    }

    fn mark(&mut self, line: u64) {
        assert!(self.below.present(line));
        if !self.marks.contains(&line) {
            assert!(self.marks.len() < 32);
            self.marks.push(line);
        }
    }
}

impl<M: Memory> Memory for Marks<M> {
    fn present(&self, line: u64) -> bool {
        self.below.present(line)
    }

    fn read(&self, line: u64, place: &mut [u8; 32]) -> Result<(), MemoryFault> {
        if self.marks.contains(&line) && self.below.present(line) {
            return Err(MemoryFault::Spoiled(line));
        }
        self.below.read(line, place)
    }

    fn write(&mut self, line: u64, bytes: &[u8; 32], mask: u32) -> Result<(), MemoryFault> {
        self.below.write(line, bytes, mask)?;
        if mask == u32::MAX {
            if let Some(i) = self.marks.iter().position(|mark| *mark == line) {
                self.marks.remove(i);
            }
        }
        Ok(())
    }

    fn bytes(&self) -> &[u8] {
        self.below.bytes()
    }

    fn place_of_address(&self, address: usize) -> usize {
        self.below.place_of_address(address)
    }
}

// ---------------------------------------------------------------- the device

#[derive(Clone, Copy, PartialEq, Eq)]
enum Direction {
    Read,
    Write,
}

#[derive(Clone, Copy, Debug)]
#[allow(dead_code)]
enum Fault {
    NotValid(u64),
    Table(MemoryFault),
    Target(MemoryFault),
}

impl Fault {
    fn number(&self) -> u8 {
        match self {
            Fault::NotValid(_) => 5,
            Fault::Table(MemoryFault::Absent(_)) => 6,
            Fault::Table(MemoryFault::Spoiled(_)) => 7,
            Fault::Target(MemoryFault::Absent(_)) => 8,
            Fault::Target(MemoryFault::Spoiled(_)) => 9,
        }
    }
}

// Only what a log holds; the load reads none of it back.
#[derive(Clone, Copy)]
#[allow(dead_code)]
struct Record {
    fault: Fault,
    direction: Direction,
    pci: u32,
    missed: bool,
}

#[derive(Clone, Copy, Debug)]
#[allow(dead_code)]
enum ReadRefusal {
    Bounds,
    Alignment,
    Unclaimed,
    NoWindow { moved: usize },
    Fault { moved: usize, pci: u32, fault: Fault },
}

impl ReadRefusal {
    fn number(&self) -> u8 {
        match self {
            ReadRefusal::Bounds => 1,
            ReadRefusal::Alignment => 2,
            ReadRefusal::Unclaimed => 3,
            ReadRefusal::NoWindow { .. } => 4,
            ReadRefusal::Fault { fault, .. } => fault.number(),
        }
    }
}

#[derive(Clone, Copy, Debug, Default)]
struct WriteCounts {
    taken: usize,
    stored: usize,
    dismissed: usize,
}

#[derive(Clone, Copy, Debug)]
#[allow(dead_code)]
enum WriteRefusal {
    Bounds,
    Alignment,
    Unclaimed,
    NoWindow(WriteCounts),
}

impl WriteRefusal {
    fn number(&self) -> u8 {
        match self {
            WriteRefusal::Bounds => 1,
            WriteRefusal::Alignment => 2,
            WriteRefusal::Unclaimed => 3,
            WriteRefusal::NoWindow(_) => 4,
        }
    }
}

#[derive(Clone, Copy, Default)]
struct Window {
    base: u32,
    mask: u32,
    translated: u32,
}

impl Window {
    fn holds(&self, pci: u32) -> bool {
        self.base >> 19 & 1 == 1 && ((pci ^ self.base) & !self.mask) >> 20 == 0
    }

    fn mapped(&self) -> bool {
        self.base >> 18 & 1 == 1
    }

    fn plain_address(&self, pci: u32) -> u64 {
        let t = u64::from(self.translated) << 1;
        let middle = (pci & self.mask) | (t as u32 & !self.mask);
        (t >> 32 << 32) | u64::from(middle & 0xfff0_0000) | u64::from(pci & 0xf_ffff)
    }

    fn entry_address(&self, pci: u32) -> u64 {
        let t = u64::from(self.translated) << 1;
        let mask = u64::from(self.mask >> 20);
        let middle = (u64::from(pci >> 20) & mask) | (t >> 10 & 0xfff & !mask);
        (t >> 22 << 22) | middle << 10 | u64::from(pci >> 13 & 0x7f) << 3
    }
}

#[derive(Clone, Copy)]
struct Row {
    pci_page: u32,
    page: u32,
}

#[derive(Default)]
struct LookAside {
    rows: [Option<Row>; 8],
    pointer: usize,
}

impl LookAside {
    fn page(&self, pci_page: u32) -> Option<u32> {
        self.rows
            .iter()
            .flatten()
            .find(|row| row.pci_page == pci_page)
            .map(|row| row.page)
    }

    fn fill(&mut self, pci_page: u32, page: u32) {
        self.rows[self.pointer] = Some(Row { pci_page, page });
        self.pointer = (self.pointer + 1) % 8;
    }
}

struct Bridge<M> {
    windows: [Window; 2],
    look_aside: LookAside,
    log: Option<Record>,
    memory: M,
}

fn bounds_are_wrong(pci: u32, count: usize, room: usize) -> bool {
    count == 0 || count > 64 || count > room || u64::from(pci) + 4 * count as u64 > 1 << 32
}

// How many of `left` longwords lie in the line of the first.
fn in_line(pci: u32, left: usize) -> usize {
    left.min(8 - (pci / 4 % 8) as usize)
}

impl<M: Memory> Bridge<M> {
    fn new(memory: M) -> Bridge<M> {
        Bridge {
            windows: [Window::default(); 2],
            look_aside: LookAside::default(),
            log: None,
            memory,
        }
    }

    // The registers of the windows.
    fn register_write(&mut self, n: u64, value: u32) {
        match n {
            6 | 7 => self.windows[n as usize - 6].translated = value & 0xffff_fe00,
            8 | 9 => self.windows[n as usize - 8].base = value & 0xfffc_0000,
            10 | 11 => self.windows[n as usize - 10].mask = value & 0xfff0_0000,
            _ => panic!("register {n}"),
        }
    }

    // The tags and data of the look-aside rows.
    fn register_read(&self, n: u64) -> u32 {
        let row = self.look_aside.rows[n as usize % 8];
        match n {
            16..=23 => row.map_or(0, |row| (row.pci_page & 0x7_ffff) << 13 | 1 << 12),
            24..=31 => row.map_or(0, |row| (row.page & 0xf_ffff) << 1),
            _ => panic!("register {n}"),
        }
    }

    fn load(&self, address: u64) -> Result<[u8; 32], u8> {
        if address % 32 != 0 || address >= 0x1_8000_0000 {
            return Err(11);
        }
        let mut bytes = [0; 32];
        match self.memory.read(address / 32, &mut bytes) {
            Ok(()) => Ok(bytes),
            Err(MemoryFault::Absent(_)) => Err(14),
            Err(MemoryFault::Spoiled(_)) => Err(15),
        }
    }

    fn store(&mut self, address: u64, bytes: &[u8; 32]) {
        assert!(address % 32 == 0 && address < 0x1_8000_0000);
        self.memory.write(address / 32, bytes, u32::MAX).unwrap();
    }

    fn claim(&self, pci: u32) -> Option<Window> {
        self.windows.iter().copied().find(|window| window.holds(pci))
    }

    fn table_page(&self, address: u64) -> Result<u32, Fault> {
        let line = address / 32;
        let mut bytes = [0; 32];
        self.memory.read(line, &mut bytes).map_err(Fault::Table)?;
        let at = address as usize % 32;
        let entry = u64::from_le_bytes(bytes[at..at + 8].try_into().unwrap());
        if entry & 1 == 0 {
            return Err(Fault::NotValid(line));
        }
        Ok((entry >> 1 & 0xf_ffff) as u32)
    }

    fn translate(&mut self, window: &Window, pci: u32) -> Result<u64, Fault> {
        if !window.mapped() {
            return Ok(window.plain_address(pci));
        }
        let pci_page = pci >> 13;
        let page = match self.look_aside.page(pci_page) {
            Some(page) => page,
            None => {
                let page = self.table_page(window.entry_address(pci))?;
                self.look_aside.fill(pci_page, page);
                page
            }
        };
        Ok(u64::from(page) << 13 | u64::from(pci & 0x1fff))
    }

    fn note(&mut self, fault: Fault, direction: Direction, pci: u32) {
        match &mut self.log {
            Some(record) => record.missed = true,
            None => {
                self.log = Some(Record {
                    fault,
                    direction,
                    pci,
                    missed: false,
                })
            }
        }
    }

    fn read_piece(&mut self, window: &Window, pci: u32, words: &mut [u32]) -> Result<(), Fault> {
        let address = self.translate(window, pci)?;
        let mut line = [0; 32];
        self.memory
            .read(address / 32, &mut line)
            .map_err(Fault::Target)?;
        let offset = address as usize % 32;
        for (word, bytes) in words.iter_mut().zip(line[offset..].chunks_exact(4)) {
            *word = u32::from_le_bytes(bytes.try_into().unwrap());
        }
        Ok(())
    }

    fn card_read(&mut self, pci: u32, count: usize, buffer: &mut [u32]) -> Result<(), ReadRefusal> {
        if bounds_are_wrong(pci, count, buffer.len()) {
            return Err(ReadRefusal::Bounds);
        }
        if pci % 4 != 0 {
            return Err(ReadRefusal::Alignment);
        }
        let mut moved = 0;
        while moved < count {
            let here = pci + 4 * moved as u32;
            let Some(window) = self.claim(here) else {
                return Err(if moved == 0 {
                    ReadRefusal::Unclaimed
                } else {
                    ReadRefusal::NoWindow { moved }
                });
            };
            let n = in_line(here, count - moved);
            if let Err(fault) = self.read_piece(&window, here, &mut buffer[moved..moved + n]) {
                self.note(fault, Direction::Read, here);
                return Err(ReadRefusal::Fault {
                    moved,
                    pci: here,
                    fault,
                });
            }
            moved += n;
        }
        Ok(())
    }

    fn write_piece(
        &mut self,
        window: &Window,
        pci: u32,
        words: &[u32],
        enables: &[u8],
    ) -> Result<(), Fault> {
        let address = self.translate(window, pci)?;
        let offset = address as usize % 32;
        let mut bytes = [0; 32];
        let mut mask = 0;
        for (place, word) in bytes[offset..].chunks_exact_mut(4).zip(words) {
            place.copy_from_slice(&word.to_le_bytes());
        }
        for (i, enable) in enables.iter().enumerate() {
            mask |= u32::from(*enable) << (offset + 4 * i);
        }
        self.memory
            .write(address / 32, &bytes, mask)
            .map_err(Fault::Target)
    }

    fn card_write(
        &mut self,
        pci: u32,
        count: usize,
        words: &[u32],
        enables: &[u8],
    ) -> Result<WriteCounts, WriteRefusal> {
        if bounds_are_wrong(pci, count, words.len().min(enables.len()))
            || enables[..count].iter().any(|enable| *enable > 15)
        {
            return Err(WriteRefusal::Bounds);
        }
        if pci % 4 != 0 {
            return Err(WriteRefusal::Alignment);
        }
        let mut counts = WriteCounts::default();
        while counts.taken < count {
            let first = counts.taken;
            let here = pci + 4 * first as u32;
            let Some(window) = self.claim(here) else {
                return Err(if first == 0 {
                    WriteRefusal::Unclaimed
                } else {
                    WriteRefusal::NoWindow(counts)
                });
            };
            let n = in_line(here, count - first);
            let end = first + n;
            match self.write_piece(&window, here, &words[first..end], &enables[first..end]) {
                Ok(()) => counts.stored += 1,
                Err(fault) => {
                    self.note(fault, Direction::Write, here);
                    counts.dismissed += 1;
                }
            }
            counts.taken = end;
        }
        Ok(counts)
    }
}

// ---------------------------------------------------------------- the load

struct Random {
    state: u64,
}

impl Random {
    fn seeded() -> Random {
        Random {
            state: 0x2545_f491_4f6c_dd1d,
        }
    }

    fn next(&mut self) -> u64 {
        let mut x = self.state;
        x ^= x << 13;
        x ^= x >> 7;
        x ^= x << 17;
        self.state = x;
        x
    }

    fn longword(&mut self) -> u32 {
        (self.next() >> 32) as u32
    }

    fn enable(&mut self) -> u8 {
        (self.next() >> 60) as u8
    }
}

#[derive(Default)]
struct Checksum {
    value: u64,
}

impl Checksum {
    fn add(&mut self, n: u64) {
        self.value = (self.value.rotate_left(7) ^ n).wrapping_mul(0x9e37_79b9_7f4a_7c15);
    }
}

const BYTES: usize = 0x8_0000;
const PAGES: u64 = 56;
const BANK: u64 = 0x1_0000;
const BURSTS: usize = 64;
const PLAIN: u32 = 0x4000_0000;
const MAPPED: u32 = 0x8000_0000;
const TABLE_LINE: u64 = 63 * 256;
const LINES: u64 = 64 * 256;

#[derive(Clone, Copy)]
enum MemoryKind {
    Flat,
    Banked,
    Marked,
}

#[derive(Clone, Copy, PartialEq, Eq)]
enum Through {
    Plain,
    Hits,
    Misses,
}

#[derive(Clone, Copy)]
struct LoadRow {
    memory: MemoryKind,
    through: Through,
    count: usize,
    direction: Direction,
}

const ROWS: usize = 54;

impl LoadRow {
    fn nth(i: usize) -> LoadRow {
        LoadRow {
            memory: [MemoryKind::Flat, MemoryKind::Banked, MemoryKind::Marked][i / 18 % 3],
            through: [Through::Plain, Through::Hits, Through::Misses][i / 6 % 3],
            count: [1, 8, 64][i / 2 % 3],
            direction: [Direction::Read, Direction::Write][i % 2],
        }
    }
}

impl fmt::Display for LoadRow {
    fn fmt(&self, f: &mut fmt::Formatter) -> fmt::Result {
        let memory = match self.memory {
            MemoryKind::Flat => "flat",
            MemoryKind::Banked => "banked",
            MemoryKind::Marked => "marked",
        };
        let through = match self.through {
            Through::Plain => "plain",
            Through::Hits => "hits",
            Through::Misses => "misses",
        };
        let direction = match self.direction {
            Direction::Read => "read",
            Direction::Write => "write",
        };
        write!(f, "{memory} {through} {} {direction}", self.count)
    }
}

// A burst with what it is answered, of a read the number, and the place of its bytes for the plain copy.
#[derive(Clone)]
struct Job {
    pci: u32,
    words: [u32; 64],
    enables: [u8; 64],
    read: u8,
    written: Result<WriteCounts, WriteRefusal>,
    at: usize,
    copied: [u8; 256],
}

const EMPTY: Job = Job {
    pci: 0,
    words: [0; 64],
    enables: [0; 64],
    read: 0,
    written: Ok(WriteCounts {
        taken: 0,
        stored: 0,
        dismissed: 0,
    }),
    at: 0,
    copied: [0; 256],
};

fn page_behind(page: u64) -> u64 {
    (page * 37 + 11) % PAGES
}

impl Job {
    fn make(&mut self, row: &LoadRow, random: &mut Random, turn: u64) {
        let x = random.next();
        let page = match row.through {
            Through::Plain => (x >> 32) % PAGES,
            Through::Hits => (x >> 32) % 8,
            Through::Misses => turn % PAGES,
        };
        let base = match row.through {
            Through::Plain => PLAIN,
            Through::Hits | Through::Misses => MAPPED,
        };
        let low = (x % 1985) as u32 * 4;
        self.pci = base + page as u32 * 0x2000 + low;
        let behind = match row.through {
            Through::Plain => page,
            Through::Hits | Through::Misses => page_behind(page),
        };
        self.at = behind as usize * 0x2000 + low as usize;
        if row.direction == Direction::Write {
            for word in &mut self.words[..row.count] {
                *word = random.longword();
            }
            let all = random.enable() % 2 == 0;
            for enable in &mut self.enables[..row.count] {
                *enable = if all { 15 } else { random.enable() };
            }
        }
    }

    fn add_to(&self, row: &LoadRow, sum: &mut Checksum) {
        match row.direction {
            Direction::Read => {
                sum.add(u64::from(self.read));
                for word in &self.words[..row.count] {
                    sum.add(u64::from(*word));
                }
            }
            Direction::Write => match self.written {
                Ok(counts) => {
                    sum.add(counts.taken as u64);
                    sum.add(counts.stored as u64);
                    sum.add(counts.dismissed as u64);
                }
                Err(refusal) => sum.add(u64::from(refusal.number())),
            },
        }
    }
}

fn open_windows<M: Memory>(bridge: &mut Bridge<M>) {
    bridge.register_write(8, PLAIN + 0x8_0000);
    bridge.register_write(7, (TABLE_LINE * 16) as u32);
    bridge.register_write(9, MAPPED + 0xc_0000);
}

fn fill<M: Memory>(bridge: &mut Bridge<M>, random: &mut Random) {
    for line in 0..PAGES * 256 {
        bridge.store(line * 32, &std::array::from_fn(|_| (random.next() >> 56) as u8));
    }
}

fn store_table<M: Memory>(bridge: &mut Bridge<M>) {
    for i in 0..PAGES / 4 {
        let mut line = [0; 32];
        for j in 0..4 {
            line[8 * j] = (page_behind(4 * i + j as u64) * 2 + 1) as u8;
        }
        bridge.store((TABLE_LINE + i) * 32, &line);
    }
}

fn make_all(jobs: &mut [Job], row: &LoadRow, random: &mut Random, turn: u64) {
    for (i, job) in jobs.iter_mut().enumerate() {
        job.make(row, random, turn + i as u64);
    }
}

#[inline(never)]
fn read_all<M: Memory>(bridge: &mut Bridge<M>, count: usize, jobs: &mut [Job]) {
    for job in jobs {
        job.read = bridge.card_read(job.pci, count, &mut job.words).map_or_else(|refusal| refusal.number(), |()| 0);
    }
}

#[inline(never)]
fn write_all<M: Memory>(bridge: &mut Bridge<M>, count: usize, jobs: &mut [Job]) {
    for job in jobs {
        job.written = bridge.card_write(job.pci, count, &job.words, &job.enables);
    }
}

#[inline(never)]
fn copy_all(memory: &[u8], bytes: usize, jobs: &mut [Job]) {
    for job in jobs {
        job.copied[..bytes].copy_from_slice(&memory[job.at..job.at + bytes]);
    }
}

// The nanoseconds of each round of plain copies of the bytes that the bursts of a row read. A burst stays in a page, and a page lies
// together in every memory of the load.
fn run_copies<M: Memory>(memory: &M, row: &LoadRow, rounds: usize) -> Vec<u64> {
    let mut jobs = vec![EMPTY; BURSTS];
    let mut random = Random::seeded();
    let mut times = Vec::with_capacity(rounds);
    for round in 0..rounds {
        make_all(&mut jobs, row, &mut random, (round * BURSTS) as u64);
        for job in &mut jobs {
            job.at = memory.place_of_address(job.at);
        }
        let start = Instant::now();
        copy_all(black_box(memory.bytes()), 4 * row.count, &mut jobs);
        times.push(start.elapsed().as_nanos() as u64);
        black_box(&jobs);
    }
    times
}

// What a row comes to: its checksum, and the nanoseconds of each round of bursts, for reads also of plain copies.
struct Outcome {
    sum: u64,
    times: Vec<u64>,
    copies: Vec<u64>,
}

fn run_row<M: Memory>(memory: M, row: &LoadRow, rounds: usize) -> Outcome {
    let mut bridge = Bridge::new(memory);
    open_windows(&mut bridge);
    fill(&mut bridge, &mut Random::seeded());
    store_table(&mut bridge);
    let mut jobs = vec![EMPTY; BURSTS];
    let mut sum = Checksum::default();
    let mut random = Random::seeded();
    let mut times = Vec::with_capacity(rounds);
    for round in 0..rounds {
        make_all(&mut jobs, row, &mut random, (round * BURSTS) as u64);
        let start = Instant::now();
        match row.direction {
            Direction::Read => read_all(&mut bridge, row.count, &mut jobs),
            Direction::Write => write_all(&mut bridge, row.count, &mut jobs),
        }
        times.push(start.elapsed().as_nanos() as u64);
        for job in &jobs {
            job.add_to(row, &mut sum);
        }
    }
    for line in 0..LINES {
        match bridge.load(line * 32) {
            Ok(bytes) => bytes.iter().for_each(|byte| sum.add(u64::from(*byte))),
            Err(number) => sum.add(u64::from(number)),
        }
    }
    for n in 16..32 {
        sum.add(u64::from(bridge.register_read(n)));
    }
    let copies = match row.direction {
        Direction::Read => run_copies(&bridge.memory, row, rounds),
        Direction::Write => Vec::new(),
    };
    Outcome {
        sum: sum.value,
        times,
        copies,
    }
}

fn marked() -> Marks<Flat> {
    let mut marks = Marks::new(Flat::zeros(BYTES));
    for i in 0..32 {
        marks.mark(PAGES * 256 + 7 * i);
    }
    marks
}

fn banked() -> Banked {
    let list: Vec<(u64, u64)> = (0..8).rev().map(|i| (i * BANK, BANK)).collect();
    Banked::zeros(&list)
}

// The picoseconds of a burst in the median round, which the other work of a machine disturbs least.
fn picoseconds(mut times: Vec<u64>) -> u64 {
    times.sort_unstable();
    times.get(times.len() / 2).copied().unwrap_or(0) * 1000 / BURSTS as u64
}

fn main() {
    let args: Vec<String> = std::env::args().skip(1).collect();
    let timed = args.first().is_some_and(|word| word == "time");
    let rounds: usize = args.get(1).and_then(|word| word.parse().ok()).unwrap_or(4);
    let only: Option<usize> = args.get(2).and_then(|word| word.parse().ok());
    let mut total = Checksum::default();
    for i in 0..ROWS {
        if only.is_some_and(|only| only != i) {
            continue;
        }
        let row = LoadRow::nth(i);
        let outcome = match row.memory {
            MemoryKind::Flat => run_row(Flat::zeros(BYTES), &row, rounds),
            MemoryKind::Banked => run_row(banked(), &row, rounds),
            MemoryKind::Marked => run_row(marked(), &row, rounds),
        };
        total.add(outcome.sum);
        print!("{row} {:016x}", outcome.sum);
        if timed {
            print!(" {}", picoseconds(outcome.times));
        }
        if timed && row.direction == Direction::Read {
            print!(" {}", picoseconds(outcome.copies));
        }
        println!();
    }
    println!("total {:016x}", total.value);
}
