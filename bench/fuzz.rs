// Fuzzing: the proved box, run by its program, against a plain Rust model of the whole box that was written from the rules alone and shares no code with it.
// Each sequence is a new process and a new model. What the box reads comes from a story with a fixed seed: boxes with words and lives, wires that lead to some of them, frames
// that come late, twice, on other wires, damaged or from earlier lives, packets, settings, falls, ticks, lines of no form. All that both print is compared, byte for byte.
// fuzz INPUTS SEED PROGRAM [WORDS..] ends with status 1 at the first difference; with `-` in place of INPUTS and a file in place of SEED it compares on the lines of that file.
use std::collections::VecDeque;
use std::io::{Read, Write};
use std::process::{Command, ExitCode, Stdio};
use std::sync::atomic::{AtomicUsize, Ordering};
use std::sync::Mutex;

mod bytes {
    // CRC-32C by a table that is made of its definition bit by bit.
    static TABLE: [u32; 256] = {
        let mut table = [0; 256];
        let mut i = 0;
        while i < 256 {
            let mut c = i as u32;
            let mut k = 0;
            while k < 8 {
                c = if c & 1 == 1 { (c >> 1) ^ 0x82f6_3b78 } else { c >> 1 };
                k += 1;
            }
            table[i] = c;
            i += 1;
        }
        table
    };

    // The four bytes that stand behind what they are the sum of.
    pub fn sum(body: &[u8]) -> [u8; 4] {
        let c = body.iter().fold(!0u32, |c, b| TABLE[(c as u8 ^ *b) as usize] ^ (c >> 8));
        (!c).to_le_bytes()
    }

    pub fn sealed(body: &[u8]) -> Vec<u8> {
        [body, &sum(body)].concat()
    }

    // The sum of RFC 1071, before it is turned round; of an odd number of bytes with a zero behind.
    pub fn folded(body: &[u8]) -> u16 {
        let mut total: u32 = 0;
        for pair in body.chunks(2) {
            total += (pair[0] as u32) << 8 | pair.get(1).map_or(0, |b| *b as u32);
        }
        while total >> 16 != 0 {
            total = (total & 0xffff) + (total >> 16);
        }
        total as u16
    }

    pub fn hex(into: &mut Vec<u8>, bytes: &[u8]) {
        const DIGITS: &[u8; 16] = b"0123456789abcdef";
        for b in bytes {
            into.extend([DIGITS[(b >> 4) as usize], DIGITS[(b & 15) as usize]]);
        }
    }

    pub fn unhex(digits: &[u8]) -> Option<Vec<u8>> {
        if digits.is_empty() || digits.len() % 2 == 1 {
            return None;
        }
        let digit = |c: u8| (c as char).to_digit(16).map(|d| d as u8);
        digits.chunks(2).map(|pair| Some(digit(pair[0])? << 4 | digit(pair[1])?)).collect()
    }
}

// The whole box, from the rules.
mod model {
    use super::bytes::{folded, hex, sealed, sum, unhex};
    use super::Tally;
    use std::collections::VecDeque;

    pub const SPENT: u64 = 1 << 63;
    // Whether 11 goes before 3. By the rules it doesn't: of what is read whole the lowest number wins. The box of today does so; true is for looking for more than that.
    const SPENT_FIRST: bool = false;
    pub const HELLO: u8 = 1;
    pub const WORDS: u8 = 2;
    pub const SEENS: u8 = 3;
    pub const PACKET: u8 = 4;
    pub const BOOK: u8 = 5;
    pub const SETTINGS: u8 = 6;

    pub type Id = (u64, u64);

    #[derive(Clone, PartialEq, Debug)]
    pub struct Word {
        pub about: u8,
        pub count: u64,
        pub tag: u64,
        pub roads: Vec<(u8, u16)>,
    }

    impl Word {
        pub fn id(&self) -> Id {
            (self.count, self.tag)
        }
        pub fn write(&self, into: &mut Vec<u8>) {
            write_id(into, self.about, self.id());
            into.push(self.roads.len() as u8);
            for (to, cost) in &self.roads {
                into.push(*to);
                into.extend(cost.to_be_bytes());
            }
        }
    }

    pub fn write_id(into: &mut Vec<u8>, about: u8, id: Id) {
        into.push(about);
        into.extend(id.0.to_be_bytes());
        into.extend(id.1.to_be_bytes());
    }

    // The last hello on a wire: whose, its drawn number, when, and whether this box's own number was in it.
    #[derive(Clone, Copy)]
    pub struct Heard {
        pub who: u8,
        pub drawn: u64,
        pub at: u32,
        pub fits: bool,
    }

    pub struct Running {
        pub n: u8,
        pub me: u8,
        pub costs: [u16; 8],
        pub ticks: u32,
        pub life: u64,
        pub wires: [Option<Heard>; 8],
        // by box: the number of its last hello on any wire, 0 for none
        pub last: [u64; 64],
        pub words: Vec<Option<Word>>,
        // by neighbour and box: the count and tag that the neighbour has shown to have since the road opened
        pub shown: Vec<[Option<Id>; 64]>,
        // the second that errors were counted in, and how many there were
        second: u32,
        errors: u32,
        ways: Option<Vec<Option<u8>>>,
    }

    #[derive(Default)]
    pub struct Model {
        pub stock: VecDeque<u64>,
        pub running: Option<Running>,
        pub out: Out,
    }

    // What is printed, and for whoever drives the box also as values: the frames that the last line made it send, and how many numbers it wants.
    #[derive(Default)]
    pub struct Out {
        pub text: Vec<u8>,
        pub book: Vec<u8>,
        pub book_apart: bool,
        pub sent: Vec<(u8, Vec<u8>)>,
        pub wanted: usize,
        pub tally: Tally,
    }

    impl Out {
        fn wire(&mut self, wire: usize, body: &[u8]) {
            self.text.extend(b"wire ");
            self.text.push(b'0' + wire as u8);
            self.text.push(b' ');
            hex(&mut self.text, body);
            hex(&mut self.text, &sum(body));
            self.text.push(b'\n');
            self.sent.push((wire as u8, body.to_vec()));
            self.tally.lines += 1;
        }
        fn house(&mut self, packet: &[u8]) {
            self.text.extend(b"house ");
            hex(&mut self.text, packet);
            self.text.push(b'\n');
            self.tally.lines += 1;
        }
        fn line(&mut self, ticks: u32, what: u8, rest: &[u8]) {
            let mut line = vec![BOOK];
            line.extend(ticks.to_be_bytes());
            line.push(what);
            line.extend(rest);
            if self.book_apart {
                self.book.extend(line);
                self.tally.book += 1;
                return;
            }
            self.text.extend(b"book ");
            hex(&mut self.text, &line);
            self.text.push(b'\n');
            self.tally.lines += 1;
        }
        fn refused(&mut self, why: u8) {
            self.text.extend(format!("refused {why}\n").bytes());
            self.tally.outside[why as usize] += 1;
            self.tally.lines += 1;
        }
    }

    enum Line {
        Settings(Vec<u8>),
        Draw(u64),
        Wire(usize, Vec<u8>),
        House(Vec<u8>),
        Tick,
        Fall,
    }

    fn line_of(text: &[u8]) -> Option<Line> {
        if text == b"tick" {
            return Some(Line::Tick);
        }
        if text == b"fall" {
            return Some(Line::Fall);
        }
        if let Some(rest) = text.strip_prefix(b"settings ") {
            return unhex(rest).map(Line::Settings);
        }
        if let Some(rest) = text.strip_prefix(b"house ") {
            return unhex(rest).map(Line::House);
        }
        if let Some(rest) = text.strip_prefix(b"draw ") {
            let x = unhex(rest)?;
            let x = u64::from_be_bytes(x.try_into().ok()?);
            return (x != 0).then_some(Line::Draw(x));
        }
        if let Some([wire @ b'0'..=b'7', b' ', rest @ ..]) = text.strip_prefix(b"wire ") {
            return unhex(rest).map(|frame| Line::Wire((wire - b'0') as usize, frame));
        }
        None
    }

    // Reads numbers from the front; what isn't there is fault 1.
    struct Reader<'a>(&'a [u8]);

    impl Reader<'_> {
        fn number(&mut self, width: usize) -> Result<u64, u8> {
            if self.0.len() < width {
                return Err(1);
            }
            let (number, rest) = self.0.split_at(width);
            self.0 = rest;
            Ok(number.iter().fold(0, |x, b| x << 8 | *b as u64))
        }
        fn box_number(&mut self, n: u8) -> Result<u8, u8> {
            let b = self.number(1)? as u8;
            if b < n { Ok(b) } else { Err(2) }
        }
        fn not_zero(&mut self, width: usize) -> Result<u64, u8> {
            let x = self.number(width)?;
            if x != 0 { Ok(x) } else { Err(2) }
        }
        fn id(&mut self, n: u8) -> Result<(u8, Id), u8> {
            let about = self.box_number(n)?;
            Ok((about, (self.not_zero(8)?, self.number(8)?)))
        }
        fn word(&mut self, n: u8) -> Result<Word, u8> {
            let (about, (count, tag)) = self.id(n)?;
            let many = self.number(1)?;
            if many > 8 {
                return Err(2);
            }
            let mut roads: Vec<(u8, u16)> = Vec::new();
            for _ in 0..many {
                let to = self.box_number(n)?;
                if to == about || roads.last().is_some_and(|last| last.0 >= to) {
                    return Err(2);
                }
                roads.push((to, self.not_zero(2)? as u16));
            }
            Ok(Word { about, count, tag, roads })
        }
        fn bundle<T>(&mut self, item: impl Fn(&mut Self) -> Result<T, u8>) -> Result<(u64, Vec<T>), u8> {
            let drawn = self.not_zero(8)?;
            let many = self.number(1)?;
            if !(1..=4).contains(&many) {
                return Err(1);
            }
            let items: Vec<T> = (0..many).map(|_| item(self)).collect::<Result<_, u8>>()?;
            self.end()?;
            Ok((drawn, items))
        }
        fn end(&self) -> Result<(), u8> {
            if self.0.is_empty() { Ok(()) } else { Err(1) }
        }
    }

    fn read_settings(bytes: &[u8]) -> Result<(u8, u8, [u16; 8]), u8> {
        let mut reader = Reader(bytes);
        if reader.number(1)? != SETTINGS as u64 {
            return Err(1);
        }
        let n = reader.number(1)? as u8;
        if n == 0 || n > 64 {
            return Err(2);
        }
        let me = reader.box_number(n)?;
        let mut costs = [0; 8];
        for cost in &mut costs {
            *cost = reader.number(2)? as u16;
        }
        reader.end()?;
        Ok((n, me, costs))
    }

    impl Model {
        pub fn line(&mut self, text: &[u8]) {
            self.out.sent.clear();
            self.out.wanted = 0;
            let line = line_of(text);
            let tally = &mut self.out.tally;
            tally.read += 1;
            if !matches!(line, Some(Line::Draw(_))) {
                tally.inputs += 1;
            }
            let kind = match &line {
                None => 0,
                Some(Line::Settings(_)) => 1,
                Some(Line::Draw(_)) => 2,
                Some(Line::Tick) => 3,
                Some(Line::Fall) => 4,
                Some(Line::House(_)) => 5,
                Some(Line::Wire(_, frame)) => match frame[0] {
                    kind @ HELLO..=PACKET => 5 + kind as usize,
                    _ => 10,
                },
            };
            tally.kinds[kind] += 1;
            let Some(line) = line else { return self.out.refused(1) };
            if let Line::Draw(x) = line {
                if self.stock.len() == 1024 {
                    return self.out.refused(1);
                }
                return self.stock.push_back(x);
            }
            let Some(running) = &mut self.running else {
                let Line::Settings(bytes) = line else { return self.out.refused(1) };
                // a number is asked for before they are read, and used only if they are good
                if self.stock.is_empty() {
                    draw::<1>(&mut self.stock, &mut self.out);
                    return;
                }
                match read_settings(&bytes) {
                    Err(why) => self.out.refused(why),
                    Ok((n, me, costs)) => {
                        let Some([life]) = draw(&mut self.stock, &mut self.out) else { return };
                        let mut running = Running::new(n, me, costs);
                        running.begin(life, &mut self.out);
                        self.running = Some(running);
                    }
                }
                return;
            };
            match line {
                Line::Settings(bytes) => running.settings(&bytes, &mut self.out),
                Line::Tick => {
                    if let Some([tag]) = draw(&mut self.stock, &mut self.out) {
                        running.tick(tag, &mut self.out);
                    }
                }
                Line::Fall => {
                    if let Some([life]) = draw(&mut self.stock, &mut self.out) {
                        running.begin(life, &mut self.out);
                    }
                }
                Line::Wire(wire, frame) => {
                    let mut tags = [0; 4];
                    if frame[0] == WORDS {
                        let Some(drawn) = draw(&mut self.stock, &mut self.out) else { return };
                        tags = drawn;
                    }
                    running.wire(wire, &frame, tags, &mut self.out);
                }
                Line::House(packet) => running.packet(&packet, &mut self.out),
                Line::Draw(_) => {}
            }
        }
    }

    // So many numbers, or a line that asks for what is wanting.
    fn draw<const K: usize>(stock: &mut VecDeque<u64>, out: &mut Out) -> Option<[u64; K]> {
        if stock.len() < K {
            out.wanted = K - stock.len();
            out.text.extend(format!("draw {}\n", out.wanted).bytes());
            out.tally.lines += 1;
            out.tally.asked += 1;
            return None;
        }
        Some(std::array::from_fn(|_| stock.pop_front().unwrap_or(0)))
    }

    impl Running {
        fn new(n: u8, me: u8, costs: [u16; 8]) -> Running {
            Running { n, me, costs, ticks: 0, life: 0, wires: [None; 8], last: [0; 64], words: vec![None; 64], shown: vec![[None; 64]; 64], second: 0, errors: 0, ways: None }
        }

        // It is switched on or falls.
        fn begin(&mut self, life: u64, out: &mut Out) {
            self.life = life;
            self.wires = [None; 8];
            self.last = [0; 64];
            self.words = vec![None; 64];
            self.shown = vec![[None; 64]; 64];
            self.ways = None;
            out.line(self.ticks, 0, &[self.n, self.me]);
        }

        // The lowest wire over which the road to a box is open.
        pub fn road(&self, to: u8) -> Option<usize> {
            self.wires.iter().position(|heard| heard.is_some_and(|h| h.who == to && h.fits))
        }

        // Its open roads and what they cost now.
        pub fn roads(&self) -> Vec<(u8, u16)> {
            (0..self.n).filter_map(|e| self.road(e).map(|wire| (e, self.costs[wire]))).collect()
        }

        fn note(&mut self, why: u8, out: &mut Out) {
            out.tally.refusals[why as usize] += 1;
            out.line(self.ticks, 3, &[why]);
        }

        fn settings(&mut self, bytes: &[u8], out: &mut Out) {
            match read_settings(bytes) {
                Err(why) => self.note(why, out),
                Ok((n, me, _)) if (n, me) != (self.n, self.me) => self.note(2, out),
                Ok((_, _, costs)) => {
                    self.costs = costs;
                    for (heard, cost) in self.wires.iter_mut().zip(costs) {
                        if cost == 0 {
                            *heard = None;
                        }
                    }
                }
            }
        }

        fn tick(&mut self, tag: u64, out: &mut Out) {
            self.ticks += 1;
            for heard in &mut self.wires {
                if heard.is_some_and(|h| h.at + 40 < self.ticks) {
                    *heard = None;
                    out.tally.expired += 1;
                }
            }
            let roads = self.roads();
            let so = match &self.words[self.me as usize] {
                None => roads.is_empty(),
                Some(word) => word.roads == roads,
            };
            let count = 1 + self.words[self.me as usize].as_ref().map_or(0, |word| word.count);
            if !so && count < SPENT {
                self.say(count, tag, out);
            }
            if !so && count >= SPENT {
                out.tally.spent += 1;
            }
            if self.ticks % 10 == 0 {
                for wire in 0..8 {
                    if self.costs[wire] != 0 {
                        let mut body = vec![HELLO, self.me];
                        body.extend(self.life.to_be_bytes());
                        body.extend(self.wires[wire].map_or(0, |h| h.drawn).to_be_bytes());
                        out.wire(wire, &body);
                    }
                }
            }
            if self.ticks % 5 == 0 {
                for e in 0..self.n {
                    let Some(wire) = self.road(e) else { continue };
                    let told: Vec<&Word> = self.words.iter().flatten().filter(|word| self.shown[e as usize][word.about as usize] != Some(word.id())).take(4).collect();
                    if !told.is_empty() {
                        out.tally.told += told.len();
                        out.wire(wire, &self.bundle(&told));
                    }
                }
            }
        }

        fn bundle(&self, told: &[&Word]) -> Vec<u8> {
            let mut body = vec![WORDS];
            body.extend(self.life.to_be_bytes());
            body.push(told.len() as u8);
            for word in told {
                word.write(&mut body);
            }
            body
        }

        fn say(&mut self, count: u64, tag: u64, out: &mut Out) {
            let word = Word { about: self.me, count, tag, roads: self.roads() };
            self.has(word, 1, out);
            out.tally.said += 1;
        }

        // A word is said or taken: it has it now.
        fn has(&mut self, word: Word, what: u8, out: &mut Out) {
            let mut body = Vec::new();
            word.write(&mut body);
            out.line(self.ticks, what, &body);
            let at = word.about as usize;
            self.words[at] = Some(word);
            self.ways = None;
        }

        fn wire(&mut self, wire: usize, frame: &[u8], tags: [u64; 4], out: &mut Out) {
            if self.costs[wire] == 0 {
                out.tally.dropped += 1;
                return;
            }
            let Some((body, end)) = frame.split_last_chunk::<4>() else { return self.note(1, out) };
            if body.is_empty() || *end != sum(body) {
                return self.note(1, out);
            }
            let mut reader = Reader(&body[1..]);
            let answer = match body[0] {
                HELLO => self.hello(wire, reader, out),
                WORDS => reader.bundle(|r| r.word(self.n)).and_then(|(drawn, told)| self.told(wire, drawn, told, tags, out)),
                SEENS => reader.bundle(|r| r.id(self.n)).and_then(|(drawn, seens)| self.seen(wire, drawn, seens, out)),
                PACKET => {
                    self.packet(&body[1..], out);
                    Ok(())
                }
                _ => Err(1),
            };
            if let Err(why) = answer {
                self.note(why, out);
            }
        }

        fn hello(&mut self, wire: usize, mut reader: Reader, out: &mut Out) -> Result<(), u8> {
            let who = reader.box_number(self.n)?;
            let drawn = reader.not_zero(8)?;
            let heard = reader.number(8)?;
            reader.end()?;
            if who == self.me {
                return Err(2);
            }
            if self.wires[wire].is_some_and(|h| h.fits && h.who != who) {
                return Err(4);
            }
            let was_open = self.road(who).is_some();
            if self.last[who as usize] != drawn {
                // another number: its roads close on all wires, and under the new one it has shown nothing
                for h in self.wires.iter_mut().flatten().filter(|h| h.who == who) {
                    h.fits = false;
                }
                self.shown[who as usize] = [None; 64];
                out.tally.lives += 1;
            }
            self.last[who as usize] = drawn;
            self.wires[wire] = Some(Heard { who, drawn, at: self.ticks, fits: heard == self.life });
            let is_open = self.road(who).is_some();
            if is_open && !was_open {
                self.shown[who as usize] = [None; 64];
                out.tally.opened += 1;
            }
            if was_open && !is_open {
                out.tally.closed += 1;
            }
            Ok(())
        }

        // The count and tag of the word that it has of a box; less than any where it has none.
        fn id(&self, about: u8) -> Id {
            self.words[about as usize].as_ref().map_or((0, 0), Word::id)
        }

        // The box at the other end, if a road to it is open.
        fn sender(&self, wire: usize) -> Result<u8, u8> {
            let who = self.wires[wire].ok_or(3)?.who;
            self.road(who).ok_or(3)?;
            Ok(who)
        }

        // The same for a packet with these counts: faults 3 and 11, both of what was read whole.
        fn sender_of(&self, wire: usize, mut counts: impl Iterator<Item = u64>) -> Result<u8, u8> {
            let from = self.sender(wire);
            let spent = if counts.any(|count| count >= SPENT) { Err(11) } else { Ok(()) };
            if SPENT_FIRST {
                spent?;
            }
            let from = from?;
            spent?;
            Ok(from)
        }

        fn told(&mut self, wire: usize, drawn: u64, told: Vec<Word>, tags: [u64; 4], out: &mut Out) -> Result<(), u8> {
            let from = self.sender_of(wire, told.iter().map(|word| word.count))?;
            let shows = drawn == self.last[from as usize];
            let ids: Vec<(u8, Id)> = told.iter().map(|word| (word.about, word.id())).collect();
            for (word, tag) in told.into_iter().zip(tags) {
                let (about, id) = (word.about, word.id());
                let mine = self.id(about);
                if id > mine && about == self.me {
                    // it must say one above it, if there is a count for that
                    if word.count + 1 < SPENT {
                        self.say(word.count + 1, tag, out);
                        out.tally.above += 1;
                    } else {
                        out.tally.spent += 1;
                    }
                    continue;
                }
                if id > mine {
                    self.has(word, 2, out);
                    out.tally.taken += 1;
                }
                if id >= mine && shows {
                    self.shown[from as usize][about as usize] = Some(id);
                }
            }
            // answers are of what it has after the whole packet
            let seens: Vec<(u8, Id)> = ids.iter().copied().filter(|(about, id)| *id == self.id(*about)).collect();
            let newer: Vec<u8> = ids.iter().filter(|(about, id)| *id < self.id(*about)).map(|(about, _)| *about).collect();
            let back = self.road(from).ok_or(3)?;
            if !seens.is_empty() {
                let mut body = vec![SEENS];
                body.extend(self.life.to_be_bytes());
                body.push(seens.len() as u8);
                for (about, id) in seens {
                    write_id(&mut body, about, id);
                }
                out.wire(back, &body);
                out.tally.answered += 1;
            }
            let newer: Vec<&Word> = newer.into_iter().filter_map(|about| self.words[about as usize].as_ref()).collect();
            if !newer.is_empty() {
                out.wire(back, &self.bundle(&newer));
                out.tally.newer += 1;
            }
            Ok(())
        }

        fn seen(&mut self, wire: usize, drawn: u64, seens: Vec<(u8, Id)>, out: &mut Out) -> Result<(), u8> {
            let from = self.sender_of(wire, seens.iter().map(|seen| seen.1 .0))?;
            if drawn != self.last[from as usize] {
                return Ok(());
            }
            for (about, id) in seens {
                if self.words[about as usize].as_ref().is_some_and(|word| word.id() == id) {
                    self.shown[from as usize][about as usize] = Some(id);
                    out.tally.marked += 1;
                }
            }
            Ok(())
        }

        // The next box towards another, by the words that it has.
        pub fn next(&mut self, to: u8) -> Option<u8> {
            if self.ways.is_none() {
                self.ways = Some(self.work_out());
            }
            self.ways.as_ref()?[to as usize]
        }

        fn work_out(&self) -> Vec<Option<u8>> {
            let n = self.n as usize;
            let mut far = vec![u32::MAX; n];
            let mut first: Vec<Option<u8>> = vec![None; n];
            let mut done = vec![false; n];
            far[self.me as usize] = 0;
            loop {
                let near = (0..n).filter(|e| !done[*e] && far[*e] != u32::MAX).min_by_key(|e| far[*e]);
                let Some(a) = near else { return first };
                done[a] = true;
                let Some(word) = &self.words[a] else { continue };
                for (e, cost) in &word.roads {
                    let both = self.words[*e as usize].as_ref().is_some_and(|back| back.roads.iter().any(|road| road.0 as usize == a));
                    if !both || *e == self.me {
                        continue;
                    }
                    let e_at = *e as usize;
                    let over = far[a] + *cost as u32;
                    let by = if a == self.me as usize { Some(*e) } else { first[a] };
                    if over < far[e_at] || over == far[e_at] && by < first[e_at] {
                        far[e_at] = over;
                        first[e_at] = by;
                    }
                }
            }
        }

        // A packet, over a wire or from a house.
        fn packet(&mut self, packet: &[u8], out: &mut Out) {
            if packet.len() < 20 || packet[0] != 0x45 || (packet[2] as usize) << 8 | packet[3] as usize != packet.len() || folded(&packet[..20]) != 0xffff {
                return self.note(5, out);
            }
            if packet[12] != 10 || packet[13] >= self.n || packet[16] != 10 || packet[17] >= self.n {
                return self.note(6, out);
            }
            if packet[17] == self.me {
                if packet[16..20] == [10, self.me, 0, 1] && is_echo(packet) {
                    let mut back = packet.to_vec();
                    let (source, destination) = (&packet[12..16], &packet[16..20]);
                    back[12..16].copy_from_slice(destination);
                    back[16..20].copy_from_slice(source);
                    back[8] = 64;
                    back[20] = 0;
                    mend(&mut back, 20, 10, 0);
                    let all = back.len();
                    mend(&mut back, all, 22, 20);
                    out.tally.echoes += 1;
                    if !self.goes_back(&back, out, None) {
                        self.note(10, out);
                    }
                } else {
                    out.tally.handed_out += 1;
                    out.house(packet);
                }
                return;
            }
            if packet[8] <= 1 {
                return self.refuse(7, packet, out);
            }
            let Some(next) = self.next(packet[17]) else { return self.refuse(8, packet, out) };
            let Some(wire) = self.road(next) else { return self.refuse(9, packet, out) };
            let mut body = vec![PACKET];
            body.extend(packet);
            body[9] -= 1;
            mend(&mut body[1..], 20, 10, 0);
            out.wire(wire, &body);
            out.tally.forwarded += 1;
            if next != packet[17] {
                out.tally.further += 1;
            }
        }

        fn refuse(&mut self, why: u8, packet: &[u8], out: &mut Out) {
            let is_error = packet[9] == 1 && packet.len() > 20 && matches!(packet[20], 3 | 4 | 5 | 11 | 12);
            if is_error {
                return self.note(10, out);
            }
            if self.second != self.ticks / 10 {
                self.second = self.ticks / 10;
                self.errors = 0;
            }
            if self.errors == 10 {
                out.tally.eleventh += 1;
                return self.note(10, out);
            }
            self.errors += 1;
            let quoted = &packet[..packet.len().min(28)];
            let mut error = vec![0x45, 0, 0, 28 + quoted.len() as u8, 0, 0, 0, 0, 64, 1, 0, 0, 10, self.me, 0, 1];
            error.extend(&packet[12..16]);
            error.extend([if why == 7 { 11 } else { 3 }, 0, 0, 0, 0, 0, 0, 0]);
            error.extend(quoted);
            mend(&mut error, 20, 10, 0);
            let all = error.len();
            mend(&mut error, all, 22, 20);
            if !self.goes_back(&error, out, Some(why)) {
                out.tally.no_way_back += 1;
                self.note(10, out);
            }
        }

        // What the box makes goes to where it is for, with a line before it if it is an error; or there is no way.
        fn goes_back(&mut self, made: &[u8], out: &mut Out, why: Option<u8>) -> bool {
            let to = made[17];
            let mut over = None;
            if to != self.me {
                over = self.next(to).and_then(|next| self.road(next));
                if over.is_none() {
                    return false;
                }
            }
            if let Some(why) = why {
                self.note(why, out);
            }
            match over {
                None => out.house(made),
                Some(wire) => out.wire(wire, &[&[PACKET], made].concat()),
            }
            true
        }
    }

    // The sum at a place is put right: of the bytes from another place up to an end.
    fn mend(bytes: &mut [u8], end: usize, at: usize, from: usize) {
        bytes[at..at + 2].copy_from_slice(&[0, 0]);
        let right = !folded(&bytes[from..end]);
        bytes[at..at + 2].copy_from_slice(&right.to_be_bytes());
    }

    // A whole echo: in one piece, type 8 code 0, with its eight bytes and a right sum.
    fn is_echo(packet: &[u8]) -> bool {
        let in_one_piece = (packet[6] & 0x3f) == 0 && packet[7] == 0;
        in_one_piece && packet[9] == 1 && packet.len() >= 28 && packet[20] == 8 && packet[21] == 0 && folded(&packet[20..]) == 0xffff
    }

    pub fn frame(body: &[u8]) -> Vec<u8> {
        sealed(body)
    }
}

// How often what happened.
#[derive(Default, Clone)]
struct Tally {
    inputs: usize,
    read: usize,
    lines: usize,
    book: usize,
    kinds: [usize; 11],
    refusals: [usize; 12],
    outside: [usize; 12],
    asked: usize,
    damaged: usize,
    dropped: usize,
    opened: usize,
    closed: usize,
    lives: usize,
    expired: usize,
    said: usize,
    above: usize,
    spent: usize,
    taken: usize,
    told: usize,
    answered: usize,
    newer: usize,
    marked: usize,
    forwarded: usize,
    further: usize,
    handed_out: usize,
    echoes: usize,
    eleventh: usize,
    no_way_back: usize,
}

const KINDS: [&str; 11] = ["no form", "settings", "draw", "tick", "fall", "house", "hello", "words", "seens", "packet", "other frame"];

impl Tally {
    fn all(&mut self) -> Vec<(&'static str, &mut usize)> {
        vec![
            ("inputs, not counting numbers given", &mut self.inputs),
            ("lines read, with these", &mut self.read),
            ("lines printed", &mut self.lines),
            ("lines in a book apart", &mut self.book),
            ("numbers asked for", &mut self.asked),
            ("damaged frames and packets", &mut self.damaged),
            ("frames on a wire without a cost", &mut self.dropped),
            ("roads opened by a hello", &mut self.opened),
            ("roads closed by a hello", &mut self.closed),
            ("hellos with another number", &mut self.lives),
            ("wires silent after 40 ticks", &mut self.expired),
            ("words said", &mut self.said),
            ("of these above one that was told", &mut self.above),
            ("not said, the count being spent", &mut self.spent),
            ("words taken", &mut self.taken),
            ("words told at ticks", &mut self.told),
            ("answers of seens", &mut self.answered),
            ("answers of newer words", &mut self.newer),
            ("seens that fitted", &mut self.marked),
            ("packets handed on", &mut self.forwarded),
            ("of these not to a neighbour that they were for", &mut self.further),
            ("packets handed out", &mut self.handed_out),
            ("echoes", &mut self.echoes),
            ("refused beyond ten in a second", &mut self.eleventh),
            ("errors without a way back", &mut self.no_way_back),
        ]
    }

    fn add(&mut self, other: &Tally) {
        let mut other = other.clone();
        for ((_, into), (_, from)) in self.all().into_iter().zip(other.all()) {
            *into += *from;
        }
        for (into, from) in [(&mut self.kinds[..], &other.kinds[..]), (&mut self.refusals, &other.refusals), (&mut self.outside, &other.outside)] {
            for (x, y) in into.iter_mut().zip(from) {
                *x += y;
            }
        }
    }
}

struct Random(u64);

impl Random {
    fn new(seed: u64, part: u64) -> Random {
        let mut random = Random(seed ^ part.wrapping_mul(0x9e37_79b9_7f4a_7c15));
        random.next();
        random.next();
        random
    }
    // splitmix64
    fn next(&mut self) -> u64 {
        self.0 = self.0.wrapping_add(0x9e37_79b9_7f4a_7c15);
        let mut z = self.0;
        z = (z ^ (z >> 30)).wrapping_mul(0xbf58_476d_1ce4_e5b9);
        z = (z ^ (z >> 27)).wrapping_mul(0x94d0_49bb_1331_11eb);
        z ^ (z >> 31)
    }
    fn below(&mut self, n: usize) -> usize {
        (self.next() % n as u64) as usize
    }
    fn one_in(&mut self, n: usize) -> bool {
        self.below(n) == 0
    }
    fn of<T: Copy>(&mut self, all: &[T]) -> T {
        all[self.below(all.len())]
    }
    // The place of one of these weights, by its weight.
    fn weighed(&mut self, weights: &[usize]) -> usize {
        let mut at = self.below(weights.iter().sum::<usize>().max(1));
        for (k, weight) in weights.iter().enumerate() {
            if at < *weight {
                return k;
            }
            at -= weight;
        }
        0
    }
    fn bytes(&mut self, many: usize) -> Vec<u8> {
        (0..many).map(|_| self.next() as u8).collect()
    }
}

mod story {
    use super::bytes::{folded, hex};
    use super::model::*;
    use super::{Random, VecDeque};

    // Another box, as the story goes.
    struct Other {
        life: u64,
        lives: Vec<u64>,
        word: Word,
        earlier: Vec<Word>,
    }

    pub struct Story {
        dice: Random,
        pub model: Model,
        // what the box reads, and after each line how long what it must print is by then
        pub text: Vec<u8>,
        pub ends: Vec<usize>,
        n: u8,
        me: u8,
        // which box is at the other end of each wire
        ports: [u8; 8],
        good: [u16; 8],
        others: Vec<Other>,
        // what wires lead between boxes, and at what cost
        truth: Vec<[u16; 64]>,
        late: VecDeque<(u8, Vec<u8>)>,
        past: Vec<(u8, Vec<u8>)>,
        own_lives: Vec<u64>,
        round: u8,
        // how this story is
        weights: [usize; 14],
        obliging: usize,
        near_the_end: bool,
        small_tags: bool,
        peaceful: bool,
        dear: bool,
    }

    impl Story {
        pub fn new(seed: u64, part: u64, book_apart: bool) -> Story {
            let mut dice = Random::new(seed, part);
            let n = dice.of(&[1, 2, 2, 3, 3, 4, 5, 6, 8, 9, 12, 17, 30, 33, 48, 63, 64, 64]);
            let me = dice.below(n as usize) as u8;
            let obliging = dice.of(&[0, 20, 60, 90, 100]);
            let near_the_end = dice.one_in(6);
            let small_tags = dice.one_in(3);
            let peaceful = dice.one_in(2);
            // a long row of boxes, with great costs
            let dear = dice.one_in(8);
            let weights = [30, 6, 20, 12, 14, 10, 22, 8, 8, 1, 1, 2, 3, 14].map(|w| w * dice.of(&[1, 2, 3, 3, 3, 4, 6]));
            let mut model = Model::default();
            model.out.book_apart = book_apart;
            let mut story = Story {
                dice,
                model,
                text: Vec::new(),
                ends: Vec::new(),
                n,
                me,
                ports: [0; 8],
                good: [0; 8],
                others: Vec::new(),
                truth: vec![[0; 64]; 64],
                late: VecDeque::new(),
                past: Vec::new(),
                own_lives: Vec::new(),
                round: 0,
                weights,
                obliging,
                near_the_end,
                small_tags,
                peaceful,
                dear,
            };
            story.found();
            story
        }

        fn number(&mut self) -> u64 {
            match self.dice.below(20) {
                0 => 1 + self.dice.below(9) as u64,
                1 => u64::MAX - self.dice.below(3) as u64,
                _ => self.dice.next().max(1),
            }
        }

        fn tag(&mut self) -> u64 {
            if self.small_tags { self.dice.below(6) as u64 } else { self.dice.next() }
        }

        fn cost(&mut self) -> u16 {
            if self.dear && !self.dice.one_in(10) {
                return 65_535 - self.dice.below(2) as u16;
            }
            if self.peaceful && !self.dice.one_in(10) {
                return 1 + self.dice.below(3) as u16;
            }
            match self.dice.below(8) {
                0 => 65_535 - self.dice.below(2) as u16,
                1 => 1 + self.dice.below(65_535) as u16,
                _ => 1 + self.dice.below(5) as u16,
            }
        }

        fn degree(&self, b: usize) -> usize {
            self.truth[b].iter().filter(|cost| **cost != 0).count()
        }

        fn join(&mut self, a: usize, e: usize) {
            if a != e && self.truth[a][e] == 0 && self.degree(a) < 8 && self.degree(e) < 8 {
                self.truth[a][e] = self.cost();
                self.truth[e][a] = self.cost();
            }
        }

        // The net that the story is about.
        fn found(&mut self) {
            let n = self.n as usize;
            let wires = 1 + self.dice.below(8);
            let mut peers: Vec<u8> = Vec::new();
            for wire in 0..8 {
                let peer = if !peers.is_empty() && self.dice.one_in(4) { self.dice.of(&peers) } else { self.dice.below(n) as u8 };
                peers.push(peer);
                self.ports[wire] = peer;
                self.good[wire] = if wire < wires { self.cost() } else { 0 };
                if wire < wires {
                    self.join(self.me as usize, peer as usize);
                }
            }
            for b in 1..n {
                let to = if self.dear || self.dice.one_in(3) { b - 1 } else { self.dice.below(b) };
                self.join(b, to);
            }
            let more = if self.dear { 2 } else { 2 * n + 1 };
            for _ in 0..self.dice.below(more) {
                let (a, e) = (self.dice.below(n), self.dice.below(n));
                self.join(a, e);
            }
            for b in 0..n {
                let count = if self.near_the_end && self.dice.one_in(4) { SPENT - 1 - self.dice.below(4) as u64 } else { 1 + self.dice.below(3) as u64 };
                let word = Word { about: b as u8, count, tag: self.tag(), roads: self.roads_of(b) };
                let life = self.number();
                self.others.push(Other { life, lives: Vec::new(), word, earlier: Vec::new() });
            }
        }

        fn roads_of(&self, b: usize) -> Vec<(u8, u16)> {
            (0..self.n).filter(|e| self.truth[b][*e as usize] != 0).map(|e| (e, self.truth[b][e as usize])).collect()
        }

        // Something happens to a box, and it says a word.
        fn news(&mut self, b: usize) {
            let n = self.n as usize;
            let e = self.dice.below(n);
            match self.dice.below(10) {
                0..=2 => {
                    if self.truth[b][e] != 0 {
                        self.truth[b][e] = 0;
                        self.truth[e][b] = 0;
                    }
                }
                3..=5 => self.join(b, e),
                6..=8 => {
                    if let Some((e, _)) = self.roads_of(b).first() {
                        self.truth[b][*e as usize] = self.cost();
                    }
                }
                _ => {
                    self.lives_anew(b);
                    if self.dice.one_in(2) {
                        self.others[b].word.count = 0;
                    }
                }
            }
            self.says(b);
            if self.dice.one_in(3) {
                self.says(e);
            }
        }

        fn says(&mut self, b: usize) {
            let more = if self.dice.one_in(20) { 1 + self.dice.below(1000) as u64 } else { 1 };
            let tag = self.tag();
            let roads = self.roads_of(b);
            let other = &mut self.others[b];
            let count = (other.word.count + more).min(SPENT - 1);
            let new = Word { about: b as u8, count, tag, roads };
            other.earlier.push(std::mem::replace(&mut other.word, new));
            if other.earlier.len() > 6 {
                other.earlier.remove(0);
            }
        }

        fn lives_anew(&mut self, b: usize) {
            let life = self.number();
            let other = &mut self.others[b];
            other.lives.push(std::mem::replace(&mut other.life, life));
        }

        fn life(&self) -> u64 {
            self.model.running.as_ref().map_or(0, |r| r.life)
        }

        fn known(&self, b: u8) -> Option<&Word> {
            self.model.running.as_ref().and_then(|r| r.words[b as usize].as_ref())
        }

        fn ticks(&self) -> u32 {
            self.model.running.as_ref().map_or(0, |r| r.ticks)
        }

        fn any_box(&mut self) -> u8 {
            self.dice.below(self.n as usize) as u8
        }

        // A wire, mostly one with a cost.
        fn any_wire(&mut self) -> u8 {
            let wire = self.dice.below(8);
            if self.good[wire] == 0 && !self.dice.one_in(12) {
                let good: Vec<usize> = (0..8).filter(|w| self.good[*w] != 0).collect();
                return self.dice.of(&good) as u8;
            }
            wire as u8
        }

        // The drawn number that a frame of a box has in it, mostly its own.
        fn drawn_of(&mut self, b: u8) -> u64 {
            match self.dice.below(40) {
                0..=2 => *self.others[b as usize].lives.last().unwrap_or(&7),
                3 => {
                    let lives = &self.others[b as usize].lives;
                    if lives.is_empty() { 8 } else { self.dice.of(lives) }
                }
                4 => {
                    let e = self.any_box();
                    self.others[e as usize].life
                }
                5 => self.model.running.as_ref().map_or(1, |r| r.last[b as usize].max(1)),
                6 => self.life().max(1),
                _ => self.others[b as usize].life,
            }
        }

        // ---- lines

        fn one(&mut self, line: &[u8]) {
            self.text.extend(line);
            self.text.push(b'\n');
            self.model.line(line);
            self.ends.push(self.model.out.text.len());
        }

        fn draw(&mut self) {
            let mut line = b"draw ".to_vec();
            let number = self.number();
            hex(&mut line, &number.to_be_bytes());
            if self.dice.one_in(50) {
                line.make_ascii_uppercase();
                line[..4].copy_from_slice(b"draw");
            }
            self.one(&line);
        }

        // A line, and again if it asked for numbers.
        fn give(&mut self, line: &[u8]) {
            if self.model.stock.len() < 5 && self.dice.one_in(3) {
                for _ in 0..1 + self.dice.below(40) {
                    self.draw();
                }
            }
            self.one(line);
            for _ in 0..4 {
                let wanted = self.model.out.wanted;
                if wanted == 0 || self.dice.one_in(200) {
                    break;
                }
                let many = if self.dice.one_in(30) { self.dice.below(wanted + 1) } else { wanted };
                for _ in 0..many {
                    self.draw();
                }
                self.one(line);
            }
            self.react();
        }

        fn give_bytes(&mut self, before: &str, bytes: &[u8]) {
            let mut line = before.as_bytes().to_vec();
            hex(&mut line, bytes);
            if self.dice.one_in(100) {
                for digit in &mut line[before.len()..] {
                    if self.dice.one_in(2) {
                        digit.make_ascii_uppercase();
                    }
                }
            }
            self.give(&line);
        }

        fn send(&mut self, wire: u8, frame: &[u8]) {
            if self.past.len() < 64 {
                self.past.push((wire, frame.to_vec()));
            } else if self.dice.one_in(4) {
                let at = self.dice.below(64);
                self.past[at] = (wire, frame.to_vec());
            }
            self.give_bytes(&format!("wire {wire} "), frame);
        }

        // A body goes over a wire with its sum, now and then damaged, late, lost or twice.
        fn post(&mut self, wire: u8, body: Vec<u8>) {
            match self.dice.below(60) {
                0..=2 => {
                    let frame = self.damaged(body);
                    self.send(wire, &frame);
                }
                3..=5 => self.late.push_back((wire, frame(&body))),
                6 => {
                    let frame = frame(&body);
                    self.send(wire, &frame);
                    self.late.push_back((wire, frame));
                }
                7 => {
                    let other = self.dice.below(8) as u8;
                    self.send(other, &frame(&body));
                }
                _ => self.send(wire, &frame(&body)),
            }
        }

        // Whoever is at the other end answers words as it should, if it is obliging: with seens, which are on their way for a while.
        fn react(&mut self) {
            let sent = std::mem::take(&mut self.model.out.sent);
            for (wire, body) in sent {
                if body[0] != WORDS || self.dice.below(100) >= self.obliging {
                    continue;
                }
                if let Some(back) = self.seen_back(wire, &body) {
                    let at = self.dice.below(self.late.len() + 1);
                    if self.dice.one_in(4) { self.late.insert(at, (wire, frame(&back))) } else { self.late.push_back((wire, frame(&back))) }
                }
            }
        }

        fn seen_back(&mut self, wire: u8, body: &[u8]) -> Option<Vec<u8>> {
            let peer = self.ports[wire as usize] as usize;
            let mut back = vec![SEENS];
            back.extend(self.others[peer].life.to_be_bytes());
            back.push(body[9]);
            let mut at = 10;
            for _ in 0..body[9] {
                back.extend(body.get(at..at + 17)?);
                at += 18 + 3 * *body.get(at + 17)? as usize;
            }
            Some(back)
        }

        // ---- frames

        fn hello(&mut self, wire: u8) -> Vec<u8> {
            let mut who = self.ports[wire as usize];
            let mut heard = self.life();
            let mut drawn = self.drawn_of(who);
            match self.dice.below(100) {
                0..=4 => heard = 0,
                5..=6 => heard = self.own_lives.last().copied().unwrap_or(3),
                7 => heard = self.number(),
                8..=10 => {
                    who = self.any_box();
                    drawn = self.drawn_of(who);
                }
                11 => who = self.me,
                12 => who = self.dice.of(&[self.n, self.n.wrapping_add(1), 64, 255]),
                13 => drawn = 0,
                14..=15 => {
                    self.lives_anew(who as usize);
                    drawn = self.others[who as usize].life;
                }
                16 => drawn = self.life().max(1),
                _ => {}
            }
            hello_body(who, drawn, heard)
        }

        // Over each wire a hello that fits, of whoever is there.
        fn hellos(&mut self) {
            for wire in 0..8 {
                let who = self.ports[wire];
                if self.good[wire] != 0 && !self.dice.one_in(15) {
                    let body = hello_body(who, self.others[who as usize].life, self.life());
                    self.send(wire as u8, &frame(&body));
                }
            }
        }

        fn a_word(&mut self) -> Word {
            let b = self.any_box();
            let at = b as usize;
            // in a peaceful story words are mostly as they should be, so that its map is whole
            let what = if self.peaceful && !self.dice.one_in(12) { self.dice.below(53) } else { self.dice.below(100) };
            match what {
                0..=39 => {
                    for _ in 0..self.n {
                        self.round = (self.round + 1) % self.n;
                        let word = &self.others[self.round as usize].word;
                        if self.round != self.me && self.known(self.round) != Some(word) {
                            return word.clone();
                        }
                    }
                    self.others[at].word.clone()
                }
                40..=49 => self.others[at].word.clone(),
                50..=57 => {
                    self.news(at);
                    self.others[at].word.clone()
                }
                58..=63 => {
                    let earlier = &self.others[at].earlier;
                    if earlier.is_empty() { self.others[at].word.clone() } else { earlier[self.dice.below(earlier.len())].clone() }
                }
                64..=72 => {
                    // the count that is known, under another tag
                    let mut word = self.known(b).unwrap_or(&self.others[at].word).clone();
                    word.tag = self.other_tag(word.tag);
                    if self.dice.one_in(2) {
                        word.roads = self.some_roads(b);
                    }
                    if b != self.me && self.dice.one_in(3) {
                        self.others[at].word = word.clone();
                    }
                    word
                }
                73..=84 => self.about_me(),
                85..=90 => {
                    let count = match self.dice.below(4) {
                        0 => SPENT - 1,
                        1 => 1 + self.dice.next() % (SPENT - 1),
                        _ => 1 + self.dice.below(4) as u64,
                    };
                    let count = if b == self.me && !self.near_the_end { count.min(1 << 40) } else { count };
                    Word { about: b, count, tag: self.tag(), roads: self.some_roads(b) }
                }
                _ => self.known(b).unwrap_or(&self.others[at].word).clone(),
            }
        }

        fn other_tag(&mut self, tag: u64) -> u64 {
            match self.dice.below(6) {
                0 => tag.wrapping_add(1),
                1 => tag.wrapping_sub(1),
                2 => tag ^ (1 << 63),
                3 => tag,
                4 => self.tag(),
                _ => self.dice.next(),
            }
        }

        fn some_roads(&mut self, b: u8) -> Vec<(u8, u16)> {
            let mut roads = std::collections::BTreeMap::new();
            for _ in 0..self.dice.below(9) {
                let to = self.any_box();
                if to != b {
                    roads.insert(to, self.cost());
                }
            }
            roads.into_iter().collect()
        }

        fn about_me(&mut self) -> Word {
            let me = self.me;
            let mut word = self.known(me).cloned().unwrap_or(Word { about: me, count: 1, tag: 5, roads: Vec::new() });
            match self.dice.below(12) {
                0..=2 => {}
                3..=4 => word.count = 1 + self.dice.next() % word.count,
                5..=7 => word.tag = self.other_tag(word.tag),
                8..=9 => {
                    word.count = (word.count + 1 + self.dice.below(3) as u64).min(SPENT - 1);
                    word.tag = self.tag();
                }
                10 => word.roads = self.some_roads(me),
                _ => {
                    if self.near_the_end && self.dice.one_in(6) {
                        word.count = SPENT - 1 - self.dice.below(4) as u64;
                    } else {
                        word.count = (word.count + self.dice.below(100_000) as u64).min(SPENT - 1);
                    }
                    word.tag = self.tag();
                }
            }
            word
        }

        fn words(&mut self, from: u8) -> Vec<u8> {
            let drawn = self.drawn_of(from);
            let many = 1 + self.dice.below(4);
            let mut told: Vec<Word> = (0..many).map(|_| self.a_word()).collect();
            if self.dice.one_in(12) {
                let at = self.dice.below(many);
                told[at] = told[self.dice.below(many)].clone();
                if self.dice.one_in(2) {
                    told[at].count = (told[at].count + 1).min(SPENT - 1);
                }
            }
            if self.dice.one_in(25) {
                let at = self.dice.below(many);
                let n = self.n;
                let cost = self.cost();
                let word = &mut told[at];
                match self.dice.below(10) {
                    0 => word.about = self.dice.of(&[n, 64, 255, n.wrapping_add(3)]),
                    1 => word.count = 0,
                    2 => word.count = SPENT,
                    3 => word.count = self.dice.of(&[u64::MAX, SPENT + 1]),
                    4 => word.roads = (0..9).map(|k| (k, cost)).collect(),
                    5 => word.roads.reverse(),
                    6 => {
                        if let Some(last) = word.roads.last().copied() {
                            word.roads.push(last);
                        }
                    }
                    7 => {
                        let at = word.roads.partition_point(|road| road.0 < word.about);
                        word.roads.insert(at, (word.about, cost));
                    }
                    8 => {
                        if let Some(last) = word.roads.last_mut() {
                            last.1 = 0;
                        }
                    }
                    _ => word.roads.push((self.dice.of(&[n, 64, 255]), cost)),
                }
            }
            let mut body = vec![WORDS];
            body.extend(drawn.to_be_bytes());
            body.push(self.how_many(many));
            for word in told {
                word.write(&mut body);
            }
            body
        }

        fn how_many(&mut self, many: usize) -> u8 {
            if self.dice.one_in(100) { self.dice.of(&[0, 1, 2, 3, 4, 5, 255]) } else { many as u8 }
        }

        fn seens(&mut self, from: u8) -> Vec<u8> {
            let drawn = self.drawn_of(from);
            let many = 1 + self.dice.below(4);
            let mut body = vec![SEENS];
            body.extend(drawn.to_be_bytes());
            body.push(self.how_many(many));
            for _ in 0..many {
                let b = self.any_box();
                let mut about = b;
                let (mut count, mut tag) = self.known(b).map_or((1, 2), Word::id);
                match self.dice.below(40) {
                    0..=2 => tag = self.other_tag(tag),
                    3 => count = (count + 1).min(SPENT - 1),
                    4 => count = (count - 1).max(1),
                    5 => about = self.any_box(),
                    6 if self.dice.one_in(4) => about = self.dice.of(&[self.n, 255]),
                    7 if self.dice.one_in(4) => count = self.dice.of(&[0, SPENT, u64::MAX]),
                    _ => {}
                }
                write_id(&mut body, about, (count, tag));
            }
            body
        }

        // ---- packets

        fn address(&mut self) -> [u8; 4] {
            let b = match self.dice.below(100) {
                0..=29 => self.me,
                30..=39 => self.ports[self.dice.below(8)],
                40..=98 => self.any_box(),
                _ => self.dice.of(&[self.n, 64, 255, self.n.wrapping_add(1)]),
            };
            let first = if self.dice.one_in(60) { self.dice.of(&[0, 9, 11, 127, 255]) } else { 10 };
            let house = match self.dice.below(8) {
                0..=2 => [0, 1],
                3 => self.dice.of(&[[0, 0], [1, 0], [1, 1], [255, 255], [0, 2]]),
                _ => [self.dice.next() as u8, self.dice.next() as u8],
            };
            [first, b, house[0], house[1]]
        }

        fn packet(&mut self) -> Vec<u8> {
            let (source, destination) = (self.address(), self.address());
            let to_me = destination == [10, self.me, 0, 1];
            let protocol = match self.dice.below(10) {
                0..=3 => 1,
                _ if to_me => 1,
                4..=6 => 17,
                7 => 6,
                _ => self.dice.next() as u8,
            };
            let many = match self.dice.below(40) {
                0..=9 => self.dice.below(9),
                10..=35 => self.dice.below(60),
                36..=38 => self.dice.below(1481),
                _ if self.dice.one_in(60) => 65_515 - self.dice.below(3),
                _ => 8,
            };
            let mut payload = if self.dice.one_in(6) { vec![0; many] } else { self.dice.bytes(many) };
            if protocol == 1 {
                self.make_icmp(&mut payload, to_me);
            }
            let ttl = match self.dice.below(10) {
                0 => 0,
                1 => 1,
                2 => 2,
                3 => self.dice.next() as u8,
                4 => 255,
                _ => 64,
            };
            self.ip(source, destination, ttl, protocol, &payload)
        }

        fn make_icmp(&mut self, payload: &mut [u8], to_me: bool) {
            if let Some(kind) = payload.first_mut() {
                *kind = self.dice.of(&[0, 3, 4, 5, 8, 8, 8, 8, 11, 12, 13, 14, 30, 255, 9, 10, 1, 2]);
                if to_me && !self.dice.one_in(6) {
                    *kind = 8;
                }
            }
            if payload.len() > 1 && !self.dice.one_in(12) {
                payload[1] = 0;
            }
            if payload.len() < 4 {
                return;
            }
            if payload.len() >= 6 && self.dice.one_in(6) {
                // a sum of a chosen value, by the identifier
                let wanted = self.dice.of(&[0u16, 0xffff, 1, 0xfffe, 0xf7ff, 0xf800, 0x0800, 0x07ff]);
                payload[4..6].copy_from_slice(&[0, 0]);
                payload[2..4].copy_from_slice(&wanted.to_be_bytes());
                let rest = !folded(payload);
                payload[4..6].copy_from_slice(&rest.to_be_bytes());
                return;
            }
            if !self.dice.one_in(10) {
                payload[2..4].copy_from_slice(&[0, 0]);
                let right = !folded(payload);
                payload[2..4].copy_from_slice(&right.to_be_bytes());
                if right == 0 && self.dice.one_in(2) {
                    payload[2..4].copy_from_slice(&[255, 255]);
                }
            }
        }

        fn ip(&mut self, source: [u8; 4], destination: [u8; 4], ttl: u8, protocol: u8, payload: &[u8]) -> Vec<u8> {
            let service = if self.dice.one_in(5) { self.dice.next() as u8 } else { 0 };
            let id = if self.dice.one_in(2) { self.dice.next() as u16 } else { 0 };
            let bits: u16 = match self.dice.below(20) {
                0 => 0x4000,
                1 => 0x2000,
                2 => 0x2000 | self.dice.next() as u16 & 0x1fff,
                3 => self.dice.next() as u16 & 0x1fff,
                4 => 0x8000,
                _ => 0,
            };
            let mut packet = vec![0x45, service];
            packet.extend((20 + payload.len() as u16).to_be_bytes());
            packet.extend(id.to_be_bytes());
            packet.extend(bits.to_be_bytes());
            packet.extend([ttl, protocol, 0, 0]);
            packet.extend(source);
            packet.extend(destination);
            if self.dice.one_in(8) {
                // a header sum of a chosen value, by the number of the packet
                let wanted = self.dice.of(&[0u16, 0xffff, 0xfeff, 0xff00, 0xfefe, 0xff01, 0x00ff, 0x0100, 0xfe00]);
                packet[4..6].copy_from_slice(&[0, 0]);
                packet[10..12].copy_from_slice(&wanted.to_be_bytes());
                let rest = !folded(&packet);
                packet[4..6].copy_from_slice(&rest.to_be_bytes());
            } else {
                let right = !folded(&packet);
                packet[10..12].copy_from_slice(&right.to_be_bytes());
            }
            packet.extend(payload);
            packet
        }

        fn head_again(packet: &mut [u8]) {
            if packet.len() >= 20 {
                packet[10..12].copy_from_slice(&[0, 0]);
                let right = !folded(&packet[..20]);
                packet[10..12].copy_from_slice(&right.to_be_bytes());
            }
        }

        fn damage(&mut self, bytes: &mut Vec<u8>) {
            self.model.out.tally.damaged += 1;
            match self.dice.below(8) {
                0..=2 => {
                    for _ in 0..1 + self.dice.below(3) {
                        if !bytes.is_empty() {
                            let at = self.dice.below(bytes.len());
                            bytes[at] ^= 1 << self.dice.below(8);
                        }
                    }
                }
                3 => {
                    let to = self.dice.below(bytes.len() + 1);
                    bytes.truncate(to);
                }
                4 => {
                    let many = 1 + self.dice.below(9);
                    let more = self.dice.bytes(many);
                    bytes.extend(more);
                }
                5 => {
                    if !bytes.is_empty() {
                        let at = self.dice.below(bytes.len());
                        bytes[at] = self.dice.of(&[0, 1, 2, 3, 4, 5, 6, 8, 9, 63, 64, 127, 128, 255, self.n, self.n.wrapping_sub(1), self.me]);
                    }
                }
                6 => {
                    // the first bytes only, where what stands counts most
                    if !bytes.is_empty() {
                        let at = self.dice.below(bytes.len().min(24));
                        bytes[at] = self.dice.next() as u8;
                    }
                }
                _ => {
                    let at = self.dice.below(bytes.len() + 1);
                    if self.dice.one_in(2) {
                        bytes.insert(at, self.dice.next() as u8);
                    } else if at < bytes.len() {
                        bytes.remove(at);
                    }
                }
            }
        }

        // A frame of a body that is damaged before its sum is made, or after.
        fn damaged(&mut self, mut body: Vec<u8>) -> Vec<u8> {
            if self.dice.one_in(4) {
                let mut frame = frame(&body);
                self.damage(&mut frame);
                if frame.is_empty() {
                    frame.push(0);
                }
                return frame;
            }
            self.damage(&mut body);
            if body.first() == Some(&PACKET) && self.dice.one_in(2) {
                Self::head_again(&mut body[1..]);
            }
            frame(&body)
        }

        // ---- what may happen

        fn settings(&mut self, n: u8, me: u8, costs: [u16; 8]) -> Vec<u8> {
            let mut body = vec![SETTINGS, n, me];
            for cost in costs {
                body.extend(cost.to_be_bytes());
            }
            body
        }

        fn set(&mut self) {
            let mut costs = self.good;
            match self.dice.below(10) {
                0..=3 => {}
                4..=6 => {
                    let wire = self.dice.below(8);
                    costs[wire] = if costs[wire] == 0 || self.dice.one_in(2) { self.cost() } else { 0 };
                }
                _ => {
                    for cost in &mut costs {
                        match self.dice.below(4) {
                            0 => *cost = 0,
                            1 => *cost = self.cost(),
                            _ => {}
                        }
                    }
                }
            }
            let (n, me) = match self.dice.below(30) {
                0 => (self.n, self.any_box()),
                1 => (self.dice.next() as u8, self.me),
                2 => (0, 0),
                3 => (self.dice.of(&[65, 255]), self.me),
                4 => (self.n, self.n),
                _ => (self.n, self.me),
            };
            let mut body = self.settings(n, me, costs);
            if self.dice.one_in(10) {
                self.damage(&mut body);
                if body.is_empty() {
                    body.push(6);
                }
            }
            self.give_bytes("settings ", &body);
            let left = self.model.running.as_ref().map_or([0; 8], |r| r.costs);
            if left.iter().any(|cost| *cost != 0) {
                self.good = left;
            }
        }

        fn line_of_no_form(&mut self) {
            let wire = self.dice.below(12);
            let many = 1 + self.dice.below(5);
            let bytes = self.dice.bytes(many);
            let mut digits = Vec::new();
            hex(&mut digits, &bytes);
            let digits = String::from_utf8_lossy(&digits).to_string();
            let line: Vec<u8> = match self.dice.below(24) {
                0 => b"".to_vec(),
                1 => b"tick ".to_vec(),
                2 => b" tick".to_vec(),
                3 => b"TICK".to_vec(),
                4 => b"tick\r".to_vec(),
                5 => format!("wire {wire} {digits}").into_bytes(),
                6 => format!("wire {wire}").into_bytes(),
                7 => format!("wire {wire} ").into_bytes(),
                8 => format!("wire {} {digits}0", wire % 8).into_bytes(),
                9 => format!("wire  {} {digits}", wire % 8).into_bytes(),
                10 => format!("wire {}  {digits}", wire % 8).into_bytes(),
                11 => format!("wire {} {digits} ", wire % 8).into_bytes(),
                12 => format!("wire {} {digits}g0", wire % 8).into_bytes(),
                13 => format!("wire 0{} {digits}", wire % 8).into_bytes(),
                14 => b"draw 0000000000000000".to_vec(),
                15 => format!("draw {digits}").into_bytes(),
                16 => format!("draw {:017x}", self.dice.next()).into_bytes(),
                17 => format!("house {digits} {digits}").into_bytes(),
                18 => b"house ".to_vec(),
                19 => format!("settings {digits}x").into_bytes(),
                20 => b"fall fall".to_vec(),
                21 => format!("book {digits}").into_bytes(),
                22 => format!("house 0x{digits}").into_bytes(),
                _ => {
                    let many = self.dice.below(40);
                    self.dice.bytes(many).into_iter().filter(|b| *b != b'\n').collect()
                }
            };
            self.give(&line);
        }

        fn house(&mut self) {
            let mut packet = self.packet();
            match self.dice.below(40) {
                0..=3 => {
                    self.damage(&mut packet);
                    if self.dice.one_in(2) {
                        Self::head_again(&mut packet);
                    }
                }
                4 => {
                    let many = 1 + self.dice.below(60);
                    packet = self.dice.bytes(many);
                }
                5 if self.dice.one_in(200) => {
                    let many = self.dice.of(&[65_535, 65_536, 65_537, 66_000, 131_072, 300_000]);
                    packet.resize(many, 0);
                }
                _ => {}
            }
            if packet.is_empty() {
                packet.push(0x45);
            }
            self.give_bytes("house ", &packet);
        }

        fn step(&mut self) {
            match self.dice.weighed(&self.weights) {
                0 => {
                    let many = match self.dice.below(30) {
                        0..=19 => 1,
                        20..=28 => 1 + self.dice.below(10),
                        _ => 1 + self.dice.below(50),
                    };
                    for _ in 0..many {
                        self.give(b"tick");
                    }
                }
                1 => self.hellos(),
                2 => {
                    let wire = self.any_wire();
                    let body = self.hello(wire);
                    self.post(wire, body);
                }
                3 => {
                    // what was late comes
                    for _ in 0..1 + self.dice.below(6) {
                        let at = if self.dice.one_in(3) { self.dice.below(self.late.len() + 1) } else { 0 };
                        if let Some((wire, frame)) = self.late.remove(at) {
                            if !self.dice.one_in(12) {
                                self.send(wire, &frame);
                            }
                        }
                    }
                    self.late.truncate(200);
                }
                4 | 5 => {
                    let wire = self.any_wire();
                    let body = self.words(self.ports[wire as usize]);
                    self.post(wire, body);
                }
                6 => {
                    let wire = self.any_wire();
                    let mut body = vec![PACKET];
                    body.extend(self.packet());
                    self.post(wire, body);
                }
                7 => self.house(),
                8 => {
                    let wire = self.any_wire();
                    let body = self.seens(self.ports[wire as usize]);
                    self.post(wire, body);
                }
                9 => {
                    if self.dice.one_in(6) {
                        let life = self.life();
                        self.own_lives.push(life);
                        self.give(b"fall");
                    }
                }
                10 => self.set(),
                11 => self.line_of_no_form(),
                12 => {
                    // something that came comes again, on its wire or another
                    if !self.past.is_empty() {
                        let (mut wire, frame) = self.past[self.dice.below(self.past.len())].clone();
                        if self.dice.one_in(3) {
                            wire = self.dice.below(8) as u8;
                        }
                        self.send(wire, &frame);
                    }
                }
                _ => {
                    // packets of one kind, many at once: what is refused is refused more than ten times in a second
                    if self.dice.one_in(12) {
                        let packet = self.packet();
                        for _ in 0..self.dice.below(16) {
                            self.give_bytes("house ", &packet);
                        }
                    } else if self.dice.one_in(30) {
                        self.packets_to_all();
                    } else if self.dice.one_in(40) {
                        let many = self.dice.below(20);
                        let bytes = self.dice.bytes(many);
                        let wire = self.any_wire();
                        self.post(wire, bytes);
                    } else if self.dice.one_in(400) {
                        for _ in 0..1030 {
                            self.draw();
                        }
                    } else {
                        let wire = self.any_wire();
                        let body = self.words(self.ports[wire as usize]);
                        self.post(wire, body);
                    }
                }
            }
        }

        fn packets_to_all(&mut self) {
            let wire = self.any_wire();
            for b in 0..self.n {
                let host = self.dice.next() as u8;
                let packet = self.ip([10, self.ports[wire as usize], 1, host], [10, b, 2, host], 64, 17, &[1, 2, 3, 4, 5, 6, 7, 8, 9]);
                if self.dice.one_in(2) {
                    self.send(wire, &frame(&[&[PACKET], &packet[..]].concat()));
                } else {
                    self.give_bytes("house ", &packet);
                }
            }
        }

        // A packet towards some box, by a wire or from a house.
        fn packet_to_some(&mut self) {
            let wire = self.any_wire();
            let (source, b, host) = (self.any_box(), self.any_box(), self.dice.next() as u8);
            let packet = self.ip([10, source, 1, host], [10, b, 2, host], 64, 17, &[host; 9]);
            if self.dice.one_in(2) {
                self.send(wire, &frame(&[&[PACKET], &packet[..]].concat()));
            } else {
                self.give_bytes("house ", &packet);
            }
        }

        // A story of so many inputs, and its end.
        pub fn tell(&mut self, inputs: usize) {
            self.begin();
            while self.model.out.tally.inputs < inputs {
                let before = self.model.out.tally.clone();
                self.step();
                // after a change packets show it: most of all while the words don't say yet which road has closed
                let now = &self.model.out.tally;
                let closed = now.closed + now.kinds[1] != before.closed + before.kinds[1];
                let changed = now.taken + now.said != before.taken + before.said;
                if closed && self.dice.one_in(2) || changed && self.dice.one_in(4) {
                    for _ in 0..1 + self.dice.below(4) {
                        self.packet_to_some();
                    }
                }
            }
            self.end();
            // the last line counts without its newline too
            if self.dice.one_in(2) {
                self.text.pop();
            }
        }

        fn begin(&mut self) {
            for _ in 0..self.dice.below(6) {
                match self.dice.below(6) {
                    0 => self.give(b"tick"),
                    1 => self.give(b"fall"),
                    2 => self.line_of_no_form(),
                    3 => self.house(),
                    4 => self.draw(),
                    _ => {
                        let mut body = self.settings(self.n, self.me, self.good);
                        self.damage(&mut body);
                        // damaged settings may be good ones of another box
                        let good = body.len() == 19 && body[0] == 6 && (1..=64).contains(&body[1]) && body[2] < body[1];
                        if !good && !body.is_empty() {
                            self.give_bytes("settings ", &body);
                        }
                    }
                }
            }
            let body = self.settings(self.n, self.me, self.good);
            while self.model.running.is_none() {
                self.give_bytes("settings ", &body);
            }
        }

        // What is left in the box comes out: its ways by packets to all, what it counts as shown by what it tells, and then all its words, since its neighbours all live anew.
        fn end(&mut self) {
            let body = self.settings(self.n, self.me, self.good);
            self.give_bytes("settings ", &body);
            self.packets_to_all();
            for k in 0..60 {
                if k % 10 == 0 {
                    self.hellos();
                }
                if k % 20 == 7 {
                    for wire in 0..8 {
                        let who = self.ports[wire as usize] as usize;
                        let mut body = vec![WORDS];
                        body.extend(self.others[who].life.to_be_bytes());
                        body.push(1);
                        self.others[who].word.write(&mut body);
                        self.send(wire, &frame(&body));
                    }
                }
                self.give(b"tick");
                if k % 30 == 29 {
                    self.packets_to_all();
                }
            }
            for b in 0..self.n as usize {
                self.lives_anew(b);
            }
            let to = self.ticks() + 10 + 5 * (self.n as u32 / 4 + 1);
            while self.ticks() < to {
                if self.ticks() % 10 == 0 {
                    self.hellos();
                }
                // numbers first, so that the line of the tick is the last one
                while self.model.stock.is_empty() {
                    self.draw();
                }
                self.one(b"tick");
                for (wire, body) in std::mem::take(&mut self.model.out.sent) {
                    if body[0] == WORDS {
                        if let Some(back) = self.seen_back(wire, &body) {
                            self.give_bytes(&format!("wire {wire} "), &frame(&back));
                        }
                    }
                }
            }
            self.packets_to_all();
        }
    }

    fn hello_body(who: u8, drawn: u64, heard: u64) -> Vec<u8> {
        let mut body = vec![HELLO, who];
        body.extend(drawn.to_be_bytes());
        body.extend(heard.to_be_bytes());
        body
    }
}

// What a program prints when it reads this, how it ended, and what it wrote into its book.
fn printed(program: &[String], book: Option<&str>, text: &[u8]) -> Result<(Vec<u8>, Vec<u8>), String> {
    let mut command = Command::new(&program[0]);
    command.args(&program[1..]).stdin(Stdio::piped()).stdout(Stdio::piped());
    if let Some(book) = book {
        command.args(["--book", book]);
    }
    let mut child = command.spawn().map_err(|e| format!("{}: {e}", program[0]))?;
    let (Some(mut into), Some(mut from)) = (child.stdin.take(), child.stdout.take()) else { return Err("no pipes".into()) };
    let mut out = Vec::new();
    std::thread::scope(|scope| {
        // if the child ends early, what it printed differs
        scope.spawn(move || into.write_all(text));
        from.read_to_end(&mut out)
    })
    .map_err(|e| e.to_string())?;
    let status = child.wait().map_err(|e| e.to_string())?;
    if !status.success() {
        out.extend(format!("\nended with {status}\n").bytes());
    }
    let mut written = Vec::new();
    if let Some(book) = book {
        written = std::fs::read(book).map_err(|e| e.to_string())?;
        let _ = std::fs::remove_file(book);
    }
    Ok((out, written))
}

// The model's answers to these lines one by one, and the line at which the program's differ, if any.
fn differing(program: &[String], text: &[u8]) -> Option<usize> {
    let mut model = model::Model::default();
    let mut ends = Vec::new();
    for line in text.split_inclusive(|b| *b == b'\n') {
        model.line(line.strip_suffix(b"\n").unwrap_or(line));
        ends.push(model.out.text.len());
    }
    let (out, _) = printed(program, None, text).ok()?;
    first_difference(&model.out.text, &out, &ends)
}

fn first_difference(ours: &[u8], theirs: &[u8], ends: &[usize]) -> Option<usize> {
    if ours == theirs {
        return None;
    }
    let at = ours.iter().zip(theirs).position(|(x, y)| x != y).unwrap_or(ours.len().min(theirs.len()));
    Some(ends.partition_point(|end| *end <= at).min(ends.len() - 1))
}

// Lines in groups that can be left out: with each line the numbers that it uses, given just before it, so that leaving it out takes no number from another.
fn groups(lines: &[Vec<u8>]) -> Vec<Vec<u8>> {
    let mut model = model::Model::default();
    let mut waiting: VecDeque<Vec<u8>> = VecDeque::new();
    let mut groups = Vec::new();
    for line in lines {
        let had = model.stock.len();
        model.line(line.strip_suffix(b"\n").unwrap_or(line));
        if model.stock.len() > had {
            waiting.push_back(line.clone());
        } else if model.out.wanted == 0 {
            let mut group: Vec<u8> = waiting.drain(..had - model.stock.len()).flatten().collect();
            group.extend(line);
            groups.push(group);
        }
    }
    groups
}

// Lines are left out as long as some difference is left: first in groups, then one by one.
fn shortened(program: &[String], lines: Vec<Vec<u8>>) -> Vec<Vec<u8>> {
    let begun = std::time::Instant::now();
    let grouped = groups(&lines);
    let mut lines = if differing(program, &grouped.concat()).is_some() { grouped } else { lines };
    for _ in 0..2 {
        let mut part = lines.len().div_ceil(2);
        while part > 0 {
            let mut at = 0;
            while at < lines.len() && begun.elapsed().as_secs() < 60 {
                let mut fewer = lines.clone();
                fewer.drain(at..(at + part).min(lines.len()));
                match differing(program, &fewer.concat()) {
                    Some(_) => lines = fewer,
                    None => at += part,
                }
            }
            part /= 2;
        }
        let all = lines.concat();
        lines = all.split_inclusive(|b| *b == b'\n').map(<[u8]>::to_vec).collect();
    }
    lines
}

// The last lines before a difference, and what each of the two prints at it.
fn shown(program: &[String], lines: &[Vec<u8>], last: usize) -> String {
    let cut = |line: &[u8]| {
        let line = String::from_utf8_lossy(line).trim_end().to_string();
        if line.len() > 400 { format!("{}.. ({} bytes)", line.chars().take(300).collect::<String>(), line.len()) } else { line }
    };
    let mut told = String::new();
    let mut model = model::Model::default();
    let before = lines.len().saturating_sub(last);
    let mut from = 0;
    for (k, line) in lines.iter().enumerate() {
        from = model.out.text.len();
        model.line(line.strip_suffix(b"\n").unwrap_or(line));
        if k >= before {
            told += &format!("  {}\n", cut(line));
        }
    }
    let theirs = printed(program, None, &lines.concat()).map(|(out, _)| out).unwrap_or_default();
    let mut part = |name: &str, all: &[u8]| {
        told += &format!("{name}\n");
        for line in all.get(from..).unwrap_or_default().split(|b| *b == b'\n').filter(|line| !line.is_empty()) {
            told += &format!("  {}\n", cut(line));
        }
    };
    part("by the rules the last one gives", &model.out.text);
    part("the program prints", &theirs);
    told
}

fn report(program: &[String], text: &[u8], at: usize, name: &str) -> String {
    let mut lines: Vec<Vec<u8>> = text.split_inclusive(|b| *b == b'\n').map(<[u8]>::to_vec).collect();
    lines.truncate(at + 1);
    let mut told = format!("{name}: difference at line {} of\n", at + 1);
    told += &shown(program, &lines, 20);
    let short = shortened(program, lines);
    told += &format!("\nthe shortest that was found, {} lines:\n", short.len());
    told += &shown(program, &short, 60);
    let _ = std::fs::write("target/fuzz.difference", short.concat());
    told
}

// How many inputs a sequence has, before its end.
const LENGTHS: [usize; 4] = [3_000, 10_000, 20_000, 27_000];

fn main() -> ExitCode {
    let words: Vec<String> = std::env::args().collect();
    if words.len() < 4 {
        println!("fuzz INPUTS SEED PROGRAM [WORDS..], or fuzz - FILE PROGRAM [WORDS..]");
        return ExitCode::FAILURE;
    }
    let program = &words[3..];
    if words[1] == "-" {
        let text = std::fs::read(&words[2]).expect("a file of lines");
        return match differing(program, &text) {
            None => ExitCode::SUCCESS,
            Some(at) => {
                println!("{}", report(program, &text, at, &words[2]));
                ExitCode::FAILURE
            }
        };
    }
    let inputs: usize = words[1].parse().expect("how many inputs");
    let seed: u64 = words[2].parse().expect("a seed");
    // how long each sequence is
    let mut lengths = Vec::new();
    let mut sum = 0;
    while sum < inputs {
        let length = Random::new(!seed, lengths.len() as u64).of(&LENGTHS).min(inputs - sum);
        lengths.push(length);
        sum += length;
    }
    let begun = std::time::Instant::now();
    let next = AtomicUsize::new(0);
    let total = Mutex::new(Tally::default());
    let worst: Mutex<Option<(usize, String)>> = Mutex::new(None);
    std::thread::scope(|scope| {
        for _ in 0..2 {
            scope.spawn(|| loop {
                let k = next.fetch_add(1, Ordering::Relaxed);
                if k >= lengths.len() || worst.lock().unwrap().is_some() {
                    return;
                }
                let apart = k % 8 == 5;
                let mut story = story::Story::new(seed, k as u64, apart);
                story.tell(lengths[k]);
                let book = format!("{}/fuzz-{}-{k}.book", std::env::temp_dir().display(), std::process::id());
                let ours = &story.model.out;
                let answer = printed(program, apart.then_some(book.as_str()), &story.text);
                total.lock().unwrap().add(&ours.tally);
                let told = match answer {
                    Err(why) => why,
                    Ok((out, written)) if out == ours.text && written == ours.book => continue,
                    Ok((out, written)) => {
                        match if apart { differing(program, &story.text) } else { first_difference(&ours.text, &out, &story.ends) } {
                            Some(at) => report(program, &story.text, at, &format!("seed {seed}, sequence {k}")),
                            None => format!("seed {seed}, sequence {k}: a book apart differs: {} bytes, {} by the rules; printed {}", written.len(), ours.book.len(), out == ours.text),
                        }
                    }
                };
                let mut worst = worst.lock().unwrap();
                if worst.as_ref().is_none_or(|(at, _)| k < *at) {
                    *worst = Some((k, told));
                }
            });
        }
    });
    let took = begun.elapsed().as_secs_f64();
    let mut total = total.into_inner().unwrap();
    let kinds: Vec<String> = KINDS.iter().zip(total.kinds).map(|(name, many)| format!("{name} {many}")).collect();
    let line = |all: &[usize]| (1..12).filter(|k| all[*k] != 0).map(|k| format!("{k}: {}", all[k])).collect::<Vec<_>>().join(", ");
    println!("{} sequences, {took:.0} s", lengths.len());
    println!("inputs by kind: {}", kinds.join(", "));
    println!("refused in the journal, by number: {}", line(&total.refusals));
    println!("refused before the box: {}", line(&total.outside));
    for (name, many) in total.all() {
        println!("{name}: {many}");
    }
    match worst.into_inner().unwrap() {
        None => {
            println!("no difference");
            ExitCode::SUCCESS
        }
        Some((_, told)) => {
            println!("{told}");
            ExitCode::FAILURE
        }
    }
}
