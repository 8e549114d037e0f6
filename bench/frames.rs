// Bytes: the proved library against a plain Rust implementation that was written from the formats and shares no code with it, on a million generated frames and packets with a fixed seed.
// Every answer and every byte left in a buffer is compared, and then both are timed in the same run. With the word `hex` it prints packets of the proved library instead, for
// text2pcap.
use std::collections::BTreeMap;
use std::hint::black_box;
use std::time::Instant;

extern "C" {
    fn router_crc(bytes: *const u8, len: usize) -> u32;
    fn router_sum_fits(frame: *const u8, len: usize) -> bool;
    fn router_frame(n: u8, bytes: *const u8, len: usize, out: *mut u8, out_len: usize) -> u8;
    fn router_numbers(n: u8, bytes: *const u8, len: usize, into: *mut u64, into_len: usize);
    fn router_costs(n: u8, bytes: *const u8, len: usize, which: u8, into: *mut u16, into_len: usize);
    fn router_settings(bytes: *const u8, len: usize, out: *mut u8, out_len: usize) -> u8;
    fn router_line(n: u8, bytes: *const u8, len: usize, out: *mut u8, out_len: usize) -> usize;
    fn router_errand(n: u8, me: u8, packet: *const u8, len: usize) -> u16;
    fn router_hand_on(packet: *mut u8, len: usize);
    fn router_echo_back(packet: *mut u8, len: usize);
    fn router_is_error(packet: *const u8, len: usize) -> bool;
    fn router_write_error(me: u8, kind: u8, packet: *const u8, len: usize, out: *mut u8, out_len: usize) -> usize;
}

mod proved {
    pub fn crc(bytes: &[u8]) -> u32 {
        unsafe { super::router_crc(bytes.as_ptr(), bytes.len()) }
    }
    pub fn sum_fits(frame: &[u8]) -> bool {
        unsafe { super::router_sum_fits(frame.as_ptr(), frame.len()) }
    }
    pub fn frame(n: u8, bytes: &[u8], out: &mut [u8]) -> u8 {
        unsafe { super::router_frame(n, bytes.as_ptr(), bytes.len(), out.as_mut_ptr(), out.len()) }
    }
    pub fn numbers(n: u8, bytes: &[u8], into: &mut [u64]) {
        unsafe { super::router_numbers(n, bytes.as_ptr(), bytes.len(), into.as_mut_ptr(), into.len()) }
    }
    pub fn costs(n: u8, bytes: &[u8], which: u8, into: &mut [u16]) {
        unsafe { super::router_costs(n, bytes.as_ptr(), bytes.len(), which, into.as_mut_ptr(), into.len()) }
    }
    pub fn settings(bytes: &[u8], out: &mut [u8]) -> u8 {
        unsafe { super::router_settings(bytes.as_ptr(), bytes.len(), out.as_mut_ptr(), out.len()) }
    }
    pub fn line(n: u8, bytes: &[u8], out: &mut [u8]) -> usize {
        unsafe { super::router_line(n, bytes.as_ptr(), bytes.len(), out.as_mut_ptr(), out.len()) }
    }
    pub fn errand(n: u8, me: u8, packet: &[u8]) -> u16 {
        unsafe { super::router_errand(n, me, packet.as_ptr(), packet.len()) }
    }
    pub fn hand_on(packet: &mut [u8]) {
        unsafe { super::router_hand_on(packet.as_mut_ptr(), packet.len()) }
    }
    pub fn echo_back(packet: &mut [u8]) {
        unsafe { super::router_echo_back(packet.as_mut_ptr(), packet.len()) }
    }
    pub fn is_error(packet: &[u8]) -> bool {
        unsafe { super::router_is_error(packet.as_ptr(), packet.len()) }
    }
    pub fn write_error(me: u8, kind: u8, packet: &[u8], out: &mut [u8]) -> usize {
        unsafe { super::router_write_error(me, kind, packet.as_ptr(), packet.len(), out.as_mut_ptr(), out.len()) }
    }
}

// The same in plain Rust.
mod plain {
    pub const FORM: u8 = 1;
    pub const RANGE: u8 = 2;
    pub const COUNT: u8 = 11;

    // CRC-32C bit by bit, and by a table that is made of it.
    pub const fn crc_step(mut c: u32) -> u32 {
        let mut k = 0;
        while k < 8 {
            c = if c & 1 == 1 { (c >> 1) ^ 0x82f6_3b78 } else { c >> 1 };
            k += 1;
        }
        c
    }

    pub fn crc_bitwise(bytes: &[u8]) -> u32 {
        !bytes.iter().fold(!0, |c, b| crc_step(c ^ *b as u32))
    }

    static TABLE: [u32; 256] = {
        let mut table = [0; 256];
        let mut i = 0;
        while i < 256 {
            table[i] = crc_step(i as u32);
            i += 1;
        }
        table
    };

    #[inline(never)]
    pub fn crc(bytes: &[u8]) -> u32 {
        let mut c = !0u32;
        for b in bytes {
            c = TABLE[(c as u8 ^ *b) as usize] ^ (c >> 8);
        }
        !c
    }

    pub fn sum_fits(frame: &[u8]) -> bool {
        match frame.split_last_chunk::<4>() {
            Some((body, sum)) => crc(body) == u32::from_le_bytes(*sum),
            None => false,
        }
    }

    #[derive(Clone, Copy)]
    pub struct Id {
        pub about: u8,
        pub count: u64,
        pub tag: u64,
    }

    // The costs as whoever uses them wants them: by box.
    #[derive(Clone, Copy)]
    pub struct Word {
        pub id: Id,
        pub costs: [u16; 64],
    }

    const NO_ID: Id = Id { about: 0, count: 0, tag: 0 };
    const NO_WORD: Word = Word { id: NO_ID, costs: [0; 64] };

    pub enum Frame<'a> {
        Hello { from: u8, drawn: u64, heard: u64 },
        Words { drawn: u64, count: usize, items: [Word; 4] },
        Seen { drawn: u64, count: usize, items: [Id; 4] },
        Packet(&'a [u8]),
    }

    struct Bytes<'a>(&'a [u8]);

    impl<'a> Bytes<'a> {
        fn take<const N: usize>(&mut self) -> Result<[u8; N], u8> {
            let (front, rest) = self.0.split_first_chunk::<N>().ok_or(FORM)?;
            self.0 = rest;
            Ok(*front)
        }
        fn byte(&mut self) -> Result<u8, u8> {
            Ok(self.take::<1>()?[0])
        }
        fn short(&mut self) -> Result<u16, u8> {
            Ok(u16::from_be_bytes(self.take()?))
        }
        fn long(&mut self) -> Result<u64, u8> {
            Ok(u64::from_be_bytes(self.take()?))
        }
        fn not_zero(&mut self) -> Result<u64, u8> {
            match self.long()? {
                0 => Err(RANGE),
                x => Ok(x),
            }
        }
        fn box_of(&mut self, n: u8) -> Result<u8, u8> {
            match self.byte()? {
                b if b < n => Ok(b),
                _ => Err(RANGE),
            }
        }
        fn how_many(&mut self) -> Result<usize, u8> {
            match self.byte()? {
                k @ 1..=4 => Ok(k as usize),
                _ => Err(FORM),
            }
        }
        fn id(&mut self, n: u8) -> Result<Id, u8> {
            Ok(Id { about: self.box_of(n)?, count: self.not_zero()?, tag: self.long()? })
        }
        fn word(&mut self, n: u8) -> Result<Word, u8> {
            let mut word = Word { id: self.id(n)?, costs: [0; 64] };
            let roads = self.byte()?;
            if roads > 8 {
                return Err(RANGE);
            }
            let mut last = None;
            for _ in 0..roads {
                let to = self.box_of(n)?;
                if last.is_some_and(|l| to <= l) || to == word.id.about {
                    return Err(RANGE);
                }
                last = Some(to);
                let cost = self.short()?;
                if cost == 0 {
                    return Err(RANGE);
                }
                word.costs[to as usize] = cost;
            }
            Ok(word)
        }
        fn end(&self) -> Result<(), u8> {
            if self.0.is_empty() { Ok(()) } else { Err(FORM) }
        }
    }

    fn low(count: u64) -> Result<(), u8> {
        if count >> 63 == 0 { Ok(()) } else { Err(COUNT) }
    }

    pub fn read_frame(n: u8, bytes: &[u8]) -> Result<Frame<'_>, u8> {
        let mut b = Bytes(bytes);
        match b.byte()? {
            1 => {
                let frame = Frame::Hello { from: b.box_of(n)?, drawn: b.not_zero()?, heard: b.long()? };
                b.end()?;
                Ok(frame)
            }
            2 => {
                let (drawn, count) = (b.not_zero()?, b.how_many()?);
                let mut items = [NO_WORD; 4];
                for item in &mut items[..count] {
                    *item = b.word(n)?;
                }
                b.end()?;
                for item in &items {
                    low(item.id.count)?;
                }
                Ok(Frame::Words { drawn, count, items })
            }
            3 => {
                let (drawn, count) = (b.not_zero()?, b.how_many()?);
                let mut items = [NO_ID; 4];
                for item in &mut items[..count] {
                    *item = b.id(n)?;
                }
                b.end()?;
                for item in &items {
                    low(item.count)?;
                }
                Ok(Frame::Seen { drawn, count, items })
            }
            4 => Ok(Frame::Packet(b.0)),
            _ => Err(FORM),
        }
    }

    impl Word {
        fn roads(&self) -> usize {
            self.costs.iter().filter(|c| **c != 0).count()
        }
        fn len(&self) -> usize {
            18 + 3 * self.roads()
        }
    }

    // The front of a buffer, written one group after the other.
    struct Writing<'a>(&'a mut [u8]);

    impl<'a> Writing<'a> {
        // For so many bytes, if there is room.
        fn new(out: &'a mut [u8], len: usize) -> Option<Writing<'a>> {
            Some(Writing(out.get_mut(..len)?))
        }
        fn add(&mut self, bytes: &[u8]) {
            let (front, rest) = std::mem::take(&mut self.0).split_at_mut(bytes.len());
            front.copy_from_slice(bytes);
            self.0 = rest;
        }
        fn id(&mut self, id: &Id) {
            self.add(&[id.about]);
            self.add(&id.count.to_be_bytes());
            self.add(&id.tag.to_be_bytes());
        }
        fn word(&mut self, word: &Word) {
            self.id(&word.id);
            self.add(&[word.roads() as u8]);
            for (to, cost) in word.costs.iter().enumerate().filter(|(_, c)| **c != 0) {
                self.add(&[to as u8]);
                self.add(&cost.to_be_bytes());
            }
        }
    }

    pub fn write_frame(frame: &Frame, out: &mut [u8]) -> Option<()> {
        match frame {
            Frame::Hello { from, drawn, heard } => {
                let mut w = Writing::new(out, 18)?;
                w.add(&[1, *from]);
                w.add(&drawn.to_be_bytes());
                w.add(&heard.to_be_bytes());
            }
            Frame::Words { drawn, count, items } => {
                let items = &items[..*count];
                let mut w = Writing::new(out, 10 + items.iter().map(Word::len).sum::<usize>())?;
                w.add(&[2]);
                w.add(&drawn.to_be_bytes());
                w.add(&[*count as u8]);
                for item in items {
                    w.word(item);
                }
            }
            Frame::Seen { drawn, count, items } => {
                let mut w = Writing::new(out, 10 + 17 * count)?;
                w.add(&[3]);
                w.add(&drawn.to_be_bytes());
                w.add(&[*count as u8]);
                for item in &items[..*count] {
                    w.id(item);
                }
            }
            Frame::Packet(bytes) => {
                let mut w = Writing::new(out, 1 + bytes.len())?;
                w.add(&[4]);
                w.add(bytes);
            }
        }
        Some(())
    }

    #[inline(never)]
    pub fn frame(n: u8, bytes: &[u8], out: &mut [u8]) -> u8 {
        if n > 64 {
            return RANGE;
        }
        match read_frame(n, bytes) {
            Ok(frame) => {
                write_frame(&frame, out);
                0
            }
            Err(fault) => fault,
        }
    }

    // Kind, how many or which box, drawn, heard, and then box, count and tag of four.
    pub fn numbers(n: u8, bytes: &[u8], into: &mut [u64; 16]) {
        if n > 64 {
            return;
        }
        let mut all = [0u64; 16];
        let four = |all: &mut [u64; 16], ids: [Id; 4]| {
            for (k, id) in ids.iter().enumerate() {
                all[4 + 3 * k..7 + 3 * k].copy_from_slice(&[id.about as u64, id.count, id.tag]);
            }
        };
        match read_frame(n, bytes) {
            Ok(Frame::Hello { from, drawn, heard }) => all[..4].copy_from_slice(&[1, from as u64, drawn, heard]),
            Ok(Frame::Words { drawn, count, items }) => {
                all[..3].copy_from_slice(&[2, count as u64, drawn]);
                four(&mut all, items.map(|w| w.id));
            }
            Ok(Frame::Seen { drawn, count, items }) => {
                all[..3].copy_from_slice(&[3, count as u64, drawn]);
                four(&mut all, items);
            }
            Ok(Frame::Packet(packet)) => all[..2].copy_from_slice(&[4, packet.len() as u64]),
            Err(_) => return,
        }
        *into = all;
    }

    pub fn costs(n: u8, bytes: &[u8], which: usize, into: &mut [u16; 64]) {
        if n > 64 {
            return;
        }
        if let Ok(Frame::Words { items, .. }) = read_frame(n, bytes) {
            *into = items[which].costs;
        }
    }

    fn read_settings(bytes: &[u8]) -> Result<(u8, u8, [u16; 8]), u8> {
        let mut b = Bytes(bytes);
        if b.byte()? != 6 {
            return Err(FORM);
        }
        let n = match b.byte()? {
            n @ 1..=64 => n,
            _ => return Err(RANGE),
        };
        let me = b.box_of(n)?;
        let mut costs = [0; 8];
        for cost in &mut costs {
            *cost = b.short()?;
        }
        b.end()?;
        Ok((n, me, costs))
    }

    #[inline(never)]
    pub fn settings(bytes: &[u8], out: &mut [u8]) -> u8 {
        match read_settings(bytes) {
            Ok((n, me, costs)) => {
                if let Some(mut w) = Writing::new(out, 19) {
                    w.add(&[6, n, me]);
                    for cost in costs {
                        w.add(&cost.to_be_bytes());
                    }
                }
                0
            }
            Err(fault) => fault,
        }
    }

    enum What {
        Began(u8, u8),
        Said(Word),
        Taken(Word),
        Refused(u8),
    }

    fn read_line(n: u8, bytes: &[u8]) -> Result<(u32, What, usize), u8> {
        let mut b = Bytes(bytes);
        if b.byte()? != 5 {
            return Err(FORM);
        }
        let tick = u32::from_be_bytes(b.take()?);
        let what = match b.byte()? {
            0 => {
                let boxes = match b.byte()? {
                    boxes @ 1..=64 => boxes,
                    _ => return Err(RANGE),
                };
                What::Began(boxes, b.box_of(boxes)?)
            }
            kind @ (1 | 2) => {
                let word = b.word(n)?;
                low(word.id.count)?;
                if kind == 1 { What::Said(word) } else { What::Taken(word) }
            }
            3 => What::Refused(b.byte()?),
            _ => return Err(FORM),
        };
        Ok((tick, what, bytes.len() - b.0.len()))
    }

    fn write_line(tick: u32, what: &What, out: &mut [u8]) -> Option<()> {
        let len = match what {
            What::Began(_, _) => 3,
            What::Said(word) | What::Taken(word) => 1 + word.len(),
            What::Refused(_) => 2,
        };
        let mut w = Writing::new(out, 5 + len)?;
        w.add(&[5]);
        w.add(&tick.to_be_bytes());
        match what {
            What::Began(boxes, me) => w.add(&[0, *boxes, *me]),
            What::Said(word) => {
                w.add(&[1]);
                w.word(word);
            }
            What::Taken(word) => {
                w.add(&[2]);
                w.word(word);
            }
            What::Refused(number) => w.add(&[3, *number]),
        }
        Some(())
    }

    #[inline(never)]
    pub fn line(n: u8, bytes: &[u8], out: &mut [u8]) -> usize {
        if n > 64 {
            return 256 + RANGE as usize;
        }
        match read_line(n, bytes) {
            Ok((tick, what, length)) => {
                write_line(tick, &what, out);
                length
            }
            Err(fault) => 256 + fault as usize,
        }
    }

    // The sum of RFC 1071: words added with the carry put in at the low end.
    pub fn ones(bytes: &[u8]) -> u16 {
        let mut sum: u64 = bytes.chunks(2).map(|w| u64::from(w[0]) << 8 | w.get(1).map_or(0, |b| u64::from(*b))).sum();
        while sum >> 16 != 0 {
            sum = (sum & 0xffff) + (sum >> 16);
        }
        sum as u16
    }

    pub fn put_sum(bytes: &mut [u8], at: usize) {
        bytes[at..at + 2].fill(0);
        let sum = !ones(bytes);
        bytes[at..at + 2].copy_from_slice(&sum.to_be_bytes());
    }

    // 0 to hand it out, 1 to answer it, 2 and the box onward, or 256 and 5 for no right packet, 6 for an address of no box, 7 for no time left.
    #[inline(never)]
    pub fn errand(n: u8, me: u8, p: &[u8]) -> u16 {
        if p.len() < 20 || p[0] != 0x45 || u16::from_be_bytes([p[2], p[3]]) as usize != p.len() || ones(&p[..20]) != 0xffff {
            return 256 + 5;
        }
        if p[12] != 10 || p[13] >= n || p[16] != 10 || p[17] >= n {
            return 256 + 6;
        }
        if p[17] == me {
            let fragment = u16::from_be_bytes([p[6], p[7]]) & 0x3fff != 0;
            let echo = p.len() >= 28 && p[18..20] == [0, 1] && !fragment && p[9] == 1 && p[20..22] == [8, 0] && ones(&p[20..]) == 0xffff;
            return echo as u16;
        }
        if p[8] < 2 {
            return 256 + 7;
        }
        2 + p[17] as u16
    }

    // One less to live; the sum is mended as RFC 1624 has it.
    #[inline(never)]
    pub fn hand_on(p: &mut [u8]) {
        if p.len() < 20 || p[8] == 0 {
            return;
        }
        let old = u16::from_be_bytes([p[8], p[9]]);
        let sum = u16::from_be_bytes([p[10], p[11]]);
        p[8] -= 1;
        let new = u16::from_be_bytes([p[8], p[9]]);
        let mut mended = u32::from(!sum) + u32::from(!old) + u32::from(new);
        while mended >> 16 != 0 {
            mended = (mended & 0xffff) + (mended >> 16);
        }
        p[10..12].copy_from_slice(&(!(mended as u16)).to_be_bytes());
    }

    pub fn echo_back(p: &mut [u8]) {
        if p.len() < 28 {
            return;
        }
        p[8] = 64;
        for i in 12..16 {
            p.swap(i, i + 4);
        }
        p[20] = 0;
        put_sum(&mut p[..20], 10);
        put_sum(&mut p[20..], 2);
    }

    pub fn is_error(p: &[u8]) -> bool {
        p.len() > 20 && p[9] == 1 && [3, 4, 5, 11, 12].contains(&p[20])
    }

    pub fn write_error(me: u8, kind: u8, p: &[u8], out: &mut [u8]) -> usize {
        let quoted = &p[..p.len().min(28)];
        let len = 28 + quoted.len();
        if ![3, 11].contains(&kind) || out.len() < len {
            return 0;
        }
        let e = &mut out[..len];
        e.fill(0);
        e[0] = 0x45;
        e[3] = len as u8;
        e[8] = 64;
        e[9] = 1;
        e[12..16].copy_from_slice(&[10, me, 0, 1]);
        for i in 16..20 {
            e[i] = quoted.get(i - 4).copied().unwrap_or(0);
        }
        e[20] = kind;
        e[28..].copy_from_slice(quoted);
        put_sum(&mut e[..20], 10);
        put_sum(&mut e[20..], 2);
        len
    }
}

struct Random(u64);

impl Random {
    fn next(&mut self) -> u64 {
        self.0 ^= self.0 << 13;
        self.0 ^= self.0 >> 7;
        self.0 ^= self.0 << 17;
        self.0.wrapping_mul(0x2545_f491_4f6c_dd1d)
    }
    fn below(&mut self, n: u64) -> u64 {
        (self.next() >> 11) % n
    }
    fn one_in(&mut self, n: u64) -> bool {
        self.below(n) == 0
    }
    fn of<T: Copy>(&mut self, all: &[T]) -> T {
        all[self.below(all.len() as u64) as usize]
    }
    fn bytes(&mut self, len: usize) -> Vec<u8> {
        (0..len).map(|_| self.next() as u8).collect()
    }

    // Mostly a number of boxes that there can be, with the ends more often.
    fn boxes(&mut self) -> u8 {
        match self.below(16) {
            0 => 1,
            1 => 2,
            2..=5 => 64,
            6 => self.of(&[0, 65, 255]),
            _ => 1 + self.below(64) as u8,
        }
    }
    // Mostly a box below n.
    fn box_of(&mut self, n: u8) -> u8 {
        match self.below(256) {
            0 => n,
            1 => n.wrapping_add(1),
            2 => 255,
            3..=30 => n.wrapping_sub(1),
            _ => self.below(n.max(1) as u64) as u8,
        }
    }
    fn count(&mut self) -> u64 {
        match self.below(64) {
            0 => 0,
            1 => 1 << 63,
            2 => u64::MAX,
            3..=8 => (1 << 63) - 1,
            9..=20 => 1,
            _ => 1 + self.below(1 << 20),
        }
    }
    fn drawn(&mut self) -> u64 {
        match self.below(64) {
            0 => 0,
            1 => 1,
            2 => u64::MAX,
            3 => 1 << 56,
            _ => self.next(),
        }
    }
    fn cost(&mut self) -> u16 {
        match self.below(128) {
            0 => 0,
            1..=8 => 1,
            9..=16 => 65_535,
            17..=24 => 256,
            _ => self.next() as u16,
        }
    }

    fn id(&mut self, n: u8, out: &mut Vec<u8>) -> u8 {
        let about = self.box_of(n);
        out.push(about);
        out.extend(self.count().to_be_bytes());
        out.extend(self.next().to_be_bytes());
        about
    }
    fn word(&mut self, n: u8, out: &mut Vec<u8>) {
        let about = self.id(n, out);
        let wanted = match self.below(32) {
            0 => 9,
            1 => 10,
            2..=7 => 8,
            _ => self.below(8) as usize,
        };
        let mut to: Vec<u8> = (0..wanted * 2).map(|_| self.box_of(n)).collect();
        if !self.one_in(24) {
            to.sort();
        }
        if !self.one_in(24) {
            to.dedup();
        }
        if !self.one_in(24) {
            to.retain(|t| *t != about);
        }
        to.truncate(wanted);
        out.push(if self.one_in(48) { self.below(12) as u8 } else { to.len() as u8 });
        for t in to {
            out.push(t);
            out.extend(self.cost().to_be_bytes());
        }
    }
    fn how_many(&mut self) -> u8 {
        match self.below(32) {
            0 => 0,
            1 => 5,
            2 => 255,
            _ => 1 + self.below(4) as u8,
        }
    }

    fn hello(&mut self, n: u8) -> Vec<u8> {
        let mut out = vec![1, self.box_of(n)];
        out.extend(self.drawn().to_be_bytes());
        let heard = if self.one_in(3) { 0 } else { self.drawn() };
        out.extend(heard.to_be_bytes());
        out
    }
    fn words(&mut self, n: u8) -> Vec<u8> {
        let mut out = vec![2];
        out.extend(self.drawn().to_be_bytes());
        let count = self.how_many();
        out.push(count);
        for _ in 0..count.min(5) {
            self.word(n, &mut out);
        }
        out
    }
    fn seens(&mut self, n: u8) -> Vec<u8> {
        let mut out = vec![3];
        out.extend(self.drawn().to_be_bytes());
        let count = self.how_many();
        out.push(count);
        for _ in 0..count.min(5) {
            self.id(n, &mut out);
        }
        out
    }
    fn settings(&mut self, n: u8) -> Vec<u8> {
        let mut out = vec![6, n, self.box_of(n)];
        for _ in 0..8 {
            out.extend(self.cost().to_be_bytes());
        }
        out
    }
    fn line(&mut self, n: u8) -> Vec<u8> {
        let mut out = vec![5];
        out.extend((self.next() as u32).to_be_bytes());
        let what = if self.one_in(32) { self.of(&[4, 5, 255]) } else { self.below(4) as u8 };
        out.push(what);
        match what {
            0 => {
                let n = self.boxes();
                out.push(n);
                out.push(self.box_of(n));
            }
            1 | 2 => self.word(n, &mut out),
            _ => out.push(self.next() as u8),
        }
        if self.one_in(2) {
            let more = self.below(40) as usize;
            out.extend(self.bytes(more));
        }
        out
    }

    // Cut, lengthened, or with bits or bytes turned; as often left as it is.
    fn damage(&mut self, bytes: &mut Vec<u8>) -> &'static str {
        let len = bytes.len() as u64;
        match self.below(8) {
            0 if len > 0 => {
                bytes.truncate(self.below(len) as usize);
                "cut"
            }
            1 => {
                let more = 1 + self.below(5) as usize;
                let tail = self.bytes(more);
                bytes.extend(tail);
                "lengthened"
            }
            2 if len > 0 => {
                for _ in 0..1 + self.below(3) {
                    bytes[self.below(len) as usize] ^= 1 << self.below(8);
                }
                "bits turned"
            }
            3 if len > 0 => {
                bytes[self.below(len) as usize] = self.of(&[0, 1, 63, 64, 127, 128, 255]);
                "byte changed"
            }
            _ => "as made",
        }
    }

    // An IPv4 packet, mostly right, often an echo request.
    fn packet(&mut self, n: u8) -> Vec<u8> {
        let payload = match self.below(8) {
            0 => self.below(9) as usize,
            1 => 8,
            2 => 44,
            3 => self.below(1481) as usize,
            _ => 8 + self.below(57) as usize,
        };
        let mut p = vec![0x45, 0, 0, 0, 0, 0, 0, 0, 64, 17, 0, 0, 10, 0, 0, 0, 10, 0, 0, 0];
        p.extend(self.bytes(payload));
        let whole = p.len();
        p[2..4].copy_from_slice(&(whole as u16).to_be_bytes());
        p[1] = self.of(&[0, 0, 0xb8]);
        let id = self.next() as u16;
        p[4..6].copy_from_slice(&id.to_be_bytes());
        p[6] = self.of(&[0, 0, 0, 0x40, 0x40, 0x80, 0x20, 0x1f]);
        p[7] = self.of(&[0, 0, 0, 0, 0, 1]);
        p[8] = self.of(&[0, 1, 2, 3, 64, 64, 128, 255]);
        p[9] = self.of(&[1, 1, 1, 6, 17, 255]);
        p[13] = self.box_of(n);
        p[14] = self.next() as u8;
        p[15] = self.next() as u8;
        p[17] = self.box_of(n);
        p[19] = self.of(&[1, 1, 1, 2, 255]);
        p[18] = self.of(&[0, 0, 0, 1]);
        if self.one_in(24) {
            let at = self.of(&[12, 16]);
            p[at] = self.of(&[0, 9, 11, 127]);
        }
        if payload >= 8 && self.one_in(4) {
            p[6..8].copy_from_slice(&[0x40, 0]);
            p[9] = 1;
            p[18..20].copy_from_slice(&[0, 1]);
            p[20..22].copy_from_slice(&[8, 0]);
        } else if payload >= 2 {
            p[20] = self.of(&[8, 8, 8, 8, 0, 3, 4, 5, 11, 12, 13]);
            p[21] = self.of(&[0, 0, 0, 0, 1]);
        }
        plain::put_sum(&mut p[..20], 10);
        if payload >= 4 {
            plain::put_sum(&mut p[20..], 2);
        }
        p
    }
}

const CASES: usize = 1_000_000;

#[derive(Default)]
struct Tally {
    seen: BTreeMap<String, usize>,
    compared: usize,
    differ: usize,
}

impl Tally {
    fn note(&mut self, what: String) {
        *self.seen.entry(what).or_default() += 1;
    }
    fn same<T: PartialEq + std::fmt::Debug>(&mut self, what: &str, bytes: &[u8], proved: T, plain: T) {
        self.compared += 1;
        if proved != plain {
            self.differ += 1;
            if self.differ <= 5 {
                println!("differ: {what} of {bytes:02x?}\n  proved {proved:?}\n  plain  {plain:?}");
            }
        }
    }
}

// Two equal buffers with junk in them, now and then too short.
fn junk(random: &mut Random, wanted: usize) -> (Vec<u8>, Vec<u8>) {
    let len = match random.below(16) {
        0 => random.below(wanted as u64 + 1) as usize,
        1 => wanted,
        2 if wanted > 0 => wanted - 1,
        _ => wanted + random.below(40) as usize,
    };
    let bytes = random.bytes(len);
    (bytes.clone(), bytes)
}

fn compare_sum(random: &mut Random, tally: &mut Tally, body: &mut Vec<u8>) {
    tally.same("crc", body, proved::crc(body), plain::crc_bitwise(body));
    let mut frame = body.clone();
    frame.extend(plain::crc(body).to_le_bytes());
    let how = random.damage(&mut frame);
    let fits = plain::sum_fits(&frame);
    tally.same("sum fits", &frame, proved::sum_fits(&frame), fits);
    tally.note(format!("sum on a frame {how}: {}", if fits { "fits" } else { "does not fit" }));
    // the damage stays and the sum is put right, so that the reader behind it is reached
    frame.truncate(frame.len().saturating_sub(4));
    let sum = plain::crc(&frame);
    frame.extend(sum.to_le_bytes());
    tally.same("sum put right", &frame, proved::sum_fits(&frame), true);
    frame.truncate(frame.len() - 4);
    *body = frame;
}

fn compare_frame(random: &mut Random, tally: &mut Tally, kind: u64) {
    let n = random.boxes();
    let mut body = match kind {
        1 => random.hello(n),
        2 => random.words(n),
        3 => random.seens(n),
        _ => {
            let mut out = vec![4];
            out.extend(random.packet(n));
            out
        }
    };
    if random.one_in(64) {
        body[0] = random.of(&[0, 1, 2, 3, 5, 6, 255]);
    }
    compare_sum(random, tally, &mut body);
    let (mut out, mut out_plain) = junk(random, body.len());
    let fault = plain::frame(n, &body, &mut out_plain);
    tally.same("frame", &body, proved::frame(n, &body, &mut out), fault);
    tally.same("frame written again", &body, &out, &out_plain);
    let seed = random.next();
    let (mut numbers, mut numbers_plain) = ([seed; 16], [seed; 16]);
    proved::numbers(n, &body, &mut numbers);
    plain::numbers(n, &body, &mut numbers_plain);
    tally.same("numbers", &body, numbers, numbers_plain);
    for which in 0..4 {
        let (mut costs, mut costs_plain) = ([seed as u16; 64], [seed as u16; 64]);
        proved::costs(n, &body, which, &mut costs);
        plain::costs(n, &body, which as usize, &mut costs_plain);
        tally.same("costs", &body, costs, costs_plain);
    }
    tally.note(format!("frame of kind {}: {}", body.first().map_or("none".into(), |k| if *k < 7 { k.to_string() } else { "7..".into() }), number(fault)));
}

fn number(fault: u8) -> String {
    if fault == 0 { "read".into() } else { format!("fault {fault}") }
}

fn compare_settings(random: &mut Random, tally: &mut Tally) {
    let n = random.boxes();
    let mut bytes = random.settings(n);
    random.damage(&mut bytes);
    let (mut out, mut out_plain) = junk(random, bytes.len());
    let fault = plain::settings(&bytes, &mut out_plain);
    tally.same("settings", &bytes, proved::settings(&bytes, &mut out), fault);
    tally.same("settings written again", &bytes, out, out_plain);
    tally.note(format!("settings: {}", number(fault)));
}

fn compare_line(random: &mut Random, tally: &mut Tally) {
    let n = random.boxes();
    let mut bytes = random.line(n);
    random.damage(&mut bytes);
    let (mut out, mut out_plain) = junk(random, bytes.len().min(48));
    let answer = plain::line(n, &bytes, &mut out_plain);
    tally.same("line", &bytes, proved::line(n, &bytes, &mut out), answer);
    tally.same("line written again", &bytes, out, out_plain);
    tally.note(match answer {
        0..=255 => format!("journal line that says {}: read", bytes[5]),
        fault => format!("journal line: {}", number((fault - 256) as u8)),
    });
}

fn compare_packet(random: &mut Random, tally: &mut Tally) {
    let n = random.boxes();
    let mut packet = random.packet(n);
    if random.damage(&mut packet) != "as made" && packet.len() >= 20 {
        if random.one_in(2) {
            let len = packet.len() as u16;
            packet[2..4].copy_from_slice(&len.to_be_bytes());
        }
        if !random.one_in(4) {
            plain::put_sum(&mut packet[..20], 10);
        }
        if packet.len() >= 24 && !random.one_in(4) {
            plain::put_sum(&mut packet[20..], 2);
        }
    }
    let me = if random.one_in(2) { packet.get(17).copied().unwrap_or(0) } else { random.box_of(n) };
    let errand = plain::errand(n, me, &packet);
    tally.same("errand", &packet, proved::errand(n, me, &packet), errand);
    tally.note(match errand {
        0 => "packet: hand out".into(),
        1 => "packet: echo".into(),
        2..=256 => "packet: onward".into(),
        refusal => format!("packet: refusal {}", refusal - 256),
    });
    let (mut gone, mut gone_plain) = (packet.clone(), packet.clone());
    proved::hand_on(&mut gone);
    plain::hand_on(&mut gone_plain);
    tally.same("hand on", &packet, &gone, &gone_plain);
    if (2..=256).contains(&errand) {
        plain::put_sum(&mut gone_plain[..20], 10);
        tally.same("hand on, summed anew", &packet, &gone, &gone_plain);
    }
    let (mut back, mut back_plain) = (packet.clone(), packet.clone());
    proved::echo_back(&mut back);
    plain::echo_back(&mut back_plain);
    tally.same("echo back", &packet, &back, &back_plain);
    let is_error = plain::is_error(&packet);
    tally.same("is error", &packet, proved::is_error(&packet), is_error);
    tally.note(format!("packet: {}", if is_error { "an error" } else { "no error" }));
    let kind = random.of(&[3, 3, 11, 11, 0, 8]);
    let (mut out, mut out_plain) = junk(random, 56);
    let len = plain::write_error(me, kind, &packet, &mut out_plain);
    tally.same("write error", &packet, proved::write_error(me, kind, &packet, &mut out), len);
    tally.same("error written", &packet, out, out_plain);
    tally.note(format!("error of type {kind}: {}", if len == 0 { "none" } else { "written" }));
}

fn compare() -> usize {
    let mut random = Random(88_172_645_463_325_252);
    let mut tally = Tally::default();
    for _ in 0..CASES {
        match random.below(10) {
            0 => compare_frame(&mut random, &mut tally, 1),
            1 | 2 | 3 => compare_frame(&mut random, &mut tally, 2),
            4 => compare_frame(&mut random, &mut tally, 3),
            5 => compare_frame(&mut random, &mut tally, 4),
            6 => compare_settings(&mut random, &mut tally),
            7 => compare_line(&mut random, &mut tally),
            _ => compare_packet(&mut random, &mut tally),
        }
    }
    for (what, times) in &tally.seen {
        println!("{times:8} {what}");
    }
    println!("{CASES} cases, {} answers and buffers compared: {} differ", tally.compared, tally.differ);
    tally.differ
}

// The best of several rounds of each, in turn, in nanoseconds a call. A call is told its round, so that it can use memory at another place in each.
fn side_by_side(what: &str, calls: u32, mut proved: impl FnMut(usize), mut plain: impl FnMut(usize)) {
    let mut best = [f64::MAX; 2];
    for round in 0..40 {
        let begun = Instant::now();
        for _ in 0..calls {
            proved(round);
        }
        best[0] = best[0].min(begun.elapsed().as_secs_f64() * 1e9 / calls as f64);
        let begun = Instant::now();
        for _ in 0..calls {
            plain(round);
        }
        best[1] = best[1].min(begun.elapsed().as_secs_f64() * 1e9 / calls as f64);
    }
    println!("{what}: proved {:.1} ns, plain {:.1} ns, ratio {:.2}", best[0], best[1], best[0] / best[1]);
}

fn echo_request(box_from: u8, box_to: u8, id: u16, payload: &[u8]) -> Vec<u8> {
    let mut p = vec![0x45, 0, 0, 0, 0, 7, 0x40, 0, 64, 1, 0, 0, 10, box_from, 0, 9, 10, box_to, 0, 1, 8, 0, 0, 0];
    p.extend(id.to_be_bytes());
    p.extend([0, 1]);
    p.extend(payload);
    let len = p.len() as u16;
    p[2..4].copy_from_slice(&len.to_be_bytes());
    plain::put_sum(&mut p[..20], 10);
    plain::put_sum(&mut p[20..], 2);
    p
}

fn speed() {
    let mut random = Random(123_456_789);
    let pool = random.bytes(40 * 4096);
    for len in [64, 1500] {
        side_by_side(
            &format!("CRC-32C of {len} bytes"),
            2000,
            |round| {
                black_box(proved::crc(black_box(&pool[round * 3333..][..len])));
            },
            |round| {
                black_box(plain::crc(black_box(&pool[round * 3333..][..len])));
            },
        );
    }
    let packet = echo_request(3, 9, 1, &random.bytes(36));
    let (mut p, mut q) = (packet.clone(), packet.clone());
    side_by_side(
        &format!("forwarding a packet of {} bytes", packet.len()),
        20_000,
        |_| {
            p.copy_from_slice(black_box(&packet));
            black_box(proved::errand(64, 5, black_box(&p)));
            proved::hand_on(black_box(&mut p));
        },
        |_| {
            q.copy_from_slice(black_box(&packet));
            black_box(plain::errand(64, 5, black_box(&q)));
            plain::hand_on(black_box(&mut q));
        },
    );
    let (mut out, mut out_plain) = ([0u8; 1500], [0u8; 1500]);
    let mut good = |make: &mut dyn FnMut(&mut Random) -> Vec<u8>, read: &dyn Fn(&[u8]) -> bool| loop {
        let bytes = make(&mut random);
        if read(&bytes) {
            return bytes;
        }
    };
    let frame = |b: &[u8]| plain::frame(64, b, &mut []) == 0;
    let frames: [(&str, Vec<u8>); 6] = [
        ("a hello", good(&mut |r| r.hello(64), &frame)),
        ("one word", good(&mut |r| r.words(64), &|b| frame(b) && b[9] == 1 && b.len() == 52)),
        ("four words", good(&mut |r| r.words(64), &|b| frame(b) && b[9] == 4 && b.len() > 110)),
        ("four seen", good(&mut |r| r.seens(64), &|b| frame(b) && b[9] == 4)),
        ("a packet of 64 bytes", [&[4], &packet[..]].concat()),
        ("a packet of 1,400 bytes", [&[4], &[7; 1400][..]].concat()),
    ];
    for (what, bytes) in &frames {
        for (room, how) in [(0, "reading"), (1500, "reading and writing")] {
            side_by_side(
                &format!("{how} {what}, {} bytes", bytes.len()),
                5000,
                |_| {
                    black_box(proved::frame(64, black_box(bytes), black_box(&mut out[..room])));
                },
                |_| {
                    black_box(plain::frame(64, black_box(bytes), black_box(&mut out_plain[..room])));
                },
            );
        }
    }
    let settings = good(&mut |r| r.settings(64), &|b| plain::settings(b, &mut []) == 0);
    side_by_side(
        "reading and writing settings",
        5000,
        |_| {
            black_box(proved::settings(black_box(&settings), black_box(&mut out)));
        },
        |_| {
            black_box(plain::settings(black_box(&settings), black_box(&mut out_plain)));
        },
    );
    let line = good(&mut |r| r.line(64), &|b| b[5] == 2 && plain::line(64, b, &mut []) == 48);
    side_by_side(
        "reading and writing a journal line with a word of 8 roads",
        5000,
        |_| {
            black_box(proved::line(64, black_box(&line), black_box(&mut out)));
        },
        |_| {
            black_box(plain::line(64, black_box(&line), black_box(&mut out_plain)));
        },
    );
}

fn print_hex(bytes: &[u8]) {
    for (k, row) in bytes.chunks(16).enumerate() {
        print!("{:06x}", k * 16);
        for b in row {
            print!(" {b:02x}");
        }
        println!();
    }
    println!();
}

// Echo requests on their way, hop by hop, the answer to each, and errors for them and for shorter packets.
fn hex() {
    let mut random = Random(42);
    for id in 1..=100u16 {
        let (from, to) = (random.below(64) as u8, random.below(64) as u8);
        let payload = random.below(1400) as usize;
        let mut packet = echo_request(from, to, id, &random.bytes(payload));
        for _ in 0..random.below(4) {
            proved::hand_on(&mut packet);
        }
        print_hex(&packet);
        let mut answer = packet.clone();
        proved::echo_back(&mut answer);
        for _ in 0..random.below(4) {
            proved::hand_on(&mut answer);
        }
        print_hex(&answer);
        // a datagram of a protocol for experiments, of any length, and the error that it is refused with
        let payload = if random.one_in(2) { random.below(9) as usize } else { random.below(1480) as usize };
        let mut packet = echo_request(from, to, id, &random.bytes(payload));
        packet[9] = 253;
        packet[8] = 10;
        if random.one_in(3) {
            packet.truncate(20 + random.below(8) as usize);
        }
        let len = packet.len() as u16;
        packet[2..4].copy_from_slice(&len.to_be_bytes());
        plain::put_sum(&mut packet[..20], 10);
        for _ in 0..random.below(9) {
            proved::hand_on(&mut packet);
        }
        print_hex(&packet);
        let mut out = [0; 56];
        let len = proved::write_error(random.below(64) as u8, random.of(&[3, 11]), &packet, &mut out);
        print_hex(&out[..len]);
    }
}

fn main() {
    if std::env::args().nth(1).as_deref() == Some("hex") {
        return hex();
    }
    let differ = compare();
    speed();
    if differ != 0 {
        std::process::exit(1);
    }
}
