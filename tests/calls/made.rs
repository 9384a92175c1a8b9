//! What is made for the comparison, at random and near the edges: openings, good states, times, AT lines, calls.
use crate::both::{by_model, file, Bench, Call, Opening};
use crate::files::FILES;
use crate::model::*;

/// Numbers at the edges of every range of the document, and of the widths that numbers are kept in.
#[rustfmt::skip]
pub const EDGES: [u32; 34] = [
    0, 1, 2, 3, 4, 5, 6, 10, 11, 32, 63, 64, 128, 254, 255, 256, 257, 65_534, 65_535, 65_536, 65_537, 232_830, 232_831, 2_764_472_319,
    2_764_472_320, 0x0057_5250, 0x7fff_ffff, 0x8000_0000, LATEST - 1, LATEST, LATEST + 1, LATEST_END, LATEST_END + 1, u32::MAX,
];

impl Bench {
    /// Settings in range, near the edges, and files that are good. Every second card may lack some of its files.
    pub fn opening(&mut self) -> Opening {
        let random = &mut self.random;
        let early = random.number(100_000);
        let late = LATEST - random.number(20_000);
        let any = random.number(LATEST);
        let time = random.pick(&[0, 0, 1, 1000, early, any, any, late, LATEST]);
        let limits = random.pick(&[&[0, 0, 1, 2, 3, 5][..], &[0, 1], &[0, 254, 255], &[1, 2, 200, 255]]);
        let rates = random.pick(&[&[0, 1][..], &[0, 1, 2, 3, 24], &[0, 254, 255]]);
        let counts = random.pick(&[&[0, 1, 2][..], &[3, 100, 200], &[253, 254, 255]]);
        let lacks = random.pick(&[0, 50]);
        let (params, own_params) = self.two_files(lacks, FILES[0], limits);
        let (leaks, own_leaks) = self.two_files(lacks, FILES[1], rates);
        let (counters, _) = self.two_files(lacks, FILES[2], counts);
        Opening {
            time,
            imsi: self.imsi(),
            intervals: self.intervals(),
            nfm: u32::from(self.random.chance(70)),
            rpm: u32::from(self.random.chance(75)),
            a1: u32::from(self.random.pick(limits)),
            s1: u32::from(self.random.pick(limits)),
            params,
            leaks,
            counters,
            own_params,
            own_leaks,
        }
    }

    /// A file of the card, which it lacks at that percentage, and a different one of the module's own.
    fn two_files(&mut self, lacks: u64, (length, used): (usize, usize), from: &[u8]) -> (Vec<u8>, Vec<u8>) {
        let mut made = || file(length, &(0..used).map(|_| self.random.pick(from)).collect::<Vec<u8>>());
        let (mut card, own) = (made(), made());
        while card == own {
            card = made();
        }
        if self.random.chance(lacks) {
            card.clear();
        }
        (card, own)
    }

    /// An opening whose files may be bad.
    pub fn any_opening(&mut self) -> Opening {
        let mut opening = self.opening();
        for _ in 0..self.random.below(4) {
            let which = self.random.below(5) as usize;
            let bytes = self.spoiled(&opening, which);
            opening.set_file(which, bytes);
        }
        opening
    }

    /// One of the files changed in its length or in a byte, or with another one in its place.
    fn spoiled(&mut self, opening: &Opening, which: usize) -> Vec<u8> {
        let random = &mut self.random;
        let files = opening.files();
        let mut bytes = files[which].to_vec();
        let at = random.below(bytes.len().max(1) as u64) as usize;
        let (length, _) = FILES[which];
        match (random.below(5), bytes.get_mut(at)) {
            (0, _) => bytes.clear(),
            (1, _) => bytes.resize(random.pick(&[1, length - 1, length, length + 1]), 0),
            (2, _) => bytes = random.pick(&files).to_vec(),
            (_, Some(byte)) => *byte = random.pick(&[0, 1, 255]),
            (_, None) => bytes.push(0),
        }
        bytes
    }

    /// Any IMSI, the classroom's with two more of its row, which are 240 apart, and edges.
    fn imsi(&mut self) -> u64 {
        let any = self.random.below(LARGEST_IMSI + 1);
        let first = 1_010_123_456_789;
        self.random.pick(&[any, any, first, first + 240, first + 480, 0, 65_534, (1 << 32) - 1, 1 << 32, LARGEST_IMSI])
    }

    pub fn intervals(&mut self) -> Vec<u32> {
        let range = self.random.pick(&[&[1, 1, 2, 3][..], &[60, 120, 240, 600], &[1, 60, 3_600, 65_534, 65_535]]);
        let count = self.random.pick(&[1, 1, 2, 3, 5, 9, 10]);
        let mut list: Vec<u32> = (0..count).map(|_| self.random.pick(range)).collect();
        list.sort_unstable();
        list
    }

    /// Any good state, reached or not, by the table alone.
    pub fn good_state(&mut self) -> Vec<u32> {
        let mut s = vec![0; PLACES];
        by_model(&mut s, &Call::Open(self.opening()), &mut [], &mut []);
        let random = &mut self.random;
        let passed = random.pick(&[0, 1, HOUR, 100_000]).min(LATEST - s[OPENED]);
        s[LAST] = s[OPENED] + passed;
        s[START_TIMER] = random.number(2);
        s[MOOD] = random.number(4);
        for service in 0..4 {
            s[FAILURES + service] = random.pick(&[0, 1, 2, 9, 10, 13, 14, 15, 254, 255]);
            s[STANDINGS + service] = random.number(if service == 2 { 3 } else { 2 });
            let near = s[LAST] + random.number(200);
            let barred = s[NFM] == 0 || s[STANDINGS + service] == UP;
            s[ENDS + service] = if barred { 0 } else { random.pick(&[0, 1, near, near, s[LAST], LATEST_END]) };
        }
        let lengths = random.pick(&[&[0, 1, 2, 3, 5, 100, 253, 254, 255, 255][..], &[0, 1, 2], &[0]]);
        for list in 0..5 {
            let length = random.pick(lengths);
            let reach = random.pick(&[0, 10, 2 * HOUR, u32::MAX]).min(passed);
            let mut times: Vec<u32> = (0..length).map(|_| s[LAST] - random.number(reach + 1)).collect();
            times.sort_unstable();
            s[LENGTHS + list] = length;
            s[LISTS + LIST_ROOM * list..][..times.len()].copy_from_slice(&times);
        }
        let near = s[LAST] - 1.min(s[LAST]) + random.number(3);
        s[DUE] = random.pick(&[0, 0, 1, 3_000, near, near, s[LAST] + 331, LATEST, LATEST + 1, LATEST + 100_980, u32::MAX]);
        s
    }

    /// A time at an edge of what the state holds: an end, the due time, a permit's hour, a leak
    /// point; one less or one more.
    fn edge_time(&mut self, s: &[u32]) -> u64 {
        let random = &mut self.random;
        let (opened, last) = (u64::from(s[OPENED]), u64::from(s[LAST]));
        let hour = u64::from(HOUR);
        let edge = match random.below(6) {
            0 => u64::from(s[ENDS + random.below(4) as usize]),
            1 | 2 => {
                let list = random.below(5) as usize;
                let length = u64::from(s[LENGTHS + list]).max(1);
                u64::from(s[LISTS + LIST_ROOM * list + random.below(length) as usize]) + hour
            }
            3 => {
                let period = hour * u64::from(random.pick(&s[LEAK_RATES..LEAK_RATES + 3]).max(1));
                opened + ((last - opened) / period + random.pick(&[1, 1, 1, 2, 3, 254, 255, 256])) * period
            }
            4 => u64::from(s[DUE]),
            _ => last + hour,
        };
        (edge + random.below(3)).saturating_sub(1)
    }

    /// A time for the next call: mostly soon, sometimes at an edge, seldom far or out of range.
    fn time(&mut self, s: &[u32], brisk: bool) -> u32 {
        let last = u64::from(s[LAST]);
        if brisk && self.random.below(2_000) != 0 {
            return s[LAST].saturating_add(u32::from(self.random.chance(10)));
        }
        let time = match self.random.below(200) {
            0..=99 => last + self.random.below(4),
            100..=119 => last + self.random.below(120),
            120..=129 => last + self.random.below(8_000),
            130..=133 if !brisk => last + self.random.below(5_000_000),
            134 if !brisk => u64::from(self.random.pick(&[0, s[OPENED].saturating_sub(1), LATEST - 1, LATEST, LATEST + 1, u32::MAX])),
            135..=138 => last.saturating_sub(1),
            _ => self.edge_time(s),
        };
        let out = time < last || time > u64::from(LATEST);
        if out && self.random.chance(80) {
            s[LAST]
        } else {
            time.min(u64::from(u32::MAX)) as u32
        }
    }

    /// The next call on a good state. `grants` in a hundred outcomes are grants.
    pub fn next_call(&mut self, s: &[u32], brisk: bool, grants: u64) -> Call {
        let time = self.time(s, brisk);
        let service = self.random.pick(&[0, 1, 2, 2, 2, 3, 3]);
        let asked = s[STANDINGS + service as usize] == ASKED;
        match self.random.below(100) {
            0 => Call::Tick { time },
            1 if !brisk => Call::Command { line: self.line(), room: self.random.pick(&[16, 16, 17, 40]) },
            2 => Call::Counters { room: 32 },
            3 => Call::Dropped { time },
            4 => self.any_call(time),
            5 => Call::Request { time, kind: self.random.number(6) },
            6 => Call::Granted { time, service },
            7 => self.rejection(time, service),
            8 => Call::Silent { time, service },
            9 => Call::Why { time, kind: self.random.number(6), room: 8 },
            10 => Call::Error { column: self.random.number(5), cause: self.random.number(256) },
            11..=15 if s[DUE] > 0 => Call::Tick { time },
            _ if asked && self.random.chance(grants) => Call::Granted { time, service },
            _ if asked && self.random.chance(35) => Call::Silent { time, service },
            _ if asked => self.rejection(time, service),
            _ if service == 2 && s[STANDINGS + 2] == UP => Call::Request { time, kind: 4 },
            _ if self.random.chance(15) => Call::Request { time, kind: 5 },
            _ => Call::Request { time, kind: service },
        }
    }

    /// A rejection of one of the four services, mostly in a column of its own and by a cause that
    /// has a row there.
    fn rejection(&mut self, time: u32, service: u32) -> Call {
        let any = self.random.pick(&[0, 1, 2, 3, 4, 5, u32::MAX]);
        let column = if self.random.chance(97) { self.random.pick(columns(service)) } else { any };
        let listed: Vec<u32> = (0..256).filter(|&cause| row(column, cause).is_some()).collect();
        let any = self.random.number(256);
        let cause = if listed.is_empty() || self.random.chance(15) { any } else { self.random.pick(&listed) };
        Call::Rejected { time, service, cause, second: self.random.number(2), column }
    }

    /// A call of any kind with arguments in and out of range.
    pub fn any_call(&mut self, time: u32) -> Call {
        let edge = self.random.pick(&EDGES);
        let time = if self.random.chance(90) { time } else { edge };
        let (service, other) = (self.random.number(5), self.random.pick(&EDGES));
        let service = if self.random.chance(80) { service } else { other };
        let column = if self.random.chance(50) { service } else { self.random.pick(&EDGES) };
        match self.random.below(10) {
            0 => Call::Request { time, kind: service },
            1 => Call::Granted { time, service },
            2 => Call::Rejected { time, service, cause: self.random.pick(&EDGES), second: self.random.number(3), column },
            3 => Call::Silent { time, service },
            4 => Call::Dropped { time },
            5 => Call::Tick { time },
            6 => Call::Command { line: self.line(), room: self.random.below(41) as usize },
            7 => Call::Counters { room: self.random.pick(&[31, 32, 32, 33]) },
            8 => Call::Error { column, cause: self.random.pick(&EDGES) },
            _ => Call::Why { time, kind: service, room: self.random.pick(&[0, 7, 8, 8, 8, 9]) },
        }
    }

    /// An AT line, mostly valid.
    pub fn line(&mut self) -> Vec<u8> {
        let listed = self.intervals().iter().map(u32::to_string).collect::<Vec<_>>().join(",");
        let intervals = format!("AT+NFMCI={listed}\r").into_bytes();
        let flags: [&[u8]; 7] =
            [b"AT+NFM=0\r", b"AT+NFM=1\r", b"AT+NFM=0,0\r", b"AT+NFM=0,1\r", b"AT+NFM=1,0\r", b"AT+NFM=1,1\r", b"AT+NFM=?\r"];
        let mut line = if self.random.chance(25) { intervals } else { self.random.pick(&flags).to_vec() };
        if self.random.chance(20) {
            let at = self.random.below(line.len() as u64) as usize;
            match self.random.below(3) {
                0 => line[at] = self.random.next() as u8,
                1 => line.insert(at, self.random.pick(b"0159,?\r\n =+-A")),
                _ => drop(line.remove(at)),
            }
        }
        line
    }
}
