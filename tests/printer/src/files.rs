//! Random job files: good and bad headers and defaults lines, job lines at every limit, and damaged ones.
use crate::random::Random;

const STARTS: &[&str] = &[
    "0", "0", "1", "1", "2", "3", "5", "17", "4294967296", "9223372036854775808", "9223372036854775807", "18446744073709551615",
    "18446744073709551614", "17144395776000000000",
];
const BAD_NUMBERS: &[&str] = &[
    "01", "00", "+1", "-1", "1 ", " 1", "1x", "x", "18446744073709551616", "99999999999999999999999999", "1\r", "0x1", "1.0", "1e3", "\u{ff11}",
    "1\0", "-", "1+1", "(1)",
];
const BAD_COUNTS: &[&str] = &["4097", "4098", "5000", "04096", "18446744073709551615", "18446744073709551616", "99999999999999999999999", "01"];
const HEADERS: &[&str] = &[
    "", "chain-jobs", "chain-jobs\t", "chain-jobs\t2", "chain-jobs\t1\t", "chain-jobs\t1 ", "chain-jobs\t1\r", "chain-jobs 1", " chain-jobs\t1",
    "Chain-jobs\t1", "chain-jobs\t01", "chain-jobs\t\t1", "chain-jobs\t1\0", "chain-job\t1", "x\t0\t1\t3", "\u{feff}chain-jobs\t1",
];
const HEADER: &[u8] = b"chain-jobs\t1";

impl Random {
    fn grid_number(&mut self, bad: usize) -> Vec<u8> {
        let text = match self.weighted(&[100 - bad, bad]) {
            0 => match self.below(3) {
                0 => self.pick(STARTS).to_string(),
                1 => self.below(100).to_string(),
                _ => self.word().to_string(),
            },
            _ => self.pick(BAD_NUMBERS).to_string(),
        };
        text.into_bytes()
    }

    fn count(&mut self, bad: usize) -> Vec<u8> {
        let text = match self.below(1000) {
            0..=2 => "4096".to_string(),
            3..=5 => self.between(90, 700).to_string(),
            _ if self.percent(bad) => self.pick(&[BAD_COUNTS, BAD_NUMBERS].concat()).to_string(),
            _ => self.below(21).to_string(),
        };
        text.into_bytes()
    }

    fn four_fields(&mut self, bad: usize) -> [Vec<u8>; 4] {
        [self.formula(), self.grid_number(bad), self.grid_number(bad), self.count(bad)]
    }

    /// A line of about 4,096 bytes, or far longer; a field is filled up to the length.
    fn long_line(&mut self, mut fields: [Vec<u8>; 4]) -> Vec<u8> {
        let length = if self.percent(85) { self.between(4092, 4100) } else { self.between(4101, 30_000) };
        let field = self.weighted(&[70, 10, 10, 10]);
        let unit = if field == 0 { self.pick(&["x+", "1", "-", "x\0", "\u{80}"]) } else { self.pick(&["1", "0", "9"]) };
        fields[field].clear();
        let rest = length - fields.join(&b'\t').len();
        fields[field] = unit.bytes().cycle().take(rest).collect();
        fields.join(&b'\t')
    }

    fn job_line(&mut self) -> Vec<u8> {
        let mut fields = self.four_fields(3);
        let empty = if self.percent(50) { 0 } else { 35 };
        for field in &mut fields {
            if self.percent(empty) {
                field.clear();
            }
        }
        match self.weighted(&[870, 10, 25, 20, 10, 65]) {
            0 => fields.join(&b'\t'),
            1 => vec![],
            2 => fields[..self.between(1, 3)].join(&b'\t'),
            3 => [fields.join(&b'\t'), vec![b'\t'; self.between(1, 2)]].concat(),
            4 => self.long_line(fields),
            _ => {
                let mut line = fields.join(&b'\t');
                self.damage(&mut line);
                line
            }
        }
    }

    /// A defaults line that is accepted, whatever its formula is.
    fn good_defaults(&mut self) -> Vec<u8> {
        let mut fields = self.four_fields(0);
        fields[0].retain(|byte| *byte != b'\t' && *byte != b'\n');
        if fields[0].is_empty() {
            fields[0] = b"x".to_vec();
        }
        if self.percent(8) {
            fields[0].clear();
            let rest = self.pick(&[&4096, &4095, &1025, &1024]) - fields.join(&b'\t').len();
            fields[0] = b"x+".iter().copied().cycle().take(rest).collect();
        }
        fields.join(&b'\t')
    }

    fn bad_defaults(&mut self) -> Vec<u8> {
        let mut fields = self.four_fields(40);
        for _ in 0..self.below(3) {
            fields[self.below(4)].clear();
        }
        match self.weighted(&[60, 10, 10, 10, 10]) {
            0 => fields.join(&b'\t'),
            1 => vec![],
            2 => fields[..3].join(&b'\t'),
            3 => [fields.join(&b'\t'), vec![b'\t']].concat(),
            _ => self.long_line(fields),
        }
    }

    /// A file that may be refused in its first two lines.
    fn odd_file(&mut self) -> Vec<Vec<u8>> {
        let some_jobs = [self.job_line(), self.job_line()];
        let header = match self.below(6) {
            0 => self.pick(HEADERS).as_bytes().to_vec(),
            1 => {
                let mut header = HEADER.to_vec();
                self.damage(&mut header);
                header
            }
            _ => HEADER.to_vec(),
        };
        match self.weighted(&[10, 15, 60, 15]) {
            0 => vec![],
            1 => vec![header],
            2 => [vec![header, self.bad_defaults()], some_jobs.to_vec()].concat(),
            _ => [vec![header, self.good_defaults()], some_jobs.to_vec()].concat(),
        }
    }

    /// A whole job file; one in three may be refused in its first two lines.
    pub fn file(&mut self) -> Vec<u8> {
        let lines = if self.percent(33) {
            self.odd_file()
        } else {
            let jobs = self.between(1, 240);
            let mut lines = vec![HEADER.to_vec(), self.good_defaults()];
            lines.extend((0..jobs).map(|_| self.job_line()));
            lines
        };
        let mut file = lines.join(&b'\n');
        file.extend(vec![b'\n'; self.weighted(&[30, 60, 7, 3])]);
        file
    }
}
