//! Strings and numbers by chance (xorshift), the same ones for the same seed.
use crate::views::Change;

pub struct Chance(u64);

pub const OPERATORS: [&str; 8] = ["==", "!=", "<=", ">=", "<", ">", "~=", "==="];

impl Chance {
    pub fn new(seed: u64) -> Chance {
        Chance(seed.wrapping_mul(0x9e37_79b9_7f4a_7c15) | 1)
    }

    pub fn below(&mut self, end: u64) -> u64 {
        self.0 ^= self.0 << 13;
        self.0 ^= self.0 >> 7;
        self.0 ^= self.0 << 17;
        (self.0 >> 8) % end
    }

    pub fn one_in(&mut self, end: u64) -> bool {
        self.below(end) == 0
    }

    pub fn one_of<'a>(&mut self, choices: &[&'a str]) -> &'a str {
        choices[self.below(choices.len() as u64) as usize]
    }

    pub fn number(&mut self) -> u64 {
        match self.below(12) {
            0..=9 => self.below(3),
            10 => [255, 256, 65_535, 65_536, 2_097_151, 2_097_152][self.below(6) as usize],
            _ => [20_240_101, u64::MAX, u64::MAX - 1, 1 << 32, 10, 99][self.below(6) as usize],
        }
    }

    pub fn numbers(&mut self) -> Vec<u64> {
        let more = if self.one_in(8) { 6 } else { 3 };
        (0..=self.below(more)).map(|_| self.number()).collect()
    }

    pub fn release(&mut self) -> String {
        let numbers: Vec<String> = self.numbers().iter().map(u64::to_string).collect();
        numbers.join(".")
    }

    /// Nothing, or a number with zeros in front now and then.
    fn digits(&mut self) -> String {
        match self.below(8) {
            0 => String::new(),
            1 => format!("0{}", self.number()),
            2 => format!("{}{}", self.one_of(&[".", "-", "_"]), self.number()),
            _ => self.number().to_string(),
        }
    }

    pub fn local(&mut self) -> String {
        let mut text = String::from("+");
        for place in 0..=self.below(3) {
            if place > 0 {
                text += self.one_of(&[".", "-", "_"]);
            }
            text += self.one_of(&["a", "B", "10", "007", "ubuntu", "1a", "18446744073709551616", "x9", "0"]);
        }
        text
    }

    pub fn version(&mut self) -> String {
        let mut text = String::from(self.one_of(&["", "", "", "", "", "v", "1!", "0!", " ", "\tV", "18446744073709551615!"]));
        text += &self.release();
        if self.one_in(3) {
            text += self.one_of(&["a", "b", "rc", "c", ".alpha", "-BETA-", "_c.", "preview", ".pre", "RC_"]);
            text += &self.digits();
        }
        if self.one_in(4) {
            text += self.one_of(&[".post", "-", ".rev.", "_r", "post", ".POST-"]);
            text += &self.digits();
        }
        if self.one_in(4) {
            text += self.one_of(&[".dev", "dev", "-DEV_", "_dev."]);
            text += &self.digits();
        }
        if self.one_in(6) {
            text += &self.local();
        }
        text + self.one_of(&["", "", "", "", "", "", " ", "\n"])
    }

    /// Letters that break a string, or change nothing.
    fn stray(&mut self) -> &'static str {
        self.one_of(&[
            "x",
            "..",
            "!",
            "prev",
            "é",
            "-",
            "+",
            "18446744073709551616",
            ".*",
            "*",
            ",",
            " ",
            "\u{b}",
            "\u{a0}",
            "\u{3000}",
            "中",
            "e\u{301}",
            "\0",
            "^",
            "\n",
            ":\n",
            "`",
            "\"",
            "\u{e000}",
            "=",
            "~",
            "1",
        ])
    }

    /// The string with something put in, cut out or doubled, now and then.
    pub fn damaged(&mut self, mut text: String) -> String {
        while self.one_in(6) {
            let places: Vec<usize> = (0..=text.len()).filter(|place| text.is_char_boundary(*place)).collect();
            let place = places[self.below(places.len() as u64) as usize];
            match self.below(3) {
                0 => text.truncate(place),
                1 => drop(text.drain(..place)),
                _ => text.insert_str(place, self.stray()),
            }
        }
        text
    }

    pub fn pattern(&mut self) -> String {
        if self.one_in(2) {
            self.version()
        } else {
            format!(
                "{}{}{}",
                self.one_of(&["", "", "v", "1!", " "]),
                self.release(),
                self.one_of(&[".*", ".*", ".*", ".*.1", "*", ".*."])
            )
        }
    }

    pub fn specifier(&mut self) -> String {
        let version = match self.below(4) {
            0 => self.version(),
            1 => self.pattern(),
            _ => format!("{}.{}", self.release(), self.number()),
        };
        format!("{}{}{}{version}{}", self.blank(), self.one_of(&OPERATORS), self.blank(), self.blank())
    }

    fn blank(&mut self) -> &'static str {
        self.one_of(&["", "", "", "", "", " ", "  ", "\u{a0}", "\n"])
    }

    /// A specifier that is one more often.
    pub fn sound_specifier(&mut self) -> String {
        match self.below(6) {
            0 => format!("{}{}.*", self.one_of(&["==", "!="]), self.release()),
            1 => format!("{}{}", self.one_of(&["==", "!=", "==="]), self.version()),
            2 => format!("~={}.{}", self.release(), self.number()),
            _ => format!("{}{}", self.one_of(&["<", "<=", ">", ">="]), self.version()),
        }
    }

    pub fn list(&mut self) -> String {
        let members: Vec<String> = (0..self.below(5)).map(|_| self.sound_specifier()).collect();
        members.join(self.one_of(&[",", ", ", " , "]))
    }

    fn optional(&mut self) -> Option<u64> {
        (!self.one_in(3)).then(|| self.number())
    }

    pub fn change(&mut self) -> Change {
        match self.below(12) {
            0 => Change::Release(self.numbers()),
            1 => Change::Epoch(self.number()),
            2 => Change::Pre((!self.one_in(3)).then(|| (self.below(3), self.number()))),
            3 => Change::Post(self.optional()),
            4 => Change::Dev(self.optional()),
            5 => Change::Local(self.segments()),
            6 => Change::WithoutLocal,
            7 => Change::OnlyRelease,
            8 | 9 => Change::Min(self.optional()),
            _ => Change::Max(self.optional()),
        }
    }

    fn segments(&mut self) -> Vec<Result<u64, String>> {
        let strings = ["a", "ubuntu", "UPPER", "1.2", "", "é", "\0", "a\0", "a\0b"];
        (0..self.below(3))
            .map(|_| if self.one_in(2) { Ok(self.number()) } else { Err(self.one_of(&strings).to_owned()) })
            .collect()
    }

    pub fn changes(&mut self) -> Vec<Change> {
        (0..self.below(5)).map(|_| self.change()).collect()
    }
}
