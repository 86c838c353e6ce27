//! The month's sizing in plain Rust, nothing proved: the yardstick for speed.
//! Reads a month's text on standard input and writes the report on standard output.
//!
//! It goes over the text once: a line's numbers are judged as they are read and added up at its
//! end, and of a day only sums are kept.

use std::io::{self, Read, Write};

const AMOUNT: u64 = 1_000_000_000_000;
const SHARE: u128 = 1_000_000_000_000_000;
const MINIMUM: u64 = 50_000_000;

const MEMBERS: usize = 32;
const SCENARIOS: usize = 16;
const ACCOUNTS: u64 = 256;
const LINE_BYTES: usize = 512;
const DAY_BYTES: usize = 65_536;
/// A number's 13 digits and the byte that ends it.
const NUMBER_BYTES: usize = 14;

/// The 32nd day of a text is refused at the latest, so no later byte can change a report.
const TEXT_BYTES: usize = 33 * DAY_BYTES;
/// No report is longer.
const REPORT_BYTES: usize = 262_144;

/// A refusal: its row, and the line it is printed with.
struct Refused {
    row: u64,
    line: u64,
}

/// A cursor over the text. A line's form is judged as it is read: every fault of form is row 9
/// under the same line, so their order does not matter, and `None` stands for all of them.
struct Text<'a> {
    /// The text and after it zeros, which end nothing, for a number's bytes to be had at once.
    bytes: &'a [u8],
    at: usize,
    line_start: usize,
    line: u64,
}

impl Text<'_> {
    fn begin_line(&mut self) {
        self.line += 1;
        self.line_start = self.at;
    }

    /// Steps over `expected` if it comes next.
    fn skip(&mut self, expected: &[u8]) -> Option<()> {
        let found = self.bytes[self.at..].starts_with(expected);
        found.then(|| self.at += expected.len())
    }

    /// 1 to 13 digits, no leading zero, and the byte that ends them. Inlined, since the cursor then
    /// stays in registers.
    #[inline(always)]
    fn number(&mut self, end: u8) -> Option<u64> {
        let window = self.bytes[self.at..].first_chunk::<NUMBER_BYTES>()?;
        let mut value = 0;
        for (digits, &byte) in window.iter().enumerate() {
            let digit = u64::from(byte).wrapping_sub(u64::from(b'0'));
            if digit > 9 {
                let good = byte == end && digits > 0 && (digits == 1 || window[0] != b'0');
                self.at += digits + 1;
                return good.then_some(value);
            }
            value = 10 * value + digit;
        }
        None
    }

    /// A number, or one with a minus, never -0.
    fn npv(&mut self, end: u8) -> Option<i64> {
        let minus = self.bytes[self.at] == b'-';
        self.at += usize::from(minus);
        let value = self.number(end)? as i64;
        if minus && value == 0 {
            return None;
        }
        Some(if minus { -value } else { value })
    }

    /// The letter's kind; any other ASCII field is unknown.
    fn kind(&mut self) -> Option<Kind> {
        let rest = &self.bytes[self.at..];
        let length = rest
            .iter()
            .position(|&byte| byte == b'\t' || byte == b'\n' || byte > 127)?;
        if rest[length] != b'\t' {
            return None;
        }
        self.at += length + 1;
        Some(match &rest[..length] {
            b"H" => Kind::House,
            b"R" => Kind::Replaced,
            b"A" | b"U" => Kind::Other,
            _ => Kind::Unknown,
        })
    }

    /// At most 512 bytes before the LF that has just been read.
    fn end_line(&self) -> Option<()> {
        (self.at - self.line_start <= LINE_BYTES + 1).then_some(())
    }

    /// A line of a word, its tab with it, and so many numbers.
    fn numbers<const N: usize>(&mut self, word: &[u8]) -> Option<[u64; N]> {
        self.skip(word)?;
        let mut numbers = [0; N];
        for (i, number) in numbers.iter_mut().enumerate() {
            *number = self.number(if i + 1 < N { b'\t' } else { b'\n' })?;
        }
        self.end_line()?;
        Some(numbers)
    }

    /// An acct line, its stresses into the slice.
    fn account(&mut self, stresses: &mut [i64]) -> Option<Account> {
        self.skip(b"acct\t")?;
        let member = self.number(b'\t')?;
        let number = self.number(b'\t')?;
        let kind = self.kind()?;
        let base = self.npv(b'\t')?;
        let margin = self.number(b'\t')?;
        let extra = self.number(b'\t')?;
        let mut greatest = base.unsigned_abs().max(margin);
        let last = stresses.len() - 1;
        for (j, stress) in stresses.iter_mut().enumerate() {
            *stress = self.npv(if j < last { b'\t' } else { b'\n' })?;
            greatest = greatest.max(stress.unsigned_abs());
        }
        self.end_line()?;
        Some(Account {
            member,
            number,
            kind,
            base,
            margin,
            extra,
            greatest,
        })
    }

    fn bad(&self) -> Refused {
        Refused {
            row: 9,
            line: self.line,
        }
    }
}

/// `Other` is A or U, which make up part c.
#[derive(Clone, Copy, PartialEq)]
enum Kind {
    House,
    Replaced,
    Other,
    Unknown,
}

struct Account {
    member: u64,
    number: u64,
    kind: Kind,
    base: i64,
    margin: u64,
    extra: u64,
    /// The greatest of its margin and its NPVs without their signs.
    greatest: u64,
}

impl Account {
    /// Row 5: whether it may follow the account `number` of `member`, after whom `next` is the
    /// next that is present. Member 0, which has none, comes before the first of a day.
    fn follows(&self, member: u64, number: u64, next: Option<u64>) -> bool {
        let house = next == Some(self.member) && self.number == 0;
        let client = self.member == member && self.number > number && member > 0;
        (house || client)
            && self.number <= 65_535
            && self.kind != Kind::Unknown
            && house == (self.kind == Kind::House)
    }

    /// Row 6.
    fn within_limits(&self) -> bool {
        self.greatest <= AMOUNT && self.extra <= self.margin
    }
}

/// What a member's EUL is made of, under one scenario or its own.
#[derive(Clone, Copy, Default)]
struct Losses {
    /// The house EUL and part c.
    added: i64,
    clients: i64,
    largest: i64,
    second: i64,
}

impl Losses {
    fn add(&mut self, kind: Kind, eul: i64) {
        if kind == Kind::House {
            self.added += eul;
            return;
        }
        let loss = eul.max(0);
        self.clients += loss;
        if kind == Kind::Replaced {
            self.second = self.second.max(self.largest.min(loss));
            self.largest = self.largest.max(loss);
        } else {
            self.added += loss;
        }
    }

    fn eul(&self) -> i64 {
        self.added + ((self.clients + 1) / 2).max(self.largest + self.second)
    }
}

/// A day's sums; those of the member whose accounts are being read stand in `own` and `under`.
struct Day {
    own: Losses,
    under: [Losses; SCENARIOS],
    losses: [u64; MEMBERS],
    groups: [[i64; SCENARIOS]; MEMBERS + 1],
    max_eul: i64,
}

impl Day {
    fn new() -> Self {
        Day {
            own: Losses::default(),
            under: [Losses::default(); SCENARIOS],
            losses: [0; MEMBERS],
            groups: [[0; SCENARIOS]; MEMBERS + 1],
            max_eul: 0,
        }
    }

    fn add(&mut self, account: &Account, stresses: &[i64]) {
        let counted = (account.margin - account.extra) as i64;
        let mut largest = 0;
        for (under, stress) in self.under.iter_mut().zip(stresses) {
            let decrease = (account.base - stress).max(0);
            largest = largest.max(decrease);
            under.add(account.kind, decrease - counted);
        }
        self.own.add(account.kind, largest - counted);
    }

    /// The member at `index` has no more accounts.
    fn end_member(&mut self, index: usize, group: usize, k: usize) {
        self.losses[index] = self.own.eul().max(0) as u64;
        for (under, sum) in self.under[..k].iter().zip(&mut self.groups[group]) {
            let eul = under.eul();
            self.max_eul = self.max_eul.max(eul);
            *sum += eul;
        }
        self.own = Losses::default();
        self.under[..k].fill(Losses::default());
    }

    /// Group 0 is no group; the rows of scenarios and groups that there are none of hold 0.
    fn max_eul(&self) -> u64 {
        let sums = self.groups[1..].iter().flatten().copied();
        sums.fold(self.max_eul, i64::max) as u64
    }
}

struct Period {
    n: usize,
    k: usize,
    groups: [usize; MEMBERS],
    /// The first and the last day of each member.
    presence: [(u64, u64); MEMBERS],
    last_day: u64,
    max_eul: u64,
    days: u64,
    shares: [u64; MEMBERS],
}

impl Period {
    /// The period and member lines, and the opening call.
    fn open(text: &mut Text) -> Result<Self, Refused> {
        text.begin_line();
        let [n, k] = text.numbers(b"period\t").ok_or(text.bad())?;
        let outside = Err(Refused {
            row: 1,
            line: text.line,
        });
        if n < 1 || n > MEMBERS as u64 || k < 1 || k > SCENARIOS as u64 {
            return outside;
        }
        let (n, k) = (n as usize, k as usize);
        let mut groups = [0; MEMBERS];
        let mut presence = [(1, 31); MEMBERS];
        for i in 0..n {
            text.begin_line();
            let [member, group, first, last] = text.numbers(b"member\t").ok_or(text.bad())?;
            if member != i as u64 + 1 {
                return Err(text.bad());
            }
            groups[i] = group as usize;
            presence[i] = (first, last);
        }
        if groups.iter().any(|&group| group > MEMBERS) {
            return outside;
        }
        let bad = |&(first, last): &(u64, u64)| first < 1 || first > last || last > 31;
        if let Some(index) = presence.iter().position(bad) {
            let line = index as u64 + 2; // the member's
            return Err(Refused { row: 10, line });
        }
        Ok(Period {
            n,
            k,
            groups,
            presence,
            last_day: 0,
            max_eul: 0,
            days: 0,
            shares: [0; MEMBERS],
        })
    }

    /// The first member after this one that is present on a day, if there is one.
    fn next_present(&self, member: u64, day: u64) -> Option<u64> {
        let here = |&m: &u64| {
            let (first, last) = self.presence[m as usize - 1];
            first <= day && day <= last
        };
        (member + 1..=self.n as u64).find(here)
    }

    /// The member has no more accounts on the day. Member 0 has none.
    fn end_member(&self, day: &mut Day, member: u64) {
        if member > 0 {
            let index = member as usize - 1;
            day.end_member(index, self.groups[index], self.k);
        }
    }

    /// A day's lines, and the day call. Prints the day where it is accepted.
    fn day(&mut self, text: &mut Text, report: &mut Report) -> Result<(), Refused> {
        let [number, count] = text.numbers(b"day\t").ok_or(text.bad())?;
        let line = text.line;
        if count < 1 || count > ACCOUNTS {
            return Err(Refused { row: 4, line });
        }
        let mut day = Day::new();
        let (mut member, mut account_number) = (0, 0);
        let mut next = self.next_present(0, number);
        let (mut bad_heading, mut bad_amount) = (None, None);
        let mut stresses = [0; SCENARIOS];
        let stresses = &mut stresses[..self.k];
        let start = text.at;
        for _ in 0..count {
            text.begin_line();
            let account = text.account(stresses).ok_or(text.bad())?;
            if text.at - start > DAY_BYTES {
                return Err(text.bad());
            }
            // A refused day's sums are not used: they end at its first fault.
            if bad_heading.is_some() {
                continue;
            }
            if !account.follows(member, account_number, next) {
                bad_heading = Some(text.line);
                continue;
            }
            if account.number == 0 {
                self.end_member(&mut day, member);
                next = self.next_present(account.member, number);
            }
            (member, account_number) = (account.member, account.number);
            if bad_amount.is_none() && !account.within_limits() {
                bad_amount = Some(text.line);
            }
            if bad_amount.is_none() {
                day.add(&account, stresses);
            }
        }
        if number < 1 || number > 31 || number <= self.last_day {
            return Err(Refused { row: 3, line });
        }
        if bad_heading.is_none() && next.is_some() {
            bad_heading = Some(text.line + 1);
        }
        if let Some(line) = bad_heading {
            return Err(Refused { row: 5, line });
        }
        if let Some(line) = bad_amount {
            return Err(Refused { row: 6, line });
        }
        self.end_member(&mut day, member);
        let total: u64 = day.losses.iter().sum();
        self.last_day = number;
        self.max_eul = self.max_eul.max(day.max_eul()); // the highest so far, which the day reports
        self.days += u64::from(total > 0); // a day without losses does not count
        let divisor = total.max(1); // there every loss is 0, and so is every figure
        report.line(b"day", &[number, total, self.max_eul]);
        let mut sums = [0; 5];
        for (i, &loss) in day.losses[..self.n].iter().enumerate() {
            let share = (u128::from(loss) * SHARE).div_ceil(u128::from(divisor)) as u64;
            self.shares[i] += share;
            let product = u128::from(loss) * u128::from(self.max_eul);
            let value = nearest(100 * product, divisor);
            let reserve = nearest(110 * product, divisor);
            let estimate = nearest(220 * product, divisor);
            let member = i as u64 + 1;
            report.line(b"daily", &[member, loss, share, value, reserve, estimate]);
            for (sum, figure) in sums.iter_mut().zip([loss, share, value, reserve, estimate]) {
                *sum += figure;
            }
        }
        report.line(b"total", &sums);
        Ok(())
    }

    /// The closing call, which prints the fund. Where no day counts there are no shares, and no
    /// charge.
    fn close(&self, report: &mut Report) {
        let divisor = 10 * u128::from(self.days.max(1)) * SHARE;
        let mut charges = [0; MEMBERS];
        for (charge, &shares) in charges.iter_mut().zip(&self.shares[..self.n]) {
            let dividend = 11 * u128::from(self.max_eul) * u128::from(shares);
            *charge = dividend.div_ceil(divisor) as u64;
        }
        let charges = &charges[..self.n];
        let total = charges.iter().map(|&raw| raw.max(MINIMUM)).sum();
        report.line(b"fund", &[self.days, self.max_eul, total]);
        for (i, &raw) in charges.iter().enumerate() {
            let funded = raw.max(MINIMUM);
            report.line(b"contribution", &[i as u64 + 1, raw, funded, 2 * funded]);
        }
    }
}

/// dividend / divisor to the nearest, a half up.
fn nearest(dividend: u128, divisor: u64) -> u64 {
    let divisor = u128::from(divisor);
    ((2 * dividend + divisor) / (2 * divisor)) as u64
}

struct Report {
    bytes: Vec<u8>,
}

impl Report {
    fn line(&mut self, word: &[u8], numbers: &[u64]) {
        self.bytes.extend_from_slice(word);
        for &number in numbers {
            self.bytes.push(b'\t');
            self.number(number);
        }
        self.bytes.push(b'\n');
    }

    fn number(&mut self, mut value: u64) {
        let mut digits = [0; 20];
        let mut first = digits.len();
        loop {
            first -= 1;
            digits[first] = b'0' + (value % 10) as u8;
            value /= 10;
            if value == 0 {
                break;
            }
        }
        self.bytes.extend_from_slice(&digits[first..]);
    }
}

/// The text is the first `length` of the bytes.
fn month(bytes: &[u8], length: usize, report: &mut Report) -> Result<(), Refused> {
    let mut text = Text {
        bytes,
        at: 0,
        line_start: 0,
        line: 0,
    };
    let mut period = Period::open(&mut text)?;
    loop {
        text.begin_line();
        if text.skip(b"end\n").is_some() {
            break;
        }
        period.day(&mut text, report)?;
    }
    if text.at < length {
        text.begin_line();
        return Err(text.bad());
    }
    period.close(report);
    Ok(())
}

fn main() -> io::Result<()> {
    // Fresh memory, which nobody has to clear.
    let mut bytes = vec![0; TEXT_BYTES + NUMBER_BYTES];
    let mut length = 0;
    let mut input = io::stdin().lock();
    loop {
        match input.read(&mut bytes[length..TEXT_BYTES])? {
            0 => break,
            more => length += more,
        }
    }
    let mut report = Report {
        bytes: Vec::with_capacity(REPORT_BYTES),
    };
    if let Err(Refused { row, line }) = month(&bytes, length, &mut report) {
        report.line(b"refused", &[row, line]);
    }
    io::stdout().write_all(&report.bytes)
}
