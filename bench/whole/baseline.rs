//! A plain program that answers the timed workloads, written by hand to compare speeds with: nothing is proved, no
//! fault is looked for, and the plans are fixed. What it means is what `cedr` means: changes come one by one, in turn
//! from each source, operators repair their results change by change, forget by marks what can't matter any more, and a
//! table of the answer is sorted at the end.
//!
//! usage: baseline history FILE
//!        baseline join|join_group|sequence|followed|unless|except A.csv B.csv
//!        baseline atleast A.csv B.csv C.csv
//!        baseline chain|sums|peaks A.csv
//!        baseline make SIZE

use std::cmp::{Ordering, Reverse};
use std::collections::{BTreeMap, BinaryHeap, HashMap};
use std::io::Write;
use std::rc::Rc;
use std::{env, fs, io};

/// The end of an interval without end, written `inf`.
const FOREVER: u64 = 1 << 62;
const WIDE: u64 = 100;
const NARROW: u64 = 10;
const HOLD: u64 = 1;
const SELECTS: usize = 40;

// ---- lines

/// Takes a comma and the number or `inf` behind it.
fn take_number(rest: &mut &[u8]) -> u64 {
    let text = &rest[1..];
    if let Some(behind) = text.strip_prefix(b"inf") {
        *rest = behind;
        return FOREVER;
    }
    let length = text.iter().take_while(|byte| byte.is_ascii_digit()).count();
    let (digits, behind) = text.split_at(length);
    *rest = behind;
    digits.iter().fold(0, |value, digit| value * 10 + u64::from(digit - b'0'))
}

fn push_number(number: u64, text: &mut Vec<u8>) {
    let mut digits = [0; 20];
    let mut start = digits.len();
    let mut left = number;
    loop {
        start -= 1;
        digits[start] = b'0' + (left % 10) as u8;
        left /= 10;
        if left == 0 {
            break;
        }
    }
    text.extend_from_slice(&digits[start..]);
}

fn push_time(time: u64, text: &mut Vec<u8>) {
    if time == FOREVER {
        text.extend_from_slice(b"inf");
    } else {
        push_number(time, text);
    }
}

// ---- history

/// Where the rows of ids stand: ids that ascend are looked for by halves, and others by their hashes.
#[derive(Default)]
struct Places {
    rising: Vec<(u64, usize)>,
    others: HashMap<u64, usize>,
}

impl Places {
    fn insert(&mut self, id: u64, place: usize) {
        if self.rising.last().is_none_or(|last| last.0 < id) {
            self.rising.push((id, place));
        } else {
            self.others.insert(id, place);
        }
    }

    /// Looks first where the id stands if none before it is left out.
    fn get(&self, id: u64) -> usize {
        let guess = id.wrapping_sub(self.rising[0].0) as usize;
        match self.rising.get(guess) {
            Some(found) if found.0 == id => found.1,
            _ => match self.rising.binary_search_by_key(&id, |found| found.0) {
                Ok(at) => self.rising[at].1,
                Err(_) => self.others[&id],
            },
        }
    }
}

/// The end and begin of a row, by which most are sorted, and where its fields stand in the file.
#[derive(Clone, Copy)]
struct Line {
    end: u64,
    begin: u64,
    from: u32,
    to: u32,
}

impl Line {
    /// The fields, each behind its comma.
    fn payload<'a>(&self, bytes: &'a [u8]) -> &'a [u8] {
        &bytes[self.from as usize..self.to as usize]
    }

    /// By end, then by begin, then field by field.
    fn order(&self, other: &Line, bytes: &[u8]) -> Ordering {
        (self.end, self.begin)
            .cmp(&(other.end, other.begin))
            .then_with(|| fields(self.payload(bytes)).cmp(fields(other.payload(bytes))))
    }
}

fn fields(payload: &[u8]) -> impl Iterator<Item = &[u8]> {
    payload.split(|byte| *byte == b',')
}

/// The row of each insertion, with the end that its retractions leave.
fn read_lines(bytes: &[u8]) -> Vec<Line> {
    let mut rows: Vec<Line> = Vec::with_capacity(bytes.len() / 40);
    let mut places = Places::default();
    for line in bytes.split(|byte| *byte == b'\n') {
        let line = line.strip_suffix(b"\r").unwrap_or(line);
        let Some((kind, mut rest)) = line.split_first() else {
            continue;
        };
        if *kind == b'=' {
            continue;
        }
        let id = take_number(&mut rest);
        if *kind == b'+' {
            let begin = take_number(&mut rest);
            let end = take_number(&mut rest);
            let from = rest.as_ptr() as usize - bytes.as_ptr() as usize;
            places.insert(id, rows.len());
            rows.push(Line { end, begin, from: from as u32, to: (from + rest.len()) as u32 });
        } else {
            rows[places.get(id)].end = take_number(&mut rest);
        }
    }
    rows
}

fn history(file: &str) -> io::Result<()> {
    let bytes = fs::read(file)?;
    let mut rows = read_lines(&bytes);
    rows.retain(|row| row.begin < row.end);
    rows.sort_unstable_by(|one, other| one.order(other, &bytes));
    let mut text = Vec::with_capacity(bytes.len());
    for row in &rows {
        push_time(row.begin, &mut text);
        text.push(b',');
        push_time(row.end, &mut text);
        text.extend_from_slice(row.payload(&bytes));
        text.push(b'\n');
    }
    io::stdout().write_all(&text)
}

// ---- rows and changes

#[derive(Clone, PartialEq, Eq, PartialOrd, Ord, Hash)]
enum Field {
    Number(i128),
    Text(Rc<[u8]>),
}

type Payload = Rc<[Field]>;

#[derive(Clone, PartialEq, Eq, PartialOrd, Ord)]
struct Row {
    end: u64,
    begin: u64,
    payload: Payload,
}

enum Change {
    Add(Row),
    Cut(Row, u64),
}

impl Change {
    fn sync(&self) -> u64 {
        match self {
            Change::Add(row) => row.begin,
            Change::Cut(_, end) => *end,
        }
    }
}

enum Message {
    Change(Change),
    Mark(u64),
}

/// Rows with the number of their copies.
#[derive(Default)]
struct Bag(BTreeMap<Row, usize>);

impl Bag {
    fn add(&mut self, row: Row) {
        *self.0.entry(row).or_insert(0) += 1;
    }

    fn take(&mut self, row: &Row) {
        let count = self.0.get_mut(row).expect("a row that is there");
        *count -= 1;
        if *count == 0 {
            self.0.remove(row);
        }
    }

    fn apply(&mut self, change: Change) {
        match change {
            Change::Add(row) => self.add(row),
            Change::Cut(row, end) => {
                self.take(&row);
                if row.begin < end {
                    self.add(Row { end, ..row });
                }
            }
        }
    }
}

/// The messages of the lines of events of a text and a number.
fn read_messages(bytes: &[u8]) -> Vec<Message> {
    let mut rows: Vec<Row> = Vec::new();
    let mut places = Places::default();
    let mut messages = Vec::new();
    for line in bytes.split(|byte| *byte == b'\n') {
        let Some((kind, mut rest)) = line.split_first() else {
            continue;
        };
        if *kind == b'=' {
            messages.push(Message::Mark(take_number(&mut rest)));
            continue;
        }
        let id = take_number(&mut rest);
        if *kind == b'+' {
            let begin = take_number(&mut rest);
            let end = take_number(&mut rest);
            let mut parts = fields(&rest[1..]);
            let text = parts.next().expect("a text");
            let number = parts.next().expect("a number");
            let number = number.iter().fold(0i128, |value, digit| value * 10 + i128::from(digit - b'0'));
            let row = Row { end, begin, payload: Rc::from([Field::Text(Rc::from(text)), Field::Number(number)]) };
            places.insert(id, rows.len());
            rows.push(row.clone());
            messages.push(Message::Change(Change::Add(row)));
        } else {
            let end = take_number(&mut rest);
            let row = &mut rows[places.get(id)];
            messages.push(Message::Change(Change::Cut(row.clone(), end)));
            row.end = end;
        }
    }
    messages
}

// ---- operators

trait Operator {
    fn apply(&mut self, port: usize, change: Change, out: &mut Vec<Change>);
    /// Forgets what can't matter any more at the least mark of the ports.
    fn trim(&mut self, mark: u64);
}

fn joined(left: &Payload, right: &Payload) -> Payload {
    left.iter().chain(right.iter()).cloned().collect()
}

/// Rows with an equal first field meet while both are valid.
#[derive(Default)]
struct Join {
    by_key: HashMap<Field, [Bag; 2]>,
    ends: BinaryHeap<Reverse<(u64, Field)>>,
}

impl Join {
    fn pair(port: usize, row: &Row, other: &Row) -> Option<Row> {
        let begin = row.begin.max(other.begin);
        let end = row.end.min(other.end);
        let payload = || {
            if port == 0 { joined(&row.payload, &other.payload) } else { joined(&other.payload, &row.payload) }
        };
        (begin < end).then(|| Row { end, begin, payload: payload() })
    }
}

impl Operator for Join {
    fn apply(&mut self, port: usize, change: Change, out: &mut Vec<Change>) {
        let sync = change.sync();
        let row = match &change {
            Change::Add(row) | Change::Cut(row, _) => row,
        };
        let key = &row.payload[0];
        if !self.by_key.contains_key(key) {
            self.by_key.insert(key.clone(), Default::default());
        }
        let bags = self.by_key.get_mut(key).expect("a key that is there");
        let first = Row { end: sync + 1, begin: 0, payload: Rc::from([]) };
        for (other, count) in bags[1 - port].0.range(first..) {
            for _ in 0..*count {
                let Some(pair) = Join::pair(port, row, other) else {
                    continue;
                };
                match &change {
                    Change::Add(_) => out.push(Change::Add(pair)),
                    Change::Cut(_, end) if *end < pair.end => {
                        let end = (*end).max(pair.begin);
                        out.push(Change::Cut(pair, end));
                    }
                    Change::Cut(..) => {}
                }
            }
        }
        let end = match &change {
            Change::Add(row) => row.end,
            Change::Cut(_, end) => *end,
        };
        self.ends.push(Reverse((end, key.clone())));
        bags[port].apply(change);
    }

    fn trim(&mut self, mark: u64) {
        while self.ends.peek().is_some_and(|due| due.0.0 <= mark) {
            let Reverse((_, key)) = self.ends.pop().expect("an end that is there");
            let Some(bags) = self.by_key.get_mut(&key) else {
                continue;
            };
            for bag in bags.iter_mut() {
                while bag.0.first_key_value().is_some_and(|(row, _)| row.end <= mark) {
                    bag.0.pop_first();
                }
            }
            if bags.iter().all(|bag| bag.0.is_empty()) {
                self.by_key.remove(&key);
            }
        }
    }
}

/// The parts of rows of port 0 in which no row of port 1 with an equal first field is valid.
#[derive(Default)]
struct Except {
    by_key: HashMap<Field, [Bag; 2]>,
    ends: BinaryHeap<Reverse<(u64, Field)>>,
}

impl Except {
    fn parts(row: &Row, others: &Bag) -> Vec<Row> {
        let first = Row { end: row.begin + 1, begin: 0, payload: Rc::from([]) };
        let mut met: Vec<(u64, u64)> = others.0.range(first..).map(|(other, _)| (other.begin, other.end)).collect();
        met.retain(|(begin, _)| *begin < row.end);
        met.sort_unstable();
        met.push((row.end, row.end));
        let mut parts = Vec::new();
        let mut since = row.begin;
        for (begin, end) in met {
            if since < begin {
                parts.push(Row { end: begin, begin: since, payload: row.payload.clone() });
            }
            since = since.max(end);
        }
        parts
    }

    fn repair(olds: &[Row], news: &[Row], copies: usize, out: &mut Vec<Change>) {
        for _ in 0..copies {
            for old in olds.iter().filter(|old| !news.contains(old)) {
                out.push(Change::Cut(old.clone(), old.begin));
            }
            for new in news.iter().filter(|new| !olds.contains(new)) {
                out.push(Change::Add(new.clone()));
            }
        }
    }
}

impl Operator for Except {
    fn apply(&mut self, port: usize, change: Change, out: &mut Vec<Change>) {
        let sync = change.sync();
        let (row, left) = match &change {
            Change::Add(row) => (row.clone(), row.end),
            Change::Cut(row, end) => (row.clone(), *end),
        };
        let key = row.payload[0].clone();
        self.ends.push(Reverse((left, key.clone())));
        let bags = self.by_key.entry(key).or_default();
        if port == 0 {
            let is_cut = matches!(change, Change::Cut(..));
            let olds = if is_cut { Except::parts(&row, &bags[1]) } else { Vec::new() };
            let remnant = Row { end: left, ..row };
            let news = if remnant.begin < left { Except::parts(&remnant, &bags[1]) } else { Vec::new() };
            Except::repair(&olds, &news, 1, out);
            bags[0].apply(change);
            return;
        }
        let first = Row { end: sync + 1, begin: 0, payload: Rc::from([]) };
        let met: Vec<(Row, usize)> = bags[0].0.range(first..).map(|(one, count)| (one.clone(), *count)).collect();
        let met: Vec<(Row, usize)> = met.into_iter().filter(|(one, _)| one.begin < row.end).collect();
        let olds: Vec<Vec<Row>> = met.iter().map(|(one, _)| Except::parts(one, &bags[1])).collect();
        bags[1].apply(change);
        for ((one, count), olds) in met.iter().zip(olds) {
            Except::repair(&olds, &Except::parts(one, &bags[1]), *count, out);
        }
    }

    /// A row of port 1 stays while it meets one of port 0 that does.
    fn trim(&mut self, mark: u64) {
        while self.ends.peek().is_some_and(|due| due.0.0 <= mark) {
            let Reverse((_, key)) = self.ends.pop().expect("an end that is there");
            let Some(bags) = self.by_key.get_mut(&key) else {
                continue;
            };
            while bags[0].0.first_key_value().is_some_and(|(row, _)| row.end <= mark) {
                bags[0].0.pop_first();
            }
            let needed = bags[0].0.keys().map(|row| row.begin).min().map_or(mark, |begin| begin.min(mark));
            while bags[1].0.first_key_value().is_some_and(|(row, _)| row.end <= needed) {
                bags[1].0.pop_first();
            }
            if bags.iter().all(|bag| bag.0.is_empty()) {
                self.by_key.remove(&key);
            }
        }
    }
}

/// What is told of the numbers of a segment's rows.
trait Totals: Clone + Default + 'static {
    fn add(&mut self, number: i128);
    fn take(&mut self, number: i128);
    /// The payload of a row of the result.
    fn payload(&self, key: &Field, living: usize) -> Payload;
}

/// Their sum.
impl Totals for i128 {
    fn add(&mut self, number: i128) {
        *self += number;
    }

    fn take(&mut self, number: i128) {
        *self -= number;
    }

    fn payload(&self, key: &Field, living: usize) -> Payload {
        Rc::from([key.clone(), Field::Number(living as i128), Field::Number(*self)])
    }
}

/// Their sum, and their least and their greatest one, from a bag of all of them.
#[derive(Clone, Default)]
struct Peaks {
    sum: i128,
    numbers: BTreeMap<i128, usize>,
}

impl Totals for Peaks {
    fn add(&mut self, number: i128) {
        self.sum += number;
        *self.numbers.entry(number).or_default() += 1;
    }

    fn take(&mut self, number: i128) {
        self.sum -= number;
        let count = self.numbers.get_mut(&number).expect("a number that is there");
        *count -= 1;
        if *count == 0 {
            self.numbers.remove(&number);
        }
    }

    fn payload(&self, key: &Field, living: usize) -> Payload {
        let (least, _) = self.numbers.first_key_value().expect("a number");
        let (greatest, _) = self.numbers.last_key_value().expect("a number");
        let numbers = [living as i128, self.sum, *least, *greatest].map(Field::Number);
        std::iter::once(key.clone()).chain(numbers).collect()
    }
}

#[derive(Clone, Default)]
struct Segment<T> {
    edges: usize,
    living: usize,
    totals: T,
}

/// Counts and totals of the second field by the first one.
#[derive(Default)]
struct Group<T> {
    by_key: HashMap<Field, BTreeMap<u64, Segment<T>>>,
    due: BinaryHeap<Reverse<(u64, Field)>>,
}

impl<T: Totals> Group<T> {
    fn rows(key: &Field, cuts: &BTreeMap<u64, Segment<T>>, from: u64, to: u64) -> Vec<Row> {
        let mut rows = Vec::new();
        let mut open: Option<(u64, &Segment<T>)> = None;
        for (at, segment) in cuts.range(from..=to) {
            if let Some((begin, before)) = open {
                rows.push(Row { end: *at, begin, payload: before.totals.payload(key, before.living) });
            }
            open = (segment.living > 0).then_some((*at, segment));
        }
        rows
    }

    fn add_edge(cuts: &mut BTreeMap<u64, Segment<T>>, at: u64) {
        let before = match cuts.range(..=at).next_back() {
            Some((time, segment)) if *time == at => Segment { edges: segment.edges + 1, ..segment.clone() },
            Some((_, segment)) => Segment { edges: 1, ..segment.clone() },
            None => Segment { edges: 1, ..Segment::default() },
        };
        cuts.insert(at, before);
    }

    fn take_edge(cuts: &mut BTreeMap<u64, Segment<T>>, at: u64) {
        let segment = cuts.get_mut(&at).expect("a cut point that is there");
        segment.edges -= 1;
        if segment.edges == 0 {
            cuts.remove(&at);
        }
    }
}

impl<T: Totals> Operator for Group<T> {
    fn apply(&mut self, _port: usize, change: Change, out: &mut Vec<Change>) {
        let sync = change.sync();
        let row = match &change {
            Change::Add(row) | Change::Cut(row, _) => row,
        };
        let key = row.payload[0].clone();
        let Field::Number(number) = row.payload[1] else {
            return;
        };
        let cuts = self.by_key.entry(key.clone()).or_default();
        let from = cuts.range(..sync).next_back().map_or(sync, |(at, _)| *at);
        let to = cuts.range(row.end + 1..).next().map_or(u64::MAX, |(at, _)| *at);
        let olds = Group::<T>::rows(&key, cuts, from, to);
        match &change {
            Change::Add(row) => {
                Group::<T>::add_edge(cuts, row.begin);
                Group::<T>::add_edge(cuts, row.end);
                for (_, segment) in cuts.range_mut(row.begin..row.end) {
                    segment.living += 1;
                    segment.totals.add(number);
                }
                self.due.push(Reverse((row.begin, key.clone())));
                self.due.push(Reverse((row.end, key.clone())));
            }
            Change::Cut(row, end) => {
                if row.begin < *end {
                    Group::<T>::add_edge(cuts, *end);
                    self.due.push(Reverse((*end, key.clone())));
                }
                for (_, segment) in cuts.range_mut(*end..row.end) {
                    segment.living -= 1;
                    segment.totals.take(number);
                }
                Group::<T>::take_edge(cuts, row.end);
                if *end <= row.begin {
                    Group::<T>::take_edge(cuts, row.begin);
                }
            }
        }
        let news = Group::<T>::rows(&key, cuts, from, to);
        for row in &olds {
            if news.binary_search(row).is_err() {
                out.push(Change::Cut(row.clone(), row.begin));
            }
        }
        for row in news {
            if olds.binary_search(&row).is_err() {
                out.push(Change::Add(row));
            }
        }
    }

    fn trim(&mut self, mark: u64) {
        while self.due.peek().is_some_and(|due| due.0.0 < mark) {
            let Reverse((_, key)) = self.due.pop().expect("a cut point that is there");
            let Some(cuts) = self.by_key.get_mut(&key) else {
                continue;
            };
            let last = cuts.range(..mark).next_back().map(|(at, segment)| (*at, segment.living > 0));
            if let Some((last, lives)) = last {
                while cuts.first_key_value().is_some_and(|(at, _)| *at < last || (*at == last && !lives)) {
                    cuts.pop_first();
                }
            }
            if cuts.is_empty() {
                self.by_key.remove(&key);
            }
        }
    }
}

/// The rows of a port by their first field and begin.
#[derive(Default)]
struct Starts<const SCOPE: u64> {
    by_key: HashMap<Field, Bag>,
    begins: BinaryHeap<Reverse<(u64, Field)>>,
}

impl<const SCOPE: u64> Starts<SCOPE> {
    fn note(&mut self, row: Row, comes: bool) {
        let key = row.payload[0].clone();
        let bag = self.by_key.entry(key.clone()).or_default();
        let row = Row { end: FOREVER, ..row };
        if comes {
            self.begins.push(Reverse((row.begin, key)));
            bag.add(row);
        } else {
            bag.take(&row);
        }
    }

    /// The rows of a key that begin at a time or later, and before another one.
    fn within(&self, key: &Field, from: u64, before: u64) -> impl Iterator<Item = (&Row, &usize)> {
        let at = |begin| Row { end: FOREVER, begin, payload: Rc::from([]) };
        self.by_key.get(key).into_iter().flat_map(move |bag| bag.0.range(at(from)..at(before.max(from))))
    }

    fn trim(&mut self, mark: u64) {
        while self.begins.peek().is_some_and(|due| due.0.0 + SCOPE <= mark) {
            let Reverse((_, key)) = self.begins.pop().expect("a begin that is there");
            let Some(bag) = self.by_key.get_mut(&key) else {
                continue;
            };
            while bag.0.first_key_value().is_some_and(|(row, _)| row.begin + SCOPE <= mark) {
                bag.0.pop_first();
            }
            if bag.0.is_empty() {
                self.by_key.remove(&key);
            }
        }
    }
}

fn push_way(comes: bool, row: Row, out: &mut Vec<Change>) {
    if comes {
        out.push(Change::Add(row));
    } else {
        let begin = row.begin;
        out.push(Change::Cut(row, begin));
    }
}

/// The row of a change and whether it comes, where the change isn't a cut that leaves something.
fn whole(change: Change) -> Option<(Row, bool)> {
    match change {
        Change::Add(row) => Some((row, true)),
        Change::Cut(row, end) => (end <= row.begin).then_some((row, false)),
    }
}

/// A row of port 0, and within the scope one of port 1 with an equal first field.
#[derive(Default)]
struct Sequence<const SCOPE: u64>([Starts<SCOPE>; 2]);

impl<const SCOPE: u64> Operator for Sequence<SCOPE> {
    fn apply(&mut self, port: usize, change: Change, out: &mut Vec<Change>) {
        let Some((row, comes)) = whole(change) else {
            return;
        };
        let key = &row.payload[0];
        let (from, before) = match port {
            0 => (row.begin + 1, row.begin + SCOPE),
            _ => ((row.begin + 1).saturating_sub(SCOPE), row.begin),
        };
        for (other, count) in self.0[1 - port].within(key, from, before) {
            let (first, last) = if port == 0 { (&row, other) } else { (other, &row) };
            for _ in 0..*count {
                let payload = joined(&first.payload, &last.payload);
                push_way(comes, Row { end: first.begin + SCOPE, begin: last.begin, payload }, out);
            }
        }
        self.0[port].note(row, comes);
    }

    fn trim(&mut self, mark: u64) {
        self.0.iter_mut().for_each(|starts| starts.trim(mark));
    }
}

/// Rows of two of three ports with an equal first field, one begun after the other within the scope.
#[derive(Default)]
struct AtLeast([Starts<NARROW>; 3]);

impl Operator for AtLeast {
    fn apply(&mut self, port: usize, change: Change, out: &mut Vec<Change>) {
        let Some((row, comes)) = whole(change) else {
            return;
        };
        let (from, before) = ((row.begin + 1).saturating_sub(NARROW), row.begin + NARROW);
        for others in (0..3).filter(|other| *other != port) {
            for (other, count) in self.0[others].within(&row.payload[0], from, before) {
                if other.begin == row.begin {
                    continue;
                }
                let (first, last) = if row.begin < other.begin { (&row, other) } else { (other, &row) };
                for _ in 0..*count {
                    let payload = joined(&first.payload, &last.payload);
                    push_way(comes, Row { end: first.begin + NARROW, begin: last.begin, payload }, out);
                }
            }
        }
        self.0[port].note(row, comes);
    }

    fn trim(&mut self, mark: u64) {
        self.0.iter_mut().for_each(|starts| starts.trim(mark));
    }
}

/// A row of port 0 that no row of port 1 with an equal first field begins behind, within the scope.
#[derive(Default)]
struct Unless([Starts<WIDE>; 2]);

impl Unless {
    fn is_blocked(&self, row: &Row) -> bool {
        self.0[1].within(&row.payload[0], row.begin + 1, row.begin + WIDE).next().is_some()
    }

    fn waited(row: &Row) -> Row {
        Row { end: row.begin + WIDE + HOLD, begin: row.begin + WIDE, payload: row.payload.clone() }
    }

    fn decided(&self, row: &Row) -> Vec<(Row, usize)> {
        let from = (row.begin + 1).saturating_sub(WIDE);
        let others = self.0[0].within(&row.payload[0], from, row.begin);
        others.filter(|(other, _)| !self.is_blocked(other)).map(|(other, count)| (Unless::waited(other), *count)).collect()
    }
}

impl Operator for Unless {
    fn apply(&mut self, port: usize, change: Change, out: &mut Vec<Change>) {
        let Some((row, comes)) = whole(change) else {
            return;
        };
        if port == 0 {
            if !self.is_blocked(&row) {
                push_way(comes, Unless::waited(&row), out);
            }
            self.0[0].note(row, comes);
            return;
        }
        let key = row.clone();
        if !comes {
            self.0[1].note(row, false);
            for (other, count) in self.decided(&key) {
                (0..count).for_each(|_| push_way(true, other.clone(), out));
            }
        } else {
            for (other, count) in self.decided(&key) {
                (0..count).for_each(|_| push_way(false, other.clone(), out));
            }
            self.0[1].note(row, true);
        }
    }

    fn trim(&mut self, mark: u64) {
        self.0.iter_mut().for_each(|starts| starts.trim(mark));
    }
}

/// Rows whose second field isn't below 0.
struct Select;

impl Operator for Select {
    fn apply(&mut self, _port: usize, change: Change, out: &mut Vec<Change>) {
        let row = match &change {
            Change::Add(row) | Change::Cut(row, _) => row,
        };
        if matches!(row.payload[1], Field::Number(number) if number >= 0) {
            out.push(change);
        }
    }

    fn trim(&mut self, _mark: u64) {}
}

// ---- networks

/// An operator, and the last mark of each of its ports.
struct Node {
    operator: Box<dyn Operator>,
    marks: Vec<u64>,
    sent: u64,
}

impl Node {
    fn new(operator: impl Operator + 'static, ports: usize) -> Node {
        Node { operator: Box::new(operator), marks: vec![0; ports], sent: 0 }
    }

    fn take(&mut self, port: usize, message: Message, out: &mut Vec<Message>) {
        match message {
            Message::Change(change) => {
                let mut changes = Vec::new();
                self.operator.apply(port, change, &mut changes);
                out.extend(changes.into_iter().map(Message::Change));
            }
            Message::Mark(mark) => {
                self.marks[port] = mark;
                let least = *self.marks.iter().min().expect("a port");
                if least > self.sent {
                    self.sent = least;
                    self.operator.trim(least);
                    out.push(Message::Mark(least));
                }
            }
        }
    }
}

/// A message goes through the nodes behind the first one, each of which has one port.
fn pass_on(nodes: &mut [Node], message: Message, answer: &mut Bag) {
    match nodes.split_first_mut() {
        None => {
            if let Message::Change(change) = message {
                answer.apply(change);
            }
        }
        Some((node, others)) => {
            let mut out = Vec::new();
            node.take(0, message, &mut out);
            for message in out {
                pass_on(others, message, answer);
            }
        }
    }
}

/// Feeds the sources in turn to the ports of the first node, and gives what comes behind the last one.
fn answer(messages: Vec<Vec<Message>>, mut nodes: Vec<Node>) -> Bag {
    let mut sources: Vec<_> = messages.into_iter().map(Vec::into_iter).collect();
    let mut answer = Bag::default();
    let mut open = true;
    while open {
        open = false;
        for (port, source) in sources.iter_mut().enumerate() {
            if let Some(message) = source.next() {
                open = true;
                let (first, others) = nodes.split_first_mut().expect("a node");
                let mut out = Vec::new();
                first.take(port, message, &mut out);
                for message in out {
                    pass_on(others, message, &mut answer);
                }
            }
        }
    }
    answer
}

fn write_rows(answer: &Bag) -> io::Result<()> {
    let mut text = Vec::new();
    for (row, count) in &answer.0 {
        for _ in 0..*count {
            push_time(row.begin, &mut text);
            text.push(b',');
            push_time(row.end, &mut text);
            for field in row.payload.iter() {
                text.push(b',');
                match field {
                    Field::Number(number) => text.extend_from_slice(number.to_string().as_bytes()),
                    Field::Text(bytes) => text.extend_from_slice(bytes),
                }
            }
            text.push(b'\n');
        }
    }
    io::stdout().write_all(&text)
}

// ---- made events

fn mixed(number: u64) -> u64 {
    (number * 40_503 + 12_345) % 65_536 / 16
}

/// The lines of a made source, which is 0 or 1.
fn made_lines(size: u64, source: u64) -> Vec<u8> {
    let mut lines = Vec::new();
    for event in 0..size {
        let first = 8 * event + 4 * source;
        let begin = 10 * event + mixed(first) % 50;
        let length = 1 + mixed(first + 1) % 100;
        let (key, value) = (mixed(first + 2) % 2, mixed(first + 3) % 1_000);
        let end = begin + length;
        lines.extend_from_slice(format!("+,{event},{begin},{end},k{key},{value}\n").as_bytes());
        if event % 5 == 4 {
            lines.extend_from_slice(format!("-,{event},{}\n", begin + length / 2).as_bytes());
        }
        if event % 16 == 15 {
            lines.extend_from_slice(format!("=,{}\n", 10 * (event + 1)).as_bytes());
        }
    }
    lines
}

/// How many rows there are, and the sum of their lengths.
fn write_summary(answer: &Bag) {
    let rows: usize = answer.0.values().sum();
    let length: u64 = answer.0.iter().map(|(row, count)| (row.end - row.begin) * *count as u64).sum();
    println!("rows {rows} length {length}");
}

fn join_and_group() -> Vec<Node> {
    vec![Node::new(Join::default(), 2), Node::new(Group::<i128>::default(), 1)]
}

fn make(size: u64) {
    let messages = vec![read_messages(&made_lines(size, 0)), read_messages(&made_lines(size, 1))];
    write_summary(&answer(messages, join_and_group()));
}

fn main() -> io::Result<()> {
    let words: Vec<String> = env::args().skip(1).collect();
    let (command, files) = words.split_first().expect("usage: baseline COMMAND FILE..");
    let nodes = match command.as_str() {
        "history" => return history(&files[0]),
        "make" => {
            make(files[0].parse().expect("a size"));
            return Ok(());
        }
        "join" => vec![Node::new(Join::default(), 2)],
        "join_group" => join_and_group(),
        "sequence" => vec![Node::new(Sequence::<WIDE>::default(), 2)],
        "followed" => vec![Node::new(Sequence::<NARROW>::default(), 2)],
        "atleast" => vec![Node::new(AtLeast::default(), 3)],
        "except" => vec![Node::new(Except::default(), 2)],
        "unless" => vec![Node::new(Unless::default(), 2)],
        "sums" => vec![Node::new(Group::<i128>::default(), 1)],
        "peaks" => vec![Node::new(Group::<Peaks>::default(), 1)],
        "chain" => (0..SELECTS).map(|_| Node::new(Select, 1)).collect(),
        _ => panic!("no such command"),
    };
    let mut messages = Vec::new();
    for file in files {
        messages.push(read_messages(&fs::read(file)?));
    }
    write_rows(&answer(messages, nodes))
}
