//! The text of a layout sheet.

use crate::refusal::{Layer, Refusal};
use crate::sheet::{Actions, Field, Kind, Name, Sheet, Template, NAMES, STATS, TEMPLATES};

const LINE: usize = 64;
const REACH: u16 = 1_372;

/// The sheet that a text stands for, or the first line that breaks a rule or is missing.
pub fn read(text: &[u8]) -> Result<Sheet, Refusal> {
    let mut lines = Lines { rest: text, number: 0 };
    sheet(&mut lines).ok_or(Refusal { number: 17, layer: Layer::Sheet, place: lines.number })
}

/// The sheet of the lines; `None` leaves the number of the wrong line in `lines`.
fn sheet(lines: &mut Lines) -> Option<Sheet> {
    lines.expect(b"new change topcut bottomcut")?;
    let actions = actions(lines.next()?)?;
    lines.expect(b"")?;
    lines.expect(b"template kind field offset width")?;
    let mut building = Building { done: Vec::new(), open: None };
    while !lines.rest.is_empty() {
        building.take(line(lines.next()?)?)?;
    }
    lines.number += 1;
    building.close()?;
    Some(Sheet::new(actions, building.done))
}

struct Lines<'a> {
    rest: &'a [u8],
    number: u64,
}

impl<'a> Lines<'a> {
    /// The next line without its line feed; `None` where there is none, or it is too long or has no line feed.
    fn next(&mut self) -> Option<&'a [u8]> {
        self.number += 1;
        let end = self.rest.iter().take(LINE + 1).position(|byte| *byte == b'\n')?;
        let line = &self.rest[..end];
        self.rest = &self.rest[end + 1..];
        Some(line)
    }

    /// Passes over a line that must be this one.
    fn expect(&mut self, wanted: &[u8]) -> Option<()> {
        (self.next()? == wanted).then_some(())
    }
}

/// A number in figures, with no sign and no leading zeros.
fn figures(word: &[u8], most: u32) -> Option<u32> {
    if word.is_empty() || word.len() > 9 || (word.len() > 1 && word[0] == b'0') || !word.iter().all(u8::is_ascii_digit) {
        return None;
    }
    let number = word.iter().fold(0, |number, figure| number * 10 + (figure - b'0') as u32);
    (number <= most).then_some(number)
}

/// The words of a line, which are `N`.
fn words<const N: usize>(line: &[u8]) -> Option<[&[u8]; N]> {
    let words: Vec<&[u8]> = line.split(|byte| *byte == b' ').collect();
    words.try_into().ok()
}

/// The four numbers of the actions, all different.
fn actions(line: &[u8]) -> Option<Actions> {
    let mut numbers = [0; 4];
    for (number, word) in numbers.iter_mut().zip(words::<4>(line)?) {
        *number = figures(word, 255)? as u8;
    }
    let [new, change, topcut, bottomcut] = numbers;
    let different = (0..4).all(|index| !numbers[..index].contains(&numbers[index]));
    different.then_some(Actions { new, change, topcut, bottomcut })
}

/// The kind of a word, and the fields that it has.
fn kind(word: &[u8]) -> Option<(Kind, &'static [Name])> {
    use Name::*;
    Some(match word {
        b"order" => (Kind::Order, &[Security, Action, Side, Position, Price, Size, Oid, Firm]),
        b"delete" => (Kind::Delete, &[Security, Side, Position]),
        b"mass" => (Kind::Mass, &[Security, Action, Side, Position]),
        b"empty" => (Kind::Empty, &[Security]),
        b"stat" => (Kind::Stat, &[Security, Value]),
        b"header" => (Kind::Header, &[Security, Last, Bids, Offers, Stats]),
        b"entries" => (Kind::Entries, &[Security, Group, Side, Position, Price, Size, Oid, Firm]),
        _ => return None,
    })
}

/// The name of a word, and the widths that such a field may have.
fn name(word: &[u8]) -> Option<(Name, &'static [u8])> {
    Some(match word {
        b"security" => (Name::Security, &[1, 2, 4, 8]),
        b"action" => (Name::Action, &[1]),
        b"side" => (Name::Side, &[1]),
        b"position" => (Name::Position, &[1, 2, 4]),
        b"price" => (Name::Price, &[8]),
        b"size" => (Name::Size, &[1, 2, 4, 8]),
        b"oid" => (Name::Oid, &[1, 2, 4, 8]),
        b"firm" => (Name::Firm, &[1, 2, 4]),
        b"value" => (Name::Value, &[1, 2, 4, 8]),
        b"last" => (Name::Last, &[1, 2, 4]),
        b"bids" => (Name::Bids, &[1, 2, 4]),
        b"offers" => (Name::Offers, &[1, 2, 4]),
        b"stats" => (Name::Stats, &[1, 2, 4]),
        b"group" => (Name::Group, &[1, 2]),
        _ => return None,
    })
}

struct Line {
    id: u16,
    kind: Kind,
    wanted: &'static [Name],
    name: Name,
    field: Field,
}

/// What a field line says by itself.
fn line(line: &[u8]) -> Option<Line> {
    let [id, kind_word, name_word, offset, width] = words(line)?;
    let id = figures(id, 65_535)? as u16;
    let (kind, wanted) = kind(kind_word)?;
    let (name, widths) = name(name_word)?;
    let offset = figures(offset, REACH as u32)? as u16;
    let width = figures(width, 8)? as u8;
    let right = wanted.contains(&name)
        && widths.contains(&width)
        && offset + width as u16 <= REACH
        && (name != Name::Group || offset == 0);
    right.then(|| Line { id, kind, wanted, name, field: Field::new(offset, width) })
}

/// A template whose lines are being read.
struct Open {
    template: Template,
    seen: Vec<Name>,
    wanted: usize,
}

/// The templates so far.
struct Building {
    done: Vec<Template>,
    open: Option<Open>,
}

impl Building {
    /// Takes one field line, or gives `None` where it may not stand here.
    fn take(&mut self, line: Line) -> Option<()> {
        if self.open.as_ref().is_none_or(|open| open.seen.len() == open.wanted) {
            self.close()?;
            self.start(&line)?;
        }
        let open = self.open.as_mut()?;
        if open.template.id != line.id || open.template.kind != line.kind || open.seen.contains(&line.name) {
            return None;
        }
        open.seen.push(line.name);
        open.template.fields[line.name as usize] = line.field;
        Some(())
    }

    /// Begins a template, or gives `None` where it is listed already or one too many.
    fn start(&mut self, line: &Line) -> Option<()> {
        let stats = self.done.iter().filter(|template| template.kind == Kind::Stat).count();
        let listed = self.done.iter().any(|template| template.id == line.id);
        if listed || self.done.len() == TEMPLATES || (line.kind == Kind::Stat && stats == STATS) {
            return None;
        }
        let stat = if line.kind == Kind::Stat { stats as u8 } else { 0 };
        let fields = [Field::default(); NAMES];
        let template = Template { id: line.id, needs: 0, entry_needs: 0, kind: line.kind, stat, fields };
        self.open = Some(Open { template, seen: Vec::new(), wanted: line.wanted.len() });
        Some(())
    }

    /// Ends the open template, or gives `None` where it misses a field.
    fn close(&mut self) -> Option<()> {
        let Some(mut open) = self.open.take() else { return Some(()) };
        if open.seen.len() < open.wanted {
            return None;
        }
        for name in open.seen {
            let end = open.template.field(name).end();
            match (open.template.kind, name) {
                (Kind::Entries, Name::Group) => {}
                (Kind::Entries, Name::Security) => open.template.needs = end,
                (Kind::Entries, _) => open.template.entry_needs = open.template.entry_needs.max(end),
                _ => open.template.needs = open.template.needs.max(end),
            }
        }
        self.done.push(open.template);
        Some(())
    }
}
