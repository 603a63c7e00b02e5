//! The layout sheet: which templates are listed, and where their fields lie.

/// The most templates that a sheet may list.
pub const TEMPLATES: usize = 40;
/// The most of them that may be statistics.
pub const STATS: usize = 16;
/// No template: what the finder says of an id that is not listed.
pub const UNLISTED: u8 = 255;

#[derive(Clone, Copy, PartialEq, Eq, Debug)]
pub enum Kind {
    Order,
    Delete,
    Mass,
    Empty,
    Stat,
    Header,
    Entries,
}

impl Kind {
    /// The kind's word.
    pub fn word(self) -> &'static str {
        match self {
            Kind::Order => "order",
            Kind::Delete => "delete",
            Kind::Mass => "mass",
            Kind::Empty => "empty",
            Kind::Stat => "stat",
            Kind::Header => "header",
            Kind::Entries => "entries",
        }
    }
}

/// The names of fields, as places in a template's table.
#[derive(Clone, Copy, PartialEq, Eq, Debug)]
pub enum Name {
    Security,
    Action,
    Side,
    Position,
    Price,
    Size,
    Oid,
    Firm,
    Value,
    Last,
    Bids,
    Offers,
    Stats,
    Group,
}

/// How many names there are.
pub const NAMES: usize = 14;

#[derive(Clone, Copy, PartialEq, Eq, Debug, Default)]
pub struct Field {
    pub offset: u16,
    pub width: u8,
    /// The bits of a number of eight bytes that the field leaves out.
    unused: u8,
}

impl Field {
    /// A field of 1, 2, 4 or 8 bytes at an offset.
    pub fn new(offset: u16, width: u8) -> Self {
        Field { offset, width, unused: 64 - 8 * width }
    }

    /// Where the field ends.
    pub fn end(self) -> u16 {
        self.offset + self.width as u16
    }

    /// The field's number, from the bytes that begin where its block begins and go at least to the field's end.
    #[inline(always)]
    pub fn read(self, part: &[u8]) -> u64 {
        let at = self.offset as usize;
        match part.get(at..at + 8) {
            Some(bytes) => u64::from_le_bytes(bytes.try_into().unwrap()) << self.unused >> self.unused,
            None => self.read_narrow(part),
        }
    }

    /// The same where fewer than eight bytes are behind the offset.
    #[inline(always)]
    fn read_narrow(self, part: &[u8]) -> u64 {
        let field = &part[self.offset as usize..self.end() as usize];
        match *field {
            [a, b, c, d] => u32::from_le_bytes([a, b, c, d]) as u64,
            [a, b] => u16::from_le_bytes([a, b]) as u64,
            [a] => a as u64,
            _ => field.iter().rev().fold(0, |number, byte| number << 8 | *byte as u64),
        }
    }
}

#[derive(Clone, Copy, Debug)]
pub struct Template {
    pub id: u16,
    /// The length that the root block's fields reach to.
    pub needs: u16,
    /// The length that an entry's fields reach to.
    pub entry_needs: u16,
    pub kind: Kind,
    /// Which of the statistics the template is.
    pub stat: u8,
    pub fields: [Field; NAMES],
}

impl Template {
    /// The field of that name.
    #[inline(always)]
    pub fn field(&self, name: Name) -> Field {
        self.fields[name as usize]
    }

    /// The number of that name, from the bytes that begin with the block or entry.
    #[inline(always)]
    pub fn read(&self, name: Name, part: &[u8]) -> u64 {
        self.field(name).read(part)
    }
}

#[derive(Clone, Copy, PartialEq, Eq, Debug, Default)]
pub struct Actions {
    pub new: u8,
    pub change: u8,
    pub topcut: u8,
    pub bottomcut: u8,
}

#[derive(Clone, Debug)]
pub struct Sheet {
    pub actions: Actions,
    pub templates: Vec<Template>,
    finder: Box<[u8; 65_536]>,
}

impl Sheet {
    /// The sheet of these actions and templates, each of another id.
    pub fn new(actions: Actions, templates: Vec<Template>) -> Self {
        let mut finder = Box::new([UNLISTED; 65_536]);
        for (index, template) in templates.iter().enumerate() {
            finder[template.id as usize] = index as u8;
        }
        Sheet { actions, templates, finder }
    }

    /// The index of a template, or `UNLISTED`.
    #[inline(always)]
    pub fn find(&self, id: u16) -> u8 {
        self.finder[id as usize]
    }

    /// The ids of the statistics, in the sheet's order.
    pub fn stats(&self) -> Vec<u16> {
        self.templates.iter().filter(|template| template.kind == Kind::Stat).map(|template| template.id).collect()
    }
}
