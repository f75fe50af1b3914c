//! The reader: from a text to a class table, or the lowest of refusals 1 to 5.
//!
//! Each refusal is looked for over the whole text before the next one is, so
//! a bad frame in the last line beats a bad order in the first two.

use crate::classes::{self, known, typed_class};
use crate::refusals::{Refusal, TEXT_LENGTH};
use crate::syntax::{
    Class, Expr, MAX_CLASSES, MAX_FIELDS, MAX_METHODS, MAX_NESTING, MAX_PARAMETERS, MINUS, Method,
    PLUS, Table, Type,
};
use crate::text;

/// Reads a text into its table.
pub fn read(text: &[u8]) -> Result<Table, Refusal> {
    if text.len() > TEXT_LENGTH {
        return Err(Refusal::LineForm);
    }
    let lines = text::lines(text).ok_or(Refusal::LineForm)?;
    let frames: Option<Vec<Frame>> = lines.iter().map(|line| frame(line)).collect();
    let (numbers, table) = in_order(frames.ok_or(Refusal::Frame)?).ok_or(Refusal::Order)?;
    if !classes_in_rule(&numbers, &table) || !methods_in_rule(&table) || !main_in_rule(&table) {
        return Err(Refusal::Classes);
    }
    if !table.methods.iter().all(|method| overrides(&table, method)) {
        return Err(Refusal::Override);
    }
    Ok(table)
}

enum Frame {
    /// A class still carries the number it claims; rule 4 checks it.
    Class(u8, Class),
    Method(Method),
    /// The type is that of an `04` main.
    Main(Option<Type>, Expr),
}

/// One line and how far it has been read. Running off its end, or meeting a
/// byte the form does not allow, gives nothing: refusal 2.
struct Cursor<'a> {
    line: &'a [u8],
    next: usize,
}

impl Cursor<'_> {
    fn byte(&mut self) -> Option<u8> {
        let byte = *self.line.get(self.next)?;
        self.next += 1;
        Some(byte)
    }

    fn count(&mut self, limit: usize) -> Option<usize> {
        let count = usize::from(self.byte()?);
        (count <= limit).then_some(count)
    }

    fn type_(&mut self) -> Option<Type> {
        let class = self.byte()?;
        let tag = self.byte()?;
        (tag <= MINUS).then_some(Type { class, tag })
    }

    fn types(&mut self, limit: usize) -> Option<Vec<Type>> {
        let count = self.count(limit)?;
        (0..count).map(|_| self.type_()).collect()
    }

    /// `room` is how many levels of nesting are left, this one included.
    fn expr(&mut self, room: usize) -> Option<Expr> {
        let room = room.checked_sub(1)?;
        match self.byte()? {
            0x40 => Some(Expr::This),
            0x41 => Some(Expr::Res),
            0x42 => Some(Expr::Param(self.byte()?)),
            0x43 => {
                let field = self.byte()?;
                Some(Expr::Field(field, Box::new(self.expr(room)?)))
            }
            0x44 => {
                let name = self.byte()?;
                let count = self.count(MAX_PARAMETERS)?;
                let receiver = Box::new(self.expr(room)?);
                Some(Expr::Call(name, receiver, self.exprs(count, room)?))
            }
            0x45 => {
                let class = self.byte()?;
                let count = self.count(MAX_FIELDS)?;
                Some(Expr::New(class, self.exprs(count, room)?))
            }
            0x46 => {
                let bytes = [self.byte()?, self.byte()?];
                Some(Expr::Number(u16::from_be_bytes(bytes)))
            }
            0x47 => Some(Expr::Sum(self.part(room)?, self.part(room)?)),
            0x48 => Some(Expr::Difference(self.part(room)?, self.part(room)?)),
            0x49 => {
                let number = self.part(room)?;
                Some(Expr::Choose(number, self.part(room)?, self.part(room)?))
            }
            _ => None,
        }
    }

    fn part(&mut self, room: usize) -> Option<Box<Expr>> {
        self.expr(room).map(Box::new)
    }

    fn exprs(&mut self, count: usize, room: usize) -> Option<Vec<Expr>> {
        (0..count).map(|_| self.expr(room)).collect()
    }
}

fn frame(line: &[u8]) -> Option<Frame> {
    let mut cursor = Cursor { line, next: 0 };
    let frame = match cursor.byte()? {
        0x01 => class_frame(&mut cursor)?,
        0x02 => method_frame(&mut cursor)?,
        0x03 => Frame::Main(None, cursor.expr(MAX_NESTING)?),
        0x04 => Frame::Main(Some(cursor.type_()?), cursor.expr(MAX_NESTING)?),
        _ => return None,
    };
    (cursor.next == line.len()).then_some(frame)
}

fn class_frame(cursor: &mut Cursor) -> Option<Frame> {
    let number = cursor.byte()?;
    let parent = cursor.byte()?;
    let fields = cursor.types(MAX_FIELDS)?;
    Some(Frame::Class(number, Class { parent, fields }))
}

fn method_frame(cursor: &mut Cursor) -> Option<Frame> {
    Some(Frame::Method(Method {
        owner: cursor.byte()?,
        name: cursor.byte()?,
        first: cursor.type_()?,
        second: cursor.type_()?,
        params: cursor.types(MAX_PARAMETERS)?,
        left: cursor.expr(MAX_NESTING)?,
        right: cursor.expr(MAX_NESTING)?,
    }))
}

/// Rule 3: classes, then methods, then one main, none over its number.
/// Gives the class numbers as written beside the table.
fn in_order(frames: Vec<Frame>) -> Option<(Vec<u8>, Table)> {
    let mut numbers = Vec::new();
    let mut classes = Vec::new();
    let mut methods = Vec::new();
    let mut main = None;
    for frame in frames {
        if main.is_some() {
            return None;
        }
        match frame {
            Frame::Class(number, class) if methods.is_empty() => {
                numbers.push(number);
                classes.push(class);
            }
            Frame::Class(..) => return None,
            Frame::Method(method) => methods.push(method),
            Frame::Main(input, expr) => main = Some((input, expr)),
        }
    }
    if classes.len() > MAX_CLASSES || methods.len() > MAX_METHODS {
        return None;
    }
    let (input, main) = main?;
    let table = Table {
        classes,
        methods,
        input,
        main,
    };
    Some((numbers, table))
}

/// Rule 4 for the class frames. Parents are tested before anything walks them.
fn classes_in_rule(numbers: &[u8], table: &Table) -> bool {
    let placed = numbers
        .iter()
        .zip(&table.classes)
        .zip(1u8..)
        .all(|((&number, class), place)| number == place && class.parent < place);
    placed
        && numbers.iter().zip(&table.classes).all(|(&number, class)| {
            class.fields.iter().all(|&field| closed(table, field))
                && classes::fields(table, number).len() <= MAX_FIELDS
        })
}

/// Rule 4 for the method frames.
fn methods_in_rule(table: &Table) -> bool {
    let each = table.methods.iter().all(|method| {
        method.owner != 0
            && known(table, method.owner)
            && closed(table, method.first)
            && typed_class(table, method.second.class)
            && method.params.iter().all(|&param| closed(table, param))
            && news_known(table, &method.left)
            && news_known(table, &method.right)
    });
    let once = table.methods.iter().enumerate().all(|(place, method)| {
        table.methods[..place]
            .iter()
            .all(|other| (other.owner, other.name) != (method.owner, method.name))
    });
    each && once
}

/// Rule 4 for main; the type of an `04` frame has tag 00.
fn main_in_rule(table: &Table) -> bool {
    let input = table
        .input
        .is_none_or(|input| known(table, input.class) && input.tag == PLUS);
    input && news_known(table, &table.main)
}

/// A known class, or `FE`, under one of the two tags that fields, parameters
/// and first results may have.
fn closed(table: &Table, type_: Type) -> bool {
    typed_class(table, type_.class) && (type_.tag == PLUS || type_.tag == MINUS)
}

fn news_known(table: &Table, expr: &Expr) -> bool {
    let here = match expr {
        Expr::New(class, _) => known(table, *class),
        _ => true,
    };
    here && expr.parts().iter().all(|part| news_known(table, part))
}

/// Rule 5 for one method: the nearest method of its name above its owner, if
/// there is one, has the same types.
fn overrides(table: &Table, method: &Method) -> bool {
    let parent = table.classes[usize::from(method.owner) - 1].parent;
    classes::find(table, parent, method.name).is_none_or(|found| {
        let above = found.method;
        (above.first, above.second) == (method.first, method.second)
            && above.params == method.params
    })
}
