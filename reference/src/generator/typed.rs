//! Well typed programs: bodies made to order for drafted signatures, and a
//! main. Whatever the checker does not accept is thrown away, so only the
//! shares depend on the care taken here.

use super::counting::counting;
use super::exprs::{ALL_TAGS, Maker, ONLY_PLUS, Want};
use super::random::Random;
use super::signatures::{self, Draft, Kind};
use crate::classes::{class_fits, fields};
use crate::syntax::{Expr, MAX_NESTING, MINUS, MINUS_OPEN, Method, NUMBER, PLUS, Table};
use crate::typing::{self, Scope};
use crate::writing;

/// An accepted table with a text.
pub fn table(random: &mut Random) -> Table {
    loop {
        let drafted = draft(random);
        if let Some(table) = drafted.filter(|table| typing::check(table).is_ok())
            && writing::text(&table).is_some()
        {
            return table;
        }
    }
}

/// How many of a hundred programs use numbers.
const NUMBERS: usize = 55;

fn draft(random: &mut Random) -> Option<Table> {
    let numbers = random.chance(NUMBERS);
    let mut table = Table {
        classes: signatures::classes(random, numbers),
        methods: Vec::new(),
        input: None,
        main: Expr::This,
    };
    let mut kinds = Vec::new();
    for name in 1..=random.between(1, 5) as u8 {
        let kind = signatures::kind(random, numbers);
        let draft = Draft {
            name,
            kind,
            numbers,
        };
        let method = signatures::method(random, &table, draft)?;
        table.methods.push(method);
        kinds.push(kind);
    }
    signatures::add_overrides(random, &mut table, &mut kinds);
    let sketch = table.clone();
    for (method, &kind) in table.methods.iter_mut().zip(&kinds) {
        fill_body(random, &sketch, (&kinds, numbers), method, kind)?;
    }
    table.main = draft_main(random, &sketch, numbers)?;
    Some(table)
}

fn fill_body(
    random: &mut Random,
    sketch: &Table,
    (kinds, numbers): (&[Kind], bool),
    method: &mut Method,
    kind: Kind,
) -> Option<()> {
    let room = *random.pick(&[2, 3, 3, 4, MAX_NESTING])?;
    let params = method.params.clone();
    let scope = || Scope::body(sketch, method.owner, &params);
    let mut maker = Maker::new(scope(), random);
    maker.numbers = numbers;
    let left = match kind {
        Kind::Ring if maker.random.chance(85) => ring(&mut maker, kinds, method, room)?,
        Kind::Growing => growing(&mut maker, method)?,
        Kind::Counting => counting(&mut maker, method, room.max(4))?,
        // A call of itself with nothing round it: undetermined with res.
        Kind::Minus if maker.random.chance(30) => maker.call_of(method, room)?,
        Kind::Minus if maker.random.chance(60) => passing(&mut maker, method, room)?,
        _ => maker.make(left_want(method), room)?,
    };
    let mut maker = Maker::new(scope(), random);
    maker.numbers = numbers;
    let left_type = typing::type_of(&maker.scope, &left)?;
    maker.scope.res = Some(typing::res_type(left_type));
    let right = right_side(&mut maker, method, room)?;
    method.left = left;
    method.right = right;
    Some(())
}

/// The left side settles to the first result and itself fits the second.
pub fn left_want(method: &Method) -> Want {
    let tags = match (method.first.tag, method.second.tag) {
        (PLUS, PLUS) => ONLY_PLUS,
        (PLUS, _) => 0b0011,
        _ => ALL_TAGS,
    };
    let class = method.first.class;
    Want { class, tags }
}

fn right_side(maker: &mut Maker, method: &Method, room: usize) -> Option<Expr> {
    let tags = ALL_TAGS >> (MINUS - method.second.tag);
    let class = method.second.class;
    // Where res is allowed it is the usual answer.
    if method.second.tag >= MINUS_OPEN && maker.random.chance(75) {
        return Some(Expr::Res);
    }
    let want = Want { class, tags };
    maker.variable(want).or_else(|| maker.make(want, room))
}

/// A new object one of whose values is a call of a ring method.
fn ring(maker: &mut Maker, kinds: &[Kind], method: &Method, room: usize) -> Option<Expr> {
    let table = maker.scope.table;
    let rings = table.methods.iter().zip(kinds);
    let rings: Vec<&Method> = rings
        .filter(|&(_, &kind)| kind == Kind::Ring)
        .map(|(method, _)| method)
        .collect();
    let mut fitting = Vec::new();
    for class in (1..=table.classes.len() as u8)
        .filter(|&class| class_fits(table, class, method.first.class))
    {
        for (place, field) in fields(table, class).iter().enumerate() {
            let into = |ring: &&&Method| {
                class_fits(table, ring.second.class, field.class)
                    && (ring.second.tag == MINUS_OPEN || field.tag == MINUS)
            };
            let calls = rings.iter().filter(into);
            fitting.extend(calls.map(|ring| (class, place, *ring)));
        }
    }
    let own: Vec<_> = fitting
        .iter()
        .copied()
        .filter(|(_, _, ring)| ring.name == method.name)
        .collect();
    let chosen = if maker.random.chance(40) && !own.is_empty() {
        &own
    } else {
        &fitting
    };
    let &(class, place, ring) = maker.random.pick(chosen)?;
    let Expr::New(_, mut values) = maker.object_of(class, true, room)? else {
        return None;
    };
    if maker.random.chance(40) {
        fill_minus_field(maker, class, &mut values, room);
    }
    values[place] = maker.call_of(ring, room)?;
    Some(Expr::New(class, values))
}

/// Puts a call with a minus result into a minus field, if there is one: such
/// calls are the ones that may be undetermined.
fn fill_minus_field(maker: &mut Maker, class: u8, values: &mut [Expr], room: usize) {
    let table = maker.scope.table;
    let mut fitting = Vec::new();
    for (place, field) in fields(table, class).iter().enumerate() {
        let into = |method: &&Method| {
            method.first.tag == MINUS && class_fits(table, method.first.class, field.class)
        };
        if field.tag == MINUS {
            let calls = table.methods.iter().filter(into);
            fitting.extend(calls.map(|method| (place, method)));
        }
    }
    if let Some(&(place, method)) = maker.random.pick(&fitting)
        && let Some(call) = maker.call_of(method, room - 1)
    {
        values[place] = call;
    }
}

/// A call that is given, as argument or inside its receiver, the answer of a
/// call with a minus result: inside a ring that answer is still open.
fn passing(maker: &mut Maker, method: &Method, room: usize) -> Option<Expr> {
    let table = maker.scope.table;
    let answers: Vec<&Method> = table
        .methods
        .iter()
        .filter(|other| class_fits(table, other.second.class, method.first.class))
        .collect();
    let called = *maker.random.pick(&answers)?;
    let call = maker.call_of(called, room)?;
    let Expr::Call(name, mut receiver, mut arguments) = call else {
        return None;
    };
    for (argument, param) in arguments.iter_mut().zip(&called.params) {
        let open = |other: &&Method| {
            other.second.tag == MINUS && class_fits(table, other.second.class, param.class)
        };
        let givers: Vec<&Method> = table.methods.iter().filter(open).collect();
        if param.tag == MINUS
            && let Some(giver) = maker.random.pick(&givers)
            && let Some(given) = maker.call_of(giver, room - 1)
        {
            *argument = given;
        }
    }
    if let Expr::New(class, values) = &mut *receiver {
        fill_minus_field(maker, *class, values, room - 1);
    }
    Some(Expr::Call(name, receiver, arguments))
}

/// this.m(an object with the parameter a few levels down).
fn growing(maker: &mut Maker, method: &Method) -> Option<Expr> {
    let table = maker.scope.table;
    let class = method.first.class;
    let place = fields(table, class)
        .iter()
        .position(|field| class_fits(table, class, field.class))?;
    let mut grown = Expr::Param(0);
    for _ in 0..maker.random.between(1, 4) {
        let Expr::New(_, mut values) = maker.object_of(class, false, 2)? else {
            return None;
        };
        values[place] = grown;
        grown = Expr::New(class, values);
    }
    let receiver = Box::new(Expr::This);
    Some(Expr::Call(method.name, receiver, vec![grown]))
}

fn draft_main(random: &mut Random, sketch: &Table, numbers: bool) -> Option<Expr> {
    let room = random.between(3, MAX_NESTING);
    let mut maker = Maker::new(Scope::main(sketch), random);
    maker.numbers = numbers;
    if numbers && maker.random.chance(12) {
        let (class, tags) = (NUMBER, ALL_TAGS);
        return maker.make(Want { class, tags }, room);
    }
    if maker.random.chance(80) {
        let method = maker.random.pick(&sketch.methods)?;
        return maker.call_of(method, room);
    }
    let tags = ALL_TAGS;
    let class = maker.random.below(sketch.classes.len() + 1) as u8;
    let mut main = maker.make(Want { class, tags }, room)?;
    if let Expr::New(class, values) = &mut main {
        fill_minus_field(&mut maker, *class, values, room);
    }
    Some(main)
}
