//! A plain reader of texts in Rust, without proofs, beside which bench/run holds the reading of the program: tokens, a tree without sugar, names by
//! their positions, and the free ones of each procedure and thread. It reads what the texts of shapes.py have. It prints how many statements there are,
//! or that something is wrong.
use std::collections::{BTreeSet, HashMap};
use std::io::Read;
use std::rc::Rc;

#[derive(Clone, Copy, PartialEq, Debug)]
enum Token<'t> {
    Variable(&'t str),
    Atom(&'t str),
    Integer(i128),
    Word(&'t str),
    Sign(&'t str),
    End,
}

struct Symbol<'t> {
    token: Token<'t>,
    line: u32,
    column: u32,
}

type Read_<T> = Result<T, String>;

const WORDS: [&str; 20] = [
    "local", "in", "end", "skip", "proc", "fun", "if", "then", "else", "case", "of", "thread", "at", "try", "catch", "finally", "raise", "div", "mod", "declare",
];
const SIGNS: [&str; 20] = ["[]", "=<", ">=", "==", "\\=", "{", "}", "(", ")", "|", ":", ".", "=", "+", "-", "*", "<", ">", "$", "?"];

// ---- tokens

fn symbols(text: &str) -> Read_<Vec<Symbol<'_>>> {
    let bytes = text.as_bytes();
    let (mut at, mut line, mut start) = (0, 1, 0);
    let mut found = Vec::new();
    while at < bytes.len() {
        let byte = bytes[at];
        if byte.is_ascii_whitespace() {
            if byte == b'\n' {
                line += 1;
                start = at + 1;
            }
            at += 1;
            continue;
        }
        let (token, end) = token_at(text, at).ok_or_else(|| format!("{line}:{} no token", at - start + 1))?;
        found.push(Symbol { token, line, column: (at - start + 1) as u32 });
        at = end;
    }
    found.push(Symbol { token: Token::End, line, column: (at - start + 1) as u32 });
    Ok(found)
}

fn token_at(text: &str, at: usize) -> Option<(Token<'_>, usize)> {
    let rest = &text[at..];
    let first = rest.as_bytes()[0];
    if first.is_ascii_alphabetic() {
        let end = rest.bytes().position(|byte| !byte.is_ascii_alphanumeric() && byte != b'_').unwrap_or(rest.len());
        let name = &rest[..end];
        let token = if first.is_ascii_uppercase() {
            Token::Variable(name)
        } else if WORDS.contains(&name) {
            Token::Word(name)
        } else {
            Token::Atom(name)
        };
        return (end <= 255).then_some((token, at + end));
    }
    if first.is_ascii_digit() || first == b'~' {
        let digits = &rest[(first == b'~') as usize..];
        let count = digits.bytes().take_while(u8::is_ascii_digit).count();
        let size: i128 = digits[..count].parse().ok()?;
        return Some((Token::Integer(if first == b'~' { -size } else { size }), at + rest.len() - digits.len() + count));
    }
    SIGNS.iter().find(|sign| rest.starts_with(**sign)).map(|sign| (Token::Sign(sign), at + sign.len()))
}

// ---- trees

type Position = u32;

#[derive(Clone, PartialEq, Eq, PartialOrd, Ord)]
enum Feature {
    Integer(i128),
    Atom(Rc<str>),
}

enum Node {
    Integer(i128),
    Record(Rc<str>, Vec<(Feature, Position)>),
    Procedure { formals: Vec<Position>, body: Box<Statement>, free: Vec<Position> },
}

enum Statement {
    Skip,
    Sequence(Vec<Statement>),
    Local { first: Position, count: u32, body: Box<Statement> },
    Equal(Position, Position),
    Tell(Position, Node),
    Operate(Position, &'static str, Position, Position),
    If(Position, Box<Statement>, Box<Statement>),
    Call(Callee, Vec<Position>),
    Thread { body: Box<Statement>, free: Vec<Position> },
}

enum Callee {
    Variable(Position),
    BuiltIn(&'static str),
}

enum Value<'t> {
    Variable(&'t str),
    Integer(i128),
    Record(&'t str, Vec<(Option<Feature>, Value<'t>)>),
    Operation(&'static str, Box<(Value<'t>, Value<'t>)>),
    Call(&'t str, Vec<Value<'t>>),
}

struct Reader<'t> {
    symbols: &'t [Symbol<'t>],
    at: usize,
    scope: HashMap<&'t str, Vec<Position>>,
    declared: Position,
    texts: HashMap<&'t str, Rc<str>>,
    uses: Vec<BTreeSet<Position>>,
    statements: usize,
}

const OPERATORS: [&str; 11] = ["+", "-", "*", "div", "mod", "=<", "<", ">=", ">", "==", "\\="];
const BUILT_IN: [&str; 7] = ["Browse", "Wait", "NewCell", "Exchange", "NewPort", "Send", "NewCellAt"];
const MOST_LEVELS: u32 = 200;

impl<'t> Reader<'t> {
    fn next(&self) -> Token<'t> {
        self.symbols[self.at].token
    }

    fn fault<T>(&self, said: &str) -> Read_<T> {
        let symbol = &self.symbols[self.at];
        Err(format!("{}:{} {said}", symbol.line, symbol.column))
    }

    fn take(&mut self, token: Token<'t>) -> Read_<()> {
        if self.next() != token {
            return self.fault("wanted another");
        }
        self.at += 1;
        Ok(())
    }

    fn takes(&mut self, token: Token<'t>) -> bool {
        let is = self.next() == token;
        self.at += is as usize;
        is
    }

    fn variable(&mut self) -> Read_<&'t str> {
        match self.next() {
            Token::Variable(name) => {
                self.at += 1;
                Ok(name)
            }
            _ => self.fault("wanted a variable"),
        }
    }

    fn variables(&mut self) -> Vec<&'t str> {
        let mut names = Vec::new();
        while let Token::Variable(name) = self.next() {
            self.at += 1;
            names.push(name);
        }
        names
    }

    fn text(&mut self, name: &'t str) -> Rc<str> {
        self.texts.entry(name).or_insert_with(|| Rc::from(name)).clone()
    }

    // ---- names

    fn declare(&mut self, names: &[&'t str]) -> Position {
        let first = self.declared;
        for name in names {
            self.scope.entry(name).or_default().push(self.declared);
            self.declared += 1;
        }
        first
    }

    fn leave(&mut self, names: &[&'t str]) {
        for name in names.iter().rev() {
            self.scope.get_mut(name).unwrap().pop();
        }
        self.declared -= names.len() as Position;
    }

    fn position(&mut self, name: &'t str) -> Read_<Position> {
        match self.scope.get(name).and_then(|positions| positions.last()) {
            Some(position) => {
                let position = *position;
                self.used(position);
                Ok(position)
            }
            None => self.fault("undeclared"),
        }
    }

    fn used(&mut self, position: Position) {
        if let Some(uses) = self.uses.last_mut() {
            uses.insert(position);
        }
    }

    /// What is read by this is a body of its own; its free positions are those that are declared around it.
    fn apart(&mut self, outer: Position, read: impl FnOnce(&mut Self) -> Read_<Statement>) -> Read_<(Box<Statement>, Vec<Position>)> {
        self.uses.push(BTreeSet::new());
        let body = read(self)?;
        let free: Vec<Position> = self.uses.pop().unwrap().into_iter().filter(|position| *position < outer).collect();
        for position in &free {
            self.used(*position);
        }
        Ok((Box::new(body), free))
    }

    // ---- statements

    fn sequence(&mut self, depth: u32) -> Read_<Statement> {
        if depth > MOST_LEVELS {
            return self.fault("nested too deep");
        }
        let mut all = vec![self.statement(depth)?];
        while !matches!(self.next(), Token::End | Token::Word("end" | "else" | "then" | "catch" | "finally") | Token::Sign("[]")) {
            all.push(self.statement(depth)?);
        }
        Ok(if all.len() == 1 { all.pop().unwrap() } else { self.counted(Statement::Sequence(all)) })
    }

    fn counted(&mut self, statement: Statement) -> Statement {
        self.statements += 1;
        statement
    }

    fn statement(&mut self, depth: u32) -> Read_<Statement> {
        self.statements += 1;
        match self.next() {
            Token::Word("skip") => {
                self.at += 1;
                Ok(Statement::Skip)
            }
            Token::Word("local") => self.local(depth),
            Token::Word("if") => self.branch(depth),
            Token::Word("thread") => self.thread(depth),
            Token::Word("proc") | Token::Word("fun") => self.procedure(depth),
            Token::Sign("{") => {
                let value = self.primary(depth)?;
                let Value::Call(name, values) = value else { unreachable!() };
                self.call(name, values, None, depth)
            }
            Token::Variable(name) => {
                self.at += 1;
                self.take(Token::Sign("="))?;
                let value = self.value(depth)?;
                let position = self.position(name)?;
                self.tell(position, value, depth)
            }
            _ => self.fault("wanted a statement"),
        }
    }

    fn local(&mut self, depth: u32) -> Read_<Statement> {
        self.at += 1;
        let names = self.variables();
        if names.is_empty() || names.len() > 64 {
            return self.fault("wanted variables");
        }
        self.take(Token::Word("in"))?;
        let first = self.declare(&names);
        let body = Box::new(self.sequence(depth + 1)?);
        self.leave(&names);
        self.take(Token::Word("end"))?;
        Ok(Statement::Local { first, count: names.len() as u32, body })
    }

    fn branch(&mut self, depth: u32) -> Read_<Statement> {
        self.at += 1;
        let value = self.value(depth)?;
        self.take(Token::Word("then"))?;
        self.with_value(value, depth, |reader, tested| {
            let yes = Box::new(reader.sequence(depth + 1)?);
            reader.take(Token::Word("else"))?;
            let no = Box::new(reader.sequence(depth + 1)?);
            reader.take(Token::Word("end"))?;
            Ok(Statement::If(tested, yes, no))
        })
    }

    fn thread(&mut self, depth: u32) -> Read_<Statement> {
        self.at += 1;
        let (body, free) = self.apart(self.declared, |reader| reader.sequence(depth + 1))?;
        self.take(Token::Word("end"))?;
        Ok(Statement::Thread { body, free })
    }

    fn procedure(&mut self, depth: u32) -> Read_<Statement> {
        let is_function = self.next() == Token::Word("fun");
        self.at += 1;
        self.take(Token::Sign("{"))?;
        let name = self.variable()?;
        let told = self.position(name)?;
        let mut formals = self.variables();
        self.take(Token::Sign("}"))?;
        for (place, formal) in formals.iter().enumerate() {
            if formals[..place].contains(formal) {
                return self.fault("formal given twice");
            }
        }
        if is_function {
            formals.push("");
        }
        let outer = self.declared;
        let (body, free) = self.apart(outer, |reader| {
            let first = reader.declare(&formals);
            let result = first + formals.len() as Position - 1;
            let body = if is_function { reader.function_body(result, depth + 1)? } else { reader.sequence(depth + 1)? };
            reader.leave(&formals);
            Ok(body)
        })?;
        self.take(Token::Word("end"))?;
        let formals = (outer..outer + formals.len() as Position).collect();
        Ok(Statement::Tell(told, Node::Procedure { formals, body, free }))
    }

    /// A value that is told a variable; `if` as a value tells it in each branch.
    fn function_body(&mut self, result: Position, depth: u32) -> Read_<Statement> {
        if self.next() != Token::Word("if") {
            let value = self.value(depth)?;
            return self.tell(result, value, depth);
        }
        self.at += 1;
        let value = self.value(depth)?;
        self.take(Token::Word("then"))?;
        self.with_value(value, depth, |reader, tested| {
            let yes = Box::new(reader.function_body(result, depth + 1)?);
            reader.take(Token::Word("else"))?;
            let no = Box::new(reader.function_body(result, depth + 1)?);
            reader.take(Token::Word("end"))?;
            Ok(Statement::If(tested, yes, no))
        })
    }

    // ---- values

    fn value(&mut self, depth: u32) -> Read_<Value<'t>> {
        let left = self.primary(depth)?;
        if self.takes(Token::Sign("|")) {
            return self.list(left, depth);
        }
        let operator = match self.next() {
            Token::Sign(sign) | Token::Word(sign) => OPERATORS.iter().find(|operator| **operator == sign),
            _ => None,
        };
        let Some(operator) = operator else { return Ok(left) };
        self.at += 1;
        let right = self.primary(depth)?;
        Ok(Value::Operation(operator, Box::new((left, right))))
    }

    fn list(&mut self, head: Value<'t>, depth: u32) -> Read_<Value<'t>> {
        let mut items = vec![head, self.primary(depth)?];
        while self.takes(Token::Sign("|")) {
            items.push(self.primary(depth)?);
        }
        let mut list = items.pop().unwrap();
        while let Some(item) = items.pop() {
            list = Value::Record("|", vec![(None, item), (None, list)]);
        }
        Ok(list)
    }

    fn primary(&mut self, depth: u32) -> Read_<Value<'t>> {
        let token = self.next();
        self.at += 1;
        match token {
            Token::Variable(name) => Ok(Value::Variable(name)),
            Token::Integer(number) => Ok(Value::Integer(number)),
            Token::Atom(name) => {
                let fields = if self.takes(Token::Sign("(")) { self.fields(depth)? } else { Vec::new() };
                Ok(Value::Record(name, fields))
            }
            Token::Sign("(") => {
                let value = self.value(depth)?;
                self.take(Token::Sign(")"))?;
                Ok(value)
            }
            Token::Sign("{") => {
                let name = self.variable()?;
                let mut values = Vec::new();
                while !self.takes(Token::Sign("}")) {
                    values.push(self.value(depth)?);
                }
                Ok(Value::Call(name, values))
            }
            _ => self.fault("wanted a value"),
        }
    }

    fn fields(&mut self, depth: u32) -> Read_<Vec<(Option<Feature>, Value<'t>)>> {
        let mut fields = Vec::new();
        while !self.takes(Token::Sign(")")) {
            let named = self.symbols.get(self.at + 1).is_some_and(|symbol| symbol.token == Token::Sign(":"));
            let feature = match self.next() {
                Token::Atom(name) if named => Some(Feature::Atom(self.text(name))),
                Token::Integer(number) if named => Some(Feature::Integer(number)),
                _ => None,
            };
            self.at += 2 * feature.is_some() as usize;
            fields.push((feature, self.value(depth)?));
        }
        Ok(fields)
    }

    // ---- what values stand for

    /// A value has a position of its own, unless it is a variable.
    fn with_value(&mut self, value: Value<'t>, depth: u32, then: impl FnOnce(&mut Self, Position) -> Read_<Statement>) -> Read_<Statement> {
        if let Value::Variable(name) = value {
            let position = self.position(name)?;
            return then(self, position);
        }
        let first = self.declared;
        self.declared += 1;
        let told = self.tell(first, value, depth)?;
        let rest = then(self, first)?;
        self.declared -= 1;
        self.statements += 2;
        Ok(Statement::Local { first, count: 1, body: Box::new(Statement::Sequence(vec![told, rest])) })
    }

    fn with_values(&mut self, values: Vec<Value<'t>>, depth: u32, then: impl FnOnce(&mut Self, Vec<Position>) -> Read_<Statement>) -> Read_<Statement> {
        let (first, mut positions, mut all) = (self.declared, Vec::with_capacity(values.len() + 1), Vec::new());
        for value in values {
            if let Value::Variable(name) = value {
                positions.push(self.position(name)?);
                continue;
            }
            let position = self.declared;
            self.declared += 1;
            all.push(self.tell(position, value, depth)?);
            positions.push(position);
        }
        let count = self.declared - first;
        let last = then(self, positions)?;
        self.declared = first;
        if count == 0 {
            return Ok(last);
        }
        all.push(last);
        self.statements += 2;
        Ok(Statement::Local { first, count, body: Box::new(Statement::Sequence(all)) })
    }

    fn tell(&mut self, told: Position, value: Value<'t>, depth: u32) -> Read_<Statement> {
        self.used(told);
        self.statements += 1;
        match value {
            Value::Variable(name) => Ok(Statement::Equal(told, self.position(name)?)),
            Value::Integer(number) => Ok(Statement::Tell(told, Node::Integer(number))),
            Value::Record(label, fields) => self.record(told, label, fields, depth),
            Value::Operation(operator, sides) => self.with_values(vec![sides.0, sides.1], depth, |_, positions| {
                Ok(Statement::Operate(told, operator, positions[0], positions[1]))
            }),
            Value::Call(name, values) => self.call(name, values, Some(told), depth),
        }
    }

    fn call(&mut self, name: &'t str, values: Vec<Value<'t>>, told: Option<Position>, depth: u32) -> Read_<Statement> {
        let callee = match (self.scope.get(name).is_some_and(|positions| !positions.is_empty()), BUILT_IN.iter().find(|built_in| **built_in == name)) {
            (false, Some(built_in)) => Callee::BuiltIn(built_in),
            _ => Callee::Variable(self.position(name)?),
        };
        self.with_values(values, depth, |_, mut positions| {
            positions.extend(told);
            Ok(Statement::Call(callee, positions))
        })
    }

    /// The record is told first, then those of its fields that are no variables; features stand in order.
    fn record(&mut self, told: Position, label: &'t str, fields: Vec<(Option<Feature>, Value<'t>)>, depth: u32) -> Read_<Statement> {
        if depth > MOST_LEVELS {
            return self.fault("nested too deep");
        }
        let (first, mut known, mut later, mut bare) = (self.declared, Vec::with_capacity(fields.len()), Vec::new(), 0);
        for (feature, value) in fields {
            let feature = feature.unwrap_or_else(|| {
                bare += 1;
                Feature::Integer(bare)
            });
            let position = if let Value::Variable(name) = value {
                self.position(name)?
            } else {
                later.push((self.declared, value));
                self.declared += 1;
                self.declared - 1
            };
            known.push((feature, position));
        }
        known.sort();
        if known.windows(2).any(|pair| pair[0].0 == pair[1].0) {
            return self.fault("feature given twice");
        }
        let count = self.declared - first;
        let label = self.text(label);
        let mut all = vec![Statement::Tell(told, Node::Record(label, known))];
        for (position, value) in later {
            all.push(self.tell(position, value, depth + 1)?);
        }
        self.declared = first;
        if count == 0 {
            return Ok(all.pop().unwrap());
        }
        self.statements += 2;
        Ok(Statement::Local { first, count, body: Box::new(Statement::Sequence(all)) })
    }
}

// ---- the whole

/// How many statements a program has, so that it is made whole.
fn count(statement: &Statement) -> usize {
    1 + match statement {
        Statement::Sequence(all) => all.iter().map(count).sum(),
        Statement::Local { body, first, count: declared } => count(body) + (*first == *declared && *first == u32::MAX) as usize,
        Statement::If(tested, yes, no) => count(yes) + count(no) + (*tested == u32::MAX) as usize,
        Statement::Thread { body, free } => count(body) + (free.len() == usize::MAX) as usize,
        Statement::Tell(told, Node::Procedure { formals, body, free }) => count(body) + (*told as usize + formals.len() + free.len() == usize::MAX) as usize,
        Statement::Tell(_, Node::Record(label, fields)) => (label.len() + fields.len() == usize::MAX) as usize,
        Statement::Tell(_, Node::Integer(number)) => (*number == i128::MAX) as usize,
        Statement::Equal(left, right) => (left.max(right) == &u32::MAX) as usize,
        Statement::Operate(told, operator, left, right) => (told.max(left.max(right)) == &u32::MAX || operator.is_empty()) as usize,
        Statement::Call(Callee::Variable(called), given) => (*called as usize + given.len() == usize::MAX) as usize,
        Statement::Call(Callee::BuiltIn(name), given) => (name.len() + given.len() == usize::MAX) as usize,
        Statement::Skip => 0,
    }
}

fn read(text: &str) -> Read_<Statement> {
    let symbols = symbols(text)?;
    let mut reader = Reader { symbols: &symbols, at: 0, scope: HashMap::new(), declared: 0, texts: HashMap::new(), uses: Vec::new(), statements: 0 };
    let program = reader.sequence(1)?;
    if reader.next() != Token::End {
        return reader.fault("wanted the end");
    }
    Ok(program)
}

fn main() {
    let mut bytes = Vec::new();
    std::io::stdin().read_to_end(&mut bytes).expect("the text can be read");
    match String::from_utf8(bytes).map_err(|_| "not UTF-8".to_string()).and_then(|text| read(&text).map(|program| count(&program))) {
        Ok(statements) => println!("statements {statements}"),
        Err(said) => {
            println!("refused {said}");
            std::process::exit(3);
        }
    }
}
