//! A second reader of the constraints' text: from bytes to formulas, and what
//! these say of an assignment. It was written from `docs/SMT-TEXT.md` alone,
//! and takes the spelling of that page and no other.

/// What stands between two blanks, or in a pair of parentheses.
enum Word<'a> {
    Atom(&'a str),
    List(Vec<Word<'a>>),
}

enum Term {
    Variable(usize),
    Constant(u16),
    Choice(Box<Formula>, Box<Term>, Box<Term>),
    Operation(fn(u32, u32) -> u32, Box<Term>, Box<Term>),
}

enum Formula {
    Known(bool),
    Comparison(fn(u16, u16) -> bool, Term, Term),
    Not(Box<Formula>),
    Joined(fn(bool, bool) -> bool, Box<Formula>, Box<Formula>),
    Choice(Box<Formula>, Box<Formula>, Box<Formula>),
}

pub struct Script {
    pub variables: usize,
    assertions: Vec<Formula>,
}

impl Script {
    /// Reads a whole text; an error tells the line where it is no text.
    pub fn read(text: &[u8]) -> Result<Script, String> {
        let text = std::str::from_utf8(text).map_err(|_| "the text is not ASCII".to_string())?;
        let body = text.strip_suffix('\n').ok_or("the last line has no end")?;
        let lines: Vec<&str> = body.split('\n').collect();
        let [first, middle @ .., last] = lines.as_slice() else {
            return Err("the text has fewer than two lines".into());
        };
        if (*first, *last) != ("(set-logic QF_BV)", "(check-sat)") {
            return Err(format!("the first line is {first:?}, the last is {last:?}"));
        }
        let is_declared = |(number, line): &(usize, &&str)| **line == format!("(declare-fun v{number} () (_ BitVec 16))");
        let variables = middle.iter().enumerate().take_while(is_declared).count();
        let assertions = middle[variables..].iter().map(|line| assertion(line, variables)).collect::<Result<_, _>>()?;
        Ok(Script { variables, assertions })
    }

    pub fn assertions(&self) -> usize {
        self.assertions.len()
    }

    /// For each assertion whether it is true of the assignment.
    pub fn truths<'a>(&'a self, numbers: &'a [u16]) -> impl Iterator<Item = bool> + 'a {
        self.assertions.iter().map(|assertion| assertion.is_true(numbers))
    }

    /// The first assertion that is false of the assignment, counted from 1.
    pub fn first_false(&self, numbers: &[u16]) -> Option<usize> {
        self.truths(numbers).position(|is_true| !is_true).map(|place| place + 1)
    }
}

fn assertion(line: &str, variables: usize) -> Result<Formula, String> {
    let formula = match word(line) {
        Some((Word::List(words), "")) => match words.as_slice() {
            [Word::Atom("assert"), formula] => read_formula(formula, variables),
            _ => None,
        },
        _ => None,
    };
    formula.ok_or_else(|| format!("no assertion: {line:?}"))
}

/// The word at the text's start, and what stands behind it. "Between two words
/// stands one blank, none after an opening or before a closing parenthesis".
fn word(text: &str) -> Option<(Word<'_>, &str)> {
    let Some(mut rest) = text.strip_prefix('(') else {
        let end = text.find([' ', '(', ')']).unwrap_or(text.len());
        let (atom, rest) = text.split_at(end);
        return (!atom.is_empty()).then_some((Word::Atom(atom), rest));
    };
    let mut words = Vec::new();
    loop {
        let (next, behind) = word(rest)?;
        words.push(next);
        if let Some(behind) = behind.strip_prefix(')') {
            return Some((Word::List(words), behind));
        }
        rest = behind.strip_prefix(' ')?;
    }
}

fn read_term(word: &Word, variables: usize) -> Option<Term> {
    let term = |word: &Word| read_term(word, variables).map(Box::new);
    let words = match word {
        Word::Atom(atom) => return read_name(atom, variables),
        Word::List(words) => words.as_slice(),
    };
    match words {
        [Word::Atom("ite"), condition, x, y] => {
            Some(Term::Choice(Box::new(read_formula(condition, variables)?), term(x)?, term(y)?))
        }
        [Word::Atom(name), x, y] => Some(Term::Operation(operation(name)?, term(x)?, term(y)?)),
        _ => None,
    }
}

/// "Numbers of variables are decimal, without zeros before them. A constant is
/// `#x` and four hexadecimal digits, with small letters".
fn read_name(atom: &str, variables: usize) -> Option<Term> {
    if let Some(digits) = atom.strip_prefix('v') {
        let number: usize = digits.parse().ok()?;
        return (number.to_string() == digits && number < variables).then_some(Term::Variable(number));
    }
    let digits = atom.strip_prefix("#x")?;
    let number = u16::from_str_radix(digits, 16).ok()?;
    (format!("{number:04x}") == digits).then_some(Term::Constant(number))
}

/// On numbers that are below 65,536; what comes of them is taken modulo that.
fn operation(name: &str) -> Option<fn(u32, u32) -> u32> {
    Some(match name {
        "bvadd" => |x, y| x + y,
        "bvsub" => |x, y| x + 65_536 - y,
        "bvand" => |x, y| x & y,
        "bvor" => |x, y| x | y,
        "bvudiv" => |x, y| x.checked_div(y).unwrap_or(65_535),
        "bvurem" => |x, y| x.checked_rem(y).unwrap_or(x),
        _ => return None,
    })
}

fn read_formula(word: &Word, variables: usize) -> Option<Formula> {
    let formula = |word: &Word| read_formula(word, variables).map(Box::new);
    let words = match word {
        Word::Atom("true") => return Some(Formula::Known(true)),
        Word::Atom("false") => return Some(Formula::Known(false)),
        Word::Atom(_) => return None,
        Word::List(words) => words.as_slice(),
    };
    match words {
        [Word::Atom("not"), f] => Some(Formula::Not(formula(f)?)),
        [Word::Atom("ite"), f, g, h] => Some(Formula::Choice(formula(f)?, formula(g)?, formula(h)?)),
        [Word::Atom(name), x, y] => match (comparison(name), connective(name)) {
            (Some(compare), _) => Some(Formula::Comparison(compare, read_term(x, variables)?, read_term(y, variables)?)),
            (_, Some(join)) => Some(Formula::Joined(join, formula(x)?, formula(y)?)),
            _ => None,
        },
        _ => None,
    }
}

fn comparison(name: &str) -> Option<fn(u16, u16) -> bool> {
    Some(match name {
        "=" => |x, y| x == y,
        "bvult" => |x, y| x < y,
        "bvule" => |x, y| x <= y,
        _ => return None,
    })
}

fn connective(name: &str) -> Option<fn(bool, bool) -> bool> {
    Some(match name {
        "and" => |f, g| f && g,
        "or" => |f, g| f || g,
        "xor" => |f, g| f != g,
        "=>" => |f, g| !f || g,
        _ => return None,
    })
}

impl Term {
    fn number(&self, numbers: &[u16]) -> u16 {
        match self {
            Term::Variable(variable) => numbers[*variable],
            Term::Constant(number) => *number,
            Term::Choice(condition, x, y) => if condition.is_true(numbers) { x } else { y }.number(numbers),
            Term::Operation(apply, x, y) => (apply(x.number(numbers).into(), y.number(numbers).into()) % 65_536) as u16,
        }
    }
}

impl Formula {
    fn is_true(&self, numbers: &[u16]) -> bool {
        match self {
            Formula::Known(known) => *known,
            Formula::Comparison(compare, x, y) => compare(x.number(numbers), y.number(numbers)),
            Formula::Not(formula) => !formula.is_true(numbers),
            Formula::Joined(join, f, g) => join(f.is_true(numbers), g.is_true(numbers)),
            Formula::Choice(condition, f, g) => if condition.is_true(numbers) { f } else { g }.is_true(numbers),
        }
    }
}
