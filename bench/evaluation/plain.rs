//! The same evaluation written plainly in Rust: terms in boxes, names compared, values cloned.
use std::env;

#[derive(Clone, PartialEq)]
enum Value {
    Words(String),
    Num(u64),
    Unit,
    Pair(Box<Value>, Box<Value>),
    List(Vec<Value>),
}

#[derive(Clone, Copy)]
enum Fun {
    Length,
    Equal,
}

enum Term {
    Return(Value),
    Input(String),
    Var(String),
    Map(Fun, Box<Term>),
    Pair(Box<Term>, Box<Term>),
    Bind(String, Box<Term>, Box<Term>),
    ListMap(String, Box<Term>, Box<Term>),
}

struct Node {
    term: Term,
}

struct Program {
    inputs: Vec<String>,
    nodes: Vec<Node>,
}

type State = Result<Value, String>;

const WEIGHT_LIMIT: u64 = 1_048_576;

fn weight(v: &Value) -> u64 {
    match v {
        Value::Words(t) => t.len() as u64 + 1,
        Value::Num(_) | Value::Unit => 1,
        Value::Pair(a, b) => 1 + weight(a) + weight(b),
        Value::List(items) => 1 + items.iter().map(weight).sum::<u64>(),
    }
}

fn limited(v: Value) -> State {
    if weight(&v) > WEIGHT_LIMIT {
        Err("value too large".to_string())
    } else {
        Ok(v)
    }
}

fn apply(fun: Fun, v: &Value) -> State {
    match (fun, v) {
        (Fun::Length, Value::Words(t)) => Ok(Value::Num(t.len() as u64)),
        (Fun::Equal, Value::Pair(a, b)) if a == b => Ok(Value::Unit),
        (Fun::Equal, _) => Err("not equal".to_string()),
        _ => Err("wrong kind".to_string()),
    }
}

struct Evaluator<'a> {
    program: &'a Program,
    values: &'a [Value],
    bound: Vec<(String, Value)>,
    visits: u64,
}

impl Evaluator<'_> {
    fn under(&mut self, name: &str, value: Value, body: &Term) -> State {
        self.bound.push((name.to_string(), value));
        let state = self.term(body);
        self.bound.pop();
        state
    }

    fn term(&mut self, term: &Term) -> State {
        self.visits += 1;
        match term {
            Term::Return(v) => Ok(v.clone()),
            Term::Input(name) => {
                let place = self.program.inputs.iter().position(|n| n == name).unwrap();
                Ok(self.values[place].clone())
            }
            Term::Var(name) => {
                let found = self.bound.iter().rev().find(|b| b.0 == *name);
                Ok(found.unwrap().1.clone())
            }
            Term::Map(fun, term) => {
                let v = self.term(term)?;
                apply(*fun, &v)
            }
            Term::Pair(a, b) => {
                let a = self.term(a);
                let b = self.term(b);
                limited(Value::Pair(Box::new(a?), Box::new(b?)))
            }
            Term::Bind(name, left, body) => {
                let v = self.term(left)?;
                self.under(name, v, body)
            }
            Term::ListMap(name, list, body) => {
                let Value::List(items) = self.term(list)? else {
                    return Err("wrong kind".to_string());
                };
                let states: Vec<State> =
                    items.into_iter().map(|v| self.under(name, v, body)).collect();
                limited(Value::List(states.into_iter().collect::<Result<_, _>>()?))
            }
        }
    }
}

fn words(text: &str) -> Value {
    Value::Words(text.to_string())
}

fn var() -> Box<Term> {
    Box::new(Term::Var("x".to_string()))
}

fn bound() -> Term {
    let both = Term::Pair(var(), Box::new(Term::Return(words("start"))));
    let body = Term::Map(Fun::Equal, Box::new(both));
    Term::Bind("x".to_string(), Box::new(Term::Input("t".to_string())), Box::new(body))
}

fn lengths() -> Term {
    let list = Term::Input("xs".to_string());
    Term::ListMap("x".to_string(), Box::new(list), Box::new(Term::Map(Fun::Length, var())))
}

fn main() {
    let words_given: Vec<String> = env::args().skip(1).collect();
    let rounds: u64 = words_given[1].parse().unwrap();
    let nodes = if words_given[0] == "list" {
        vec![Node { term: lengths() }]
    } else {
        (0..682).map(|_| Node { term: bound() }).collect()
    };
    let program = Program { inputs: vec!["t".to_string(), "xs".to_string()], nodes };
    let values = [words("start"), Value::List(vec![words("item"); 256])];
    let mut visits = 0;
    for _ in 0..rounds {
        let mut evaluator = Evaluator { program: &program, values: &values, bound: vec![], visits: 0 };
        let states: Vec<State> = program.nodes.iter().map(|n| evaluator.term(&n.term)).collect();
        std::hint::black_box(states);
        visits += evaluator.visits;
    }
    println!("{visits}");
}
