//! Parses a sentence by the table of a grammar, and prints its tree.

#[allow(dead_code)]
#[path = "../lrc.rs"]
mod lrc;

use lrc::{Action, Table};

const GRAMMAR: &str = "%token id
%%
Expr: Expr '+' Term | Term;
Term: Term '*' Factor | Factor;
Factor: '(' Expr ')' | id;";

fn parse(table: &Table, words: &[&str]) -> Option<String> {
    let (mut states, mut trees) = (vec![0], Vec::new());
    let mut words = words.iter().chain(&["$end", ""]).peekable();
    loop {
        let word = *words.peek()?;
        let token = table.tokens.iter().position(|name| name == word)?;
        match table.action(*states.last()?, token) {
            Action::Error => return None,
            Action::Accept => return trees.pop(),
            Action::Shift(state) => {
                states.push(state);
                trees.push(words.next()?.to_string());
            }
            Action::Reduce(production) => {
                let (rule, length) = table.productions[production];
                let body = trees.split_off(trees.len() - length).join(" ");
                states.truncate(states.len() - length);
                states.push(table.goto(*states.last()?, rule)?);
                trees.push(format!("{}({body})", table.rules[rule]));
            }
        }
    }
}

fn main() {
    let table = Table::new(GRAMMAR.as_bytes()).expect("a grammar");
    println!("{}", parse(&table, &["id", "'*'", "id"]).expect("a sentence"));
}
