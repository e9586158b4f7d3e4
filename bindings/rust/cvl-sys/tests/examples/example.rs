//! The examples of the calls, read from the file that `bindings/generate` writes for each build.

/// An operand: what the call does with it, what it is, how long, and its numbers: 1 for true, and the bytes of a text. A room may say what it
/// holds before.
#[derive(Clone)]
pub struct Operand {
    pub role: &'static str,
    pub name: &'static str,
    pub kind: &'static str,
    pub extent: &'static str,
    pub numbers: Vec<i64>,
    pub before: Option<Vec<i64>>,
}

impl Operand {
    pub fn is_written(&self) -> bool {
        ["room", "single", "told"].contains(&self.role)
    }

    /// What it holds before a call: where a call writes, and nothing is said, each number differs from that of the example in its lowest bit.
    pub fn numbers_before(&self) -> Vec<i64> {
        let others = || self.numbers.iter().map(|number| number ^ i64::from(self.is_written()));
        self.before.clone().unwrap_or_else(|| others().collect())
    }

    fn read(line: &'static str) -> Operand {
        let words: Vec<_> = line.split(' ').collect();
        let numbers: Vec<_> = words[5..].iter().map(|word| word.parse().unwrap()).collect();
        assert_eq!(words[4], numbers.len().to_string(), "{}", line);
        Operand { role: words[0], name: words[1], kind: words[2], extent: words[3], numbers, before: None }
    }
}

/// A call or a function that is none, with its family and the number of its operator, or -1.
#[derive(Clone)]
pub struct Example {
    pub name: &'static str,
    pub family: &'static str,
    pub operator: i64,
    pub operands: Vec<Operand>,
}

impl Example {
    pub fn all() -> Vec<Example> {
        let paragraphs = include_str!("examples.txt").split("\n\n");
        paragraphs.filter(|lines| lines.starts_with('=')).map(Example::read).collect()
    }

    fn read(paragraph: &'static str) -> Example {
        let mut lines = paragraph.lines();
        let head: Vec<_> = lines.next().unwrap().split(' ').collect();
        let mut operands: Vec<Operand> = Vec::new();
        for operand in lines.map(Operand::read) {
            match operands.last_mut() {
                Some(room) if operand.role == "before" => room.before = Some(operand.numbers),
                _ => operands.push(operand),
            }
        }
        Example { name: head[1], family: head[2], operator: head[3].parse().unwrap(), operands }
    }

    /// The place of an operand.
    pub fn place(&self, name: &str) -> usize {
        let found = self.operands.iter().position(|operand| operand.name == name);
        found.unwrap_or_else(|| panic!("{} has no {}", self.name, name))
    }

    pub fn operand(&self, name: &str) -> &Operand {
        &self.operands[self.place(name)]
    }
}
