//! A small part of TOML: keys, texts without escapes, flags, lists, tables in braces, and headers of lists of tables.

pub enum Value {
    Text(String),
    // plain_peer has no key with a flag.
    Flag(#[allow(dead_code)] bool),
    List(Vec<Value>),
    Table(Table),
}

pub type Table = Vec<(String, Value)>;

type Read<T> = Result<T, String>;

/// The value of a key, if it is there.
pub fn get<'t>(table: &'t Table, key: &str) -> Option<&'t Value> {
    table.iter().find(|(name, _)| name == key).map(|(_, value)| value)
}

struct Reader<'t> {
    rest: &'t str,
}

impl<'t> Reader<'t> {
    fn fail<T>(&self, what: &str) -> Read<T> {
        Err(format!("{what} at: {}", self.rest.lines().next().unwrap_or("the end")))
    }

    // Passes over spaces, ends of lines and comments.
    fn skip(&mut self) {
        loop {
            self.rest = self.rest.trim_start();
            if !self.rest.starts_with('#') {
                return;
            }
            self.rest = self.rest.find('\n').map_or("", |end| &self.rest[end..]);
        }
    }

    fn takes(&mut self, word: &str) -> bool {
        self.skip();
        match self.rest.strip_prefix(word) {
            Some(rest) => {
                self.rest = rest;
                true
            }
            None => false,
        }
    }

    fn needs(&mut self, word: &str) -> Read<()> {
        if self.takes(word) {
            Ok(())
        } else {
            self.fail(&format!("no {word}"))
        }
    }

    fn key(&mut self) -> Read<String> {
        self.skip();
        let end =
            self.rest.find(|letter: char| !letter.is_ascii_alphanumeric() && letter != '_' && letter != '-').unwrap_or(self.rest.len());
        if end == 0 {
            return self.fail("no key");
        }
        let (key, rest) = self.rest.split_at(end);
        self.rest = rest;
        Ok(key.to_string())
    }

    fn text(&mut self) -> Read<Value> {
        let end = self.rest.find(['"', '\n', '\\']).unwrap_or(self.rest.len());
        let (text, rest) = self.rest.split_at(end);
        self.rest = rest;
        self.needs("\"")?;
        Ok(Value::Text(text.to_string()))
    }

    fn list(&mut self) -> Read<Value> {
        let mut list = Vec::new();
        while !self.takes("]") {
            list.push(self.value()?);
            if !self.takes(",") {
                self.needs("]")?;
                break;
            }
        }
        Ok(Value::List(list))
    }

    fn pair(&mut self) -> Read<(String, Value)> {
        let key = self.key()?;
        self.needs("=")?;
        Ok((key, self.value()?))
    }

    fn table(&mut self) -> Read<Value> {
        let mut table = Table::new();
        while !self.takes("}") {
            table.push(self.pair()?);
            if !self.takes(",") {
                self.needs("}")?;
                break;
            }
        }
        Ok(Value::Table(table))
    }

    fn value(&mut self) -> Read<Value> {
        if self.takes("\"") {
            self.text()
        } else if self.takes("[") {
            self.list()
        } else if self.takes("{") {
            self.table()
        } else if self.takes("true") {
            Ok(Value::Flag(true))
        } else if self.takes("false") {
            Ok(Value::Flag(false))
        } else {
            self.fail("no text, flag, list or table")
        }
    }

    // The names of a header, behind its brackets.
    fn header(&mut self) -> Read<Vec<String>> {
        let mut path = vec![self.key()?];
        while self.takes(".") {
            path.push(self.key()?);
        }
        self.needs("]]")?;
        Ok(path)
    }
}

// The list under a key. One that isn't there is made.
fn list_at<'t>(table: &'t mut Table, key: &str) -> Read<&'t mut Vec<Value>> {
    let place = match table.iter().position(|(name, _)| name == key) {
        Some(place) => place,
        None => {
            table.push((key.to_string(), Value::List(Vec::new())));
            table.len() - 1
        }
    };
    match &mut table[place].1 {
        Value::List(list) => Ok(list),
        _ => Err(format!("{key} is no list")),
    }
}

// The table that keys stand in behind the header of this path: the last one of each list.
fn table_at<'t>(root: &'t mut Table, path: &[String]) -> Read<&'t mut Table> {
    let mut table = root;
    for key in path {
        table = match list_at(table, key)?.last_mut() {
            Some(Value::Table(last)) => last,
            _ => return Err(format!("no table {key}")),
        };
    }
    Ok(table)
}

/// Reads a document.
pub fn read(text: &str) -> Read<Table> {
    let mut reader = Reader { rest: text };
    let mut root = Table::new();
    let mut path = Vec::new();
    loop {
        reader.skip();
        if reader.rest.is_empty() {
            return Ok(root);
        }
        if reader.takes("[[") {
            path = reader.header()?;
            if let Some((last, above)) = path.split_last() {
                list_at(table_at(&mut root, above)?, last)?.push(Value::Table(Table::new()));
            }
        } else {
            let pair = reader.pair()?;
            table_at(&mut root, &path)?.push(pair);
        }
    }
}
