//! A small reader of JSON, strict: numbers are whole, no member of an object stands twice, and nothing follows the
//! document.

#[derive(Clone, PartialEq, Debug)]
pub enum Json {
    Null,
    Bool(bool),
    Number(i64),
    Text(String),
    List(Vec<Json>),
    Object(Vec<(String, Json)>),
}

impl Json {
    pub fn read(text: &str) -> Result<Json, String> {
        let mut reader = Reader { rest: text };
        let value = reader.value()?;
        reader.skip_blanks();
        match reader.rest {
            "" => Ok(value),
            _ => Err(reader.wrong("the end")),
        }
    }

    /// A member of an object.
    pub fn get(&self, name: &str) -> Option<&Json> {
        let found = self.members().iter().find(|(member, _)| member == name);
        found.map(|(_, value)| value)
    }

    /// The members of an object; anything else has none.
    pub fn members(&self) -> &[(String, Json)] {
        match self {
            Json::Object(members) => members,
            _ => &[],
        }
    }

    /// The items of a list; anything else has none.
    pub fn items(&self) -> &[Json] {
        match self {
            Json::List(items) => items,
            _ => &[],
        }
    }

    pub fn number(&self) -> Option<i64> {
        match self {
            Json::Number(number) => Some(*number),
            _ => None,
        }
    }

    pub fn text(&self) -> Option<&str> {
        match self {
            Json::Text(text) => Some(text),
            _ => None,
        }
    }
}

struct Reader<'a> {
    rest: &'a str,
}

impl Reader<'_> {
    fn wrong(&self, expected: &str) -> String {
        let found: String = self.rest.chars().take(20).collect();
        format!("{expected} is expected, not {found:?}")
    }

    fn skip_blanks(&mut self) {
        self.rest = self.rest.trim_start_matches([' ', '\t', '\n', '\r']);
    }

    /// Passes these letters, if they come next.
    fn pass(&mut self, letters: &str) -> bool {
        let rest = self.rest.strip_prefix(letters);
        self.rest = rest.unwrap_or(self.rest);
        rest.is_some()
    }

    /// The same, behind blanks, of a sign between values.
    fn sign(&mut self, sign: &str) -> bool {
        self.skip_blanks();
        self.pass(sign)
    }

    fn must(&mut self, sign: &str) -> Result<(), String> {
        if self.sign(sign) {
            return Ok(());
        }
        Err(self.wrong(sign))
    }

    fn value(&mut self) -> Result<Json, String> {
        self.skip_blanks();
        match self.rest.chars().next() {
            Some('{') => self.object(),
            Some('[') => self.list(),
            Some('"') => Ok(Json::Text(self.string()?)),
            Some('-' | '0'..='9') => self.number(),
            _ if self.pass("null") => Ok(Json::Null),
            _ if self.pass("true") => Ok(Json::Bool(true)),
            _ if self.pass("false") => Ok(Json::Bool(false)),
            _ => Err(self.wrong("a value")),
        }
    }

    fn list(&mut self) -> Result<Json, String> {
        self.must("[")?;
        let mut items = Vec::new();
        if self.sign("]") {
            return Ok(Json::List(items));
        }
        loop {
            items.push(self.value()?);
            if self.sign("]") {
                return Ok(Json::List(items));
            }
            self.must(",")?;
        }
    }

    fn object(&mut self) -> Result<Json, String> {
        self.must("{")?;
        let mut members = Vec::new();
        if self.sign("}") {
            return Ok(Json::Object(members));
        }
        loop {
            let member = self.member()?;
            if members.iter().any(|(name, _)| *name == member.0) {
                return Err(format!("the member {} stands twice", member.0));
            }
            members.push(member);
            if self.sign("}") {
                return Ok(Json::Object(members));
            }
            self.must(",")?;
        }
    }

    fn member(&mut self) -> Result<(String, Json), String> {
        self.skip_blanks();
        let name = self.string()?;
        self.must(":")?;
        Ok((name, self.value()?))
    }

    fn number(&mut self) -> Result<Json, String> {
        let end = self.rest.find([',', ']', '}', ' ', '\t', '\n', '\r']);
        let (word, rest) = self.rest.split_at(end.unwrap_or(self.rest.len()));
        let digits = word.strip_prefix('-').unwrap_or(word);
        let needless = digits.len() > 1 && digits.starts_with('0');
        let number = word.parse().ok().filter(|_| !needless);
        let number = number.ok_or_else(|| self.wrong("a whole number"))?;
        self.rest = rest;
        Ok(Json::Number(number))
    }

    fn string(&mut self) -> Result<String, String> {
        if !self.pass("\"") {
            return Err(self.wrong("a string"));
        }
        let mut text = String::new();
        loop {
            let mut letters = self.rest.chars();
            let letter = letters.next().ok_or("a string has no end")?;
            self.rest = letters.as_str();
            match letter {
                '"' => return Ok(text),
                '\\' => text.push(self.escaped()?),
                '\0'..='\x1f' => return Err(self.wrong("no control character before this")),
                _ => text.push(letter),
            }
        }
    }

    /// What an escape stands for. A letter that takes two escapes is not read: the program writes it as it is.
    fn escaped(&mut self) -> Result<char, String> {
        let plain = [
            ("\"", '"'),
            ("\\", '\\'),
            ("/", '/'),
            ("b", '\x08'),
            ("f", '\x0c'),
            ("n", '\n'),
            ("r", '\r'),
            ("t", '\t'),
        ];
        if let Some((_, letter)) = plain.into_iter().find(|(sign, _)| self.pass(sign)) {
            return Ok(letter);
        }
        let digits = self.rest.strip_prefix('u').and_then(|rest| rest.get(..4));
        let digits = digits.filter(|digits| digits.chars().all(|sign| sign.is_ascii_hexdigit()));
        let number = digits.and_then(|digits| u32::from_str_radix(digits, 16).ok());
        let letter = number.and_then(char::from_u32);
        let letter = letter.ok_or_else(|| self.wrong("an escape"))?;
        self.rest = &self.rest[5..];
        Ok(letter)
    }
}
