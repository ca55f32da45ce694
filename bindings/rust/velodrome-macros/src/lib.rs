//! The attributes of the crate `velodrome`, which re-exports them. Use that crate.
use proc_macro::{Delimiter, Group, Ident, Span, TokenStream, TokenTree};

/// A `#[test]` whose atomic blocks are watched: it fails where they were not atomic, as [`check`] does.
///
/// `#[velodrome::test(noise = 4, max_events = 10_000, repeat = 20)]` sets what [`Builder`] has under these names, which are `noise`,
/// `seed`, `max_events` and `everywhere`; `repeat` runs the body so often, or until the first panic. The values are expressions.
///
/// [`check`]: https://docs.rs/velodrome/latest/velodrome/fn.check.html
/// [`Builder`]: https://docs.rs/velodrome/latest/velodrome/struct.Builder.html
#[proc_macro_attribute]
pub fn test(options: TokenStream, item: TokenStream) -> TokenStream {
    let options = match Options::read(options) {
        Ok(options) => options,
        Err(error) => return error.into_tokens(),
    };
    let whole = Function::read(item).and_then(|function| {
        function.refuse(
            "async",
            "velodrome::test: an async function needs a runtime: call it in the body",
        )?;
        let name = function.name.to_string();
        Ok(function.with_body(&options.around(&name), Delimiter::Brace))
    });
    match whole {
        Ok(function) => parsed("#[::core::prelude::v1::test]")
            .into_iter()
            .chain(function)
            .collect(),
        Err(error) => error.into_tokens(),
    }
}

/// A function whose body is one atomic block, named by the function.
///
/// An `async` function is refused: its task may go from thread to thread, and a block is of one thread. A `const` one too.
#[proc_macro_attribute]
pub fn atomic(options: TokenStream, item: TokenStream) -> TokenStream {
    if let Some(token) = options.into_iter().next() {
        return Error::at(token.span(), "velodrome::atomic takes no argument").into_tokens();
    }
    let whole = Function::read(item).and_then(|function| {
        function.refuse(
            "async",
            "velodrome::atomic: an async function is not a block of one thread",
        )?;
        function.refuse("const", "velodrome::atomic: a const function has no blocks")?;
        let name = function.name.to_string();
        let block = format!(
            "let _velodrome = ::velodrome::block!(concat!(module_path!(), \"::\", {name:?})); BODY"
        );
        Ok(function.with_body(&block, Delimiter::Brace))
    });
    whole.unwrap_or_else(Error::into_tokens)
}

/// What is said to the one who wrote the attribute.
struct Error {
    at: Span,
    words: String,
}

impl Error {
    fn at(at: Span, words: impl Into<String>) -> Error {
        Error {
            at,
            words: words.into(),
        }
    }

    fn into_tokens(self) -> TokenStream {
        let at = self.at;
        let tokens = parsed(&format!("::core::compile_error! {{ {:?} }}", self.words));
        tokens
            .into_iter()
            .map(|mut token| {
                token.set_span(at);
                token
            })
            .collect()
    }
}

/// Tokens of the text, which is this file's own.
fn parsed(text: &str) -> TokenStream {
    text.parse().expect("text of this file parses")
}

/// A function: what stands before its body, its name and its body.
struct Function {
    head: Vec<TokenTree>,
    name: Ident,
    body: Group,
}

impl Function {
    fn read(item: TokenStream) -> Result<Function, Error> {
        let mut head: Vec<TokenTree> = item.into_iter().collect();
        let body = match head.pop() {
            Some(TokenTree::Group(body)) if body.delimiter() == Delimiter::Brace => body,
            other => {
                return Err(Error::at(
                    other.map_or_else(Span::call_site, |t| t.span()),
                    "this attribute is for a function",
                ))
            }
        };
        let name = head.windows(2).find_map(|pair| match pair {
            [TokenTree::Ident(word), TokenTree::Ident(name)] if word.to_string() == "fn" => {
                Some(name.clone())
            }
            _ => None,
        });
        match name {
            Some(name) => Ok(Function { head, name, body }),
            None => Err(Error::at(body.span(), "this attribute is for a function")),
        }
    }

    /// An error where this word stands before `fn`.
    fn refuse(&self, word: &str, words: &str) -> Result<(), Error> {
        let before = self
            .head
            .iter()
            .take_while(|token| token.to_string() != "fn");
        before
            .into_iter()
            .find(|token| token.to_string() == word)
            .map_or(Ok(()), |token| Err(Error::at(token.span(), words)))
    }

    /// The function with this text as its body, in which BODY is the body that it had.
    fn with_body(mut self, text: &str, delimiter: Delimiter) -> TokenStream {
        let mut body = Group::new(delimiter, put(parsed(text), &self.body));
        body.set_span(self.body.span());
        self.head.push(TokenTree::Group(body));
        self.head.into_iter().collect()
    }
}

/// The tokens, with the body where BODY stands.
fn put(tokens: TokenStream, body: &Group) -> TokenStream {
    let placed = tokens.into_iter().map(|token| match token {
        TokenTree::Ident(word) if word.to_string() == "BODY" => TokenTree::Group(body.clone()),
        TokenTree::Group(group) => {
            TokenTree::Group(Group::new(group.delimiter(), put(group.stream(), body)))
        }
        other => other,
    });
    placed.collect()
}

/// The options of `test`, as calls of the builder.
#[derive(Default)]
struct Options {
    calls: String,
    repeat: Option<String>,
}

impl Options {
    fn read(tokens: TokenStream) -> Result<Options, Error> {
        let tokens: Vec<TokenTree> = tokens.into_iter().collect();
        let mut options = Options::default();
        for option in tokens
            .split(|token| token.to_string() == ",")
            .filter(|option| !option.is_empty())
        {
            options.take(option)?;
        }
        Ok(options)
    }

    fn take(&mut self, option: &[TokenTree]) -> Result<(), Error> {
        match option {
            [TokenTree::Ident(key), equals, value @ ..]
                if equals.to_string() == "=" && !value.is_empty() =>
            {
                let value = value.iter().cloned().collect::<TokenStream>().to_string();
                match key.to_string().as_str() {
                    key @ ("noise" | "seed" | "max_events" | "everywhere") => {
                        self.calls.extend([".", key, "(", &value, ")"])
                    }
                    "repeat" => self.repeat = Some(value),
                    _ => {
                        return Err(Error::at(
                            key.span(),
                            "velodrome::test has the options noise, seed, max_events, everywhere and repeat",
                        ))
                    }
                }
                Ok(())
            }
            _ => Err(Error::at(
                option[0].span(),
                "velodrome::test takes options as noise = 4",
            )),
        }
    }

    /// The body of the test.
    fn around(&self, name: &str) -> String {
        let builder = format!(
            "::velodrome::Builder::new().name(concat!(module_path!(), \"::\", {name:?})){}",
            self.calls
        );
        match &self.repeat {
            None => format!("{builder}.check(|| BODY)"),
            Some(times) => format!(
                "let mut left = {times}; loop {{ let value = {builder}.check(|| BODY); left -= 1; if left < 1 {{ break value }} }}"
            ),
        }
    }
}
