//! Pass-through stand-ins: drop `#[pyo3(..)]`, `#[getter]`, `#[new]` and the like,
//! and make every method of a `#[pymethods]` block public (pyo3 exposes them too).
extern crate proc_macro;
use proc_macro::{Delimiter, Group, Ident, Span, TokenStream, TokenTree};

const DROP: [&str; 8] = ["pyo3", "getter", "setter", "new", "staticmethod", "classmethod", "serde", "classattr"];

fn helper(t: &TokenTree) -> bool {
    let TokenTree::Group(g) = t else { return false };
    g.delimiter() == Delimiter::Bracket
        && matches!(g.stream().into_iter().next(), Some(TokenTree::Ident(i)) if DROP.contains(&i.to_string().as_str()))
}

/// Drop helper attributes in this stream, and one brace level down.
fn strip(ts: TokenStream, depth: u32, publish: bool) -> TokenStream {
    let toks: Vec<TokenTree> = ts.into_iter().collect();
    let mut out: Vec<TokenTree> = Vec::new();
    let mut i = 0;
    while i < toks.len() {
        match &toks[i] {
            TokenTree::Punct(p) if p.as_char() == '#' && i + 1 < toks.len() && helper(&toks[i + 1]) => {
                i += 2;
                continue;
            }
            TokenTree::Group(g) if g.delimiter() == Delimiter::Brace && depth > 0 => {
                let mut n = Group::new(Delimiter::Brace, strip(g.stream(), depth - 1, publish));
                n.set_span(g.span());
                out.push(TokenTree::Group(n));
            }
            TokenTree::Ident(id) if publish && depth == 0 && id.to_string() == "fn" => {
                let public = matches!(out.last(), Some(TokenTree::Ident(p)) if p.to_string() == "pub")
                    || matches!(out.last(), Some(TokenTree::Group(p)) if p.delimiter() == Delimiter::Parenthesis);
                if !public {
                    out.push(TokenTree::Ident(Ident::new("pub", Span::call_site())));
                }
                out.push(toks[i].clone());
            }
            t => out.push(t.clone()),
        }
        i += 1;
    }
    out.into_iter().collect()
}

#[proc_macro_attribute]
pub fn pyclass(_a: TokenStream, item: TokenStream) -> TokenStream {
    strip(item, 1, false)
}
#[proc_macro_attribute]
pub fn pymethods(_a: TokenStream, item: TokenStream) -> TokenStream {
    strip(item, 1, true)
}
// serde's derives do nothing, but own the `#[serde(..)]` helper.
#[proc_macro_derive(Serialize, attributes(serde))]
pub fn ser(_: TokenStream) -> TokenStream {
    TokenStream::new()
}
#[proc_macro_derive(Deserialize, attributes(serde))]
pub fn de(_: TokenStream) -> TokenStream {
    TokenStream::new()
}
