//! The three attributes of soroban_sdk that the contract uses. `contract` and `contractimpl` change nothing;
//! `contracttype` adds the conversion of the type to and from host values.
use proc_macro::{Delimiter, TokenStream, TokenTree};

#[proc_macro_attribute]
pub fn contract(_: TokenStream, item: TokenStream) -> TokenStream {
    item
}

#[proc_macro_attribute]
pub fn contractimpl(_: TokenStream, item: TokenStream) -> TokenStream {
    item
}

#[proc_macro_attribute]
pub fn contracttype(_: TokenStream, item: TokenStream) -> TokenStream {
    let conversion: TokenStream = conversion(item.clone()).parse().expect("a conversion");
    let mut out = item;
    out.extend(conversion);
    out
}

fn conversion(item: TokenStream) -> String {
    let tokens: Vec<TokenTree> = item.into_iter().collect();
    let at = tokens
        .iter()
        .position(|t| matches!(t, TokenTree::Ident(i) if i.to_string() == "struct" || i.to_string() == "enum"))
        .expect("a struct or an enum");
    let name = tokens[at + 1].to_string();
    let TokenTree::Group(body) = &tokens[at + 2] else { panic!("contracttype: no fields") };
    assert!(body.delimiter() == Delimiter::Brace, "contracttype: fields in braces");
    let parts = parts(body.stream());
    if tokens[at].to_string() == "struct" {
        struct_conversion(&name, &parts)
    } else {
        enum_conversion(&name, &parts)
    }
}

/// The parts between commas, without attributes.
fn parts(stream: TokenStream) -> Vec<Vec<TokenTree>> {
    let mut all = vec![Vec::new()];
    let mut tokens = stream.into_iter();
    while let Some(t) = tokens.next() {
        match &t {
            TokenTree::Punct(p) if p.as_char() == '#' => {
                tokens.next();
            }
            TokenTree::Punct(p) if p.as_char() == ',' => all.push(Vec::new()),
            _ => all.last_mut().expect("a part").push(t),
        }
    }
    all.retain(|part| !part.is_empty());
    all
}

fn struct_conversion(name: &str, fields: &[Vec<TokenTree>]) -> String {
    let names: Vec<String> = fields.iter().map(|f| f.iter().map(|t| t.to_string()).find(|t| t != "pub").expect("a field name")).collect();
    let write: String = names.iter().map(|n| format!("::soroban_sdk::Value::write(&self.{n}, out);")).collect();
    let read: String = names.iter().map(|n| format!("{n}: ::soroban_sdk::Value::read(env, leaves),")).collect();
    format!(
        "impl ::soroban_sdk::Value for {name} {{
            fn write(&self, out: &mut ::std::vec::Vec<::soroban_sdk::Leaf>) {{ {write} }}
            fn read(env: &::soroban_sdk::Env, leaves: &mut ::soroban_sdk::Leaves<'_>) -> Self {{ {name} {{ {read} }} }}
        }}"
    )
}

fn enum_conversion(name: &str, variants: &[Vec<TokenTree>]) -> String {
    let mut write = String::new();
    let mut read = String::new();
    for variant in variants {
        let v = variant[0].to_string();
        let count = match variant.get(1) {
            Some(TokenTree::Group(g)) => parts(g.stream()).len(),
            _ => 0,
        };
        let fields: Vec<String> = (0..count).map(|i| format!("f{i}")).collect();
        let pattern = if count == 0 { String::new() } else { format!("({})", fields.join(", ")) };
        let writes: String = fields.iter().map(|f| format!("::soroban_sdk::Value::write({f}, out);")).collect();
        let reads = vec!["::soroban_sdk::Value::read(env, leaves)"; count].join(", ");
        let built = if count == 0 { String::new() } else { format!("({reads})") };
        write += &format!("{name}::{v}{pattern} => {{ out.push(::soroban_sdk::Leaf::Symbol(\"{v}\")); {writes} }}");
        read += &format!("\"{v}\" => {name}::{v}{built},");
    }
    format!(
        "impl ::soroban_sdk::Value for {name} {{
            fn write(&self, out: &mut ::std::vec::Vec<::soroban_sdk::Leaf>) {{ match self {{ {write} }} }}
            fn read(env: &::soroban_sdk::Env, leaves: &mut ::soroban_sdk::Leaves<'_>) -> Self {{
                match ::soroban_sdk::symbol(leaves) {{ {read} other => panic!(\"{name}: {{}}\", other) }}
            }}
        }}"
    )
}
