//! Requests and answers as text: the lines that the program `replay` runs.

use crate::{
    calls::Outcome,
    judge::field,
    request::Request,
    verdict::{is_zero, Verdict},
};

/// A request with the lengths of its buffers.
pub fn request(request: &Request, rooms: &[usize]) -> String {
    let lent = match request {
        Request::Extract { lent, tree } => {
            let (files, externals) = (hex(&lent.files), hex(&lent.externals));
            let (table, tree) = (hex(&lent.table), hex(tree));
            let (own, config) = (lent.own, u8::from(lent.config));
            format!("extract {files} {own:04x} {config} {externals} {table} {tree}")
        }
        Request::Resolve {
            files,
            table,
            records,
        } => format!("resolve {} {} {}", hex(files), hex(table), hex(records)),
        Request::Detect { config, tree } => format!("detect {} {}", u8::from(*config), hex(tree)),
        Request::Encode {
            injected,
            context,
            attributes,
        } => {
            let (injected, attributes) = (u8::from(*injected), hex(attributes));
            let context = context.map_or("-".to_string(), |context| format!("{context:08x}"));
            format!("encode {injected} {context} {attributes}")
        }
        Request::Decode { attributes } => return format!("decode {}", hex(attributes)),
    };
    let rooms = rooms.iter().map(|room| format!(" {room}"));
    lent + &rooms.collect::<String>()
}

/// The answer that is expected, or several; `?` stands for a place that is not known exactly.
pub fn expected(request: &Request, rooms: &[usize], verdict: &Verdict) -> String {
    let results = verdict.accepts(rooms);
    let accepted =
        results.map(|results| accepted(request, results.value, &results.buffers, &results.scope));
    let refusals = verdict.refusals(rooms).into_iter().map(|refusal| {
        let place = match refusal.places[..] {
            [place] => place.to_string(),
            _ => "?".to_string(),
        };
        format!("no {} {place}{}", refusal.number, scope(&refusal.scope))
    });
    let answers = accepted
        .into_iter()
        .chain(refusals)
        .chain(verdict.conflict.clone());
    answers.collect::<Vec<_>>().join(" or ")
}

/// The answer that the library gave.
pub fn given(request: &Request, left: &Outcome) -> String {
    if left.number() != 0 {
        let clear = left.buffers.iter().all(|buffer| is_zero(buffer));
        let note = if clear {
            ""
        } else {
            " and buffers not all zero"
        };
        let (number, place) = (left.number(), left.place());
        return format!("no {number} {place}{}{note}", scope(&left.scope));
    }
    let mut clear = true;
    let buffers = left.buffers.iter().map(|buffer| {
        let front = match request {
            Request::Decode { .. } => buffer,
            _ => field(buffer),
        };
        clear &= is_zero(&buffer[front.len()..]);
        front.to_vec()
    });
    let buffers: Vec<Vec<u8>> = buffers.collect();
    let note = if clear { "" } else { " and no zeros behind" };
    accepted(request, left.place(), &buffers, &left.scope) + note
}

fn accepted(request: &Request, value: usize, buffers: &[Vec<u8>], of_scope: &[u8]) -> String {
    match (request, buffers) {
        (Request::Detect { .. }, _) => format!("ok {value}"),
        (Request::Decode { .. }, [metadata]) => match metadata[1] {
            0 => format!("ok {} -", metadata[0]),
            _ => format!("ok {} {}", metadata[0], hex(&metadata[2..])),
        },
        _ => {
            let fields = buffers.iter().map(|buffer| format!(" {}", hex(buffer)));
            format!("ok{}{}", fields.collect::<String>(), scope(of_scope))
        }
    }
}

/// ` file:LSCW` for each module; nothing for a call without a scope.
fn scope(bytes: &[u8]) -> String {
    if bytes.is_empty() {
        return String::new();
    }
    let count = usize::from(u16::from_be_bytes([bytes[0], bytes[1]]));
    let modules = bytes[2..].chunks_exact(3).take(count).map(|module| {
        let marks: String = (0..4)
            .map(|bit| (module[2] >> bit & 1).to_string())
            .collect();
        format!("{}:{marks}", hex(&module[..2]))
    });
    match count {
        0 => " -".to_string(),
        _ => format!(" {}", modules.collect::<Vec<_>>().join(",")),
    }
}

fn hex(bytes: &[u8]) -> String {
    match bytes.is_empty() {
        true => "-".to_string(),
        false => bytes.iter().map(|byte| format!("{byte:02x}")).collect(),
    }
}
