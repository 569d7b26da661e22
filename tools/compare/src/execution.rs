//! Execution pages as counterparties send them: several templates, filled at random.
use common::Random;
use std::fmt::Write;

const VENUES: [&str; 9] = [
    "XLON",
    "XETR",
    "Börse München",
    "東京",
    "Bourse de Genève",
    "Dark\u{a0}Pool",
    "A/B",
    "OTC \u{2003} desk",
    "",
];
const STATES: [&str; 6] = [
    "fill",
    "fill late",
    "fill\tlate odd-lot",
    "odd-lot fill fill",
    "",
    " cancelled ",
];
const REMARKS: [&str; 7] = [
    "partial",
    "price &lt; limit",
    "A&amp;B",
    "5 < 6",
    "corrected <b>by hand</b>",
    "größer als geplant",
    "",
];

/// A page of some hundreds to some thousands of bytes.
pub fn page(random: &mut Random) -> Vec<u8> {
    let fills = match random.below(6) {
        0 => random.below(3),
        1 => 8 + random.below(8),
        _ => 1 + random.below(5),
    };
    let page = match random.below(5) {
        0 => table(fills, random),
        1 => list(fills, random),
        2 => mail(fills, random),
        3 => form(fills, random),
        _ => feed(fills, random),
    };
    page.into_bytes()
}

fn price(random: &mut Random) -> String {
    format!("{}.{:02}", 90 + random.below(30), random.below(100))
}

/// A whole document with a table of rows, as a well kept system writes it.
fn table(fills: usize, random: &mut Random) -> String {
    let mut page = String::from(
        "<!DOCTYPE html>\n<html lang=\"en\">\n<head>\n<meta charset=\"utf-8\">\n<title>Executions</title>\n\
         <link rel=\"stylesheet\" href=\"/desk.css\">\n</head>\n<body>\n<!-- day 7 -->\n\
         <table id=\"fills\" class=\"grid dense\">\n<tr><th>Order</th><th>Qty</th><th>Px</th></tr>\n",
    );
    for fill in 0..fills {
        let state = random.pick(&STATES);
        let venue = random.pick(&VENUES);
        let _ = write!(
            page,
            "<tr id=\"fill-{fill}\" class=\"{state}\" data-fill=\"{}\" data-rev='{}' data-venue=\"{venue}\">\n\
             <td class=\"ord\">{}</td><td class=qty>{}</td><td class=\"px num\">{}</td>\n<td>{}<br>{venue}</td>\n</tr>\n",
            1000 + fill,
            random.below(4),
            random.below(90_000),
            100 * random.below(50),
            price(random),
            random.pick(&REMARKS),
        );
        if random.once_in(3) {
            page.push_str("<!-- checked -- twice -->\n");
        }
    }
    page.push_str("</table>\n<img src=\"/seal.png\" alt=seal>\n</body>\n</html>\n");
    page
}

/// Lists, unquoted values, capitals, tabs.
fn list(fills: usize, random: &mut Random) -> String {
    let mut page = String::from("<!doctype HTML>\n<DIV Class=page>\n\t<UL id=executions>\n");
    for fill in 0..fills {
        let _ = write!(
            page,
            "\t<LI id=f{fill} class=fill data-venue={} data-qty={}>\n\t\t<SPAN class='px'>{}</SPAN>\n\t\t<em>{}</em><HR>\n\t</LI>\n",
            random.pick(&["XLON", "XETR", "a/b", "x"]),
            random.below(900),
            price(random),
            random.pick(&REMARKS),
        );
    }
    page.push_str("\t</UL>\n</DIV>\n");
    page
}

/// A mail's tables: old tags, cells that are never closed, slashes.
fn mail(fills: usize, random: &mut Random) -> String {
    let mut page = String::from(
        "<html><body bgcolor=#ffffff><p>Dear desk,<p>we confirm:<table border=0><tr><td colspan=3><hr/>",
    );
    for fill in 0..fills {
        let _ = write!(
            page,
            "<tr class=\"{}\" id=\"m{fill}\" nowrap><td>{}<td align=right nowrap>{}<td><font color='red' size=2>{}</font><br/>",
            random.pick(&STATES),
            random.below(5000),
            price(random),
            random.pick(&REMARKS),
        );
    }
    page.push_str("</table><p>Regards<br>\n&nbsp;&mdash; ops</body></html>");
    page
}

/// A form with void tags, values without quotes and attributes without values.
fn form(fills: usize, random: &mut Random) -> String {
    let mut page =
        String::from("<!doctype html><form id=\"confirm\" action=\"/c?x=1&amp;y=2\">\n<dl>\n");
    for fill in 0..fills {
        let venue = random.pick(&VENUES);
        let _ = write!(
            page,
            "<dt id='d{fill}' class='{}'>{venue}</dt>\n<dd><input type=checkbox name=\"f{fill}\" checked disabled>\
             <input type=\"text\" value=\"{}\" data-venue='{venue}' required/><wbr></dd>\n",
            random.pick(&STATES),
            price(random),
        );
        if random.once_in(4) {
            page.push_str("<!-- <dd>struck out</dd> -->");
        }
    }
    page.push_str("</dl>\n<keygen><source src=a><track></form>\n");
    page
}

/// A feed with tags of its own, some never opened, and a repeated attribute now and then.
fn feed(fills: usize, random: &mut Random) -> String {
    let mut page =
        String::from("<?xml version=\"1.0\"?>\n<exec:report xmlns:exec='urn:x' id=r1>\n");
    for fill in 0..fills {
        let again = random.pick(&["", "", "", " data-rev=9", " id=again", " class"]);
        let _ = writeln!(
            page,
            "<exec:fill data-fill=\"{fill}\" data-rev=\"{}\" class=\"{}\" id=\"x{fill}\"{again}><px c+y=\"EUR\" >{}</px><note/ ><qty v=\"{}\"/></exec:fill>",
            random.below(3),
            random.pick(&STATES),
            price(random),
            random.below(1000),
        );
    }
    page.push_str("</exec:report>\n");
    page
}
