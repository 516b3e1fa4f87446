//! A stream's page.

use bezhantiru::Refusal;
use commands::markup::escaped;
use commands::picture::Picture;
use commands::picture::curves::Curves;

use super::super::folder::{INDEX, STREAM, file_of};
use super::super::stream::{Accepted, Told, Worked};
use super::super::summary::Counts;
use super::html::{document, figure, link, shown_name};
use super::words::{counted, number, share};
use super::{checks, envelope, rows};

/// The page, or a refusal by the library of what the program has accepted.
pub fn of_stream(worked: &Worked) -> Result<String, Refusal> {
    let name = shown_name(&worked.name);
    let index = link(INDEX.as_ref());
    let (sections, body) = match &worked.told {
        Told::Of(accepted) => (&SECTIONS[..], of_accepted(worked, accepted)?),
        Told::Refused(refusal) => (&SECTIONS[3..5], of_refused(worked, *refusal)),
    };
    let sections: String = sections
        .iter()
        .map(|(id, word)| format!(" <a href=\"#{id}\">{word}</a>"))
        .collect();
    let heading = escaped(&name);
    let body = format!(
        "<nav><a href=\"{index}\">All streams</a>{sections}</nav>\n<main>\n\
         <h1 class=\"name\">{heading}</h1>\n{body}</main>\n"
    );
    Ok(document(&format!("{name}: loss table"), &body))
}

/// Sections by their ids.
const SECTIONS: [(&str, &str); 6] = [
    ("set-up", "Set-up"),
    ("losses", "Losses"),
    ("rows", "Rows"),
    ("files", "Files"),
    ("check", "Check"),
    ("cite", "Cite"),
];

fn of_refused(worked: &Worked, refusal: Refusal) -> String {
    format!(
        "<p>The stream file is {}. It has no rows.</p>\n{}{}",
        escaped(&refusal.to_string()),
        checks::files_of(worked),
        checks::check(worked)
    )
}

fn of_accepted(worked: &Worked, accepted: &Accepted) -> Result<String, Refusal> {
    let sections = [
        format!("<p>{}</p>\n", lead(accepted)),
        envelope::set_up(&accepted.file)?,
        losses(worked, accepted),
        rows::section(accepted),
        checks::files_of(worked),
        checks::check(worked),
        checks::cite(worked, accepted),
    ];
    Ok(sections.concat())
}

/// What was lost, and whether anybody could have lost fewer.
fn lead(accepted: &Accepted) -> String {
    let Counts {
        slots,
        arrived,
        dropped,
        ..
    } = Counts::of(&accepted.rows);
    let came = format!(
        "{} arrived in {}",
        counted(arrived, "packet"),
        counted(slots, "slot")
    );
    let lost = match share(dropped, arrived) {
        Some(share) => format!("{came}, and the loss is {}, {share} %.", number(dropped)),
        None => format!("{came}."),
    };
    let certified = accepted
        .certified
        .as_ref()
        .map(|of| of.found.certified() as u64);
    let nobody = "No regulator that keeps these limits could have lost fewer by";
    let least = match certified {
        None => String::from(
            "Both limits are none, so that nothing is lost and there is no certificate.",
        ),
        Some(all) if all == slots => format!("{nobody} any slot."),
        Some(some) => format!(
            "{nobody} the {} that are certified; the deadlines of the others are after the last slot.",
            counted(some, "slot")
        ),
    };
    format!("{lost} {least}")
}

/// The picture that loss-curve draws of the stream.
fn losses(worked: &Worked, accepted: &Accepted) -> String {
    let heading = "<h2 id=\"losses\">Losses</h2>\n";
    if accepted.rows.is_empty() {
        return format!("{heading}<p>A stream of no slots has no curve.</p>\n");
    }
    let header = &accepted.file.header;
    let slots = 1..=accepted.rows.len();
    let picture = Picture {
        name: shown_name(&file_of(&worked.name, STREAM)),
        delay: header.delay,
        buffer: header.buffer,
        ours: Curves::of_table(&accepted.rows, &slots),
        slots,
        rival: None,
    };
    let caption = "Packets arrived, admitted and departed by each slot; packets lost by it, with a mark at \
                   each slot that dropped some; and packets waiting in it before its departures.";
    format!("{heading}{}", figure(&picture.drawn(), caption))
}
