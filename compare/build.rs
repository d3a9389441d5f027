//! Links the proved leaves that only the comparison calls.

#[path = "../rhoikandra/link.rs"]
mod link;

fn main() {
    link::archives(
        &link::clone().join(link::WRITTEN),
        &["compare_line", "compare_terms", "compare_pools", "compare_output", "compare_tally"],
    );
}
