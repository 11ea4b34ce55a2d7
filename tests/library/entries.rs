// entries.rs: the exported entries, for `build.rs` and for `stack`, which each have a macro of this name.

entries! {
    "rev_d_blank",
    "rev_d_down",
    "rev_d_command",
    "rev_d_tape",
    "rev_d_read_number",
    "rev_d_read_part",
    "rev_d_read_block",
    "rev_d_page_lines",
    "rev_d_page_line",
    "rev_d_plan"
}
