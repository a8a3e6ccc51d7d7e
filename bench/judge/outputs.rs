//! What a program prints, section by section.

/// The lines of each domain, where the headings are those of so many domains.
pub fn sections(output: &str, domains: usize) -> Option<Vec<Vec<String>>> {
    let mut sections: Vec<Vec<String>> = Vec::new();
    for line in output.lines() {
        if line == format!("domain {}", sections.len()) {
            sections.push(Vec::new());
        } else {
            sections.last_mut()?.push(line.to_owned());
        }
    }
    (sections.len() == domains).then_some(sections)
}
