//! A document in Markdown: its fenced blocks, and the lines outside of them.

use crate::files;

/// What stands between two fences.
pub struct Block {
    /// What stands behind the opening fence.
    pub info: String,
    /// The number of the opening fence's line, from 1; the block's first line is the one after.
    pub line: usize,
    pub lines: Vec<String>,
}

/// A document of the repository.
pub struct Page {
    pub name: String,
    pub blocks: Vec<Block>,
    /// The lines outside of blocks, with their numbers.
    pub prose: Vec<(usize, String)>,
}

/// The fence that a line starts with: three or more of one mark.
fn fence(line: &str) -> Option<&str> {
    let mark = line.chars().next().filter(|mark| "`~".contains(*mark))?;
    let length = line.find(|other| other != mark).unwrap_or(line.len());
    (length >= 3).then_some(&line[..length])
}

/// Whether a line closes a block: the same mark as in the opening fence, as often or more often, and nothing else.
fn closes(line: &str, opening: &str) -> bool {
    let line = line.trim_end();
    fence(line) == Some(line) && line.starts_with(opening)
}

impl Page {
    /// A document by its name in the repository.
    pub fn read(name: &str) -> Page {
        Page::parse(name, &files::text(name)).unwrap_or_else(|fault| panic!("{fault}"))
    }

    /// The blocks and the rest of a text; a block must end.
    pub fn parse(name: &str, text: &str) -> Result<Page, String> {
        let mut page = Page { name: name.to_string(), blocks: Vec::new(), prose: Vec::new() };
        let mut lines = (1..).zip(text.lines());
        while let Some((number, line)) = lines.next() {
            let Some(opening) = fence(line) else {
                page.prose.push((number, line.to_string()));
                continue;
            };
            let info = line[opening.len()..].trim().to_string();
            let mut block = Block { info, line: number, lines: Vec::new() };
            loop {
                match lines.next() {
                    Some((_, line)) if closes(line, opening) => break,
                    Some((_, line)) => block.lines.push(line.to_string()),
                    None => return Err(format!("{name}:{number}: the block does not end")),
                }
            }
            page.blocks.push(block);
        }
        Ok(page)
    }

    /// The blocks of a kind, which is the first word behind the fence; with the other words.
    pub fn of_kind<'a>(&'a self, kind: &'a str) -> impl Iterator<Item = (&'a Block, &'a str)> {
        self.blocks.iter().filter_map(move |block| {
            let (first, rest) = block.info.split_once(' ').unwrap_or((&block.info, ""));
            (first == kind).then_some((block, rest))
        })
    }

    /// The lines of the section under a heading, up to the next heading of the same level.
    pub fn section(&self, heading: &str) -> Vec<&str> {
        let level = heading.split(' ').next().expect("a heading has a level");
        let next = |line: &str| line.split(' ').next() == Some(level);
        let lines = self.prose.iter().map(|(_, line)| &line[..]);
        lines.skip_while(|line| *line != heading).skip(1).take_while(|line| !next(line)).collect()
    }
}

/// The cells of a line of a table, without the spaces around them.
pub fn cells(line: &str) -> Option<Vec<&str>> {
    let inner = line.strip_prefix('|')?.strip_suffix('|')?;
    Some(inner.split('|').map(str::trim).collect())
}

#[cfg(test)]
mod tests {
    use super::*;

    #[test]
    fn blocks_and_prose() {
        let text = "one\n```console\n$ a\n\n    b\n```\n~~~~ text x\n```\n~~~\n~~~~~\ntwo\n";
        let page = Page::parse("page", text).expect("every block ends");
        assert_eq!(page.prose, [(1, "one".to_string()), (11, "two".to_string())]);
        let [console, tildes] = &page.blocks[..] else { panic!("there are two blocks") };
        assert_eq!((&console.info[..], console.line), ("console", 2));
        assert_eq!(console.lines, ["$ a", "", "    b"]);
        assert_eq!((&tildes.info[..], tildes.line), ("text x", 7));
        assert_eq!(tildes.lines, ["```", "~~~"]);
        let words: Vec<&str> = page.of_kind("text").map(|(_, words)| words).collect();
        assert_eq!(words, ["x"]);
    }

    #[test]
    fn a_block_that_does_not_end() {
        let fault = Page::parse("page", "\n```c\nint x;\n").err().expect("the fence is left open");
        assert_eq!(fault, "page:2: the block does not end");
    }

    #[test]
    fn sections_and_cells() {
        let text = "# a\n## b\n| 1 | x |\n### c\ny\n## d\nz\n";
        let page = Page::parse("page", text).expect("there are no blocks");
        assert_eq!(page.section("## b"), ["| 1 | x |", "### c", "y"]);
        assert!(page.section("## e").is_empty());
        assert_eq!(cells("| 1 | x |"), Some(vec!["1", "x"]));
        assert_eq!(cells("1 | x |"), None);
    }
}
