"""The small tree on which tests/words.py tries its rules. It keeps them all, and one fault at a time breaks it."""

import clauses
import placed
import prose
import ratchet

README = "# low\n\n" + "".join(f"## {heading}\n\nx\n\n" for heading in ("Proved", "Premises", "Only tested", "Limits"))
RIGHT = {
    "crates.txt": "# a comment: of no crate\nlow:\nlaws: low\nlow_tests: low\ncastle: low laws low_tests\n",
    "crates/low/README.md": README,
    "crates/laws/README.md": README,
    "crates/castle/README.md": README,
    "crates/low_tests/README.md": "# low_tests\n",
    "docs/ARCHITECTURE.md": "castle, low, laws\n" + placed.LISTED,
    "docs/GLOSSARY.md": "| Prose | Code |\n|---|---|\n" + "".join(f"| {word} | image |\n" for word in prose.PAIRS),
    "README.md": "<!-- an\nimage -->\n" + '''# Low

A sentence about `level 0` that [another](gate.md) ends. `The image
of` is shut by the gate.

    a moment

''' + "- An item" + " word" * 14 + "\n- an item" + " word" * 25 + '''
  that goes on.

```
an image
```

| Word | Code | Meaning |
|---|---|---|
| memtable | level 0 | updates |

It is 1 or 2. It''' + " goes" * 28 + " on.\n",
    "tests/low.py": "from checks import halves\n\nSUBJECTS = [halves]\nCHECKS = [check for subject in SUBJECTS for check in subject.CHECKS]\n",
    "tests/checks/halves.py": """def made(folder):
    return folder


def a_half_is_made(folder):
    made(folder)


CHECKS = [
    a_half_is_made,
]
""",
    "clients/python/tests/test_low.py": "class Low(Case):\n    def test_low(self) -> None:\n        pass\n",
    "crates/low/must-fail/half_is_whole.edit": "file: src/lib.rt\n",
    "tests/REGRESSIONS.md": """Names: `of nothing`.

| What | Who |
|---|---|
| `x` was | `a_half_is_made`, `test_low`, `half_is_whole.edit` |
| y | `whole`, `a_test`, `IsHalf`, `IsHalf.half`, `whole.greatest` |
""",
    "crates/low/src/lib.rt": '''//! Numbers. ensures bad { not a clause }
ghost use Rattle.std.specs.Prelude.{◌≡◌, ◌≤◌};

/// Half of it.
pub fn half(n: [u8; 4], text: &str) -> Result<u8, ()>
    requires fits { n ≤ 8 }
    ensures ok* { IfOk result (λ r. r ≡ record {
        half = n;
    }) }
    ensures { n ≡ n }
{
    let brace = "{ ensures bad { }";
    fn inner() {}
    match n { _ => '{' };
    Ok(1)
}

/// A law.
pub fn whole()
    ensures greatest { 1 ≡ 1 }
{}

pub trait Half {
    fn halved(&self) -> u8
        ensures same { self.new ≡ self.old };
}

pub enum Refusal {
    /// None.
    Unknown,
    Broken { block: u32, other: Option<u8> },
}

pub fn refusal_byte(r: &Refusal) -> u8 {
    match r {
        Refusal::Unknown => 16,
        Refusal::Broken { .. } => 17,
    }
}
''',
    "crates/castle/src/main.rt": '''pub enum Ended { Done, Usage }

impl Ended {
    pub fn status(&self) -> u8 {
        match self {
            Ended::Done => 0,
            Ended::Usage => 1,
        }
    }
}

pub fn status_text(status: u8) -> &'static str {
    match status {
        0 => "done",
        1 => {
            "usage"
        }
        _ => "unknown",
    }
}
''',
    "crates/low/specs/Half.antt": '''-- Halves.
use Rattle.std.specs.Prelude.{ℕ}
pub mod Other

-- a half
abbrev pub half : ℕ → ℕ
half n = n

pub record IsHalf (n : ℕ) : Type 0 where
  pub half : ℕ

pub data Way : Type 0 where
  Up : Way

unfoldable pub twice : ℕ → ℕ
pub thrice : ℕ
pub record View : Type 0 where
''',
    "docs/ERRORS.md": '''## Exit statuses

| Status | Text |
|---|---|
| 0 | none (`done`) |
| 1 | `usage` |

## Refusals

| Status | Refusal | What |
|---|---|---|
| 16 | Unknown | x |
| 17 | Broken | x |
''',
    "docs/PROTOCOL.md": '''## Replies

| 0 | Done | x |
| 16 | Unknown, *open* | x |
| 17 | Broken | x |
''',
    **clauses.RIGHT,
    **placed.RIGHT,
    **ratchet.RIGHT,
}
