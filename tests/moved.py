#!/usr/bin/env python3
"""Tests tools/moved on two commits made for it, in a repository of its own.

usage: tests/moved.py        the last line is 'moved: N checks passed'
"""
import pathlib
import subprocess
import sys
import tempfile

TOOL = pathlib.Path(__file__).resolve().parent.parent / 'tools' / 'moved'

BEFORE = {
    'crates/rules/specs/Steps.antt': '''
-- The steps.
use Rattle.std.specs.Prelude.{ℕ, suc}
pub data Step : Type 0 where
  Take : ℕ → Step
  Drop : Step

infix 69 ◌sends◌
abbrev pub ◌sends◌ : ℕ → Step → Call
desk sends step = record { desk = desk; step = step }

-- one more
abbrev pub one_more : ℕ → ℕ
one_more n = suc n

abbrev pub two_more : ℕ → ℕ
two_more n = suc (suc n)

abbrev pub unused : ℕ
unused = 0

abbrev pub travels : ℕ
travels = 7

unfoldable pub same : ℕ → ℕ
same n = n
''',
    'crates/rules/proofs/Theorems.antt': '''
use Rattle.rules.specs.Steps.{one_more, two_more}
pub first-fact : (n : ℕ) → same n ≡ n
first-fact n = refl

pub second-fact : (n : ℕ) → one_more (one_more n) ≡ two_more n
unfolding one_more
second-fact n = refl

module _ (limit : ℕ) where
  pub third-fact : limit ≤ suc limit
  third-fact = omega arith

  pub fourth-fact : (n : ℕ) → n ≤ n + limit
  fourth-fact n = omega arith

helper : ℕ
helper = 3
''',
    'crates/rules/proofs/Laws/Lists.antt': '''
pub length-map : (l : List ℕ) → length (map f l) ≡ length l
length-map [] = refl
length-map (x ∷ l) = ap suc (length-map l)

pub old-law : ℕ
old-law = 1
''',
    'crates/board/src/lib.rt': '''
use words::word;
ghost use Rattle.rules.specs.Steps.{one_more};

// The size.
pub const SIZE: usize = 3; // words

pub struct Board;

impl Board {
    pub fn need(n: u16) -> usize
        ensures { result ≡ one_more n }
    {
        n as usize + 1
    }
}

// Adds one.
#[unsafe(no_mangle)]
pub extern "C" fn add(n: u16, table: &mut [u8]) -> u32
    requires { n < 10 }
    ensures { result ≡ one_more n }
{
    // a comment {
    helper(n, "} //")
}

pub fn stays(n: u16) -> u16
    ensures { result ≡ n }
{
    n
}

// Two named clauses.
pub fn copy(n: u16) -> u16
    ensures value { result ≡ n }
    ensures bound { result ≤ n }
{
    n
}

fn helper(n: u16, s: &str) -> u32 {
    n as u32 + 1
}

pub trait Rows {
    ghost width: { ℕ };

    fn first(r: &[u8]) -> u8
        requires { width ≤ length r.now };

    fn last(r: &[u8]) -> u8;
}

impl Rows for Board {
    fn first(r: &[u8]) -> u8 {
        r[0]
    }
}

impl<'a> Part<'a> {
    pub fn put(&mut self, byte: u8)
        requires { self.old.size ≤ 9 }
    {
        self.len += 1;
    }
}
''',
    'crates/board/proofs/add/Answers.antt': '''
use Rattle.board.proofs.add.Goals as goal
pub returns : goal.returns
returns c = refl
''',
    'crates/board/proofs/stays/Answers.antt': 'pub returns : goal.returns\nreturns c = refl\n',
    'crates/board/proofs/Laws.antt': 'pub board-law : ℕ\nboard-law = 1\n\nlocal : ℕ\nlocal = 2\n\nopen-law : ℕ\nopen-law = 3\n',
    'crates/quiet/specs/Nothing.antt': 'abbrev pub nothing : ℕ\nnothing = 0\n',
}

AFTER = {
    **BEFORE,
    'crates/rules/specs/Steps.antt': '''
-- The steps, in other words, and more imports.
use Rattle.std.specs.Prelude.{ℕ, suc, zero}
use lib.Dec.{eqb}
pub data Step : Type 0 where
  -- a comment
  Take : ℕ → Step
  Drop : Step
  Swap : Step

infix 70 ◌sends◌
abbrev pub ◌sends◌ : ℕ → Step → Call
desk sends step = record { desk = desk; step = step }

abbrev pub one_more : ℕ → ℕ
one_more n =
    suc n

abbrev pub two_more : ℕ → ℕ
two_more n = suc (one_more n)

abbrev pub three_more : ℕ → ℕ
three_more n = suc (two_more n)

unfoldable pub same : ℕ → ℕ
same n = n
''',
    'crates/rules/specs/Numbers.antt': '''
abbrev pub travels : ℕ
travels = 7
''',
    'crates/rules/proofs/Theorems.antt': '''
use Rattle.rules.specs.Steps.{one_more, two_more, three_more}
pub first-fact : (n : ℕ)
    → same n ≡ n
first-fact n = refl

pub second-fact : (n : ℕ) → one_more (one_more n) ≡ two_more n
unfolding one_more
second-fact n = sym refl

module _ (limit : ℕ) (positive : 1 ≤ limit) where
  pub third-fact : limit ≤ suc limit
  third-fact = omega arith

module _ (limit : ℕ) where
  pub fourth-fact : (n : ℕ) → n ≤ n + limit
  fourth-fact n = omega arith

helper : ℕ
helper = 3
''',
    'crates/rules/proofs/Laws/Lists/Lists.antt': '''
pub length-map : (l : List ℕ) → length (map f l) ≡ length l
length-map [] = refl
length-map (x ∷ l) = ap suc (length-map l)
''',
    'crates/board/src/lib.rt': BEFORE['crates/board/src/lib.rt']
        .replace('n < 10', 'n < 20')
        .replace('n as usize + 1', '1 + n as usize')
        .replace('width ≤ length', 'width < length')
        .replace('r[0]', 'r[0] + 0')
        .replace('size ≤ 9', 'size ≤ 8')
        .replace('result ≤ n', 'result < n + 1')
        .replace('{\n    n\n}\n\nfn helper', '{\n    n + 0\n}\n\nfn helper')
        .replace('pub fn need(n: u16) -> usize', 'pub fn need(\n        n: u16,\n    ) -> usize')
        .replace('fn helper(n: u16, s: &str)', '// private\nfn helper(n: u16, text: &str)'),
    'crates/board/proofs/add/Answers.antt': '''
use Rattle.board.proofs.add.Goals as goal
use Rattle.std.specs.Prelude.{refl}
pub returns : goal.returns
returns c = sym refl
''',
    'crates/board/proofs/stays/Answers.antt': '-- by definition\npub returns : goal.returns\nreturns c =\n    refl\n',
    'crates/board/proofs/Laws.antt': BEFORE['crates/board/proofs/Laws.antt'].replace('open-law = 3', 'open-law = 4'),
    'crates/board/specs/Results.antt': 'pub record Result : Type 0 where\n  pub number : ℕ\n',
}
del AFTER['crates/rules/proofs/Laws/Lists.antt']

EXPECTED = '''
board
  definitions: 1 new, 0 stayed
  promises: 4 changed, 3 stayed
  proofs: 2 changed, 3 stayed
  code: 4 changed, 8 stayed
  definitions new:
    Results.Result
  promises changed:
    board::Part::put
    board::Rows::first
    board::add
    board::copy
  proofs changed:
    Laws.open-law
    board::add
  code changed:
    board::Board::first
    board::Board::need
    board::copy
    board::helper

rules
  definitions: 3 changed, 1 new, 1 gone, 1 in another file, 2 stayed
  promises: 1 changed, 3 stayed
  proofs: 1 changed, 1 gone, 1 in another file, 4 stayed
  definitions changed:
    Steps.Step
    Steps.two_more
    Steps.◌sends◌
  definitions new:
    Steps.three_more
  definitions gone:
    Steps.unused
  definitions in another file:
    Numbers.travels
  promises changed:
    Theorems.third-fact
  proofs changed:
    Theorems.second-fact
  proofs gone:
    Lists.old-law
  proofs in another file:
    Lists.length-map

all crates
  definitions: 3 changed, 2 new, 1 gone, 1 in another file, 3 stayed
  promises: 5 changed, 6 stayed
  proofs: 3 changed, 1 gone, 1 in another file, 7 stayed
  code: 4 changed, 8 stayed
'''

MARKDOWN = [
    '| crate | kind | changed | new | gone | in another file | stayed |',
    '| `board` | definitions | 0 | 1 | 0 | 0 | 0 |',
    '| `rules` | proofs | 1 | 0 | 1 | 1 | 4 |',
    '| all | promises | 5 | 0 | 0 | 0 | 6 |',
    'Nothing moved in `quiet`.',
    '- definitions, changed: `Steps.Step`, `Steps.two_more`, `Steps.◌sends◌`',
    '- promises, changed: `board::Part::put`, `board::Rows::first`, `board::add`, `board::copy`',
]

checks = 0


def check(good, what):
    global checks
    checks += 1
    if not good:
        sys.exit(f'moved: FAILED: {what}')


def git(folder, *arguments):
    settings = ['-c', 'user.name=test', '-c', 'user.email=test@localhost', '-c', 'commit.gpgsign=false']
    subprocess.run(['git', '-C', folder, *settings, *arguments], check=True, stdout=subprocess.PIPE, stderr=subprocess.PIPE)


def commit(folder, files, tag):
    """Makes the files the whole contents of a commit."""
    for old in sorted(folder.glob('crates/**/*'), reverse=True):
        old.unlink() if old.is_file() else old.rmdir()
    for name, text in files.items():
        path = folder / name
        path.parent.mkdir(parents=True, exist_ok=True)
        path.write_text(text)
    git(folder, 'add', '--all')
    git(folder, 'commit', '--quiet', '--message', tag)
    git(folder, 'tag', tag)


def moved(folder, *arguments):
    return subprocess.run([TOOL, *arguments], cwd=folder, stdout=subprocess.PIPE, stderr=subprocess.STDOUT,
                          universal_newlines=True, check=False)


def main():
    with tempfile.TemporaryDirectory() as name:
        folder = pathlib.Path(name)
        git(folder, 'init', '--quiet')
        commit(folder, BEFORE, 'before')
        commit(folder, AFTER, 'after')
        found = moved(folder, 'before')
        check(found.returncode == 0 and found.stdout == 'before to HEAD\n' + EXPECTED, f'it printed\n{found.stdout}')
        found = moved(folder, 'before', 'after', '--markdown')
        for line in MARKDOWN:
            check(line in found.stdout.splitlines(), f'no line {line!r} in\n{found.stdout}')
        check(max(map(len, found.stdout.splitlines())) <= 120, 'lines of at most 120 columns')
        found = moved(folder / 'crates', 'after', 'after')
        check('all crates\n  definitions: 9 stayed\n' in found.stdout, f'the same commit twice\n{found.stdout}')
        check('changed' not in found.stdout, 'nothing changed between a commit and itself')
        check(moved(folder, 'absent').returncode != 0, 'an unknown commit is an error')
        check(moved(folder).returncode != 0, 'a missing argument is an error')
        check('usage: tools/moved' in moved(folder, '--help').stdout, '--help')
    print(f'moved: {checks} checks passed')


main()
