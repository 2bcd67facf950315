"""How a case is stated over the definition. All that depends on the definition's names stands here."""
import re
from pathlib import Path

from model.run import LISTS

COUNTS = ("segments", "references", "symbols", "pattern", "placed", "noted", "lines")
# The crates whose specs/ hold the definition, each before those that use it.
CRATES = ("lent", "tables", "image", "omf51", "segments", "search_rules", "describe", "listing_rules", "run")

IMPORTS = """use Rattle.std.specs.Prelude.{ℕ, zero, suc, ◌+◌, ◌*◌, ◌≡◌, refl, Bool, true, false, List, [], ◌∷◌, map, get_or, drop, replicate}
use Rattle.lent.specs.Parts.{bytes_of}
use Rattle.listing_rules.specs.declared.Skip.{Skip}
use Rattle.listing_rules.specs.declared.Skip.TheVariants.{Never, Above}
use Rattle.listing_rules.specs.declared.Line.{Line}
use Rattle.run.specs.declared.Settings.{Settings}
use Rattle.run.specs.declared.Counts.{Counts}
use Rattle.run.specs.declared.Answer.{Answer}
use Rattle.run.specs.declared.Answer.TheVariants.{Done, Refused}
use Rattle.run.specs.Run.{Lent, Outcome, asked_of, cover, number_of, counts_of}
use Rattle.image.specs.View.{view as case_view}
use Rattle.image.specs.Cover.{no_stretches, gathered as case_gathered}
use Rattle.omf51.specs.File.{file as case_file, modules_in}
use Rattle.segments.specs.Collect.{collect as case_collect}
use Rattle.search_rules.specs.declared.Why.TheVariants as Why
use Rattle.search_rules.specs.declared.Failed.{Failed}
use Rattle.search_rules.specs.declared.Failed.TheVariants as Failed
use Rattle.search_rules.specs.Search.{all_matches as case_matches, first_failed as case_first}
"""

# How many numbers are lent for the rows of a stage, and for the pattern memory. Much lent memory takes
# long to compute, so little is lent at first, and much where a case then differs.
LITTLE, MUCH = (700, 100), (10000, 150000)

# What is compared of an outcome with the Rust: the number, the list as it is left in lent memory with each name's bytes, and
# the printed text. A refusal prints nothing. With the model: the number, the counts, and the eight lists.
STATED = """
pub record CaseLine : Type 0 where
  pub address : ℕ
  pub grade : ℕ
  pub name : List ℕ

pub record CaseListed : Type 0 where
  pub number : ℕ
  pub lines : List CaseLine

pub record CaseShown : Type 0 where
  pub listed : CaseListed
  pub printed : List ℕ

abbrev case_line : ℕ → ℕ → List ℕ → CaseLine
case_line address grade name = record { address = address; grade = grade; name = name }

abbrev case_line_of : List ℕ → Line → CaseLine
case_line_of library l = case_line l.address l.grade (bytes_of library l.name)

unfoldable pub case_lines_in : ℕ → List ℕ → List Line
case_lines_in zero xs = []
case_lines_in (suc n) xs =
    record { address = get_or xs 0 0; grade = get_or xs 1 0; name = record { at = get_or xs 2 0; len = get_or xs 3 0 } }
    ∷ case_lines_in n (drop 4 xs)

abbrev case_lines : Outcome → List Line
case_lines o = case_lines_in (counts_of o.answer).lines o.left.lines

abbrev case_printed : List ℕ → Answer → List Line → List ℕ
case_printed library (Done c) lines = printed library lines
case_printed library (Refused r) lines = []

abbrev case_lent : Lent
case_lent = record {
  segments = replicate ROWS 7;
  references = replicate ROWS 7;
  symbols = replicate ROWS 7;
  bytes = replicate PATTERN 7;
  masks = replicate PATTERN 7;
  placed = replicate ROWS 7;
  noted = replicate ROWS 7;
  lines = replicate ROWS 7;
}

abbrev case_settings : ℕ → ℕ → ℕ → ℕ → Skip → List ℕ → Settings
case_settings rules edition depth minimum skip numbers =
    record { rules = rules; edition = edition; depth = depth; minimum = minimum; skip = skip; withheld = case_gathered no_stretches numbers }

abbrev case_listed_in : List ℕ → Outcome → CaseListed
case_listed_in library o = record { number = number_of o.answer; lines = map (case_line_of library) (case_lines o) }

abbrev case_shown_in : List ℕ → Outcome → CaseShown
case_shown_in library o = record { listed = case_listed_in library o; printed = case_printed library o.answer (case_lines o) }

abbrev case_listed : List ℕ → List ℕ → Settings → CaseListed
case_listed image library s = case_listed_in library (run image library s case_lent)

abbrev case_shown : List ℕ → List ℕ → Settings → CaseShown
case_shown image library s = case_shown_in library (run image library s case_lent)

pub record CaseLeft : Type 0 where
  pub number : ℕ
  pub counts : Counts
  pub left : Lent

abbrev case_left_in : Outcome → CaseLeft
case_left_in o = record { number = number_of o.answer; counts = counts_of o.answer; left = o.left }

abbrev case_left : List ℕ → List ℕ → Settings → Lent → CaseLeft
case_left image library s l = case_left_in (run image library s l)

abbrev case_why : Failed → ℕ
case_why Failed.Nothing = 0
case_why (Failed.Reference number Why.PastEnd) = 4 * number + 1
case_why (Failed.Reference number Why.Withheld) = 4 * number + 2
case_why (Failed.Reference number Why.NoMatch) = 4 * number + 3
case_why (Failed.Reference number Why.NotHeld) = 4 * number + 4

abbrev case_failed : List ℕ → List ℕ → Settings → List ℕ
case_failed image library s =
    let cells = case_view image (cover s) in
    let gs = case_collect (asked_of s).rules library (modules_in (case_file library)) in
    map (λ m. case_why (case_first cells (asked_of s) gs m)) (case_matches cells gs)
"""

UNFOLDABLE = re.compile(r"^\s*unfoldable pub (\S+) :", re.MULTILINE)


def unfoldable(repository):
    """Every name that can be unfolded, by crate and module; all are, so that no list here grows old."""
    found = []
    for crate in CRATES:
        specs = Path(repository, "crates", crate, "specs")
        for path in sorted(specs.rglob("*.antt")):
            names = UNFOLDABLE.findall(path.read_text(encoding="utf-8"))
            if names:
                found.append((crate, ".".join(path.relative_to(specs).with_suffix("").parts), names))
    return found


def own_names(found):
    """The same, each with the name it gets here: one that stands here already is told apart by its module."""
    seen = {name for names in re.findall(r"{(.*)}", IMPORTS) for name in names.split(", ")}
    for crate, module, names in found:
        pairs = [(n, f"{n}-{crate}-{module}".replace(".", "-").replace("_", "-") if n in seen else n) for n in names]
        seen.update(names)
        yield crate, module, pairs


def listing(numbers):
    return "(" + " ∷ ".join([str(n) for n in numbers] + ["[]"]) + ")"


def asked(run):
    skip = "Never" if run.skip is None else f"(Above {run.skip})"
    settings = f"{run.rules} {run.edition} {run.depth} {run.minimum} {skip} {listing(n for stretch in (run.stretch, *run.more) for n in stretch)}"
    return f"{listing(run.image)} {listing(run.library)} (case_settings {settings})"


def answered(expected):
    lines = listing(f"case_line {address} {grade} {listing(name)}" for address, grade, name in expected.lines)
    return f"record {{ number = {expected.number}; lines = {lines} }}"


def said_by_rust(number, run, expected):
    """What must be equal to the Rust's answer. Without a text to compare, only the number and the list are."""
    if expected.text is None:
        return f"pub case-{number} : case_listed {asked(run)}\n    ≡ {answered(expected)}"
    said = f"record {{ listed = {answered(expected)}; printed = {listing(expected.text)} }}"
    return f"pub case-{number} : case_shown {asked(run)}\n    ≡ {said}"


def fields(names, values):
    return "(record { " + "; ".join(f"{name} = {value}" for name, value in zip(names, values)) + " })"


def computed_by_model(number, run, before, outcome):
    """What must be equal to the model's outcome, with these lists lent."""
    counts = fields(COUNTS, outcome.counts)
    left = f"record {{ number = {outcome.number}; counts = {counts}; left = {fields(LISTS, map(listing, outcome.lists))} }}"
    return f"pub case-{number} : case_left {asked(run)} {fields(LISTS, map(listing, before))}\n    ≡ {left}"


def failed_by_model(number, run, failed):
    """What must be equal to the first failed reference of each match, by the model: 0 for none, else 4 times its number and the reason."""
    codes = [4 * each[0] + each[1] if each else 0 for each in failed]
    return f"pub case-{number} : case_failed {asked(run)}\n    ≡ {listing(codes)}"


def uses_and_names(found):
    """The lines that import what own_names tells, and all the names."""
    uses, names = [], []
    for crate, module, pairs in found:
        words = ", ".join(n if n == own else f"{n} as {own}" for n, own in pairs)
        uses.append(f"use Rattle.{crate}.specs.{module}.{{{words}}}\n")
        names += [own for _, own in pairs]
    return uses, names


def module(repository, statements, lent):
    """A file of specs with one theorem for each statement, by its number; so much is lent where a statement does not say."""
    rows, pattern = lent
    stated = STATED.replace("ROWS", str(rows)).replace("PATTERN", str(pattern))
    uses, names = uses_and_names(own_names(unfoldable(repository)))
    theorems = [f"\n{words}\nunfolding case_lines_in {' '.join(names)}\ncase-{n} = refl\n" for n, words in statements]
    return IMPORTS + "".join(uses) + stated + "".join(theorems)
