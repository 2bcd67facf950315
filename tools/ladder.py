#!/usr/bin/env python3
"""Writes the ladder of each proof: a name for each place of the code that its answers cite often.

An answer walks from the place where its need arises (`c`) back to an earlier place by `.before .before ..`. This tool
reads the places of each function from the modules that the check generates, and states names for them at the head of
the proof, each as a function from a later place:

    abbrev at-loop : tie.After-visit Inv-loop μ-loop → tie.At-loop Inv-loop μ-loop
    at-loop c = c .before .before .before .before

Every citation is then written by these names, as `at-entry (at-loop c) .args`; a place to which one answer goes more
than once gets a `let` there. Which places get a name is a matter of length only: names are added as long as they make
the proof shorter. Then `rt fmt` runs, and long lines are broken. A second run changes nothing.

    cd crates/NAME; rt check --generated /tmp/gen     the modules; they are written where a proof fails, too
    tools/ladder.py /tmp/gen NAME        all proofs of crates/NAME; or NAME/proofs/entry: those in that folder
    cd crates/NAME; rt check             the check

That is for proofs that walk the code, proofs/F/Proof.antt. The answers of today's Rattle name the places themselves.

After a change of the code, as a parameter more, the same three commands mend the proof: a name is kept by its type, and
a run of `.before` with a field behind it goes to the nearest place that has this field. What is left to mend by hand are
new and changed needs, and a run with no field behind it that goes by no name, as in `small (c .before .before)`.
"""
import pathlib
import re
import subprocess
import sys
from collections import Counter
from lines import break_lines
from places import LONGEST, Ladder, Places, fresh, short

LET = 20                              # a place that costs more is named by a `let` if an answer goes there twice
ROOT = pathlib.Path(__file__).resolve().parent.parent
HEAD = "-- The ladder: places of the code that the answers cite, each as it is seen from a later place.\n"
START, END = r"(?<![^\s(\[{,;])", r"(?![^\s()\[\]{},;])"
NAME = r"(?!=\s)[^\s()\[\]{},;.]+"
STEPS = rf"(?:\s+\.before{END}|\s+\.▸{NAME})"     # `.▸Start`: the name of a place, while an earlier ladder is taken out
RUN = re.compile(rf"({NAME})({STEPS}*)(?:\s+\.({NAME}))?")
BINDER = re.compile(rf"λ\s*([^.λ]*)\.(?=\s)|\blet\s+({NAME})(?=\s+[:=])")
ONLY_NAMES = re.compile(rf"\blet\s+({NAME})\s+=\s+({NAME})({STEPS}+)\s+in\s+")
OPERATOR = re.compile(r"(?:[=∙→+*<≤≡≢×∷-]|in|\+\+|λ.*\.|.*[(\[{,;]|)$")
RESERVED = set("as data do elim in let module open record unfold use using where yes no refl tt".split())


class Proof:
    """A proof file in chunks: what begins in the first column, with the lines that belong to it."""

    def __init__(self, text, places):
        self.places = places
        self.chunks = re.findall(r"^[^\s)}].*\n(?:(?:[ \t]+\S|[)}]).*\n)*|^\s*\n", self.without_ladder(text), re.M)
        text = "".join(self.chunks)
        self.kinds = next(iter(re.findall(r"^\S+ : tie\.Need-\S+((?: \S+)*)$", text, re.M)), "")
        self.alias = dict(re.findall(rf"^({NAME}) = tie\.(\S+){re.escape(self.kinds)}$", text, re.M))

    def without_ladder(self, text):
        """Takes an earlier ladder out: every name becomes the run that its type says."""
        if HEAD not in text:
            return text
        start, runs = text.index(HEAD), {}
        at, more = start + len(HEAD), r".*\n(?:    .*\n)*"
        rung = re.compile(rf"abbrev ({NAME}) :\s+tie\.(\S+)[^→]*→\s+tie\.(\S+){more}\1 c =\s{more}\n")
        while found := rung.match(text, at):
            runs[found[1]] = f" .▸{found[3]}"
            at = found.end()
        text, names = text[:start] + text[at:], "|".join(map(re.escape, runs))
        used = re.compile(rf"{START}({names})\s+(?:({NAME})|\(({NAME}{STEPS}*)\)){END}")
        while used.search(text):
            text = used.sub(lambda m: (m[2] or m[3]) + runs[m[1]], text)
        return text

    def place(self, kind):
        """The place that a type says, if it is one."""
        said = re.fullmatch(rf"tie\.(\S+){re.escape(self.kinds)}", kind.strip())
        place = said[1] if said else self.alias.get(kind.strip())
        return place if place in self.places.before or place == "Start" else None

    def domains(self, kind):
        """The explicit arguments of a type: (name or None, place or None)."""
        if need := re.match(r"tie\.Need-(\S+)", kind):
            return [(None, self.places.needs.get(need[1]))]
        found = []
        for part in outer(kind, "→")[:-1]:
            groups = outer(part, " ")
            if not all(re.match(r"[({].* : ", group) for group in groups):
                found.append((None, self.place(part)))
            else:
                pairs = [group[1:-1].split(" : ", 1) for group in groups if group[0] == "("]
                found += [(name, self.place(said)) for names, said in pairs for name in names.split()]
        return found

    def walk(self, replace, answer):
        """The chunks, with each run replaced; a clause goes to `answer` as head, body and the places of its names."""
        kinds, new = {}, []
        for chunk, following in zip(self.chunks, [*self.chunks[1:], ""]):
            signature = re.match(rf"(?:(?:pub|abbrev|unfoldable) )*({NAME}) :\s(.*)", chunk, re.S)
            clause = re.match(rf"({NAME})((?:\s+[^\s=]\S*)*)\s+=\s", chunk)
            if "tie.spec" in chunk:
                chunk = self.walk_spec(chunk, replace)
            elif signature and not re.match("--|use |record ", chunk):
                kinds[signature[1]] = self.domains(signature[2].rstrip())
                scope = {name: place for name, place in kinds[signature[1]] if name and place}
                chunk = self.rewrite(chunk, scope, replace, self.replaced(following, scope))
            elif clause and clause[1] in kinds:
                given = [p for p in outer(clause[2], " ") if p[0] != "{"]
                scope = {p: place for p, (_, place) in zip(given, kinds[clause[1]]) if place}
                head, body = chunk[:clause.end()], self.inline(chunk[clause.end():], scope)
                chunk = head + self.rewrite(body, scope, replace) if " where\n" in body else answer(head, body, scope)
            new.append(chunk)
        return new

    def walk_spec(self, chunk, replace):
        """The chunk that hands the answers over: each is a line, and the place of a `λ c.` goes by its number."""
        head, *lines = re.split(r"\n    (?! )", chunk[chunk.index("tie.spec"):])
        first = len(self.kinds.split())
        if len(lines) == first + len(self.places.needs):
            for i, place in enumerate(self.places.needs.values(), first):
                if bound := re.match(r"\(λ c\b[^.]*\.", lines[i]):
                    lines[i] = bound[0] + self.rewrite(lines[i][bound.end():], {"c": place}, replace)
        return chunk[:chunk.index("tie.spec")] + "\n    ".join([head, *lines])

    def inline(self, body, scope):
        """Puts the place itself for each `let` that only names a place."""
        at = 0
        while let := ONLY_NAMES.search(body, at):
            run, rest, name = let[2] + let[3], body[let.end():], START + re.escape(let[1]) + END
            if let[2] not in scope or let[1] in scope or re.search(rf"{name}\s*=|λ[^.]*{name}[^.]*\.", rest):
                at = let.end()
            else:
                body = body[:let.start()] + re.sub(name, lambda m: run if at_head(rest[:m.start()]) else f"({run})", rest)
        return body

    def replaced(self, body, scope):
        """How many steps back the equations of a `rw` go: it does not see through a name what it replaces."""
        steps, lets = [-1], dict(re.findall(rf"\blet\s+({NAME})\s+=\s(.*?)\sin\s", body, re.S))
        for rw in re.finditer(r"\brw\s+(?=\()", body):
            equations = body[rw.end():closed(body, rw.end())]
            equations += " ".join(f"({lets[name]})" for name in sorted(words(equations) & {*lets}))
            for run in RUN.finditer(equations):
                goal = run[1] in scope and self.goal(scope[run[1]], run[2], run[3])
                if goal in self.places.up(scope.get(run[1])) and goal != "Start":
                    steps.append(self.places.up(scope[run[1]]).index(goal))
        return max(steps)

    def rewrite(self, text, scope, replace, hidden=None):
        """The text, with each run that begins at a name of the scope replaced."""
        hidden = self.replaced(text, scope) if hidden is None else hidden
        done, at, scope = "", 0, dict(scope)
        while run := RUN.search(text, at):
            bound = BINDER.search(text, at)
            if bound and bound.start() <= run.start():
                done, at = done + text[at:bound.end()], bound.end()
                for name in (bound[1] or bound[2]).split():
                    scope.pop(name, None)
                continue
            goal = run[1] in scope and at_head(text[:run.start()]) and self.goal(scope[run[1]], run[2], run[3])
            end = run.end(2) if run[2] else run.end(1)
            new, way = text[run.start():end], self.places.up(scope.get(run[1]))
            if goal in way:
                steps = way.index(goal)
                if steps > max(hidden, 0):
                    new = replace(run[1] + " .before" * (hidden + 1), way[hidden + 1], goal)
                else:
                    new = run[1] + " .before" * steps if steps <= LONGEST else replace(run[1], way[0], goal)
            done, at = done + text[at:run.start()] + new, end
        return done + text[at:]

    def goal(self, place, steps, field):
        """Where steps lead, of which some name the place that they come to."""
        *named, rest = re.split(rf"\s+\.▸({NAME})", steps)
        place = named[-1] if named else place
        return self.places.goal(place, rest.count(".before"), field)


def lay(path, places):
    """Writes one proof with its ladder."""
    proof, cited = Proof(path.read_text(), places), Counter()

    def count(name, late, early):
        cited[late, early] += 1
        return name

    def count_once(head, body, scope):
        seen = set()
        proof.rewrite(body, scope, lambda *way: seen.add(way) or way[0])
        cited.update((late, early) for _, late, early in seen)
        return head + body

    def write_answer(head, body, scope):
        """An answer names a place by a `let` if it goes there, or on from there, more than once."""
        uses, steps, known, lets = Counter(), set(), {}, {}

        def use(name, late, early):
            stops, known[name] = ladder.stops(late, early), late
            uses[late, early] += 1
            steps.update((late, stop, following) for stop, following in zip(stops, stops[1:]))
            return name
        proof.rewrite(body, scope, use)
        uses.update((late, stop) for late, stop, _ in steps)
        taken = words(head + body) | RESERVED | {*ladder.names.values()}
        for (late, early), n in sorted(uses.items(), key=lambda use: (ladder.gap[use[0]], use)):
            if n > 2 or n > 1 and ladder.way(late, early)[0] > LET:
                name = fresh(short(early), taken)
                lets[name] = f"    let {name} = {ladder.cite(known, early)} in\n"
                known[name] = early
        body = proof.rewrite(body, scope, lambda name, late, early: ladder.cite(known, early))
        for name in lets:
            body = body.replace(f"({name})", name)
        return head.rstrip() + "\n" + "".join(lets.values()) + "    " + body.lstrip() if lets else head + body
    proof.walk(count, count_once)
    ladder = Ladder(places, cited, words("".join(proof.chunks)))
    chunks = proof.walk(lambda name, late, early: ladder.cite({name: late}, early), write_answer)
    if ladder.rungs:
        needed = "|".join(["use ", *(rf"{re.escape(kind)}\s[^=]*=" for kind in proof.kinds.split())])
        last = max(i for i, chunk in enumerate(chunks) if re.match(needed, chunk))
        chunks.insert(last + 2, HEAD + ladder.text(proof.kinds))
    if "▸" in "".join(chunks):
        sys.exit(f"{path}: a name of its ladder leads from no place that is known here; put the run there by hand")
    path.write_text("".join(chunks))


def words(text):
    """The names in a text, without the fields."""
    return {word for word in re.split(r"[\s()\[\]{},;]+", text) if word[:1] != "."}


def at_head(before):
    """Whether what follows this text is no argument, so that a field behind it is its own."""
    return OPERATOR.match((before.split() or [""])[-1] if before[-1:].isspace() else before[-1:])


def closed(text, at):
    """Where the bracket that opens here is closed."""
    depth = 0
    for i in range(at, len(text)):
        depth += (text[i] in "([{") - (text[i] in ")]}")
        if not depth:
            return i + 1


def outer(text, mark):
    """The parts between marks that stand in no bracket."""
    parts, depth = [""], 0
    for sign in text.replace("\n", " "):
        depth += (sign in "([{") - (sign in ")]}")
        parts = [*parts, ""] if sign == mark and not depth else [*parts[:-1], parts[-1] + sign]
    return [part.strip() for part in parts if part.strip()]


def main(gen, *names):
    paths = []
    for name in names:
        crate = ROOT / "crates" / name.split("/")[0]
        found = sorted((ROOT / "crates" / name if "/" in name else crate / "proofs").rglob("Proof.antt"))
        for path in found:
            lay(path, Places(pathlib.Path(gen, f"Rattle·{crate.name}·proofs", path.parent.relative_to(crate), "Lts.antt")))
        paths += found
    subprocess.run(["rt", "fmt"], cwd=ROOT, check=True)
    break_lines(paths)


if __name__ == "__main__":
    main(*sys.argv[1:]) if len(sys.argv) > 2 else sys.exit(__doc__)
