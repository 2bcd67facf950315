"""The places of a function, and which of them are worth a name: see ladder.py."""
import re
from collections import Counter

LONGEST = 15                          # the longest run of `.before`
BEFORE, APPLY, DEFINE = 13, 14, 110   # what a `.before`, a use of a name and the statement of a name cost ..
AGAIN, VAGUE = 60, 80                 # .. and one more name for the same place, and a name for a place that says little
SAYS_LITTLE = re.compile(r".*(known|-told|-arg|keys)\d*$|(Then|Else|Joined)\d+$")


class Places:
    """The places of a function: the records of its Lts, each with the place before it."""

    def __init__(self, path):
        lts = path.read_text()
        found = re.findall(r"pub record (\S+) : Type \d where\n\s+pub before : (\S+)\n\s+pub (\S+) :", lts)
        self.before = {place: before for place, before, _ in found}
        self.fields = {place: [field] for place, _, field in found} | {"Start": ["κs", "args", "good", "fits", "pre"]}
        self.needs = dict(re.findall(r"Need-(\S+) =\s+\(c : (\S+)\) →", lts))

    def up(self, place):
        """The places from this one back to the entry."""
        way = [place]
        while way[-1] in self.before:
            way.append(self.before[way[-1]])
        return way

    def goal(self, place, steps, field):
        """The place so many steps back; if it lacks the field, the nearest to it that has it."""
        way = self.up(place)
        having = [i for i, early in enumerate(way) if field in self.fields.get(early, ())]
        if having and steps not in having:
            steps = min(having, key=lambda i: abs(i - steps))
        return way[steps] if steps < len(way) else None


class Ladder:
    """The rungs (from a later place to an earlier one), and the cheapest ways by them."""

    def __init__(self, places, cited, taken):
        self.places, self.cited, self.rungs, self.memo = places, cited, [], {}
        spans = [(places.up(late), early) for late, early in cited]
        spans = [way[:way.index(early) + 1] for way, early in spans]
        joins = Counter(after for place in {p for way in spans for p in way[:-1]} for after in [places.before[place]])
        ends = {p for way in spans for i, p in enumerate(way) if i in (0, len(way) - 1) or len(places.up(p)) % 6 == 0}
        ends |= {place for place, n in joins.items() if n > 1}
        self.gap = {(late, early): i for late in ends for i, early in enumerate(places.up(late))}
        self.choose(sorted(ends))
        goals, self.names = Counter(goal for _, goal in self.rungs), {}
        for source, goal in self.rungs:
            name = label(goal) + (f"-from-{short(source)}" if goals[goal] > 1 else "")
            self.names[source, goal] = fresh(name, taken)

    def way(self, late, early, without=None):
        """The cost of the cheapest way, and its first rung if there is one."""
        key = (late, early, without)
        if key not in self.memo:
            found = [(run_cost(self.gap[late, early]), None)]
            for rung in self.rungs:
                if rung != without and (late, rung[0]) in self.gap and (rung[1], early) in self.gap:
                    found.append((run_cost(self.gap[late, rung[0]]) + APPLY + self.way(rung[1], early)[0], rung))
            self.memo[key] = min(found, key=lambda way: way[0])
        return self.memo[key]

    def define(self, rung):
        again = any(goal == rung[1] for source, goal in self.rungs if source != rung[0])
        return DEFINE + AGAIN * again + VAGUE * bool(SAYS_LITTLE.match(rung[1])) + self.way(*rung, without=rung)[0]

    def total(self):
        return sum(n * self.way(*ends)[0] for ends, n in self.cited.items()) + sum(map(self.define, self.rungs))

    def gain(self, late, early):
        """What a rung would save."""
        gain = -self.define((late, early))
        for (a, b), n in [*self.cited.items(), *((rung, 1) for rung in self.rungs)]:
            if (a, late) in self.gap and (early, b) in self.gap:
                new = self.way(a, late)[0] + APPLY + self.way(early, b)[0]
                gain += n * max(0, self.way(a, b, (a, b) if (a, b) in self.rungs else None)[0] - new)
        return gain

    def choose(self, ends):
        open_pairs = {(a, b) for a in ends for b in ends if self.gap.get((a, b), 0) > 2}
        while open_pairs:
            best = max(sorted(open_pairs), key=lambda pair: self.gain(*pair))
            if self.gain(*best) <= 0:
                break
            open_pairs.remove(best)
            self.rungs, self.memo = [*self.rungs, best], {}
        for rung in self.rungs:
            cost, kept = self.total(), self.rungs
            self.rungs, self.memo = [r for r in kept if r != rung], {}
            if self.total() > cost:
                self.rungs, self.memo = kept, {}

    def stops(self, late, early):
        """The places at which the cheapest way comes by a name, and its end."""
        rung = self.way(late, early)[1]
        return [early] if rung is None else [*([rung[1]] if rung[1] != early else []), *self.stops(rung[1], early)]

    def cite(self, known, early, without=None):
        """The earlier place, by the cheapest way from one of the known ones: {name: place}."""
        near = [(name, late) for name, late in known.items() if (late, early) in self.gap]
        name, late = min(near, key=lambda k: self.way(k[1], early, without)[0])
        rung = self.way(late, early, without)[1]
        if rung is None:
            return name + " .before" * self.gap[late, early]
        inner = name + " .before" * self.gap[late, rung[0]]
        return self.cite({f"{self.names[rung]} " + (f"({inner})" if " " in inner else inner): rung[1]}, early)

    def text(self, kinds):
        said = ""
        for source, goal in sorted(self.rungs, key=lambda r: (len(self.places.up(r[0])), self.gap[r])):
            name = self.names[source, goal]
            said += f"abbrev {name} : tie.{source}{kinds} → tie.{goal}{kinds}\n"
            said += f"{name} c = {self.cite({'c': source}, goal, (source, goal))}\n\n"
        return said


def label(place):
    return "at-entry" if place == "Start" else re.sub("^(?!after-|at-)", "at-", place[0].lower() + place[1:])


def short(place):
    return re.sub("^(after|at)-", "", label(place))


def fresh(name, taken):
    return name if name not in taken else fresh(f"{name}-place", taken)


def run_cost(steps):
    return BEFORE * steps + 200 * max(0, steps - LONGEST)
