"""Makes wrong bodies by rule: each change of one place of a function's body that is likely to make it wrong. `mutants` tries them.

The code is read as `rt fmt` leaves it, where a space stands on both sides of an operator between two values, and on no side of a bracket of a
type. A change that does not compile does no harm: the front end refuses it."""
import collections
import re

Change = collections.namedtuple("Change", "kind start end new")

OPERATORS = set(":: -> => == != <= >= && || .. ..= += -= *= /= %= &= |= ^=".split())
TURNED = {"==": ["!="], "!=": ["=="], "<": ["<=", ">"], "<=": ["<", ">="], ">": [">=", "<"], ">=": [">", "<="]}
OTHER_SUM = {"+": "-", "-": "+", "*": "+", "/": "*", "%": "/", "+=": "-=", "-=": "+="}
OTHER_WORD = {"&&": "||", "||": "&&"}
CLOSES = {"(": ")", "[": "]", "{": "}"}
STARTS = "if match for while loop unsafe".split()
NO_STEP = [*STARTS, *"let return break continue else use const fn in impl".split()]
# Calls in a chain that give what they are called on, more or less.
IN_CHAIN = "rev max min skip take filter reverse take_while skip_while swap_bytes then saturating_add saturating_sub wrapping_add wrapping_sub".split()
NAME = re.compile(r"[A-Za-z_]\w*")
TYPE = re.compile(r"[A-Z]\w*")
CONSTANT = re.compile(r"[A-Z][A-Z0-9_]+")
NUMBER = re.compile(r"(0x[0-9a-f_]+|[0-9][0-9_]*)([ui](?:8|16|32|64|128|size))?")


class Piece:
    """A token, or tokens that make one operator."""

    def __init__(self, text, start, end, data):
        self.text, self.start, self.end = text, start, end
        self.is_spaced = data[start - 1:start].isspace() and data[end:end + 1].isspace()


def pieces_of(rows, data, first, last):
    """The pieces between two bytes, of the rows of `rattle fmt --tokens`."""
    found = []
    for _, start, end, kind, text in rows:
        if not first <= start < last or kind not in ("Code", "Literal"):
            continue
        before = found[-1] if found else None
        if before and before.end == start and before.text + text in OPERATORS:
            found[-1] = Piece(before.text + text, before.start, end, data)
        else:
            found.append(Piece(text, start, end, data))
    return found


class Body:
    """The pieces of a function's body with its braces, and its changes."""

    def __init__(self, rows, data, f, fields, variants):
        self.data, self.f, self.fields, self.variants = data, f, fields, variants
        self.at = pieces_of(rows, data, f.opens, f.end)
        self.words = [it.text for it in self.at] + ["", ""]
        self.close, stack = {}, []
        for place, word in enumerate(self.words[:-2]):
            if word in CLOSES:
                stack.append(place)
            elif word in CLOSES.values() and stack:
                self.close[stack.pop()] = place

    def text(self, first, last):
        return self.data[self.at[first].start:self.at[last - 1].end].decode()

    def change(self, kind, first, last, new):
        """Puts a text in place of these pieces, with as many ends of lines, so that all other lines keep their numbers."""
        start, end = self.at[first].start, self.at[last - 1].end
        lost = self.data[start:end].count(b"\n") - new.count("\n")
        return Change(kind, start, end, new + "\n" * max(lost, 0))

    def until(self, place, *ends):
        """The first of these words from a place on that no bracket holds, or the end of the bracket that holds the place."""
        while place < len(self.at) and self.words[place] not in ends and self.words[place] not in CLOSES.values():
            place = self.close.get(place, place) + 1
        return place

    def parts(self, opening):
        """What stands between the commas in a bracket."""
        found, place = [], opening + 1
        while place < self.close[opening]:
            end = self.until(place, ",")
            found.append((place, end))
            place = end + 1
        return found

    def statements(self, opening):
        found, place = [], opening + 1
        while place < self.close[opening]:
            end = self.end_of_statement(place)
            found.append((place, end))
            place = end
        return found

    def end_of_statement(self, place):
        if self.words[place] in STARTS:
            block = self.until(place + 1, "{", ";")
            while block in self.close and self.words[self.close[block] + 1] == "else":
                block = self.until(self.close[block] + 2, "{", ";")
            if block in self.close and self.words[self.close[block] + 1] not in (".", "?", ";"):
                return self.close[block] + 1
        return self.until(place, ";") + 1

    def blocks(self):
        """The brackets that hold statements."""
        matched = {self.until(place + 1, "{") for place, word in enumerate(self.words) if word == "match"}
        return [it for it in self.close if self.words[it] == "{" and it not in matched and not TYPE.fullmatch(self.words[it - 1] if it else "")]

    def is_name(self, place, name):
        """Whether the piece is a variable of that name, and no field and no path."""
        return self.words[place] == name and self.words[place - 1] not in (".", "::") and self.words[place + 1] not in (":", "::")

    # ---- the rules

    def comparisons(self):
        for place, it in enumerate(self.at):
            if it.is_spaced:
                yield from (self.change("comparison", place, place + 1, new) for new in TURNED.get(it.text, []))
            if it.text in ("..", "..=") and self.words[place + 1] not in (*CLOSES.values(), ",", "") and self.words[place - 1] not in "{,":
                yield self.change("comparison", place, place + 1, ".." if it.text == "..=" else "..=")

    def constants(self):
        for place, word in enumerate(self.words[:-2]):
            number = NUMBER.fullmatch(word)
            if number and self.words[place - 1] != ".":
                value = int(number[1].replace("_", ""), 0)
                for other in [value + 1] + [value - 1] * (value > 0):
                    yield self.change("constant", place, place + 1, f"{other}{number[2] or ''}")
            elif word in ("true", "false"):
                yield self.change("constant", place, place + 1, "false" if word == "true" else "true")
            elif CONSTANT.fullmatch(word) and self.words[place + 1] not in ("::", "(", "{", "!"):
                first = place
                while self.words[first - 1] == "::" and first > 1:
                    first -= 2
                if NAME.fullmatch(self.words[first]):
                    yield from (self.change("constant", first, place + 1, f"({self.text(first, place + 1)} {sign} 1)") for sign in "+-")

    def sums(self):
        for place, it in enumerate(self.at):
            if it.is_spaced and it.text in OTHER_SUM:
                yield self.change("sum", place, place + 1, OTHER_SUM[it.text])

    def tests(self):
        for place, it in enumerate(self.at):
            if it.is_spaced and it.text in OTHER_WORD:
                yield self.change("test", place, place + 1, OTHER_WORD[it.text])
            elif it.text == "!" and not NAME.fullmatch(self.words[place - 1]):
                yield self.change("test", place, place + 1, "")
            elif it.text == "if":
                opening = self.until(place + 1, "{")
                inside = self.words[place + 1:opening]
                if opening in self.close and "let" not in inside and inside[0] != "!" and not {*inside} & {*TURNED, *OTHER_WORD}:
                    yield self.change("test", place + 1, opening, f"!({self.text(place + 1, opening)})")

    def branches(self):
        for place, word in enumerate(self.words[:-2]):
            opening = self.until(place + 1, "{") if word == "if" else -1
            if opening not in self.close:
                continue
            end = self.close[opening] + 1
            if self.words[end] != "else":
                if self.words[place - 1] != "else":
                    yield self.change("branch", place, end, "")
                continue
            whole = end
            while self.words[whole] == "else":
                block = self.until(whole + 1, "{")
                if block not in self.close:
                    break
                whole = self.close[block] + 1
            yield self.change("branch", place, whole, self.text(opening, end))
            yield self.change("branch", place, whole, self.text(end + 1, whole))

    def arms(self):
        for place, word in enumerate(self.words[:-2]):
            opening = self.until(place + 1, "{") if word == "match" else -1
            found, arm = [], opening + 1
            while opening in self.close and arm < self.close[opening]:
                first = self.until(arm, "=>") + 1
                is_block = first in self.close and self.words[first] == "{"
                end = self.close[first] + 1 if is_block else self.until(first, ",")
                found.append((first, end, self.words[end] == ","))
                arm = end + (self.words[end] == ",")
                if first >= self.close[opening]:
                    break
            for (a, a_end, a_comma), (b, b_end, b_comma) in zip(found, found[1:]):
                one, other = self.text(a, a_end), self.text(b, b_end)
                if one != other and a_end <= b < b_end:
                    closed = lambda text, comma: text if comma or text.startswith("{") else f"{{ {text} }}"
                    new = closed(other, a_comma) + self.data[self.at[a_end - 1].end:self.at[b].start].decode() + closed(one, b_comma)
                    yield self.change("arm", a, b_end, new)

    def arguments(self):
        for opening in self.close:
            before, parts = self.words[opening - 1] if opening else "", self.parts(opening)
            is_call = self.words[opening] == "(" and "|" not in self.words[opening:self.close[opening]]
            is_record = self.words[opening] == "{" and TYPE.fullmatch(before) and all(NAME.fullmatch(self.words[a]) and self.words[a + 1] in ":,}" for a, _ in parts)
            for (a, a_end), (b, b_end) in zip(parts, parts[1:]):
                if is_call and self.text(a, a_end) != self.text(b, b_end):
                    middle = self.data[self.at[a_end - 1].end:self.at[b].start].decode()
                    yield self.change("argument", a, b_end, self.text(b, b_end) + middle + self.text(a, a_end))
                elif is_record:
                    value = lambda first, end: self.text(first + 2 * (self.words[first + 1] == ":"), end)
                    yield self.change("argument", a, b_end, f"{self.words[a]}: {value(b, b_end)}, {self.words[b]}: {value(a, a_end)}")
        for name, ty in self.f.params:
            others = [other for other, its in self.f.params if its == ty and other != name]
            for place in range(len(self.at)):
                if others and self.is_name(place, name):
                    yield self.change("argument", place, place + 1, others[place % len(others)])

    def other_fields(self):
        for place, name in enumerate(self.words[:-2]):
            if place and self.words[place - 1] == "." and self.words[place + 1] != "(":
                yield from (self.change("field", place, place + 1, other) for other in self.fields.get(name, [])[:2])

    def other_variants(self):
        for place, name in enumerate(self.words[:-2]):
            if self.words[place + 1] == "::" and (name, self.words[place + 2]) in self.variants:
                yield from (self.change("variant", place + 2, place + 3, other) for other in self.variants[name, self.words[place + 2]][:2])

    def steps(self):
        for opening in self.blocks():
            found = self.statements(opening)
            for first, end in found:
                inside = self.words[first:end]
                if not inside or inside[-1] != ";" or inside[0] in NO_STEP or not (NAME.fullmatch(inside[0]) or inside[0] == "*"):
                    continue
                if inside[-2] == "?":
                    yield self.change("refusal", first, end, f"let _ = {self.text(first, end - 2)};")
                if "(" in inside or "=" in inside or {*inside} & {"+=", "-="}:
                    yield self.change("call", first, end, "")
            for (a, a_end), (b, b_end) in zip(found, found[1:]):
                one, other = self.words[a:a_end], self.words[b:b_end]
                bound = {it for it in one if NAME.fullmatch(it)} if one[:1] == ["let"] else set()
                if all({"?", "return"} & {*it} and it[-1] in ";}" for it in (one, other)) and not bound & {*other} - {"let", "mut", "alloc", "self"}:
                    middle = self.data[self.at[a_end - 1].end:self.at[b].start].decode()
                    yield self.change("order", a, b_end, self.text(b, b_end) + middle + self.text(a, a_end))
        for place, word in enumerate(self.words[:-2]):
            if word == "." and self.words[place + 1] in IN_CHAIN and self.words[place + 2] == "(":
                yield self.change("call", place, self.close[place + 2] + 1, "")

    def changes(self):
        rules = (self.comparisons, self.constants, self.sums, self.tests, self.branches, self.arms, self.arguments, self.other_fields, self.other_variants, self.steps)
        found = {}
        for it in (change for rule in rules for change in rule()):
            if self.data[it.start:it.end].decode().split() != it.new.split():
                found.setdefault(it[1:], it)
        return list(found.values())


def fields_in(source, bodies):
    """Of each field of the crate's structs the others of the same type in its struct."""
    found = collections.defaultdict(list)
    for rows in source.declared.values():
        for _, word, _, body in rows:
            fields = bodies.fields_of(body) if word == "struct" and body[:1] in (["{"], ["("]) else []
            for name, ty in fields:
                found[name] += [other for other, its in fields if its == ty and other != name and other not in found[name]]
    return found


def variants_in(source, bodies):
    """Of each variant of the crate's enums the others that hold the same types."""
    found = {}
    for name, rows in source.declared.items():
        for _, word, _, body in rows:
            parts = [bodies.without_attributes(it) for it in bodies.split(body[1:-1])] if word == "enum" else []
            for it in parts:
                found[name, it[0]] = [other[0] for other in parts if other[1:] == it[1:] and other[0] != it[0]]
    return found
