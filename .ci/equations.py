"""Reads the contract of a function: whether it is nothing but equations, which refuse every other meaning of the body by themselves.

Such a contract says what the function returns (`result ≡ ..`) and what each `&mut` parameter then is (`p.new ≡ ..`), each once, by
the parameters alone. If the only error is `NoMemory`, it may say this of the success (`IfOk`, `OnOk`). Whatever isn't of exactly this
form is no such contract: a condition (`→`), a relation, a view of the result or of a parameter, a bound of a type parameter, a value that
could hold a `&mut` or a closure."""
import re

OPENS, CLOSES = "([{<", ")]}>"
# types of std that may hold a `&mut`, or change what is lent to them
LENDS = {"IterMut", "Drain", "Formatter", "Entry", "OccupiedEntry", "VacantEntry", "Peekable"}
LENDS |= {"Cell", "RefCell", "UnsafeCell", "Mutex", "RwLock"}
CLAUSE = re.compile(r"\s*(ghost|requires|ensures)(\*?)(?: +\w+)?(:?)\s*\{")
# what an equation may have outside brackets: other signs bind looser than `≡`, or say no equation
TERM = re.compile(r"[\w\s.'≡+*/^∷|&-]*")


def parts_of(text, at, opens, closes):
    """Where what opens at a place closes, past texts in quotes; -1 if it doesn't."""
    depth, quoted = 0, False
    for place in range(at, len(text)):
        it = text[place]
        if quoted:
            quoted = it != '"' or text[place - 1] == "\\"
        elif it == '"':
            quoted = True
        elif it in opens:
            depth += 1
        elif it in closes:
            depth -= 1
            if depth == 0:
                return place
    return -1


def split_of(text):
    """A list of types or parameters, split at its outer commas."""
    found, depth, now = [], 0, ""
    for it in text:
        depth += (it in OPENS) - (it in CLOSES)
        if it == "," and depth == 0:
            found, now = [*found, now.strip()], ""
        else:
            now += it
    return [it for it in [*found, now.strip()] if it]


def bare_of(term):
    """A term without brackets around the whole of it."""
    term = term.strip()
    while term.startswith("(") and parts_of(term, 0, "([{", ")]}") == len(term) - 1:
        term = term[1:-1].strip()
    return term


def outer_of(term):
    """A term with each outer bracket and each quoted text left out."""
    found, at = "", 0
    while at < len(term):
        if term[at] in '([{"':
            end = term.find('"', at + 1) if term[at] == '"' else parts_of(term, at, "([{", ")]}")
            found, at = f"{found}_", (end if end >= 0 else len(term)) + 1
        else:
            found, at = found + term[at], at + 1
    return found


class Contract:
    """The signature and the clauses of a function's text, and how many lines are above its body; `fits` is false if they can't be read."""

    def __init__(self, text):
        self.parameters, self.gives, self.clauses, self.fits, self.lines = [], "", [], False, 0
        text = text.replace("->", "→ ")
        head = re.match(r" *(?:pub(?:\(\w+\))? )?fn \w+", text)
        if not head:
            return
        at = head.end()
        if text[at : at + 1] == "<":
            end = parts_of(text, at, "<", ">")
            if end < 0 or not all(re.fullmatch(r"'\w+", it) for it in split_of(text[at + 1 : end])):
                return
            at = end + 1
        end = parts_of(text, at, "(", ")")
        if text[at : at + 1] != "(" or end < 0:
            return
        self.parameters = split_of(text[at + 1 : end])
        behind = re.match(r" ?(?:→ +([^{]*?))?(?=\s*(?:\n\s*(?:where|ghost|requires|ensures)\b|\{))", text[end + 1 :])
        if not behind:
            return
        self.gives, at = " ".join((behind[1] or "()").split()), end + 1 + behind.end()
        while clause := CLAUSE.match(text, at):
            end = parts_of(text, clause.end() - 1, "{", "}")
            if clause[1] == "ghost" or clause[2] or clause[3] or end < 0:
                return
            if clause[1] == "ensures":
                self.clauses.append(" ".join(text[clause.end() : end].split()))
            at = end + 1
        begins = re.match(r"\s*\{", text[at:])
        self.fits = bool(begins)
        self.lines = text[: at + begins.end()].count("\n") + 1 if begins else 0

    def is_equations(self, lending):
        """Whether it says by equations alone all that the function gives; `lending` names types that may hold a `&mut`."""
        if not self.fits or not self.clauses:
            return False
        lent = {}
        for it in self.parameters:
            own = re.fullmatch(r"&(?:'\w+ )?(mut )?self|self", it)
            name, of = ("self", it) if own else map(str.strip, it.split(":", 1)) if re.match(r"\w+: ", it) else ("", it)
            changed = re.match(r"&(?:'\w+ )?mut (.*)", of, re.S)
            of = changed[1] if changed else of
            if not name or " mut " in f" {of}" or "mut " in of or self.may_lend(of, lending):
                return False
            if changed:
                lent[name] = of
        if "mut " in self.gives or self.may_lend(self.gives, lending):
            return False
        wanted = {f"{it}.new" for it in lent} | (set() if self.gives in ("()", "Result<(), NoMemory>") else {"result"})
        found = [it for clause in self.clauses for it in self.said(clause, lent)]
        return set(found) == wanted and len(found) == len(wanted)

    def may_lend(self, of, lending):
        return bool(set(re.findall(r"\w+", of)) & (lending | LENDS)) or bool(re.search(r"\b(impl|dyn|fn|Fn\w*)\b", of))

    def said(self, clause, lent):
        """What a clause says by an equation: `result`, `p.new`; "" if it is none."""
        clause, value, of = bare_of(clause), "result", self.gives
        if done := re.fullmatch(r"Result<(.*), NoMemory>", self.gives):
            if inside := re.fullmatch(r"OnOk result (\(.*\))", clause):
                clause, value = inside[1], ""
            elif inside := re.fullmatch(r"IfOk result (\(.*\))", clause):
                within = re.fullmatch(r"λ (\w+)\. (.*)", bare_of(inside[1]))
                if not within:
                    return [""]
                value, clause, of = within[1], within[2], done[1]
        return [self.side(bare_of(clause), value, of, lent)]

    def side(self, clause, value, of, lent):
        """What one equation says, whose left side is `value`, of type `of`, or a lent parameter, and whose right side is none of these."""
        outer = outer_of(clause)
        if outer.count("≡") != 1 or not TERM.fullmatch(outer) or re.search(r"\b(λ|let|do|match)\b", outer):
            return ""
        left, right = map(str.strip, self.cut(clause))
        if re.search(r"\.(new|exit)\b|\bresult\b", right) or value and re.search(rf"\b{value}\b", right):
            return ""
        if any(re.search(rf"\b{name}\.(?!old\b|entry\b)", right) for name in lent):
            return ""
        forms = {f"{name}.new": f"{name}.new" for name in lent}
        forms |= {f"{name}.new.items": f"{name}.new" for name, kind in lent.items() if kind.startswith("Vec<")}
        if value and not of.startswith("&"):
            forms[value] = "result"
        if value and of.startswith("Vec<"):
            forms[f"{value}.items"] = "result"
        if value and of.startswith("&"):
            forms[f"{value}.now"] = "result"
        if value and of.startswith("Option<&") and (shown := re.fullmatch(r"option_map \(λ (\w+)\. (\w+)\.now\) (\w+)", left)):
            return "result" if shown[1] == shown[2] and shown[3] == value else ""
        return forms.get(left, "")

    def cut(self, clause):
        """The two sides of a clause with one outer `≡`."""
        at = 0
        while clause[at] != "≡":
            if clause[at] in '([{"':
                at = clause.index('"', at + 1) if clause[at] == '"' else parts_of(clause, at, "([{", ")]}")
            at += 1
        return clause[:at], clause[at + 1 :]


def lending_of(texts):
    """The names of the types, in these source texts, that may hold a `&mut` or a closure, by themselves or by a type that they hold."""
    declared = {}
    for text in texts:
        for it in re.finditer(r"^(?:pub(?:\(\w+\))? )?(?:struct|enum|union|type) (\w+)(.*?)(?:^\}|;$|\}$)", text, re.M | re.S):
            # (two types of one name are taken for one)
            declared[it[1]] = declared.get(it[1], "") + re.sub(r"//.*", "", it[2])
    found = {name for name, body in declared.items() if re.search(r"\bmut |\b(dyn|Fn|FnMut|FnOnce|fn)\b", body)}
    words = {name: set(re.findall(r"\w+", body)) for name, body in declared.items()}
    found |= {name for name, body in words.items() if body & LENDS}
    while more := {name for name, body in words.items() if name not in found and body & found}:
        found |= more
    return found
