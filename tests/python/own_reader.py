"""Reads files of objects, as `crates/object_files` does: integers and nil, cases in order. A fault is refused with its place,
the mistake and the remedy. own_rules.py has the meaning of the rules."""
from __future__ import annotations

import re
from typing import Dict, FrozenSet, List, NamedTuple, Optional, Sequence, Tuple

from python.jepmon.edn import Many, Reader, Unreadable, Value as Element, integer, keyword

from .own_fields import Fields, Place, Refused, constant, fields_of, listed, nearest, pairs_of, shown, vector_of
from .own_rules import Case, Operation, Rules, Term, Value

MOST_BYTES, MOST_OBJECTS, MOST_VARIABLES, MOST_OPERATIONS, MOST_NAMES, MOST_CASES, MOST_WORDS = 65_536, 64, 8, 32, 128, 16, 256
MOST_TERMS = 16  # of `and` and `or`
KINDS = ("register", "cas-register", "mutex", "fifo-queue", "set", "unordered-queue", "wide-register", "wide-cas-register", "wide-set",
         "wide-fifo-queue", "wide-unordered-queue")
BUILT_IN = {"read": 0, "write": 1, "cas": 2, "acquire": 0, "release": 0, "enqueue": 1, "dequeue": 0, "add": 1}  # and their arguments
ANSWERING = ("read", "dequeue")  # the built-in names whose ok says what was found
OF_OBJECT = ("object", "like", "state", "limits", "ops")
OF_CASE = ("when", "set", "answer", "answer-or-nil")
ON_NUMBERS = ("plus", "minus", "min", "max")
COMPARING = ("lt", "le", "gt", "ge")
WORDS = ("plus", "minus", "mod", "min", "max", "eq", "ne", "lt", "le", "gt", "ge", "and", "or", "not", "if")
TRUE, FALSE = Term("constant", 1), Term("constant", 0)
NUMBER, TRUTH, ANY = "a number", "true or false", "one value"


class Object(NamedTuple):
    name: str
    variables: Tuple[str, ...]
    rules: Rules


GAP = re.compile(r"(?:[\s,]|;[^\n]*)*")


def elements_of(text: bytes) -> List[Element]:
    """The elements at the top of the text. A fault names the line on which the element begins that can't be read."""
    elements: List[Element] = []
    behind, letters = 0, text.decode("latin-1")
    try:
        for element in Reader(text.decode(), profile=True).elements():
            elements.append(element.value)
            spelled = element.text.encode().decode("latin-1")
            behind = letters.index(spelled, behind) + len(spelled)
    except (Unreadable, UnicodeDecodeError) as fault:
        gap = GAP.match(letters, behind)
        line = letters.count("\n", 0, gap.end() if gap else behind) + 1
        raise Refused(f"line {line}: the element that begins here can't be read. It is not closed, has a key twice, an integer outside 64 bits, "
                      "more than 32 collections in one another, or a form that is not read here.") from fault
    return elements


def mentions_client(element: Element) -> bool:
    return element == ":client" or isinstance(element, Many) and any(map(mentions_client, element.members))


def load(text: bytes) -> List[Object]:
    """The objects of the file, in order; Refused by its first fault."""
    if len(text) > MOST_BYTES:
        raise Refused(f"the file has {len(text)} bytes. It may have {MOST_BYTES} at most.")
    elements = elements_of(text)
    if not elements:
        raise Refused("the file declares no object. An object is {:object :name, :state {..}, :ops {..}}.")
    if len(elements) > MOST_OBJECTS:
        raise Refused(f"the file declares {len(elements)} objects. It may declare {MOST_OBJECTS} at most.")
    askers = asking_names(elements)
    made: Dict[str, Tuple[Object, Element]] = {}
    names: Dict[str, None] = {}
    for number, element in enumerate(elements, 1):
        pairs = pairs_of(element)
        if pairs is None:
            raise Refused(f"element {number} is no map. An object is {{:object :name, :state {{..}}, :ops {{..}}}}.")
        read, ops = object_of(pairs, made, askers, Place(f"object {number}"))
        made[read.name] = (read, ops)
        names.update(dict.fromkeys(name for name in read.rules.operations if name not in BUILT_IN))
        if len(names) > MOST_NAMES:
            raise Refused(f"object :{read.name}: the file has more than {MOST_NAMES} names of operations of its own.")
    return [read for read, _ in made.values()]


def asking_names(elements: Sequence[Element]) -> FrozenSet[str]:
    """The names of operations that say :client in some object of the file."""
    asking = set()
    for element in elements:
        for key, value in pairs_of(element) or []:
            for name, operation in (pairs_of(value) or []) if key == ":ops" else []:
                if mentions_client(operation):
                    asking.add(keyword(name) or "")
    return frozenset(asking)


def object_of(pairs: Sequence[Tuple[Element, Element]], made: Dict[str, Tuple[Object, Element]], askers: FrozenSet[str],
              at: Place) -> Tuple[Object, Element]:
    fields = fields_of(pairs, OF_OBJECT, at)
    name = keyword(fields.get("object"))
    if name is None:
        at.refuse("its name is wanted, as :object :semaphore.")
    at = Place(f"object :{name}")
    if name in KINDS:
        at.refuse("this is a kind that the program has. Choose another name.")
    if name in made:
        at.refuse("it is declared twice.")
    starts: Dict[str, Value] = {}
    limits: Dict[str, Tuple[int, int]] = {}
    ops = fields.get("ops")
    if "like" in fields:
        like = keyword(fields["like"])
        if like is None or like not in made:
            at.refuse(f"there is no object {shown(fields['like'])} before it{nearest(like or '', made)}")
        if ops is not None:
            at.refuse(f"it has the operations of :{like}. :ops are not wanted.")
        other, ops = made[like]
        starts = dict(zip(other.variables, other.rules.start))
        limits = {name: given for name, given in zip(other.variables, other.rules.limits) if given is not None}
    read_starts(fields, starts, at)
    read_limits(fields, starts, limits, at)
    operations = operations_of(ops, tuple(starts), limits, askers, at)
    rules = Rules(tuple(starts.values()), tuple(limits.get(name) for name in starts), operations,
                  askers & frozenset(operations))
    assert ops is not None
    return Object(name, tuple(starts), rules), ops


def read_starts(fields: Fields, starts: Dict[str, Value], at: Place) -> None:
    pairs = pairs_of(fields.get("state"))
    if pairs is None and not ("like" in fields and "state" not in fields):
        at.refuse(":state {:variable start ..} is wanted.")
    pairs = pairs or []
    if "like" not in fields and not 1 <= len(pairs) <= MOST_VARIABLES:
        at.refuse(f"1 to {MOST_VARIABLES} variables are wanted, not {len(pairs)}.")
    for key, value in pairs:
        name, start = keyword(key), constant(value)
        if name is None:
            at.refuse(f":state has {shown(key)}, which is no keyword.")
        if name == "client":
            at.refuse(":client is who did it, and names no variable.")
        if "like" in fields and name not in starts:
            at.refuse(f"there is no variable :{name}{nearest(name, starts)}")
        if start is None:
            at.refuse(f":{name} starts as {shown(value)}. A variable starts as nil, true, false or an integer.")
        starts[name] = start.value


def read_limits(fields: Fields, starts: Dict[str, Value], limits: Dict[str, Tuple[int, int]], at: Place) -> None:
    if "limits" in fields:
        pairs = pairs_of(fields["limits"])
        if pairs is None:
            at.refuse(":limits {:variable [least greatest] ..} is wanted.")
        for key, value in pairs:
            name = keyword(key)
            if name is None or name not in starts:
                at.refuse(f":limits has {shown(key)}, which is no variable{nearest(name or '', starts)}")
            ends = [integer(end) for end in vector_of(value) or ()]
            if len(ends) != 2 or ends[0] is None or ends[1] is None:
                at.refuse(f"the limits of :{name} are two integers, as [0 10].")
            if ends[0] > ends[1]:
                at.refuse(f"the limits of :{name} are two integers, the least first.")
            limits[name] = (ends[0], ends[1])
    for name, (least, greatest) in limits.items():
        start = starts[name]
        if start is None or not least <= start <= greatest:
            at.refuse(f":{name} starts as {'nil' if start is None else start}, which is outside its limits, {least} to {greatest}.")


def operations_of(ops: Optional[Element], variables: Tuple[str, ...], limits: Dict[str, Tuple[int, int]], askers: FrozenSet[str],
                  at: Place) -> Dict[str, Operation]:
    pairs = pairs_of(ops)
    if pairs is None:
        at.refuse(":ops {:operation {..} ..} is wanted.")
    if not 1 <= len(pairs) <= MOST_OPERATIONS:
        at.refuse(f"1 to {MOST_OPERATIONS} operations are wanted, not {len(pairs)}.")
    operations: Dict[str, Operation] = {}
    for key, value in pairs:
        name, given = keyword(key), pairs_of(value)
        if name is None:
            at.refuse(f":ops has {shown(key)}, which is no keyword.")
        within = at.within(f"operation :{name}")
        if given is None:
            within.refuse("a map is wanted, as {:set {..}}.")
        operations[name] = OfOperation(name, variables, limits, name in askers, within).read(given)
    return operations


class OfOperation:
    """One operation, and the names that its words may have."""

    def __init__(self, name: str, variables: Tuple[str, ...], limits: Dict[str, Tuple[int, int]], asks: bool, at: Place) -> None:
        self.name, self.variables, self.limits, self.asks, self.at = name, variables, limits, asks, at
        self.arguments: List[str] = []
        self.words = 0

    def read(self, pairs: Sequence[Tuple[Element, Element]]) -> Operation:
        fields = fields_of(pairs, ("args", "cases", *OF_CASE), self.at)
        self.read_arguments(fields.get("args"))
        texts = self.texts_of_cases(fields)
        cases: List[Case] = []
        whole = self.at
        for number, text in enumerate(texts, 1):
            self.at = whole if len(texts) == 1 else whole.within(f"case {number}")
            if cases and self.always_holds(cases[-1]):
                self.at.refuse("it is never reached, since the case before it always holds.")
            cases.append(self.case_of(text))
        self.at = whole
        if len({case.answer is None for case in cases}) > 1:
            self.at.refuse("some of its cases answer and others do not, so that any answer would fit these. Let each of them answer, or none.")
        self.test_built_in(cases)
        return Operation(len(self.arguments) + self.asks, tuple(cases))

    def read_arguments(self, element: Optional[Element]) -> None:
        members = () if element is None else vector_of(element)
        if members is None:
            self.at.refuse(":args [:value ..] is wanted.")
        for member in members:
            name = keyword(member)
            if name is None:
                self.at.refuse(f":args are keywords, and {shown(member)} is none.")
            if name == "client" or name in self.variables or name in self.arguments:
                self.at.refuse(f"the argument :{name} has the name of something else. Choose another name.")
            self.arguments.append(name)
        if len(self.arguments) + self.asks > 2:
            most = "1 argument at most beside :client" if self.asks else "2 arguments at most"
            self.at.refuse(f"it has {len(self.arguments)} arguments. An operation has {most}.")
        wanted = BUILT_IN.get(self.name)
        if wanted is not None and len(self.arguments) != wanted:
            self.at.refuse(f"events of :{self.name} have {wanted} argument{'' if wanted == 1 else 's'}. For others choose another name.")

    def texts_of_cases(self, fields: Fields) -> List[Fields]:
        alone = {key: value for key, value in fields.items() if key in OF_CASE}
        if "cases" not in fields:
            return [alone]
        members = vector_of(fields["cases"])
        if members is None:
            self.at.refuse(":cases [{..} ..] is wanted.")
        if alone:
            self.at.refuse("what it does stands in :cases, and not beside them too.")
        if not 1 <= len(members) <= MOST_CASES:
            self.at.refuse(f"1 to {MOST_CASES} cases are wanted, not {len(members)}.")
        texts = []
        for number, member in enumerate(members, 1):
            pairs = pairs_of(member)
            at = self.at.within(f"case {number}")
            if pairs is None:
                at.refuse("a map is wanted, as {:when .., :set {..}}.")
            texts.append(fields_of(pairs, OF_CASE, at))
        return texts

    def case_of(self, fields: Fields) -> Case:
        self.words = 0
        when = TRUE
        if "when" in fields:
            when, sort = self.term(fields["when"])
            if sort == NUMBER:
                self.at.refuse(f":when is true or false, and this is {sort}.")
        sets = self.sets_of(fields.get("set"))
        if "answer" in fields and "answer-or-nil" in fields:
            self.at.refuse(":answer or :answer-or-nil is wanted, not both.")
        given = fields.get("answer", fields.get("answer-or-nil"))
        return Case(when, sets, None if given is None else self.term(given)[0], "answer-or-nil" in fields)

    def sets_of(self, element: Optional[Element]) -> Tuple[Tuple[int, Term], ...]:
        pairs = [] if element is None else pairs_of(element)
        if pairs is None:
            self.at.refuse(":set {:variable value ..} is wanted.")
        sets = []
        for key, value in pairs:
            name = keyword(key)
            if name in self.arguments:
                self.at.refuse(f":set has the argument :{name}. Only variables of the state are set.")
            if name is None or name not in self.variables:
                self.at.refuse(f":set has {shown(key)}, which is no variable of the state{nearest(name or '', self.variables)}")
            term, _ = self.term(value)
            limits = self.limits.get(name)
            if limits is not None and term.word == "constant" and (term.value is None or not limits[0] <= term.value <= limits[1]):
                self.at.refuse(f":{name} is set to {shown(value)}, which is outside its limits, {limits[0]} to {limits[1]}.")
            sets.append((self.variables.index(name), term))
        return tuple(sets)

    def term(self, element: Element) -> Tuple[Term, str]:
        """The term, and of what sort its values are."""
        self.words += 1
        if self.words > MOST_WORDS:
            self.at.refuse(f"its values have more than {MOST_WORDS} words.")
        name, known = keyword(element), constant(element)
        if name is not None:
            return self.named(name)
        if known is not None:
            return known, ANY if element == "nil" else TRUTH if element in ("true", "false") else NUMBER
        members = vector_of(element)
        if members is None:
            self.at.refuse(f"{shown(element)} is no value. A value is nil, true, false, an integer, a name or a vector of a function.")
        return self.called(members)

    def named(self, name: str) -> Tuple[Term, str]:
        if name == "client":
            return Term("given", 0), NUMBER
        if name in self.arguments:
            return Term("given", self.arguments.index(name) + self.asks), ANY
        if name in self.variables:
            return Term("variable", self.variables.index(name)), NUMBER if name in self.limits else ANY
        known = [*self.variables, *self.arguments]
        self.at.refuse(f"there is no :{name}{nearest(name, known)} There are {listed(known)} and :client.")

    def called(self, members: Sequence[Element]) -> Tuple[Term, str]:
        word = keyword(members[0]) if members else None
        if word is None:
            first = shown(members[0]) if members else "an empty vector"
            self.at.refuse(f"{first} stands where a function is wanted, as in [:plus :sum 1].")
        if word not in WORDS:
            self.at.refuse(f"there is no function :{word}{nearest(word, WORDS)} The functions are {listed(WORDS)}.")
        least, most = {"and": (2, MOST_TERMS), "or": (2, MOST_TERMS), "not": (1, 1), "if": (3, 3)}.get(word, (2, 2))
        if not least <= len(members) - 1 <= most:
            self.at.refuse(f":{word} is of {least if least == most else f'{least} to {most}'} values, and has {len(members) - 1}.")
        read = [self.term(member) for member in members[1:]]
        terms, sorts = [term for term, _ in read], [sort for _, sort in read]
        return self.made(word, terms), self.sort_of(word, terms, sorts)

    def sort_of(self, word: str, terms: Sequence[Term], sorts: Sequence[str]) -> str:
        wanted = TRUTH if word in ("and", "or", "not") else NUMBER if word in (*ON_NUMBERS, *COMPARING, "mod") else ANY
        against = {TRUTH: NUMBER, NUMBER: TRUTH, ANY: ""}[wanted]
        for number, sort in enumerate(sorts if word != "if" else (), 1):
            if sort == against:
                self.at.refuse(f":{word} wants {wanted}, and value {number} is {sort}.")
        if word == "mod" and (terms[1].word != "constant" or (terms[1].value or 0) <= 0):
            self.at.refuse(":mod is by an integer above 0 that stands there.")
        if word in ("eq", "ne") and {NUMBER, TRUTH} == set(sorts):
            self.at.refuse(f":{word} compares {sorts[0]} with {sorts[1]}, which are never the same.")
        if word == "if":
            if sorts[0] == NUMBER:
                self.at.refuse(f":if wants true or false first, and this is {NUMBER}.")
            return sorts[1] if sorts[1] == sorts[2] else ANY
        return NUMBER if word in (*ON_NUMBERS, "mod") else TRUTH

    @staticmethod
    def made(word: str, terms: Sequence[Term]) -> Term:
        """And, or and not are written by if, which looks no further than it needs."""
        if word == "not":
            return Term("if", None, (terms[0], FALSE, TRUE))
        if word in ("and", "or"):
            rest = Term("if", None, (terms[-1], TRUE, FALSE))
            for term in reversed(terms[:-1]):
                rest = Term("if", None, (term, rest, FALSE) if word == "and" else (term, TRUE, rest))
            return rest
        return Term(word, None, tuple(terms))

    def always_holds(self, case: Case) -> bool:
        """In every state: it has no condition, and each of its values exists and is within limits."""
        if case.when != TRUE or case.answer is not None and not is_total(case.answer):
            return False
        return all(is_total(term) and (self.variables[place] not in self.limits or term.word == "constant") for place, term in case.sets)

    def test_built_in(self, cases: Sequence[Case]) -> None:
        if self.name not in BUILT_IN:
            return
        if self.asks:
            self.at.refuse(f"events of :{self.name} do not say who did it, and it asks for :client. Choose another name, as :{self.name}-by.")
        if self.name not in ANSWERING and any(case.answer is not None for case in cases):
            self.at.refuse(f"the :ok of :{self.name} repeats its :invoke, so it has no answer. Choose another name, as :{self.name}?.")
        if self.name == "read" and any(case.sets for case in cases):
            self.at.refuse("a :read leaves the state as it was, and this one sets a variable. Choose another name.")


def is_total(term: Term) -> bool:
    return term.word in ("constant", "variable", "given") or term.word in ("eq", "ne") and all(map(is_total, term.terms))
