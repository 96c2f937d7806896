"""Facts about the objects of one allocation site, and what nodes, calls and returns do to them, for tests alone: a
second writing of the transfer of stages 2 to 4, on immutable values.

A fact says that no object of the site was made yet (`none`), that some were (`some`), or how it is with one object:
the state it is in, whether it is the only one of its site, which paths have it as their value for sure (`must`), which
do not have it (`must_not`), and whether a cell may hold it that is not the last one of a path in `must` (`may`)."""

from typing import Callable, Iterable, NamedTuple, Optional, Union

from node_text import Call, Cast, Load, LoadStatic, Moves, New, Return, Site, Store, StoreElement, StoreStatic, Throw
from plain_program import Method
from plain_rules import argument_unit
from plain_slots import NodeAt, written_slots

# The kinds of roots, in their order.
SLOT, STATIC, RETURNED, THROWN = range(4)
MOST_PATHS = 6

NONE, SOME = "none", "some"


class Root(NamedTuple):
    """Where a path begins: a slot or a static field by its number, what a method returns, or what it throws."""
    kind: int
    number: int = 0

    @property
    def is_slot(self) -> bool:
        return self.kind == SLOT


class Path(NamedTuple):
    """A root, and instance fields by their numbers. Paths are ordered by root and fields, a prefix first."""
    root: Root
    fields: tuple[int, ...] = ()


Paths = frozenset[Path]
RETURNED_ROOT, THROWN_ROOT = Root(RETURNED), Root(THROWN)


class Known(NamedTuple):
    """What is known of one object."""
    only: bool
    state: int
    must: Paths
    may: bool
    must_not: Paths


Fact = Union[str, Known]


class Automaton(NamedTuple):
    """A property: its class, its states by number, and of each event, by name and descriptor, the next states."""
    class_name: str
    states: list[str]
    initial: int
    error: int
    events: dict[str, list[int]]


class Setting(NamedTuple):
    """The property, the site and the stage of facts; how many fields a store may give a path; the fields' numbers."""
    automaton: Automaton
    site: Site
    stage: int
    depth: int
    field_numbers: dict[str, int]


# ---- sets of paths


def slot_root(slot: int) -> Root:
    return Root(SLOT, slot)


def rooted(paths: Paths, source: Root, target: Root) -> Paths:
    """The paths of a root, with another root in its place."""
    return frozenset(path._replace(root=target) for path in paths if path.root == source)


def normal(setting: Setting, fact: Fact) -> Fact:
    """A fact as it is kept at the stage: of each set the least paths, as many as there may be."""
    if isinstance(fact, str):
        return fact
    must = frozenset(sorted(fact.must)[:MOST_PATHS])
    must_not = frozenset(sorted(fact.must_not)[:MOST_PATHS])
    may = fact.may or must != fact.must
    if setting.stage == 2:
        must, may = frozenset(), True
    if setting.stage < 4:
        must_not = frozenset()
    return fact._replace(must=must, may=may, must_not=must_not)


def left(fact: Known, goes: Callable[[Root], bool], copies: Iterable[tuple[Root, Root]],
         doubles: Callable[[Root], Iterable[int]]) -> Known:
    """Roots go, and their paths with them; sources are copied to targets as they were before. A path with fields that
    has the object and goes is lost, and then another cell may hold it, unless afterwards a double of its root has it: a
    slot that holds what the root held."""
    def after(paths: Paths) -> Paths:
        stays = frozenset(path for path in paths if not goes(path.root))
        return stays.union(*(rooted(paths, source, target) for source, target in copies))

    copies = list(copies)
    must = after(fact.must)

    def is_doubled(path: Path) -> bool:
        return any(path._replace(root=slot_root(slot)) in must for slot in doubles(path.root))

    lost = any(path.fields and goes(path.root) and not is_doubled(path) for path in fact.must)
    return fact._replace(must=must, may=fact.may or lost, must_not=after(fact.must_not))


# ---- slots at a node


def same_variable(at: NodeAt, slot: int) -> list[int]:
    """The slots that have the variable of a slot at a node, itself among them."""
    return [other for other in at.method.slots if at.variable(other) == at.variable(slot)]


def written(at: NodeAt) -> set[int]:
    """The slots that a node writes. A cast looks at its slot, which keeps its value."""
    operation = at.node.operation
    if isinstance(operation, Moves):
        return set(operation.sources)
    if isinstance(operation, Cast):
        return set()
    return {slot for slot in written_slots(operation) if slot is not None}


def unwritten_doubles(at: NodeAt, root: Root) -> list[int]:
    """The slots that had the variable of a slot before a node and that the node does not write."""
    if not root.is_slot:
        return []
    return [slot for slot in same_variable(at, root.number) if slot not in written(at)]


def write(fact: Known, at: NodeAt, copies: Iterable[tuple[Root, Root]] = ()) -> Known:
    """Every slot goes that the node writes. What is copied to one is no double."""
    return left(fact, lambda root: root.is_slot and root.number in written(at), copies,
                lambda root: unwritten_doubles(at, root))


# ---- what nodes do


def after_moves(fact: Known, at: NodeAt, moves: Moves) -> Known:
    """Moves copy; what is moved from a slot, or from another one of its variable, is a double of it."""
    def doubles(root: Root) -> list[int]:
        moved = [target for target, source in moves.sources.items()
                 if source is not None and source in same_variable(at, root.number)]
        return unwritten_doubles(at, root) + moved

    copies = [(slot_root(source), slot_root(target)) for target, source in moves.sources.items() if source is not None]
    return left(fact, lambda root: root.is_slot and root.number in moves.sources, copies, doubles)


def after_load(setting: Setting, fact: Known, at: NodeAt, load: Load) -> Known:
    """The target has what the field has. Where a path ends in the field, but not that of this object, the target may
    hold it too."""
    field, base, target = setting.field_numbers[load.field], slot_root(load.object), slot_root(load.target)

    def loaded(paths: Paths) -> Paths:
        return frozenset(Path(target, path.fields[1:]) for path in paths
                         if path.root == base and path.fields[:1] == (field,))

    ends_so = any(path.fields[-1:] == (field,) for path in fact.must)
    may = fact.may or (ends_so and Path(base, (field,)) not in fact.must)
    after = write(fact._replace(may=may), at)
    return after._replace(must=after.must | loaded(fact.must), must_not=after.must_not | loaded(fact.must_not))


def after_store(setting: Setting, fact: Known, at: NodeAt, store: Store) -> Known:
    """What the field held is no more known, of any object. Each slot of the object has the value behind the field."""
    field = setting.field_numbers[store.field]
    objects = same_variable(at, store.object)
    overwritten = {Path(slot_root(slot), (field,)) for slot in objects}

    def stays(paths: Paths) -> Paths:
        return frozenset(path for path in paths if field not in path.fields)

    def stored(paths: Paths) -> Paths:
        return frozenset(Path(slot_root(slot), (field,) + path.fields) for slot in objects
                         for path in stays(paths) if path.root == slot_root(store.value))

    def short(paths: Paths) -> Paths:
        return frozenset(path for path in paths if len(path.fields) <= setting.depth)

    lost = (fact.must - stays(fact.must) - overwritten) | (stored(fact.must) - short(stored(fact.must)))
    after = Known(fact.only, fact.state, stays(fact.must) | short(stored(fact.must)), fact.may or bool(lost),
                  stays(fact.must_not) | short(stored(fact.must_not)))
    return write(after, at)


def after_store_static(setting: Setting, fact: Known, at: NodeAt, store: StoreStatic) -> Known:
    """The static field goes, and then the value is copied to it."""
    static = Root(STATIC, setting.field_numbers[store.field])
    copies = [(slot_root(store.value), static)]
    return write(left(fact, lambda root: root == static, copies, lambda _: ()), at)


def keeps(fact: Known, slot: Optional[int]) -> Known:
    """The value of a slot gets into a cell that no path has."""
    return fact._replace(may=fact.may or (slot is not None and Path(slot_root(slot)) in fact.must))


def returned(fact: Known, at: NodeAt, value: Optional[int]) -> Known:
    """What is returned gets the value, and the slots of the frame go."""
    copies = [] if value is None else [(slot_root(value), RETURNED_ROOT)]
    there = left(fact, lambda root: root == RETURNED_ROOT, copies, lambda _: ())
    return left(there, lambda root: root.is_slot, [], lambda _: ())


def made(setting: Setting, fact: Fact, at: NodeAt, target: int) -> list[Fact]:
    """An object of the site is made: the facts of those that were there, and of the new one. It is the only one where
    there was none."""
    target_path = Path(slot_root(target))
    fresh = Known(True, setting.automaton.initial, frozenset({target_path}), False, frozenset())
    if fact == NONE:
        return [SOME, fresh]
    if fact == SOME:
        return [SOME, fresh._replace(only=False)]
    older = write(fact, at)
    return [older._replace(only=False, must_not=older.must_not | {target_path})]


def flow_of_known(setting: Setting, fact: Known, at: NodeAt) -> Known:
    """What a node that is no call does to what is known of an object."""
    match at.node.operation:
        case Moves() as moves:
            return after_moves(fact, at, moves)
        case Load() as load:
            return after_load(setting, fact, at, load)
        case Store() as store:
            return after_store(setting, fact, at, store)
        case LoadStatic(field, target):
            return write(fact, at, [(Root(STATIC, setting.field_numbers[field]), slot_root(target))])
        case StoreStatic() as store:
            return after_store_static(setting, fact, at, store)
        case StoreElement(_, value):
            return write(keeps(fact, value), at)
        case Return(value):
            return returned(fact, at, value)
    return write(fact, at)


def flow(setting: Setting, fact: Fact, at: NodeAt) -> list[Fact]:
    """The facts after a node that is no call and raises nothing."""
    operation = at.node.operation
    if isinstance(operation, New) and operation.site == setting.site:
        after = made(setting, fact, at, operation.target)
    else:
        after = [fact if isinstance(fact, str) else flow_of_known(setting, fact, at)]
    return [normal(setting, each) for each in after]


# ---- exceptions


def after_raise(fact: Known, at: NodeAt, has_handler: bool) -> Known:
    """A node raises: the operands go. A throw throws its value, and what was thrown before goes. At a handler the first
    operand gets what is thrown; without one the whole frame goes."""
    thrown = at.node.operation.value if isinstance(at.node.operation, Throw) else None
    if thrown is not None:
        fact = left(fact, lambda root: root == THROWN_ROOT, [(slot_root(thrown), THROWN_ROOT)], lambda _: ())
    if not has_handler:
        return left(fact, lambda root: root.is_slot, [], lambda _: ())
    first = at.method.locals

    def doubles(root: Root) -> list[int]:
        if root == THROWN_ROOT:
            return [first]
        alike = same_variable(at, root.number)
        return [slot for slot in alike if slot < first] + [first] * (thrown in alike)

    return left(fact, lambda root: root == THROWN_ROOT or (root.is_slot and root.number >= first),
                [(THROWN_ROOT, slot_root(first))], doubles)


def raised(setting: Setting, fact: Fact, at: NodeAt, has_handler: bool) -> Fact:
    """The fact where a node raises."""
    return fact if isinstance(fact, str) else normal(setting, after_raise(fact, at, has_handler))


# ---- calls


class Sites(NamedTuple):
    """What the slot of a receiver may hold: an object of the site, and one of another site."""
    may_hold: bool
    only_holds: bool


def events(setting: Setting, fact: Fact, at: NodeAt, call: Call, sites: Callable[[int], Sites]) -> list[Fact]:
    """The facts after the event of a call, if it is one: before it goes anywhere."""
    receiver = call.slot(0)
    is_event = call.kind in ("virtual", "interface") and call.named in setting.automaton.events
    if isinstance(fact, str) or not is_event or receiver is None:
        return [fact]
    return [normal(setting, each) for each in of_event(setting, fact, at, call.named, receiver, sites(receiver))]


def of_event(setting: Setting, fact: Known, at: NodeAt, event: str, receiver: int, sites: Sites) -> list[Known]:
    """What an event on a receiver does to what is known."""
    moved = fact._replace(state=setting.automaton.events[event][fact.state])
    path = Path(slot_root(receiver))
    alike = frozenset(Path(slot_root(slot)) for slot in same_variable(at, receiver))
    if path in fact.must:
        return [moved]
    if not sites.may_hold or path in fact.must_not or not fact.may:
        return [fact]
    if fact.only and sites.only_holds:
        return [moved._replace(must=moved.must | alike)]
    if setting.stage < 4:
        return [fact, moved]
    return [moved._replace(must=moved.must | alike), fact._replace(must_not=fact.must_not | alike)]


def entered(setting: Setting, fact: Fact, call: Optional[Call]) -> Fact:
    """The fact with which a method is entered by a call; an initialiser is by none, and gets nothing."""
    if isinstance(fact, str):
        return fact
    passed = [] if call is None else [(slot, unit) for unit, slot in enumerate(call.arguments) if slot is not None]

    def after(paths: Paths) -> Paths:
        static = frozenset(path for path in paths if path.root.kind == STATIC)
        return static.union(*(rooted(paths, slot_root(slot), slot_root(unit)) for slot, unit in passed))

    arguments = {slot_root(slot) for slot, _ in passed}
    lost = any(path.fields and path.root.kind != STATIC and path.root not in arguments for path in fact.must)
    return normal(setting, Known(fact.only, fact.state, after(fact.must), fact.may or lost, after(fact.must_not)))


class Leaving(NamedTuple):
    """What is left: a target of a call, or an initialiser, and the fields that it may write, by their numbers."""
    at: NodeAt
    call: Optional[Call]
    may_write: frozenset[int]


def leaves(setting: Setting, caller: Fact, exits: Fact, leaving: Leaving) -> Fact:
    """The fact with which a caller goes on: of the exit's what does not stand in its frame, and the caller's own paths
    that the call leaves as they are."""
    if isinstance(exits, str):
        return exits
    roots = {STATIC} if leaving.call is None else {STATIC, RETURNED, THROWN}
    must = frozenset(path for path in exits.must if path.root.kind in roots)
    must_not = frozenset(path for path in exits.must_not if path.root.kind in roots)
    may = exits.may
    if leaving.call is None:
        may = may or any(path.root.kind in (RETURNED, THROWN) for path in exits.must)
    if isinstance(caller, Known):
        must |= joining(caller.must, leaving)
        must_not |= joining(caller.must_not, leaving)
        may = may or caller.may or loses(caller, must, leaving)
    return normal(setting, Known(exits.only, exits.state, must, may, must_not))


def joining(paths: Paths, leaving: Leaving) -> Paths:
    """The paths of a caller that stay: of slots that are no arguments, through no field that may be written."""
    arguments = set() if leaving.call is None else set(leaving.call.arguments)
    return frozenset(path for path in paths
                     if path.root.is_slot and path.root.number not in arguments
                     and not leaving.may_write.intersection(path.fields))


def loses(caller: Known, must: Paths, leaving: Leaving) -> bool:
    """Whether a path with fields of a caller's slot neither stays nor has a double that does."""
    def is_doubled(path: Path) -> bool:
        return any(path._replace(root=slot_root(slot)) in must for slot in unwritten_doubles(leaving.at, path.root))

    stays = joining(caller.must, leaving)
    return any(path.fields and path.root.is_slot and path not in stays and not is_doubled(path)
               for path in caller.must)


def resumed(setting: Setting, fact: Fact, at: NodeAt, call: Call) -> Fact:
    """The fact after a call that returned, of what its leaving gave: the result gets what was returned."""
    if isinstance(fact, str):
        return fact
    results = [] if call.result is None else [call.result]

    def doubles(root: Root) -> list[int]:
        return results if root == RETURNED_ROOT else unwritten_doubles(at, root)

    after = left(fact, lambda root: root == RETURNED_ROOT or (root.is_slot and root.number in results),
                 [(RETURNED_ROOT, slot_root(slot)) for slot in results], doubles)
    return normal(setting, after)


# ---- described methods


def argument_slot(call: Call, target: Method, word: str) -> Optional[int]:
    """The slot of the argument that a stub names."""
    return call.slot(argument_unit(target, word))


def kept(fact: Known, call: Call, target: Method) -> Known:
    """A described method keeps arguments."""
    for word in target.stub.keeps:
        fact = keeps(fact, argument_slot(call, target, word))
    return fact


def answered(setting: Setting, fact: Fact, at: NodeAt, call: Call, target: Method, word: str) -> list[Fact]:
    """The facts after a described method gave the result of a word."""
    if isinstance(fact, Known):
        fact = kept(fact, call, target)
    source = argument_slot(call, target, word) if word == "this" or word.startswith("arg") else None
    is_site = word.startswith("new:") and at.site("Result", word.removeprefix("new:")) == setting.site
    if is_site and call.result is not None:
        after = made(setting, fact, at, call.result)
    elif isinstance(fact, str):
        after = [fact]
    elif source is None or call.result is None:
        after = [write(fact, at)]
    else:
        after = [given(fact, at, source, call.result)]
    return [normal(setting, each) for each in after]


def given(fact: Known, at: NodeAt, source: int, result: int) -> Known:
    """The result is what an argument is: the argument is moved, so the slot of the result is a double of it."""
    def doubles(root: Root) -> list[int]:
        is_moved = root.is_slot and source in same_variable(at, root.number)
        return unwritten_doubles(at, root) + [result] * is_moved

    return left(fact, lambda root: root.is_slot and root.number in written(at),
                [(slot_root(source), slot_root(result))], doubles)


def threw(setting: Setting, fact: Fact, at: NodeAt, call: Call, target: Method, has_handler: bool) -> Fact:
    """The fact where a described method throws: it first keeps."""
    return raised(setting, kept(fact, call, target) if isinstance(fact, Known) else fact, at, has_handler)
