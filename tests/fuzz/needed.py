"""Whether a set of places may change: what the new program breaks, or which use no longer means what it meant.

With the places of kept.py nothing may be broken; with one more place, whose chain ends in no choice among signatures, something has to be.
"""
import checked
import kept
import reader
from declares import erased, is_static
from shapes import parts
from syntax import walk


def new_files(answer, names, texts, changes):
    """The files of the new program in which a set of places has changed, the created one last among the user's: names, texts, how many are the user's."""
    links = answer.links
    wanted = Chosen(changes)
    edits = sorted([*kept.place_edits(links, wanted), kept.clause_edit(links)])
    users = sum(file.is_user for file in links.program.files)
    new = [kept.edited(text, [each[1:] for each in edits if each[0] == number]) for number, text in enumerate(texts)]
    file = kept.new_file(names, links.of, links.new_type.name)
    return names[:users] + [file] + names[users:], new[:users] + [kept.new_text(links, wanted).encode()] + new[users:], users + 1


class Chosen:
    """A set of places in the place of those that kept.py finds."""

    def __init__(self, places):
        self.places = places

    def changes(self):
        return self.places


def broken(answer, names, texts, changes):
    """What is broken where a set of places changes, or nothing."""
    new_names, new_texts, users = new_files(answer, names, texts, changes)
    new = checked.check(new_names, new_texts, users, only_users=True)
    if new.status != reader.DONE or new.kind == "unchecked":
        return "%s: %s" % (new.kind, new.report.decode().split("\n")[0])
    return Compared(answer.links, new.tree).difference()


class Compared:
    """Two programs, of which the new one has an interface more."""

    def __init__(self, links, tree):
        self.old, self.new = links.program, tree.known.program
        self.old_tree, self.new_tree = links.tree, tree
        self.images = {}
        by_name = {each.name: each for each in self.new.types}
        for each in self.old.types:
            other = by_name[each.name]
            self.images[each] = other
            self.images.update(zip(each.members, other.members))

    def difference(self):
        by_name = {each.name: node for node, each in self.new_tree.pairs}
        for node, of in self.old_tree.pairs:
            if of.file.is_user:
                for one, other in zip(walk_members(node), walk_members(by_name[of.name])):
                    if not self.is_alike(one, other):
                        return "%s at %d of file %d means something else" % (one.kind, one.at, one.file)
        return self.difference_of_overriding()

    def is_alike(self, one, other):
        if one.kind != other.kind:
            return False
        if one.kind in ("Call", "SuperMethod", "New", "ThisCall", "SuperCall"):
            return self.is_same_method(one.use, other.use)
        if one.kind in ("Field", "SuperField", "Name"):
            return self.is_same_field(one.use, other.use)
        if one.kind == "Var" and one.init is not None and one.init.kind == "Items":
            return self.image_of(erased(type_of(one))) == erased(type_of(other))
        return True

    def is_same_method(self, one, other):
        if one is None or other is None:
            return one is other
        image = self.images[one]
        return other is image or not one.is_constructor and other in self.new.overridden(image) and not is_static(other)

    def is_same_field(self, one, other):
        if not hasattr(one, "var"):
            return type(one) is type(other) and (one is None or isinstance(one, str) or one.name == other.name)
        return hasattr(other, "var") and self.images[one.owner] is other.owner and one.var.name == other.var.name

    def image_of(self, kind):
        base, dims = parts(kind)
        kind = ("class", self.images[base[1]], ()) if base[0] == "class" else base
        for _ in range(dims):
            kind = ("array", kind)
        return kind

    def difference_of_overriding(self):
        old, new = self.old.overriding(), self.new.overriding()
        for each, others in old.items():
            wanted = {self.images[other] for other in others}
            found = {other for other in new[self.images[each]] if other.owner.name in {of.name for of in self.old.types}}
            if wanted != found:
                return "%s.%s overrides others" % (each.owner.name, each.name)
        return ""


def type_of(var):
    return var.local.type if hasattr(var, "local") else var.use.type


def walk_members(node):
    for member in node.members:
        yield from walk(member)


def faults(answer, names, texts, chance, most):
    """What is wrong with the places of an answer: those that change break something, or one more place does not."""
    found = kept.Kept(answer.links)
    what = broken(answer, names, texts, found.changes())
    if what:
        return ["the places that change: %s" % what]
    staying = [each for each in found.places if each.kind == "Type" and last_need(found, each).kind != "OVERLOAD"]
    return ["%s would break nothing" % reader.place_of(names[each.file], texts[each.file], each.at)
            for each in chance.sample(staying, min(most, len(staying))) if not broken(answer, names, texts, found.changes() | {each})]


def last_need(found, place):
    cause = found.cause(place)
    while hasattr(cause, "to"):
        cause = found.cause(cause.to)
    return cause
