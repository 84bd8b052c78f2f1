"""What GNU make knows only after a build: prerequisites that dependency files name, which the
build wrote."""

from __future__ import annotations

from mkcheck_tools.imports.builds import Node, in_folder, path_name
from mkcheck_tools.imports.database import Rule
from mkcheck_tools.imports.gnumake import Make
from mkcheck_tools.imports.translating import Translation
from mkcheck_tools.imports.views import View, is_special


def add_later(translation: Translation, makes: list[Make], written: set[str]) -> int:
    """Adds to the nodes the prerequisites that they have after a build, and marks those that they
    no longer have.

    `makes` are those of a make after a build, and `written` has the dependency files that the build
    wrote. Gives the number of prerequisites that were added.
    """
    told = {
        make.folder
        for make in makes
        for text in make.makefiles
        if path_name(translation.root, make.folder, text) in written
    }
    after: dict[tuple[object, ...], dict[str, list[Rule]]] = {}
    for make in makes:
        rules = after.setdefault(make.key, {})
        for name, found in make.base.rules.items():
            known = rules.get(name)
            if known is None or any(rule.is_done for rule in found):
                rules[name] = found
    for view in translation.views.values():
        if view.make.key not in after:
            folder = translation.short(view.make.folder)
            translation.build.question(
                f"make {in_folder(folder)} is started in a first build and not in the next one, so"
                " when it runs isn't judged; let the recipe start it always",
                folder,
            )
    count = 0
    views = {view.number: view for view in translation.views.values()}
    for (number, text), name in list(translation.visited.items()):
        view = views[number]
        later = after.get(view.make.key, {}).get(text)
        node = translation.build.nodes.get(name)
        if later is None or node is None or is_special(text) or name in translation.build.given:
            continue
        if len(later) == 1 and len(view.rules[text]) == 1:
            holder = translation.holder(node)
            before = len(holder.late)
            count += compare(translation, view, node, view.rules[text][0], later[0])
            holder.told += holder.late[before:] if view.folder in told else []
    translation.fill_all()
    return count


def compare(translation: Translation, view: View, node: Node, first: Rule, later: Rule) -> int:
    """Compares what one rule needs before and after a build."""
    # Of a file that is both order-only and named by a dependency file make compares the time.
    known = {translation.path(view, word) for word in first.needs}
    now = {translation.path(view, word) for word in [*later.needs, *later.order_only]}
    count = 0
    leader = translation.leader(view, first.name)
    # Where one recipe makes several targets, make gives it to each of them after a build.
    known_recipes = [first.recipe, *(rule.recipe for rule in view.rules.get(leader or "", []))]
    is_known = first.is_done and (first.recipe is not None or not first.ran)
    if is_known and later.is_done and later.recipe not in known_recipes:
        translation.build.problem(
            f"{translation.place_of(node)}: after a build make has another rule for {node.name},"
            " which isn't judged; write its rule out",
            node.name,
        )
    holder = translation.holder(node)
    for word in later.needs:
        path = translation.path(view, word)
        if path in known or path == node.name:
            continue
        known.add(path)
        count += 1
        for name in names_of(translation, view, word, path):
            if name not in holder.late and name != node.name:
                holder.late.append(name)
    if later.is_done:
        gone = [word for word in first.needs if translation.path(view, word) not in now]
        for word in gone:
            edge = translation.edge(view, word)
            holder.first_only += [name for name in edge.normal if name not in holder.first_only]
    return count


def names_of(translation: Translation, view: View, word: str, path: str) -> tuple[str, ...]:
    """The nodes of a prerequisite that is known after a build alone."""
    rules = view.rules.get(word, [])
    if any(rule.is_target for rule in rules):
        edge = translation.edge(view, word)
        return (*edge.normal, *edge.late)
    if translation.is_other_spelling(view, word):
        translation.build.blind.add(path)
        return ()
    if translation.after is not None and not path.startswith("/") and path not in translation.after:
        return ()
    if translation.is_folder(path):
        return ()
    translation.build.node(path)
    return (path,)
