"""Puts files below a root, with lists of what was put."""

import pathlib

from . import lists, obstacles, removing, replacing


def _new_folders(root, names):
    """The folders of these files that are not there yet, each with a slash at its end."""
    above = {f"{folder}/" for name in names for folder in list(pathlib.PurePath(name).parents)[:-1]}
    return {folder for folder in above if not (root / folder).is_dir()}


def _gone(root, part, new, earlier):
    """What the list of a part has of an earlier version that neither this version nor another list has."""
    own = lists.of_part(part)
    kept = {own, *new, *(name for other, pairs in earlier.items() if other != own for name, _ in pairs)}
    gone = {pair for pair in earlier.get(own, ()) if pair[0] not in kept}
    # a file that a link of a folder gives a second name is no other one
    places = {lists.resolved(root, name) for name in kept} if any(not lists.is_folder(name) for name, _ in gone) else set()
    return {pair for pair in gone if lists.resolved(root, pair[0]) not in places}


def check(root, parts):
    """Stops where something stands in the way of putting these parts."""
    earlier = lists.read(root)
    new = sorted({name for part, (given, links) in parts.items() for name in (lists.of_part(part), *given, *links)})
    gone = [pair for part, (given, links) in parts.items() for pair in _gone(root, part, (*given, *links), earlier)]
    obstacles.stop_at([*obstacles.of_putting(root, new), *obstacles.of_removing(root, removing.files(root, gone))])


def _sums(given, links):
    of_files = {(name, lists.sum_of_file(source)) for name, source in given.items()}
    return of_files | {(name, lists.sum_of_link(target)) for name, target in links.items()}


def _mode(name):
    return 0o755 if name.startswith("bin/") else 0o644


def _put_files(root, given, links):
    for name in [*given, *links]:
        (root / name).parent.mkdir(parents=True, exist_ok=True)
        if name in given:
            replacing.copy(root / name, given[name], _mode(name))
        else:
            replacing.link(root / name, links[name])


def _put_part(root, part, given, links):
    own, earlier, new = lists.of_part(part), lists.read(root), _sums(given, links)
    before, names = earlier.get(own, set()), [*given, *links]
    folders = _new_folders(root, [own, *names]) | {name for name, _ in before if lists.is_folder(name)}
    replacing.sweep(root, [own, *names, *(name for name, _ in before)])
    (root / lists.FOLDER).mkdir(parents=True, exist_ok=True)
    # till all is done the list has the old and the new, so that what stops halfway can be removed
    replacing.write(root / own, lists.text(before | new | {(name, "") for name in folders}))
    _put_files(root, given, links)
    removing.remove(root, _gone(root, part, names, earlier))
    there = {(name, "") for name in folders if lists.is_inside(root, name) and (root / name).is_dir()}
    replacing.write(root / own, lists.text(new | there))


def put(root, parts):
    """Puts the parts: each has its files, name and source, and its links, name and target."""
    check(root, parts)
    for part, (given, links) in parts.items():
        _put_part(root, part, given, links)
