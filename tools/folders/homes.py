"""Which homes are a set. Each has a hail file with the name of the set and its own; that of the first also has the names of all, in order.

With one home left out, its files would be missing and the others' pieces look like leftovers: so a set is opened whole or not at all.
"""
from __future__ import annotations

import fcntl
import json
import re
import secrets
from dataclasses import dataclass
from pathlib import Path
from typing import Sequence

from .copies import Copies
from .home import Home, NoAnswer, Refused
from .shared import Shared

TAG = 'sftp1-set'
MOVING = 'sftp1-set.moving'
"""The same in a home to which hail-move moves the files of another."""

PREFIX = 'sftp1-'


class NotASet(Refused):
    """These homes are not all the homes of one set."""


@dataclass(frozen=True)
class Tag:
    """The set of a home, the home's own name, and at the first home of a set that is made the names of all its members."""

    set_name: str
    own: str
    members: tuple[str, ...] = ()


@dataclass(frozen=True)
class Tagged:
    """A home with its tag, if it has one, and whether it has files of a set beside that."""

    home: Home
    tag: Tag | None
    is_used: bool


def open_set(paths: Sequence[str]) -> list[Home]:
    """The homes of a set in their order, named in any. NotASet where one is missing, twice, or of another set."""
    found = look(paths)
    first = _first_of(found)
    by_name = {t.tag.own: t.home for t in found if t.tag and t.tag.set_name == first.set_name}
    if len(by_name) < len(found):
        raise NotASet('one of these homes is not of the set: --add adds homes to it')
    if set(by_name) != set(first.members):
        raise NotASet(f'the set has {len(first.members)} homes: name all of them, each once, and no other')
    return [by_name[name] for name in first.members]


def _first_of(found: Sequence[Tagged]) -> Tag:
    firsts = [t.tag for t in found if t.tag and t.tag.members]
    if len(firsts) != 1:
        raise NotASet('these homes are of several sets' if firsts else 'these homes are no set, or not its first one: --init makes a set')
    return firsts[0]


def make_set(paths: Sequence[str]) -> None:
    """Makes a set of homes, in this order. Where it was cut off, the same words end it.

    NotASet where a home is of another set, or has files of one. A home's tag says that the set is being made until the first's names all.
    """
    found = look(paths)
    begun = found[0].tag
    if begun and begun.members and open_set(paths)[0].path == found[0].home.path:
        return
    for each in found:
        if each.is_used or (each.tag and not (begun and each.tag.set_name == begun.set_name and not each.tag.members)):
            raise NotASet(f'{each.home.path} is of a set already')
    set_name, names = _new_name(), [_new_name() for _ in found]
    for each, name in zip(found, names):
        _put(each.home, Tag(set_name, name))
    _put(found[0].home, Tag(set_name, names[0], tuple(names)))


def add_to_set(paths: Sequence[str]) -> None:
    """Adds the homes that are of no set to the set of the others, all of which are named. Where it was cut off, the same words end it.

    One at a time: a second one would else leave out what the first added."""
    found = look(paths)
    first = _first_of(found)
    shared = Shared(Path(next(t.home.path for t in found if t.tag == first)) / 'folders')
    try:
        with shared.locked(fcntl.LOCK_EX):
            _add(look(paths))
    finally:
        shared.close()


def _add(found: Sequence[Tagged]) -> None:
    first = _first_of(found)
    names = [t.tag.own for t in found if t.tag and t.tag.set_name == first.set_name]
    if not set(first.members) <= set(names):
        raise NotASet(f'the set has {len(first.members)} homes: name all of them, and those that are to be added')
    added = [t for t in found if not t.tag or t.tag.own not in first.members]
    for each in added:
        if each.is_used or (each.tag and each.tag.set_name != first.set_name):
            raise NotASet(f'{each.home.path} is of another set')
    new = [each.tag or Tag(first.set_name, _new_name()) for each in added]
    for each, tag in zip(added, new):
        _put(each.home, tag)
    target = next(t.home for t in found if t.tag and t.tag.members)
    _put(target, Tag(first.set_name, first.own, (*first.members, *(tag.own for tag in new))))


def look(paths: Sequence[str]) -> list[Tagged]:
    """Each home with its tag. NotASet where one is named twice, NoAnswer where one is none or does not answer."""
    homes = [Home(path) for path in paths]
    if len({home.path for home in homes}) < len(homes):
        raise NotASet('a home is named twice')
    return [_look_at(home) for home in homes]


def _look_at(home: Home) -> Tagged:
    if not home.is_set_up():
        raise NoAnswer(f'no store in {home.path}')
    names = home.names()
    used = any(name.startswith(PREFIX) and name != TAG for name in names)
    if TAG not in names:
        if used:
            why = 'end hail-move first' if MOVING in names else 'does hail-move move it, or is its journal an older copy?'
            raise NotASet(f'{home.path} has files of a set, and no {TAG}: {why}')
        return Tagged(home, None, used)
    return Tagged(home, _tag_of(home), used)


def _new_name() -> str:
    return secrets.token_hex(8)


def _tag_of(home: Home) -> Tag:
    try:
        text = home.get(TAG)
    except Refused as fault:
        raise NoAnswer(str(fault)) from fault
    try:
        fields = json.loads(text)
        names = [fields['set'], fields['own'], *fields['members']]
        if all(re.fullmatch('[0-9a-f]{16}', name) for name in names) and len(set(names)) == max(2, 1 + len(fields['members'])):
            return Tag(names[0], names[1], tuple(names[2:]))
    except (KeyError, TypeError, ValueError):
        pass
    raise NotASet(f'{home.path}: {TAG} is not what hail-sftp stored')


def _put(home: Home, tag: Tag) -> None:
    text = json.dumps({'set': tag.set_name, 'own': tag.own, 'members': tag.members})
    fault = home.put(TAG, text.encode())
    if fault:
        raise NoAnswer(fault)
    copies = Copies([home])
    copies.changed(home)
    copies.close()
