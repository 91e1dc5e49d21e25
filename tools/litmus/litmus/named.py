"""Litmus tests that have names in the literature (Owens, Sarkar and Sewell, "A better x86 memory model:
x86-TSO", 2009; Alglave, Maranget and Tautschnig, "Herding cats", 2014), and what x86-TSO and Ztso say of
each."""
from __future__ import annotations

from typing import NamedTuple

from .instructions import Amo, Fence, Litmus, Load, LoadReserved, Store, StoreConditional

X, Y, Z = 0, 1, 2


class Named(NamedTuple):
    """A test, results of all its threads that a weaker order would allow (thread by thread, one behind the
    other), what the words have then (None: whatever), and whether this may happen."""

    litmus: Litmus
    results: tuple[int, ...]
    memory: tuple[int, ...] | None
    is_allowed: bool


def buffering(*between: Fence) -> Litmus:
    """Store buffering, with so much between each store and the other's load."""
    return Litmus(((Store(X, 1), *between, Load(Y)), (Store(Y, 1), *between, Load(X))), 2)


def filled(stores: int) -> Litmus:
    """Store buffering with so many stores to a third word between."""
    more = (Store(Z, 1),) * stores
    return Litmus(((Store(X, 1), *more, Load(Y)), (Store(Y, 1), *more, Load(X))), 3)


NAMED = {
    'SB': Named(buffering(), (0, 0), None, True),
    'SB with fence rw, rw': Named(buffering(Fence('rw, rw')), (0, 0), None, False),
    'SB with fence w, r': Named(buffering(Fence('w, r')), (0, 0), None, False),
    'SB with fence.tso': Named(buffering(Fence('tso')), (0, 0), None, True),
    'SB with fence rw, w': Named(buffering(Fence('rw, w')), (0, 0), None, True),
    'SB with AMOs': Named(
        Litmus(((Amo('swap', X, 1, False), Load(Y)), (Amo('swap', Y, 1, False), Load(X))), 2),
        (0, 0), None, False,
    ),
    'SB with seven stores between': Named(filled(7), (0, 0), None, True),
    'SB with eight stores between': Named(filled(8), (0, 0), None, False),
    'MP': Named(Litmus(((Store(X, 1), Store(Y, 1)), (Load(Y), Load(X))), 2), (1, 0), None, False),
    'LB': Named(Litmus(((Load(X), Store(Y, 1)), (Load(Y), Store(X, 1))), 2), (1, 1), None, False),
    'S': Named(Litmus(((Store(X, 2), Store(Y, 1)), (Load(Y), Store(X, 1))), 2), (1,), (2, 1), False),
    'R': Named(Litmus(((Store(X, 1), Store(Y, 1)), (Store(Y, 2), Load(X))), 2), (0,), (1, 2), True),
    '2+2W': Named(Litmus(((Store(X, 1), Store(Y, 2)), (Store(Y, 1), Store(X, 2))), 2), (), (1, 1), False),
    'CoRR': Named(Litmus(((Store(X, 1),), (Load(X), Load(X))), 1), (1, 0), None, False),
    'WRC': Named(
        Litmus(((Store(X, 1),), (Load(X), Store(Y, 1)), (Load(Y), Load(X))), 2), (1, 1, 0), None, False
    ),
    'RWC': Named(
        Litmus(((Store(X, 1),), (Load(X), Load(Y)), (Store(Y, 1), Load(X))), 2), (1, 0, 0), None, True
    ),
    'IRIW': Named(
        Litmus(((Store(X, 1),), (Store(Y, 1),), (Load(X), Load(Y)), (Load(Y), Load(X))), 2),
        (1, 0, 1, 0), None, False,
    ),
    'n6': Named(
        Litmus(((Store(X, 1), Load(X), Load(Y)), (Store(Y, 2), Store(X, 2))), 2), (1, 0), (1, 2), True
    ),
    'n5': Named(Litmus(((Store(X, 1), Load(X)), (Store(X, 2), Load(X))), 1), (2, 1), None, False),
    'SB+rfi': Named(
        Litmus(((Store(X, 1), Load(X), Load(Y)), (Store(Y, 1), Load(Y), Load(X))), 2),
        (1, 0, 1, 0), None, True,
    ),
    'two pairs of LR and SC': Named(
        Litmus(((LoadReserved(X), StoreConditional(X, 1)), (LoadReserved(X), StoreConditional(X, 2))), 1),
        (0, 0, 0, 0), None, False,
    ),
    'SC that fails alone': Named(
        Litmus(((LoadReserved(X), StoreConditional(X, 1)), (Load(X),)), 1), (0, 1, 0), None, True
    ),
}
