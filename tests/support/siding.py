"""A layout of three nodes in a row, N1 to N3, and a siding N4 at N2."""
from __future__ import annotations


def siding(at_a: int, at_b: int, at_c: int) -> str:
    """Returns its file; stations A at N1, B at N3 and C at N4 have room for so many loads each."""
    ways = ((1, 2), (2, 1), (2, 3), (3, 2), (2, 4), (4, 2))
    return '\n'.join(
        [
            'kind,id,from,to',
            *(f'node,N{n},,' for n in (1, 2, 3, 4)),
            *(f'edge,E{start}{end},N{start},N{end}' for start, end in ways),
            f'station,A,N1,{at_a}',
            f'station,B,N3,{at_b}',
            f'station,C,N4,{at_c}',
            '',
        ]
    )
