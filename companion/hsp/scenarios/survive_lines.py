"""What the terminal shows of losses, and of a purchase that serves all of them."""

from collections.abc import Iterator, Sequence

from hsp.base.numbers import average, listed, part, queries_of, signed, some
from hsp.base.text import bold, colored, dim
from hsp.plans.service import Service
from hsp.plans.terminal import bought_lines, reserve_lines
from hsp.scenarios.grow_lines import NAMED, ranked
from hsp.scenarios.losses import HOST, SERVER, SITE, After
from hsp.scenarios.purchase import Lack, Purchase

# So many losses of a kind are shown.
SHOWN = 5
WORDS = {SITE: "site", SERVER: "server", HOST: "machine"}


def share(service: Service, queries: int) -> str:
    """So many queries, with their part of all."""
    return f"{queries:,} ({part(queries / service.asked)})" if service.asked else f"{queries:,}"


def moves(service: Service, found: After) -> str:
    """How many queries a fallback moves, and how many of them the loss itself does."""
    if found.moved is None:
        return ""
    if found.moved == found.forced:
        return f"  moves {share(service, found.moved)}, only what is lost" if found.moved else "  moves nothing"
    return f"  moves {share(service, found.moved)}, {found.forced:,} of them lost"


def change(service: Service, found: After) -> str:
    """What a plan after a loss costs more."""
    if found.cost is None:
        return f"short by {queries_of(found.lack)}"
    now = service.certificate.cost
    more = found.cost - now
    return signed(more) + (f"  {'+' if more >= 0 else '−'}{part(abs(more) / now)}" if now else "")


def _line(service: Service, found: After, wide: int) -> str:
    colour = "red" if found.cost is None else "yellow" if found.cost > service.certificate.cost else "green"
    return f"  {found.loss.name.ljust(wide)}  {colored(change(service, found), colour)}{moves(service, found)}"


def lines(service: Service, all_found: Sequence[After], every: bool) -> Iterator[str]:
    """The losses of each kind, the worst first."""
    unit, now = service.unit, service.certificate.cost
    yield f"now   {bold(f'{now:,}{unit}')}, {average(now, service.asked)}{unit} a query"
    for kind, word in WORDS.items():
        own = [found for found in all_found if found.loss.kind == kind]
        if not own:
            continue
        served = sum(found.cost is not None for found in own)
        yield bold(f"without a {word}: {served:,} of {len(own):,} {'has' if served == 1 else 'have'} a plan")
        shown = own if every else own[:SHOWN]
        wide = max(len(found.loss.name) for found in shown)
        yield from (_line(service, found, wide) for found in shown)
        if len(own) > len(shown):
            yield dim(f"  and {len(own) - len(shown):,} more (--all)")


def worst(service: Service, all_found: Sequence[After]) -> str:
    """The worst loss, and how many leave a plan."""
    first = all_found[0]
    served = sum(found.cost is not None for found in all_found)
    word = f"{WORDS[first.loss.kind]} {first.loss.name}"
    after = f"short by {queries_of(first.lack)}" if first.cost is None else f"{change(service, first)}"
    return f"without {word} {after}; {served:,} of {some(len(all_found), 'loss', 'losses')} leave a plan"


def purchase_lines(service: Service, purchase: Purchase, every: bool = False) -> Iterator[str]:
    """One purchase for every loss, with all of its servers if that is wished, and the short sets that show how
    little can do."""
    if not purchase.bought and not purchase.unserved:
        yield "buy   nothing: every loss leaves a plan"
        return
    for loss in purchase.unserved:
        yield f"buy   no room at any server serves the loss of {WORDS[loss.kind]} {loss.name}"
    if not purchase.bought:
        return
    others = "every other loss" if purchase.unserved else "every loss"
    size = bold(f"room for {queries_of(purchase.size)} more")
    at = some(len(purchase.bought), "server")
    if every:
        yield f"buy   {size} at {at} serves {others}"
        yield from bought_lines(service, purchase.bought)
    else:
        more = " (--all)" if len(purchase.bought) > NAMED else ""
        yield f"buy   {size} at {at} serves {others}: {ranked(purchase.bought)}{more}"
    yield from reserve_lines(service, purchase.bought, every)
    if purchase.least == purchase.size:
        yield f"      no purchase below {purchase.least:,} does, by {_sets(purchase.lacks)}"
    else:
        yield f"      less than {purchase.least:,} can't do, by {_sets(purchase.lacks)}; between the two it's open"
    yield from map(_lack, purchase.lacks[:NAMED])
    if len(purchase.lacks) > NAMED:
        yield dim(f"      and {len(purchase.lacks) - NAMED:,} more")


def _sets(lacks: Sequence[Lack]) -> str:
    weights = listed(sorted({str(lack.weight) for lack in lacks}), NAMED)
    return some(len(lacks), "short set") + (f" of weight {weights}" if weights else "")


def _lack(lack: Lack) -> str:
    rows = some(lack.rows, "row") if lack.rows else "rows"
    ask = f"{rows} ask for {lack.demand:,} of {lack.capacity:,}"
    return f"      without {lack.loss.name}: {ask}, so {lack.queries:,} lack; weight {lack.weight}"
