"""The certificate of a search that has ended: the last of its trees, each leaf with what its program's last dictionary gives."""
from .certificates import Certificate, leaf
from .fraction import printed
from .model import Refused, standard

MOST_WEIGHT = 100000


def last_tree(search):
    """The words of the nodes in preorder, and the sum over the leaves of 1 and the rows of their programs."""
    nodes, weight, numbers = [], 0, [search.root]
    while numbers:
        number = numbers.pop()
        end = search.ends.get(number, ('best', []))
        if end[0] == 'split':
            nodes.append(['split', str(end[1] + 1), printed(end[2])])
            numbers += [end[3] + 1, end[3]]
            continue
        nodes.append(['clash', str(end[1] + 1), str(end[2] + 1)] if end[0] == 'clash' else leaf(*end))
        weight += 1 + len(standard(search.model, *search.box(search.path(number)))[1])
    return nodes, weight


def certificate(search, value):
    """The certificate of a search's answer; `value` is the objective's number at an optimum, or None."""
    kind = search.answer[0]
    if kind == 'unbounded':
        return Certificate(kind, search.answer[1], search.answer[2])
    nodes, weight = last_tree(search)
    if weight > MOST_WEIGHT:
        raise Refused('cert-limit %d' % weight)
    if kind == 'infeasible':
        return Certificate(kind, nodes=nodes)
    return Certificate(kind, search.answer[1], nodes=nodes, value=value)
