"""`$(( .. ))`: whole numbers and names of variables."""
import ast
import operator
from collections.abc import Callable, Mapping

from amctl import words_shell
from amctl.adb.console import NotServed

Binary = Callable[[int, int], int]
BITS = 64


def _quotient(one: int, other: int) -> int:
    """As C divides: towards zero."""
    found = abs(one) // abs(other)
    return found if (one < 0) == (other < 0) else -found


def _rest(one: int, other: int) -> int:
    return one - other * _quotient(one, other)


BINARY: Mapping[type[ast.operator], Binary] = {
    ast.Add: operator.add,
    ast.Sub: operator.sub,
    ast.Mult: operator.mul,
    ast.Div: _quotient,
    ast.Mod: _rest,
}
COMPARED: Mapping[type[ast.cmpop], Callable[[int, int], bool]] = {
    ast.Eq: operator.eq,
    ast.NotEq: operator.ne,
    ast.Lt: operator.lt,
    ast.LtE: operator.le,
    ast.Gt: operator.gt,
    ast.GtE: operator.ge,
}


def value_of(text: str, variables: Mapping[str, str]) -> int:
    """The value of a sum; what else a shell computes is refused."""
    try:
        found = _value(ast.parse(text.strip() or "0", mode="eval").body, variables)
    except (SyntaxError, ValueError, ZeroDivisionError, RecursionError, MemoryError):
        raise NotServed(words_shell.no_sum(text)) from None
    wrapped = found & ((1 << BITS) - 1)
    return wrapped - (1 << BITS) if wrapped >> (BITS - 1) else wrapped


def _value(node: ast.expr, variables: Mapping[str, str]) -> int:
    if isinstance(node, ast.Constant) and type(node.value) is int:
        return node.value
    if isinstance(node, ast.Name):
        return int(variables.get(node.id) or "0")
    if isinstance(node, ast.UnaryOp) and isinstance(node.op, ast.USub):
        return -_value(node.operand, variables)
    if isinstance(node, ast.BinOp) and type(node.op) in BINARY:
        return BINARY[type(node.op)](_value(node.left, variables), _value(node.right, variables))
    if isinstance(node, ast.Compare) and len(node.ops) == 1 and type(node.ops[0]) in COMPARED:
        return int(COMPARED[type(node.ops[0])](_value(node.left, variables), _value(node.comparators[0], variables)))
    raise ValueError("no sum of whole numbers")
