"""The one-step changes of a Python source, by its tree."""
import ast

COMPARISONS = {ast.Eq: ast.NotEq, ast.Lt: ast.LtE, ast.Gt: ast.GtE, ast.Is: ast.IsNot, ast.In: ast.NotIn}
COMPARISONS |= {after: before for before, after in COMPARISONS.items()}
FUNCTIONS = {"min": "max", "max": "min", "any": "all", "all": "any"}
OPERATORS = {ast.Add: ast.Sub, ast.Sub: ast.Add, ast.Mult: ast.FloorDiv, ast.FloorDiv: ast.Mult, ast.LShift: ast.RShift, ast.RShift: ast.LShift,
             ast.BitAnd: ast.BitOr, ast.BitOr: ast.BitAnd, ast.Mod: ast.FloorDiv, ast.Div: ast.Mult}
DROPPED = (ast.AugAssign, ast.Raise, ast.Break, ast.Continue, ast.Delete, ast.Expr)
# What no run can tell: fields of types, arguments of data classes, and statements outside a function that have a name that only types are made of.
UNSEEN, UNSEEN_ARGUMENTS = ("annotation", "returns", "decorator_list"), ("frozen", "slots", "eq")
OF_TYPES = {"TypeVar", "Callable", "Optional", "Union", "Any", "Literal", "Protocol", "__all__", "__version__", "TYPE_CHECKING"}


def is_left_out(node, is_outside):
    """Whether no run can tell a change of a node, or of a statement outside of a function."""
    return isinstance(node, (ast.Import, ast.ImportFrom)) or isinstance(node, ast.keyword) and node.arg in UNSEEN_ARGUMENTS or is_outside and isinstance(
        node, (ast.Assign, ast.AnnAssign, ast.If)) and any(isinstance(it, ast.Name) and it.id in OF_TYPES for it in ast.walk(node))


def but(node, **fields):
    """The node with other fields."""
    return type(node)(**{**dict(ast.iter_fields(node)), **fields})


def fewer(words, node, field):
    """The node with one item of a field less."""
    values = getattr(node, field)
    yield from ((words, but(node, **{field: values[:at] + values[at + 1:]})) for at in range(len(values)))


def instead(node, parent, field, names):
    """What may stand in the place of a node, by where it stands and by what it is: words, and a node."""
    if isinstance(parent, (ast.If, ast.While)) and field == "test":
        yield "condition turned round", ast.UnaryOp(ast.Not(), node)
        yield "branch dropped", ast.Constant(False)
        if parent.orelse:
            yield "other branch dropped", ast.Constant(True)
    elif isinstance(parent, ast.comprehension) and field == "ifs":
        yield "condition dropped", ast.Constant(True)
    elif isinstance(parent, ast.ExceptHandler) and field == "type":
        yield "exception changed", ast.Name("ZeroDivisionError", ast.Load())
    elif isinstance(parent, ast.Raise) and field == "exc" and isinstance(node, ast.Call):
        yield "exception changed", but(node, func=ast.Name("ArithmeticError", ast.Load()))
    if isinstance(node, DROPPED) or isinstance(node, ast.Assign) and not isinstance(node.targets[0], (ast.Name, ast.Tuple)):
        yield "statement dropped", ast.Pass()
    elif isinstance(node, ast.Return) and node.value is not None:
        yield "value dropped", ast.Return(ast.Constant(None))
    elif isinstance(node, ast.BoolOp):
        yield from ((words, it.values[0] if len(it.values) == 1 else it) for words, it in fewer("operand dropped", node, "values"))
    elif isinstance(node, ast.UnaryOp) and isinstance(node.op, ast.Not):
        yield "not dropped", node.operand
    elif isinstance(node, ast.Compare):
        for at, op in enumerate(node.ops):
            yield "comparison changed", but(node, ops=[*node.ops[:at], COMPARISONS[type(op)](), *node.ops[at + 1:]])
    elif isinstance(node, ast.BinOp) and type(node.op) in OPERATORS:
        yield "operator changed", but(node, op=OPERATORS[type(node.op)]())
    elif isinstance(node, ast.IfExp):
        yield "branches exchanged", but(node, body=node.orelse, orelse=node.body)
    elif isinstance(node, ast.Constant) and isinstance(node.value, (int, float, str)):
        value = node.value
        yield "constant changed", ast.Constant(not value if isinstance(value, bool) else value + "x" if isinstance(value, str) else value + 1)
    elif isinstance(node, (ast.List, ast.Tuple, ast.Set)) and not isinstance(getattr(node, "ctx", None), ast.Store) and len(node.elts) > 1:
        yield from fewer("element dropped", node, "elts")
    elif isinstance(node, ast.Name) and isinstance(node.ctx, ast.Load) and node.id in names and len(names) > 1:
        yield "other name", ast.Name(names[(names.index(node.id) + 1) % len(names)], ast.Load())
    elif isinstance(node, ast.Call):
        name = node.func.id if isinstance(node.func, ast.Name) else ""
        if name in FUNCTIONS:
            yield "function exchanged", but(node, func=ast.Name(FUNCTIONS[name], ast.Load()))
        if name == "range":
            yield "range shortened", but(node, args=[*node.args[:-1], ast.BinOp(node.args[-1], ast.Sub(), ast.Constant(1))])
        if name and len(node.args) == 1 and not node.keywords and not isinstance(node.args[0], (ast.GeneratorExp, ast.Starred)):
            yield "call dropped", node.args[0]
        yield from fewer("argument dropped", node, "args")
        yield from (it for it, word in zip(fewer("argument dropped", node, "keywords"), node.keywords) if word.arg not in UNSEEN_ARGUMENTS)


def changes(source):
    """(line, function, words, new source) of each change."""
    found, whole, starts = [], source.encode(), [0]
    for line in whole.split(b"\n"):
        starts.append(starts[-1] + len(line) + 1)

    def add(words, put, holder, key, text, function):
        """`put` stands at a key of its holder, alone or in a text, of whose parts the tree doesn't know the places."""
        was, anchor = holder[key], text or holder[key]
        holder[key] = put
        try:
            said = ast.unparse(text or put)
        except ValueError:
            return
        finally:
            holder[key] = was
        first, behind = starts[anchor.lineno - 1] + anchor.col_offset, starts[anchor.end_lineno - 1] + anchor.end_col_offset
        said = f"({said})" if isinstance(put, ast.expr) and not isinstance(put, (ast.Constant, ast.Name, ast.Call)) and not text else said
        if said.encode() != whole[first:behind]:
            found.append((anchor.lineno, function, words, (whole[:first] + said.encode() + whole[behind:]).decode()))

    def visit(node, function, prefix, names, text):
        if isinstance(node, (ast.FunctionDef, ast.AsyncFunctionDef)) and not function:
            function = prefix + node.name
            names = sorted({it.arg for it in ast.walk(node.args) if isinstance(it, ast.arg) and it.arg != "self"} |
                           {it.id for it in ast.walk(node) if isinstance(it, ast.Name) and isinstance(it.ctx, ast.Store)})
        elif isinstance(node, ast.ClassDef) and not function:
            prefix += node.name + "."
        text = text or (node if isinstance(node, ast.JoinedStr) else None)
        for field, value in ast.iter_fields(node):
            for key, each in enumerate(value) if isinstance(value, list) else [(field, value)]:
                is_text = isinstance(node, ast.Expr) and isinstance(each, ast.Constant) or isinstance(node, ast.JoinedStr) and isinstance(each, ast.Constant)
                if field in UNSEEN or not isinstance(each, ast.AST) or is_text or is_left_out(each, not function):
                    continue
                holder, is_name = value if isinstance(value, list) else node.__dict__, field == "func" and isinstance(each, ast.Name)
                is_doc = isinstance(each, ast.Expr) and isinstance(each.value, ast.Constant)
                for words, put in () if is_name or is_doc else instead(each, node, field, names):
                    add(words, put, holder, key, text, function)
                visit(each, function, prefix, names, text)

    visit(ast.parse(source), "", "", [], None)
    return found
