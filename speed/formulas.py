"""The formulas whose inference and run are counted, as tables of words.

For inference: typical formulas, made at random from a fixed seed, which have a type, and the worst that we know for one part of the work.
For the run: a recursive sum, a higher-order formula, and one for each part of the machine."""
import random

BOOL, INT, OPERATOR, NAME, APP, IF, LAMBDA, LET, REC = 1, 2, 3, 4, 5, 6, 7, 8, 9


class Node:
    """A kind and its three fields, each a number or a child."""

    def __init__(self, kind, *fields):
        self.kind, self.fields = kind, fields + (0,) * (3 - len(fields))

    def children(self):
        return [f for f in self.fields if isinstance(f, Node)]


def preorder(node):
    order, left = [], [node]
    while left:
        order.append(left.pop())
        left += reversed(order[-1].children())
    return order


def by_level(node):
    order = [node]
    for at in order:
        order += at.children()
    return order


def words(order):
    number = {id(node): k for k, node in enumerate(order)}
    return [w for node in order for w in [node.kind] + [number[id(f)] if isinstance(f, Node) else f for f in node.fields]]


def true():
    return Node(BOOL, 1)


def name(x):
    return Node(NAME, x)


class Typical:
    """Formulas with a type: int, bool, or a pair (argument, result) for an arrow."""

    def __init__(self, seed):
        self.random, self.names = random.Random(seed), 0

    def new(self):
        self.names += 1
        return self.names

    def split(self, size, parts):
        """Sizes of so many parts, at least 2 each where there is room."""
        least = 2 if size >= 2 * parts else 1
        sizes = [least] * parts
        for _ in range(size - least * parts):
            sizes[self.random.randrange(parts)] += 1
        return sizes

    def leaf(self, type_, scope):
        known = [x for x, t in scope if t == type_]
        if known and (type_ not in ("int", "bool") or self.random.random() < 0.7):
            return name(self.random.choice(known))
        return Node(INT, self.random.randrange(100)) if type_ == "int" else Node(BOOL, self.random.randrange(2))

    def make(self, type_, scope, size):
        """A formula of exactly this size: at least 2 nodes for an arrow."""
        arrow = isinstance(type_, tuple)
        if size == 1:
            return self.leaf(type_, scope)
        x = self.new()
        if arrow and (size < 6 or self.random.random() < 0.6):
            if size >= 6 and self.random.random() < 0.3:
                return Node(REC, x, self.make(type_, scope + [(x, type_)], size - 1))
            return Node(LAMBDA, x, self.make(type_[1], scope + [(x, type_[0])], size - 1))
        ways = []
        if not arrow and size >= 5:
            ways += ["operator"] * 5
        if size >= 7:
            ways += ["if", "let", "let", "call", "function"]
        callable_ = [f for f, t in scope if isinstance(t, tuple) and t == ("int", type_)]
        if callable_ and size >= 3:
            ways += ["known"] * 4
        way = self.random.choice(ways) if ways else "rec"
        if way == "rec":
            return Node(REC, x, self.make(type_, scope, size - 1))
        if way == "operator":
            o = self.random.randrange(5) + (5 if type_ == "bool" else 0)
            left, right = self.split(size - 3, 2)
            return Node(APP, Node(APP, Node(OPERATOR, o), self.make("int", scope, left)), self.make("int", scope, right))
        if way == "if":
            one, two, three = self.split(size - 1, 3)
            return Node(IF, self.make("bool", scope, one), self.make(type_, scope, two), self.make(type_, scope, three))
        if way == "known":
            return Node(APP, name(self.random.choice(callable_)), self.make("int", scope, size - 2))
        bound = ("int", "int") if way == "function" else self.random.choice(["int", "bool", ("int", type_ if not arrow else "int")])
        one, two = self.split(size - 1 - (way == "call"), 2)
        if way == "call":
            return Node(APP, Node(LAMBDA, x, self.make(type_, scope + [(x, bound)], two)), self.make(bound, scope, one))
        return Node(LET, x, self.make(bound, scope, one), self.make(type_, scope + [(x, bound)], two))


def typical(n, seed):
    return words(preorder(Typical(seed).make(("int", "int"), [], n)))


def padded(n, node):
    """The formula under so many recs that it has n nodes, by level."""
    while len(preorder(node)) < n:
        node = Node(REC, 65535, node)
    return words(by_level(node))


def doubled(times, base):
    """A formula whose type has 2 ** times copies of the name base's: each name has the type of the one before on both sides of an arrow."""
    def step(i):
        if i == times:
            return name(base + i)
        twice = Node(LAMBDA, 60000, Node(IF, true(), name(60000), name(base + i)))
        return Node(LET, base + i + 1, twice, step(i + 1))
    return step(0)


def chained(m, body):
    """The lets of names 1 to m, each bound to the one before, and their body; the bound names come last, in falling order: the cells of
    the names are then one chain of links that no search has shortened."""
    bound = [Node(LAMBDA, 0, name(0))] + [name(i) for i in range(1, m)]
    at = body
    for i in range(m, 0, -1):
        at = Node(LET, i, bound[i - 1], at)
    lets = [at]
    while len(lets) < m:
        lets.append(lets[-1].fields[2])
    return words(lets + preorder(body) + bound[:0:-1] + preorder(bound[0]))


def link_chain(n):
    """A chain of links, and the name at its end used at the end of the table."""
    return chained((n - 2) // 2, name((n - 2) // 2))


def long_type(n, times):
    """A type of 2 ** (times + 2) - 1 words, and at each name in it a chain of links."""
    m = (n - 6 * times - 2) // 2
    table = chained(m, doubled(times, m))
    while len(table) < 4 * n:
        table = [REC, 65535, 1, 0] + shifted(table)
    return table


def shifted(table):
    """The table with one number more for every node."""
    result = []
    for at in range(0, len(table), 4):
        kind, a, b, c = table[at:at + 4]
        more = {APP: (1, 1, 0), IF: (1, 1, 1), LAMBDA: (0, 1, 0), LET: (0, 1, 1), REC: (0, 1, 0)}.get(kind, (0, 0, 0))
        result += [kind, a + more[0], b + more[1], c + more[2]]
    return result


def nested_left(levels):
    """fun x -> x (fun y -> y (..)): the arrows of its type are nested on the left."""
    node = Node(INT, 1)
    for i in range(levels):
        node = Node(LAMBDA, i, Node(APP, name(i), node))
    return node


def pending(n):
    """Two such types meet: a pair is pending for each arrow."""
    levels = (n - 4) // 6
    return padded(n, Node(IF, true(), nested_left(levels), nested_left(levels)))


def nested_right(n):
    node = name(0)
    for i in range(n - 2, -1, -1):
        node = Node(LAMBDA, i, node)
    return words(preorder(node))


def far_names(n):
    """Ifs that have the name of the root's lambda at all their ends, and these last in the table."""
    count = (n - 2) // 3
    node = name(0)
    for _ in range(count):
        node = Node(IF, name(0), name(0), node)
    body = [k for k in by_level(node) if k.kind == IF] + [k for k in by_level(node) if k.kind == NAME]
    top = [Node(LAMBDA, 0, node)]
    while len(top) + len(body) < n:
        top.insert(0, Node(REC, 65535, top[0]))
    return words(top + body)


def zigzag(n):
    """Lets of functions, each giving the one before: the cells of the names and of the functions' bodies lean on each other by turns, and
    the bodies' are farther from the middle of the cells, so that a pass of the test for cycles marks two cells only."""
    m = (n - 2) // 3
    bodies = [Node(INT, 1)] + [name(i) for i in range(1, m)]
    functions = [Node(LAMBDA, 0, body) for body in bodies]
    end = name(m)
    lets = [end]
    for i in range(m, 0, -1):
        lets.append(Node(LET, i, functions[i - 1], lets[-1]))
    top = lets[:0:-1]
    while len(top) + 2 * m + 1 < n:
        top.insert(0, Node(REC, 65535, top[0]))
    return words(top + functions + bodies[::-1] + [end])


def exponential(n):
    times = (n - 3) // 6
    return padded(n, Node(LET, 0, Node(INT, 1), doubled(times, 0)))


# ---- For the run


def number(n):
    return Node(INT, n)


def apply(function, *arguments):
    for argument in arguments:
        function = Node(APP, function, argument)
    return function


PLUS, MINUS, TIMES, EQUAL = 0, 1, 2, 9


def operate(operator, left, right):
    return apply(Node(OPERATOR, operator), left, right)


def filled(n, node):
    """The formula in preorder, under so many recs that it has n nodes."""
    while len(preorder(node)) < n:
        node = Node(REC, 65535, node)
    return words(preorder(node))


def identity():
    """(fun x -> x) 7"""
    return words(preorder(apply(Node(LAMBDA, 0, name(0)), number(7))))


def recursive_sum(n):
    """(rec sum -> fun n -> if = n 0 then 0 else + n (sum (- n 1))) n"""
    SUM, N = 0, 1
    more = operate(PLUS, name(N), apply(name(SUM), operate(MINUS, name(N), number(1))))
    body = Node(IF, operate(EQUAL, name(N), number(0)), number(0), more)
    return words(preorder(apply(Node(REC, SUM, Node(LAMBDA, N, body)), number(n))))


def higher_order(n):
    """let twice = fun f -> fun x -> f (f x) in
    (rec fold -> fun f -> fun a -> fun n -> if = n 0 then a else fold f (f a n) (- n 1)) (fun a -> fun n -> twice (+ n) a) 0 n"""
    TWICE, F, X, FOLD, A, N = range(6)
    twice = Node(LAMBDA, F, Node(LAMBDA, X, apply(name(F), apply(name(F), name(X)))))
    again = apply(name(FOLD), name(F), apply(name(F), name(A), name(N)), operate(MINUS, name(N), number(1)))
    body = Node(IF, operate(EQUAL, name(N), number(0)), name(A), again)
    fold = Node(REC, FOLD, Node(LAMBDA, F, Node(LAMBDA, A, Node(LAMBDA, N, body))))
    step = Node(LAMBDA, A, Node(LAMBDA, N, apply(name(TWICE), apply(Node(OPERATOR, PLUS), name(N)), name(A))))
    return words(preorder(Node(LET, TWICE, twice, apply(fold, step, number(0), number(n)))))


def arithmetic(n):
    """A tree of operators over ones, as deep on the left as on the right."""
    def tree(leaves, depth):
        if leaves == 1:
            return number(1)
        operator = (PLUS, MINUS, TIMES)[depth % 3]
        return operate(operator, tree(leaves // 2, depth + 1), tree(leaves - leaves // 2, depth + 1))
    return filled(n, tree((n + 3) // 4, 0))


def applications(n):
    """The identity, applied again and again: (fun x -> x) ((fun x -> x) (.. 7))"""
    node = number(7)
    for _ in range((n - 1) // 3):
        node = apply(Node(LAMBDA, 0, name(0)), node)
    return filled(n, node)


def lets(n, back):
    """let x0 = 1 in let x1 = .. in .., where each name is bound to that of the let so many before it, the first at most."""
    count = (n - 1) // 2
    node = name(max(0, count - back))
    for i in range(count - 1, 0, -1):
        node = Node(LET, i, name(max(0, i - back)), node)
    return filled(n, Node(LET, 0, number(1), node))


def endless():
    """rec x -> x"""
    return words(preorder(Node(REC, 0, name(0))))


# Each is the worst that we know for one part of inference.
WORST = {"arrows": nested_right, "exponential": exponential, "lets": lambda n: lets(n, n), "links": link_chain, "names": far_names,
         "pending": pending, "zigzag": zigzag}
